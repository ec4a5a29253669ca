/* hub: the plan of the night, a small text file. docs/NIGHT.md describes it. */
#include "hub.h"
#include <errno.h>
#include <stdarg.h>
#include <stdlib.h>
#include <string.h>

enum { LINE = 256, WORDS = 128 };

const char *const event_words[EVENT_KINDS] = {
    "ask", "return", "close", "patch", "talk", "preamp",
    "damage aes3-symbol", "damage aes3-odd", "damage patch-word", "damage madi-bit", "damage hd-place",
    "damage hd-octet", "damage hd-lane", "damage hd-lost", "damage control-bit",
};

/* What comes after each: t a tenant of the plan, n any number, s a slot, r a slot or `none`, w `on` or `off`, c a count
   of 1 to 192 that may be missing and is then 1. */
static const char *const arguments[EVENT_KINDS] = {
    "tn", "t", "", "sr", "tw", "n", "t", "tc", "sc", "c", "tc", "tc", "tc", "tc", "t",
};

typedef struct {
    plan *plan;
    const char *path;
    uint32_t line, wrong;
    char *word[WORDS];
    uint32_t words;
} reader;

static int wrong(reader *r, const char *format, ...)
{
    va_list values;
    va_start(values, format);
    fprintf(stderr, "hub: %s:%u: ", r->path, r->line);
    vfprintf(stderr, format, values);
    fputc('\n', stderr);
    va_end(values);
    r->wrong++;
    return 0;
}

/* A decimal number of at most seven digits. */
static int number_of(const char *word, uint32_t *n)
{
    size_t digits = strspn(word, "0123456789");
    if (digits < 1 || digits > 7 || word[digits] != '\0')
        return 0;
    *n = (uint32_t)strtoul(word, NULL, 10);
    return 1;
}

/* A time as blocks of 4 ms: `b` and a number of them, or seconds with up to three decimals. */
static int blocks_of(const char *word, uint32_t *blocks)
{
    char whole[8], decimals[4] = "000";
    size_t n = strcspn(word, ".");
    uint32_t seconds, thousandths;
    if (word[0] == 'b')
        return number_of(word + 1, blocks);
    if (n >= sizeof whole || (word[n] == '.' && (strlen(word + n + 1) > 3 || word[n + 1] == '\0')))
        return 0;
    memcpy(whole, word, n);
    whole[n] = '\0';
    if (word[n] == '.')
        memcpy(decimals, word + n + 1, strlen(word + n + 1));
    if (!number_of(whole, &seconds) || !number_of(decimals, &thousandths) || seconds > 999999)
        return 0;
    *blocks = (seconds * 1000 + thousandths) / 4;
    return 1;
}

static int copy(reader *r, char *to, size_t size, const char *word)
{
    if (strlen(word) >= size)
        return wrong(r, "%s: at most %zu letters", word, size - 1);
    memcpy(to, word, strlen(word) + 1);
    return 1;
}

/* One argument of an event. A missing word is empty. */
static int argument(reader *r, char what, const char *word, uint32_t *n)
{
    if (what == 'w' && (strcmp(word, "on") == 0 || strcmp(word, "off") == 0)) {
        *n = word[1] == 'n';
        return 1;
    }
    if (what == 'r' && strcmp(word, "none") == 0) {
        *n = NO_SLOT;
        return 1;
    }
    if (what == 'c' && word[0] == '\0') {
        *n = 1;
        return 1;
    }
    if (what == 'w')
        return wrong(r, "talkback is on or off, not `%s`", word);
    if (!number_of(word, n))
        return wrong(r, word[0] == '\0' ? "a number is missing%s" : "not a number: %s", word);
    if (what == 't' && (*n < 1 || *n > TENANTS || r->plan->tenants[*n].name[0] == '\0'))
        return wrong(r, "the plan has no tenant %u", *n);
    if ((what == 's' || what == 'r') && *n >= SLOTS)
        return wrong(r, "slots are 0 to %d, not %u", SLOTS - 1, *n);
    if (what == 'c' && (*n < 1 || *n > FRAMES))
        return wrong(r, "a block has 1 to %d of them, not %u", FRAMES, *n);
    return 1;
}

/* The kind of an event, and where its arguments begin. */
static event_kind kind_of(const reader *r, uint32_t *from)
{
    int damage = strcmp(r->word[1], "damage") == 0 && r->words > 2;
    const char *word = r->word[damage ? 2 : 1];
    *from = damage ? 3 : 2;
    for (int k = 0; k < EVENT_KINDS; k++) {
        const char *name = event_words[k];
        int hurts = strncmp(name, "damage ", 7) == 0;
        if (hurts == damage && strcmp(name + (hurts ? 7 : 0), word) == 0)
            return (event_kind)k;
    }
    return EVENT_KINDS;
}

static int read_event(reader *r)
{
    plan *p = r->plan;
    event e = {0};
    uint32_t from, n[2] = {0, 0};
    if (!blocks_of(r->word[0], &e.block))
        return wrong(r, "neither a time nor a word of the plan: %s", r->word[0]);
    if (r->words < 2)
        return wrong(r, "a time without an event");
    e.kind = kind_of(r, &from);
    if (e.kind == EVENT_KINDS)
        return wrong(r, "not an event: %s%s%s", r->word[1], r->words > 2 ? " " : "", r->words > 2 ? r->word[2] : "");
    const char *what = arguments[e.kind];
    for (uint32_t k = 0; what[k] != '\0'; k++)
        if (!argument(r, what[k], from + k < r->words ? r->word[from + k] : "", &n[k]))
            return 0;
    if (r->words > from + strlen(what))
        return wrong(r, "more words than `%s` takes", event_words[e.kind]);
    e.a = n[0];
    e.b = n[1];
    if (p->count > 0 && e.block < p->events[p->count - 1].block)
        return wrong(r, "earlier than the event before it");
    if (e.block >= p->blocks)
        return wrong(r, "later than the night, which has %u blocks", p->blocks);
    if (p->count == MOST_EVENTS)
        return wrong(r, "more than %d events", MOST_EVENTS);
    p->events[p->count++] = e;
    return 1;
}

static int read_tenant(reader *r)
{
    uint32_t t;
    if (r->words != 4 || !number_of(r->word[1], &t) || t < 1 || t > TENANTS)
        return wrong(r, "tenant: a number of 1 to %d, a name and a file", TENANTS);
    if (r->plan->tenants[t].name[0] != '\0')
        return wrong(r, "tenant %u is there already", t);
    return copy(r, r->plan->tenants[t].name, sizeof r->plan->tenants[t].name, r->word[2]) &&
           copy(r, r->plan->tenants[t].sound, sizeof r->plan->tenants[t].sound, r->word[3]);
}

/* The rest of the line, its words with one blank between them. */
static int read_title(reader *r)
{
    char title[LINE] = "";
    for (uint32_t k = 1; k < r->words; k++) {
        strcat(title, r->word[k]);
        strcat(title, k + 1 < r->words ? " " : "");
    }
    return copy(r, r->plan->title, sizeof r->plan->title, title);
}

static int read_words(reader *r)
{
    plan *p = r->plan;
    const char *word = r->word[0];
    uint32_t *blocks = strcmp(word, "night") == 0 ? &p->blocks : strcmp(word, "minute") == 0 ? &p->minute : NULL;
    if (strcmp(word, "title") == 0)
        return read_title(r);
    if (strcmp(word, "tenant") == 0)
        return read_tenant(r);
    if (blocks != NULL)
        return (r->words == 2 && blocks_of(r->word[1], blocks) && *blocks > 0) || wrong(r, "%s: a time above 0", word);
    if (strcmp(word, "record") == 0)
        return (r->words == 2 && number_of(r->word[1], &p->record) && p->record > 0) ||
               wrong(r, "record: one MADI frame of how many, 1 or more");
    if (strcmp(word, "voice") == 0)
        return r->words == 2 ? copy(r, p->voice, sizeof p->voice, r->word[1]) : wrong(r, "voice: a file");
    return read_event(r);
}

static void split(reader *r, char *line)
{
    line[strcspn(line, "#\r\n")] = '\0';
    r->words = 0;
    for (char *word = strtok(line, " \t"); word != NULL && r->words < WORDS; word = strtok(NULL, " \t"))
        r->word[r->words++] = word;
}

uint32_t read_plan(const char *path, plan *p)
{
    char line[LINE];
    reader r = {.plan = p, .path = path};
    FILE *from = fopen(path, "r");
    if (from == NULL) {
        fprintf(stderr, "hub: %s: %s\n", path, strerror(errno));
        return 1;
    }
    memset(p, 0, sizeof *p);
    memcpy(p->title, "A night at the hub", sizeof "A night at the hub");
    p->minute = 60 * BLOCKS_A_SECOND;
    p->record = FRAMES;
    while (fgets(line, sizeof line, from) != NULL) {
        r.line++;
        if (strchr(line, '\n') == NULL && !feof(from)) {
            wrong(&r, "longer than %d letters", LINE - 2);
            break;
        }
        split(&r, line);
        if (r.words > 0)
            read_words(&r);
    }
    if (ferror(from))
        wrong(&r, "reading failed: %s", strerror(errno));
    fclose(from);
    if (r.wrong == 0 && p->blocks == 0)
        wrong(&r, "the plan does not say how long the night is");
    if (r.wrong == 0 && p->tenants[1].name[0] == '\0' && p->tenants[2].name[0] == '\0' &&
        p->tenants[3].name[0] == '\0' && p->tenants[4].name[0] == '\0')
        wrong(&r, "the plan has no tenant");
    return r.wrong;
}
