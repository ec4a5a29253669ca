/* The comparing program's frame: the generator, lent buffers with guards, counts. Usage: compare [CASES [FAULTS [GROUP]]],
   default 20000; it ends at once after that many faults, where the number is given and not 0; and it makes the calls of
   one group alone, where a group is named. It ends with 1 after a difference and with 2 where it could not compare. */
#define _DEFAULT_SOURCE
#include "compare.h"
#include <stdio.h>
#include <stdlib.h>
#include <string.h>
#include <sys/mman.h>
#include <unistd.h>

enum { SLOTS = 5, ROOM = 65536, ZONE = 64, ENTRIES = 48, NUMBERS = 24, SHOWN = 20 };

typedef struct {
    uint8_t *rooms[2];       /* the library's and the second program's */
    uint8_t before[ROOM];
    size_t from, to, octets; /* the zone that is compared */
    int may_change;
} slot;

static slot slots[SLOTS];
static int used;

typedef struct { const char *name; unsigned long cases, seen[NUMBERS]; } tally;
static tally tallies[ENTRIES];
static tally *now;
static int failures, enough;

static uint64_t state = 20110301;

uint32_t draw(void)
{
    state = state * 6364136223846793005u + 1442695040888963407u;
    uint64_t x = state ^ state >> 29;
    return (uint32_t)(x * 2685821657736338717u >> 32);
}

uint32_t below(uint32_t n)
{
    return (uint32_t)((uint64_t)draw() * n >> 32);
}

int once_in(uint32_t n)
{
    return below(n) == 0;
}

uint32_t any_number(uint32_t most)
{
    if (!once_in(16))
        return below(most + 1);
    return once_in(2) ? most + 1 + below(3) : draw();
}

size_t any_length(size_t right)
{
    if (edge_set() || !once_in(24))
        return right;
    switch (below(4)) {
    case 0:
        return 0;
    case 1:
        return right - 1;
    case 2:
        return right + 1;
    default:
        return below((uint32_t)right + 8);
    }
}

void random_octets(uint8_t *octets, size_t n)
{
    for (size_t k = 0; k < n; k++)
        octets[k] = (uint8_t)draw();
}

void make_even(uint32_t *body)
{
    if (second_odd(*body))
        *body = *body ^ 0x80000000u;
}

uint32_t even_body(void)
{
    uint32_t body = once_in(8) ? 0 : draw() & 0xFFFFFFF0u;
    make_even(&body);
    return body;
}

void random_status(uint8_t status[24])
{
    random_octets(status, 24);
    status[0] = (uint8_t)(status[0] | 1);
    second_status_seal(status, 24);
}

/* A room between two pages that cannot be reached. */
static uint8_t *make_room(void)
{
    size_t page = (size_t)sysconf(_SC_PAGESIZE);
    uint8_t *all = mmap(NULL, ROOM + 2 * page, PROT_READ | PROT_WRITE, MAP_PRIVATE | MAP_ANONYMOUS, -1, 0);
    if (all == MAP_FAILED || ROOM % page != 0 || mprotect(all, page, PROT_NONE) != 0 ||
        mprotect(all + page + ROOM, page, PROT_NONE) != 0) {
        fputs("compare: no memory with guard pages\n", stderr);
        exit(2);
    }
    return all + page;
}

void begin(const char *entry)
{
    used = 0;
    for (int k = 0; k < ENTRIES; k++) {
        now = &tallies[k];
        if (now->name == NULL)
            now->name = entry;
        if (strcmp(now->name, entry) == 0)
            return;
    }
    fputs("compare: too many entries\n", stderr);
    exit(2);
}

/* What an entry does with a buffer; WRITES_START: it writes as many elements as it needs from the start, whatever the
   length. */
typedef enum { READS, WRITES, WRITES_START } use;

static lent lend(const char *argument, const void *contents, size_t elements, size_t octets_each, use of)
{
    slot *s = &slots[used++];
    s->octets = elements * octets_each;
    size_t at = once_in(2) ? 0 : ROOM - s->octets;
    s->from = at > ZONE ? at - ZONE : 0;
    s->to = at + s->octets + ZONE < ROOM ? at + s->octets + ZONE : ROOM;
    s->may_change = of != READS;
    random_octets(s->before + s->from, s->to - s->from);
    if (contents != NULL)
        memcpy(s->before + at, contents, s->octets);
    for (int k = 0; k < 2; k++)
        memcpy(s->rooms[k] + s->from, s->before + s->from, s->to - s->from);
    edge e = edge_for(used - 1);
    edge_lent(now->name, argument, e);
    lent l = {s->rooms[0] + at, s->rooms[1] + at, e == NO_EDGE ? elements : edge_length(e, elements)};
    if (e == NULL_EMPTY || (l.elements == 0 && once_in(2)))
        l.library = l.second = NULL;
    else if (e != NO_EDGE && of != WRITES_START)
        l.library = l.second = edge_memory();
    return l;
}

lent lend_in(const char *argument, const void *contents, size_t elements, size_t octets_each)
{
    return lend(argument, contents, elements, octets_each, READS);
}

lent lend_out(const char *argument, size_t elements, size_t octets_each)
{
    return lend(argument, NULL, elements, octets_each, WRITES);
}

lent lend_both(const char *argument, const void *contents, size_t elements, size_t octets_each)
{
    return lend(argument, contents, elements, octets_each, WRITES);
}

lent lend_start(const char *argument, size_t elements, size_t octets_each)
{
    return lend(argument, NULL, elements, octets_each, WRITES_START);
}

static void fault(const char *what)
{
    failures = failures + 1;
    if (failures <= SHOWN)
        printf("FAILED: %s, case %lu: %s\n", now->name, now->cases, what);
    if (failures == enough)
        exit(1);
}

void end(const void *library, const void *second, size_t octets, uint32_t number)
{
    if (octets == 0 || memcmp(library, second, octets) != 0)
        fault("the answers differ");
    for (int k = 0; k < used; k++) {
        slot *s = &slots[k];
        size_t n = s->to - s->from;
        if (memcmp(s->rooms[0] + s->from, s->rooms[1] + s->from, n) != 0)
            fault("a lent buffer or what stands beside it differs");
        if ((!s->may_change || number != 0) && memcmp(s->rooms[0] + s->from, s->before + s->from, n) != 0)
            fault("a buffer was changed that must stay");
    }
    if (edge_touched())
        fault("what stands behind a length of 2^32 or more was touched");
    now->cases = now->cases + 1;
    if (number < NUMBERS)
        now->seen[number] = now->seen[number] + 1;
}

void must_have_seen(const char *entry, const int *numbers)
{
    begin(entry);
    for (; *numbers >= 0; numbers++)
        if (now->seen[*numbers] == 0) {
            failures = failures + 1;
            printf("FAILED: %s: no case gave number %d\n", entry, *numbers);
        }
}

static unsigned long print_tallies(void)
{
    unsigned long all = 0;
    for (int k = 0; k < ENTRIES && tallies[k].name != NULL; k++) {
        printf("%-17s %7lu cases;", tallies[k].name, tallies[k].cases);
        for (int n = 0; n < NUMBERS; n++)
            if (tallies[k].seen[n] != 0)
                printf(" %d:%lu", n, tallies[k].seen[n]);
        printf("\n");
        all = all + tallies[k].cases;
    }
    return all;
}

/* The groups of calls, in the order of a whole run. */
static const struct { const char *name; void (*compare)(uint32_t cases); } groups[] = {
    {"small", compare_small},
    {"hd", compare_hd},
    {"control", compare_control},
    {"madi", compare_madi},
    {"commands", compare_commands},
    {"aes3", compare_aes3},
    {"length", compare_length},
    {"biphase", compare_biphase},
    {"hunt", compare_hunt},
    {"align", compare_align},
    {"talkback", compare_talkback},
    {"patch", compare_patch},
    {"levels", compare_levels},
    {"leases", compare_leases},
    {"replay", compare_replay},
};
enum { GROUPS = sizeof groups / sizeof groups[0] };

int main(int argc, char **argv)
{
    uint32_t cases = argc > 1 ? (uint32_t)strtoul(argv[1], NULL, 10) : 20000;
    const char *only = argc > 3 ? argv[3] : NULL;
    int made = 0;
    enough = argc > 2 ? atoi(argv[2]) : 0;
    for (int k = 0; k < SLOTS; k++) {
        slots[k].rooms[0] = make_room();
        slots[k].rooms[1] = make_room();
    }
    for (int k = 0; k < GROUPS; k++)
        if (only == NULL || strcmp(groups[k].name, only) == 0) {
            groups[k].compare(cases);
            made = made + 1;
        }
    if (made == 0) {
        fprintf(stderr, "compare: there is no group %s\n", only);
        return 2;
    }
    unsigned long all = print_tallies();
    if (only == NULL)
        failures = failures + edges_missing();
    printf("library and second program: %lu cases, %d differences\n", all, failures);
    return failures != 0;
}
