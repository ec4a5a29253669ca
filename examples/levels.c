/* Level sheets of stretches of a night, made apart and joined:

     levels sheet <records >sheet      the sheet of the AES3 blocks in a file of records; other records are passed over
     levels join SHEET.. >sheet        the sheet of all these stretches, which are given in their order
     levels print <sheet               what it says, with peak and mean in dBFS

   Joining is associative: whatever stretches a night is cut into, and in whatever order neighbours are joined, the
   sheet is that of one pass, octet for octet. A sheet is a text of one number to a line.
   It ends with 0, or with 2 where it could not go on. A block that the reader refuses is in no sheet; how many there
   were is reported on standard error. */
#include "lampcoil.h"
#include <errno.h>
#include <inttypes.h>
#include <stdarg.h>
#include <stdio.h>
#include <stdlib.h>
#include <string.h>

enum { NUMBERS = LAMPCOIL_SHEET_NUMBERS, FIGURES = NUMBERS / 2, MOST_RECORD = 8192, AES3 = 1, STOPPED = 2 };

static const char *const names[FIGURES] = {
    "samples", "absent", "smallest", "largest", "magnitude", "sum", "ends", "v_frames", "e_frames", "right_blocks",
};

static void say(const char *format, ...)
{
    va_list values;
    va_start(values, format);
    fputs("levels: ", stderr);
    vfprintf(stderr, format, values);
    fputc('\n', stderr);
    va_end(values);
}

#define STOP(...) (say(__VA_ARGS__), exit(STOPPED))

static void must(const char *step, lampcoil_verdict v)
{
    if (v.number != LAMPCOIL_ACCEPTED)
        STOP("%s: number %u at %u, %s", step, v.number, v.place, lampcoil_refusal_text(v.number));
}

/* ---- A sheet as text ---- */

static void put_sheet(const int64_t *sheet)
{
    printf("levels 1\n");
    for (int k = 0; k < NUMBERS; k++)
        printf("%c %s %" PRId64 "\n", k < FIGURES ? 'A' : 'B', names[k % FIGURES], sheet[k]);
}

/* The library judges the numbers themselves, when the sheet is joined. */
static void take_sheet(FILE *from, const char *path, int64_t *sheet)
{
    char line[80], due[32];
    if (fgets(line, sizeof line, from) == NULL || strcmp(line, "levels 1\n") != 0)
        STOP("%s: not a level sheet", path);
    for (int k = 0; k < NUMBERS; k++) {
        int length = snprintf(due, sizeof due, "%c %s ", k < FIGURES ? 'A' : 'B', names[k % FIGURES]);
        char *rest;
        if (fgets(line, sizeof line, from) == NULL || strncmp(line, due, (size_t)length) != 0)
            STOP("%s:%d: not `%s` and a number", path, k + 2, due);
        errno = 0;
        sheet[k] = strtoll(line + length, &rest, 10);
        if (rest == line + length || *rest != '\n' || errno != 0)
            STOP("%s:%d: not a number", path, k + 2);
    }
    if (fgetc(from) != EOF || ferror(from))
        STOP("%s: more than a level sheet, or reading failed", path);
}

/* ---- sheet ---- */

/* One record, its length in front; 0 at the end. */
static size_t take_record(uint8_t *record)
{
    uint8_t head[4];
    size_t got = fread(head, 1, 4, stdin);
    if (got == 0 && !ferror(stdin))
        return 0;
    uint32_t length = (uint32_t)head[0] << 24 | (uint32_t)head[1] << 16 | (uint32_t)head[2] << 8 | head[3];
    if (got < 4 || length > MOST_RECORD || fread(record, 1, length, stdin) != length)
        STOP(ferror(stdin) ? "reading failed" : "a record is cut, or longer than 8,192 octets");
    return 4 + (size_t)length;
}

static void make_sheet(int64_t *sheet)
{
    static uint8_t record[MOST_RECORD], side[LAMPCOIL_SIDE_OCTETS];
    static int32_t samples[LAMPCOIL_BLOCK_SAMPLES];
    uint64_t refused = 0;
    must("level start", lampcoil_level_start(sheet, NUMBERS));
    for (size_t n; (n = take_record(record)) != 0;) {
        if (n < 6 || record[0] != 1 || record[1] != AES3)
            continue;
        lampcoil_aes3_read_answer a = lampcoil_aes3_read(record + 2, n - 6, samples, LAMPCOIL_BLOCK_SAMPLES, side,
                                                         LAMPCOIL_SIDE_OCTETS);
        if (a.number == LAMPCOIL_ACCEPTED)
            must("level add", lampcoil_level_add(sheet, NUMBERS, samples, LAMPCOIL_BLOCK_SAMPLES, side,
                                                 LAMPCOIL_SIDE_OCTETS));
        refused += a.number != LAMPCOIL_ACCEPTED;
    }
    if (refused != 0)
        say("%" PRIu64 " blocks were refused, and are not in the sheet", refused);
}

/* ---- join ---- */

static void join_sheets(int64_t *sheet, int count, char **path)
{
    int64_t later[NUMBERS];
    must("level start", lampcoil_level_start(sheet, NUMBERS));
    for (int k = 0; k < count; k++) {
        FILE *from = fopen(path[k], "r");
        if (from == NULL)
            STOP("%s: %s", path[k], strerror(errno));
        take_sheet(from, path[k], later);
        fclose(from);
        must(path[k], lampcoil_level_join(sheet, NUMBERS, later, NUMBERS));
    }
}

/* ---- print ---- */

/* Hundredths of a decibel by which a is below b, to the nearest: as many factors of 10^(1/2000) lead from a to b. */
static int below(double a, double b)
{
    int n = 0;
    for (a *= 1.0005758119893609; a < b && n < 99999; n++)
        a *= 1.001151955538169;
    return n;
}

static void print_level(const char *name, double level)
{
    int n = below(level, 8388608);
    if (level == 0)
        printf("  %s none", name);
    else
        printf("  %s %s%d.%02d dBFS", name, n == 0 ? "" : "-", n / 100, n % 100);
}

static void print_channel(char channel, const lampcoil_level_channel *c)
{
    double mean = c->samples == 0 ? 0 : (double)c->sum / (double)c->samples;
    printf("%c  samples %" PRId64, channel, c->samples);
    print_level("peak", (double)c->magnitude);
    print_level("mean", mean < 0 ? -mean : mean);
    printf("  from %" PRId64 " to %" PRId64 "  at either end %" PRId64 "\n", c->smallest, c->largest, c->ends);
    printf("   frames with V %" PRId64 "  with E %" PRId64 "  blocks with a right CRCC %" PRId64 "\n", c->v_frames,
           c->e_frames, c->right_blocks);
}

static void print_sheet(const int64_t *sheet)
{
    lampcoil_level_channel channels[2];
    int64_t judged[NUMBERS];
    must("level start", lampcoil_level_start(judged, NUMBERS));
    must("the sheet", lampcoil_level_join(judged, NUMBERS, sheet, NUMBERS));
    memcpy(channels, judged, sizeof channels);
    print_channel('A', &channels[0]);
    print_channel('B', &channels[1]);
}

int main(int words, char **word)
{
    int64_t sheet[NUMBERS];
    const char *what = words > 1 ? word[1] : "";
    if (strcmp(what, "sheet") == 0 && words == 2) {
        make_sheet(sheet);
        put_sheet(sheet);
    } else if (strcmp(what, "join") == 0 && words > 2) {
        join_sheets(sheet, words - 2, word + 2);
        put_sheet(sheet);
    } else if (strcmp(what, "print") == 0 && words == 2) {
        take_sheet(stdin, "standard input", sheet);
        print_sheet(sheet);
    } else
        STOP("usage: levels sheet <records | levels join SHEET.. | levels print <sheet");
    if (ferror(stdout) || fflush(stdout) != 0)
        STOP("writing failed: %s", strerror(errno));
    return 0;
}
