/* The edges of the lengths that are lent: every slice argument of every entry, null with length 0, and with lengths
   of 2^32 and more. */
#define _DEFAULT_SOURCE
#include "compare.h"
#include <stdio.h>
#include <stdlib.h>
#include <string.h>
#include <sys/mman.h>
#include <unistd.h>

enum { MEMORY = 65536, MOST_SLICES = 5, TIMES = 8 };

/* Every slice argument of the header; tests/compared holds what is printed below to the header itself. */
static const struct { const char *entry, *argument; } slices[] = {
    {"status_seal", "status"},  {"status_edit", "status"},  {"status_right", "status"}, {"status_read", "status"},
    {"aes3_write", "samples"},
    {"aes3_write", "side"},     {"aes3_write", "line"},     {"aes3_read", "line"},     {"aes3_read", "samples"},
    {"biphase_table", "table"},
    {"aes3_read", "side"},      {"aes3_find", "line"},      {"aes3_align", "line"},
    {"aes3_align", "block"},    {"madi_write", "words"},   {"madi_write", "line"},
    {"madi_write", "commands"}, {"madi_read", "commands"},
    {"madi_read", "line"},      {"madi_read", "words"},     {"hd_write", "bodies"},    {"hd_write", "words"},
    {"hd_read", "words"},       {"hd_read", "bodies"},      {"hd_repair", "words"},    {"hd_repair", "repaired"},
    {"hd_control_write", "words"}, {"hd_control_read", "words"},
    {"talkback_join", "program"},      {"talkback_join", "voice"},       {"talkback_join", "side"},
    {"talkback_join", "samples"},      {"talkback_separate", "samples"}, {"talkback_separate", "side"},
    {"talkback_separate", "program"},  {"talkback_separate", "voice"},
    {"level_start", "sheet"},   {"level_add", "sheet"},     {"level_add", "samples"},  {"level_add", "side"},
    {"level_join", "sheet"},    {"level_join", "later"},    {"replay", "records"},     {"replay", "sheet"},
    {"madi_patch", "leases"},   {"madi_patch", "rows"},     {"madi_patch", "frame_in"}, {"madi_patch", "frame_out"},
    {"madi_patch", "verdicts"}, {"lease_ask", "table"},     {"lease_return", "table"}, {"lease_close", "table"},
    {"lease_close", "moves"},
};
enum { SLICES = sizeof slices / sizeof slices[0] };

static const char *const names[EDGES] = {"", "null", "2^32", "2^32 and the right length", "2^63 and the right length", "2^64-1"};

static unsigned long tried[SLICES][EDGES];
static int unlisted;

static int slice_now;
static edge edge_now = NO_EDGE;
static uint8_t *memory;

edge edge_for(int slice)
{
    return slice == slice_now ? edge_now : NO_EDGE;
}

int edge_set(void)
{
    return edge_now != NO_EDGE;
}

size_t edge_length(edge e, size_t right)
{
    switch (e) {
    case LONG_EMPTY: /* cut to 32 bits it is an empty buffer */
        return (size_t)1 << 32;
    case LONG_RIGHT: /* cut to 32 bits it is the right one */
        return ((size_t)1 << 32) + right;
    case LONG_HIGH: /* times the octets of an element it is that too, and below 0 if it had a sign */
        return ((size_t)1 << 63) + right;
    case LONG_MOST:
        return SIZE_MAX;
    default:
        return 0;
    }
}

/* It can be read and not written, and no page of it is there until it is read: so a touch shows, whichever it is. */
void *edge_memory(void)
{
    if (memory == NULL) {
        memory = mmap(NULL, MEMORY, PROT_READ, MAP_PRIVATE | MAP_ANONYMOUS, -1, 0);
        if (memory == MAP_FAILED) {
            fputs("compare: no memory for the edges\n", stderr);
            exit(2);
        }
    }
    return memory;
}

int edge_touched(void)
{
    unsigned char there[MEMORY / 4096];
    size_t pages = MEMORY / (size_t)sysconf(_SC_PAGESIZE);
    int touched = 0;
    if (!edge_set() || memory == NULL)
        return 0;
    if (mincore(memory, MEMORY, there) != 0) {
        fputs("compare: whether the edges were touched cannot be told\n", stderr);
        exit(2);
    }
    for (size_t k = 0; k < pages; k++)
        touched = touched || (there[k] & 1) != 0;
    if (touched)
        madvise(memory, MEMORY, MADV_DONTNEED);
    return touched;
}

void edge_lent(const char *entry, const char *argument, edge e)
{
    for (int k = 0; k < SLICES; k++)
        if (strcmp(slices[k].entry, entry) == 0 && strcmp(slices[k].argument, argument) == 0) {
            tried[k][e] = tried[k][e] + 1;
            return;
        }
    if (unlisted == 0)
        printf("FAILED: %s: its slice argument %s is not listed in edges.c\n", entry, argument);
    unlisted = unlisted + 1;
}

void at_the_edges(void (*one_case)(void))
{
    for (slice_now = 0; slice_now < MOST_SLICES; slice_now++)
        for (int e = NULL_EMPTY; e < EDGES; e++)
            for (int k = 0; k < TIMES; k++) {
                edge_now = (edge)e;
                one_case();
            }
    edge_now = NO_EDGE;
}

int edges_missing(void)
{
    int missing = unlisted != 0;
    for (int k = 0; k < SLICES; k++) {
        unsigned long longs = 0;
        for (int e = NULL_EMPTY; e < EDGES; e++) {
            if (e != NULL_EMPTY)
                longs = longs + tried[k][e];
            if (tried[k][e] == 0) {
                missing = missing + 1;
                printf("FAILED: %s: %s was never lent with %s\n", slices[k].entry, slices[k].argument, names[e]);
            }
        }
        printf("slice %s %s: %lu null, %lu of 2^32 elements and more\n", slices[k].entry, slices[k].argument,
               tried[k][NULL_EMPTY], longs);
    }
    return missing;
}
