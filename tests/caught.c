/* What a right CRCC excludes, tried: two blocks of channel status, sealed, with every single bit changed, every pair of bits, and
   every set of bits within eight consecutive positions of the sending order, byte 23 with the others. None of the blocks so
   changed may be right. And what it does not exclude: three bits, and nine consecutive positions, of which two cases
   are known to stay right. Run over the library, and over the second program under the library's names. */
#include "lampcoil.h"
#include <stdio.h>

enum { POSITIONS = 192, ROW = 8 };

static int failed;
static unsigned long tried, missed;

static void change(uint8_t *status, int position)
{
    status[position / 8] = (uint8_t)(status[position / 8] ^ 1 << position % 8);
}

static int right(const uint8_t *status)
{
    lampcoil_status_check c = lampcoil_status_right(status, LAMPCOIL_STATUS_OCTETS);
    return c.number == LAMPCOIL_ACCEPTED && c.right == 1;
}

static void expect_caught(const uint8_t *status)
{
    tried = tried + 1;
    if (right(status))
        missed = missed + 1;
}

/* Says what was tried since the last time, and that it was all there is. */
static void told(const char *block, const char *what, unsigned long all)
{
    printf("caught: %s, %s: %lu tried, %lu missed\n", block, what, tried, missed);
    if (tried != all || missed != 0)
        failed = 1;
    tried = 0;
    missed = 0;
}

static void one_bit(uint8_t *status)
{
    for (int i = 0; i < POSITIONS; i++) {
        change(status, i);
        expect_caught(status);
        change(status, i);
    }
}

static void two_bits(uint8_t *status)
{
    for (int i = 0; i < POSITIONS; i++)
        for (int j = i + 1; j < POSITIONS; j++) {
            change(status, i);
            change(status, j);
            expect_caught(status);
            change(status, j);
            change(status, i);
        }
}

/* The positions of a set, of which the first is `from`; each set has one such number, an odd one. */
static void change_row(uint8_t *status, int from, unsigned set)
{
    for (int k = 0; k < ROW; k++)
        if (set >> k & 1u)
            change(status, from + k);
}

static void within_eight(uint8_t *status)
{
    for (int from = 0; from < POSITIONS; from++) {
        int left = POSITIONS - from < ROW ? POSITIONS - from : ROW;
        for (unsigned set = 1; set < 1u << left; set += 2) {
            change_row(status, from, set);
            expect_caught(status);
            change_row(status, from, set);
        }
    }
}

static void try_block(const char *name, uint8_t *status)
{
    lampcoil_status_seal(status, LAMPCOIL_STATUS_OCTETS);
    if (!right(status)) {
        printf("caught: %s is not right when sealed\n", name);
        failed = 1;
    }
    one_bit(status);
    told(name, "one bit", POSITIONS);
    two_bits(status);
    told(name, "two bits", POSITIONS * (POSITIONS - 1) / 2);
    /* half of the 256 sets begin at each of the first 185 positions; 64, 32, .. 1 at those after them */
    within_eight(status);
    told(name, "within eight positions", 185 * 128 + 127);
}

/* A set of positions that leaves this block right: more than is promised cannot be. */
static void expect_passed(uint8_t *status, const char *what, const int *positions, int count)
{
    for (int k = 0; k < count; k++)
        change(status, positions[k]);
    int passed = right(status);
    for (int k = 0; k < count; k++)
        change(status, positions[k]);
    printf("caught: %s: %s\n", what, passed ? "right still" : "wrong, and right was due");
    if (!passed)
        failed = 1;
}

int main(void)
{
    static const int three[] = {0, 3, 35}, nine[] = {0, 4, 5, 6, 8};
    uint8_t counting[LAMPCOIL_STATUS_OCTETS], drawn[LAMPCOIL_STATUS_OCTETS];
    uint32_t state = 1;
    for (int k = 0; k < (int)LAMPCOIL_STATUS_OCTETS; k++) {
        state = state * 1664525u + 1013904223u;
        counting[k] = (uint8_t)(k + 1);
        drawn[k] = (uint8_t)(state >> 24);
    }
    try_block("bytes 1, 2, 3 and so on", counting);
    try_block("bytes drawn", drawn);
    expect_passed(counting, "positions 0, 3 and 35", three, 3);
    expect_passed(drawn, "positions 0, 4, 5, 6 and 8", nine, 5);
    return failed;
}
