/* Every symbol of one block turned over by itself, and every subframe made odd by itself: number, place, both CRCCs, every
   sample and the whole side table of the library beside those of the second program. */
#include "lampcoil.h"
#include "second.h"
#include "spoil.h"
#include <stdio.h>
#include <string.h>

enum { SUBFRAMES = LAMPCOIL_BLOCK_SAMPLES, SIDE = LAMPCOIL_SIDE_OCTETS, LINE = LAMPCOIL_BLOCK_OCTETS };

typedef struct { int32_t samples[SUBFRAMES]; uint8_t side[SIDE]; } block;

static uint8_t line[LINE];
static uint32_t state = 10;
static int differing;

static uint32_t draw(void)
{
    state = state * 1664525u + 1013904223u;
    return state >> 8;
}

/* No word length is declared, so that every sample is taken. */
static uint32_t sent_block(block *b)
{
    for (int k = 0; k < SUBFRAMES; k++)
        b->samples[k] = (int32_t)draw() - 8388608;
    for (int k = 0; k < SIDE; k++)
        b->side[k] = (uint8_t)(k % 96 < 72 ? draw() : 0);
    for (int channel = 0; channel < 2; channel++) {
        b->side[96 * channel + 48] = 0x85;
        b->side[96 * channel + 50] = 0;
        second_status_seal(b->side + 96 * channel + 48, 24);
    }
    return second_aes3_write(b->samples, SUBFRAMES, b->side, SIDE, 0, line, LINE).number;
}

/* Reads the line by both, over the same buffers; how many E are set, or -1 on a refusal. */
static int read_by_both(void)
{
    static block a, b;
    memset(&a, 0xA5, sizeof a);
    memset(&b, 0xA5, sizeof b);
    lampcoil_aes3_read_answer x = lampcoil_aes3_read(line, LINE, a.samples, SUBFRAMES, a.side, SIDE);
    second_aes3_read_answer y = second_aes3_read(line, LINE, b.samples, SUBFRAMES, b.side, SIDE);
    if (x.number != y.number || x.place != y.place || x.crcc_a != y.crcc_a || x.crcc_b != y.crcc_b || memcmp(&a, &b, sizeof a) != 0)
        differing++;
    if (x.number != 0)
        return -1;
    int set = 0;
    for (int k = 0; k < SIDE; k++)
        for (int bit = 0; k % 96 >= 72 && bit < 8; bit++)
            set += a.side[k] >> bit & 1;
    return set;
}

int main(void)
{
    static block sent;
    int refused = 0, odd = 0;
    if (sent_block(&sent) != 0 || read_by_both() != 0)
        differing++;
    for (uint32_t symbol = 0; symbol < 64 * SUBFRAMES; symbol++) {
        spoil_flip(line, symbol);
        refused += read_by_both() < 0;
        spoil_flip(line, symbol);
    }
    for (uint32_t subframe = 0; subframe < SUBFRAMES; subframe++) {
        uint32_t slot = 4 + draw() % 28;
        spoil_slot(line, subframe, slot, 64 * SUBFRAMES);
        odd += read_by_both() == 1;
        spoil_slot(line, subframe, slot, 64 * SUBFRAMES);
    }
    printf("flips: %d symbols turned over, %d refused; %d subframes made odd, %d read with one E; %d differ\n", 64 * SUBFRAMES, refused,
           SUBFRAMES, odd, differing);
    return differing != 0 || refused != 64 * SUBFRAMES - 1 || odd != SUBFRAMES;
}
