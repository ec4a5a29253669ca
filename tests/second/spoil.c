/* Carriers that are wrong in one chosen place and right in all others. */
#include "spoil.h"
#include <string.h>

static int ones_of(uint32_t octet)
{
    int ones = 0;
    for (; octet != 0; octet = octet / 2)
        ones = ones + (int)(octet % 2);
    return ones;
}

void spoil_close_words(uint16_t words[31])
{
    uint32_t sum = 0;
    for (int w = 3; w < 30; w++) {
        uint32_t octet = words[w] & 0xFFu;
        words[w] = (uint16_t)(ones_of(octet) % 2 == 1 ? octet | 0x100 : octet | 0x200);
        sum = sum + (words[w] & 0x1FFu);
    }
    sum = sum & 0x1FFu;
    words[30] = (uint16_t)(sum & 0x100u ? sum : sum | 0x200);
}

/* All lanes at once: a register of six octets, the feedback into x^0, x^1, x^2, x^3 and x^5. */
void spoil_close_lanes(uint16_t words[31])
{
    uint32_t r[6] = {0};
    for (int w = 0; w < 24; w++) {
        uint32_t back = (r[5] ^ words[w]) & 0xFFu;
        r[5] = r[4] ^ back;
        r[4] = r[3];
        r[3] = r[2] ^ back;
        r[2] = r[1] ^ back;
        r[1] = r[0] ^ back;
        r[0] = back;
    }
    for (int n = 0; n < 6; n++)
        words[24 + n] = (uint16_t)r[n];
    spoil_close_words(words);
}

void spoil_flip(uint8_t *line, uint32_t symbol)
{
    line[symbol / 8] ^= (uint8_t)(128u >> symbol % 8);
}

void spoil_slot(uint8_t *line, uint32_t subframe, uint32_t slot, uint32_t until)
{
    for (uint32_t k = 64 * subframe + 2 * slot + 1; k < until; k++)
        spoil_flip(line, k);
}

void spoil_add_bits(spoil_row *r, uint32_t value, int count)
{
    for (int k = count - 1; k >= 0 && r->bits < SPOIL_MOST; k--)
        r->bit[r->bits++] = (uint8_t)(value >> k & 1u);
}

void spoil_add_command(spoil_row *r, uint32_t command)
{
    static const uint32_t table[16] = {0x311, 0x3FF, 0x1AD, 0x1B9, 0x3E4, 0x1A7, 0x327, 0x339,
                                       0x084, 0x09F, 0x080, 0x0E7, 0x0F9, 0x004, 0x01F, 0x000};
    spoil_add_bits(r, table[command & 15], 10);
}

void spoil_add_syncs(spoil_row *r, uint32_t count)
{
    for (; count > 0; count--)
        spoil_add_bits(r, 0x311, 10);
}

void spoil_add_channel(spoil_row *r, uint32_t word)
{
    static const uint8_t five[16] = {30, 9, 20, 21, 10, 11, 14, 15, 18, 19, 22, 23, 26, 27, 28, 29};
    for (int g = 0; g < 8; g++) {
        uint32_t four = word >> (4 * g) & 15u;
        uint32_t turned = (four & 1) << 3 | (four & 2) << 1 | (four & 4) >> 1 | (four & 8) >> 3;
        spoil_add_bits(r, five[turned], 5);
    }
}

size_t spoil_pack(const spoil_row *r, uint32_t level, uint8_t *line)
{
    memset(line, 0, (r->bits + 7) / 8);
    for (uint32_t k = 0; k < r->bits; k++) {
        level = level ^ r->bit[k];
        if (level != 0)
            line[k / 8] = (uint8_t)(line[k / 8] | 128u >> k % 8);
    }
    return (r->bits + 7) / 8;
}
