/* The second program: AES3 blocks on a biphase line, the search for their start, and biphase by octet. */
#include "second.h"

enum { FRAMES = 192, SUBFRAMES = 384, SIDE = 192, LINE = 3072, ENTRIES = 256 };
enum { V_COLUMN = 0, U_COLUMN = 1, C_COLUMN = 2, E_COLUMN = 3 };

/* The eight symbols of each preamble after level 0. */
static const int preamble_x[8] = {1, 1, 1, 0, 0, 0, 1, 0};
static const int preamble_y[8] = {1, 1, 1, 0, 0, 1, 0, 0};
static const int preamble_z[8] = {1, 1, 1, 0, 1, 0, 0, 0};

static const int *preamble_due(int subframe)
{
    if (subframe == 0)
        return preamble_z;
    return subframe % 2 == 0 ? preamble_x : preamble_y;
}

static int after(int level, int symbol)
{
    return level == 0 ? symbol : 1 - symbol;
}

/* V, U, C, E of A, then V, U, C, E of B, 24 octets each; bit i of octet j belongs to frame 8j+i. */
static int side_bit(const uint8_t *side, int channel, int column, int frame)
{
    return second_bit(side[96 * channel + 24 * column + frame / 8], frame % 8);
}

static uint32_t first_fault(const uint8_t *side)
{
    for (int frame = 0; frame < FRAMES; frame++)
        for (int channel = 0; channel <= 1; channel++)
            if (side_bit(side, channel, E_COLUMN, frame) == 1)
                return 2 * (uint32_t)frame + (uint32_t)channel;
    return SUBFRAMES;
}

static uint32_t first_sample_outside(const int32_t *samples)
{
    for (uint32_t i = 0; i < SUBFRAMES; i++)
        if (samples[i] < -8388608 || samples[i] > 8388607)
            return i;
    return SUBFRAMES;
}

/* Number 4, 5 or 6 for one channel. */
static int status_breaks(const uint8_t *side, int channel, int number)
{
    if (number == 4)
        return side_bit(side, channel, C_COLUMN, 0) == 0;
    if (number == 5)
        return !second_crcc_right(side + 96 * channel + 48);
    if (side_bit(side, channel, C_COLUMN, 1) == 0)
        return 0;
    for (int frame = 0; frame < FRAMES; frame++)
        if (side_bit(side, channel, V_COLUMN, frame) == 0)
            return 1;
    return 0;
}

static second_verdict refused(uint32_t number, uint32_t place)
{
    second_verdict r = {number, place};
    return r;
}

/* The 64 symbols of a subframe after the given level; the level after it comes back. */
static int write_subframe(uint8_t *line, int subframe, uint32_t body, int level)
{
    long at = 64L * subframe;
    const int *due = preamble_due(subframe);
    for (int k = 0; k < 8; k++)
        second_put(line, at + k, after(level, due[k]));
    int last = second_symbol(line, at + 7);
    for (int slot = 4; slot <= 31; slot++) {
        int one = 1 - last;
        int two = second_bit(body, slot) == 1 ? 1 - one : one;
        second_put(line, at + 2 * slot, one);
        second_put(line, at + 2 * slot + 1, two);
        last = two;
    }
    return last;
}

second_verdict second_aes3_write(const int32_t *samples, size_t samples_len, const uint8_t *side, size_t side_len, uint32_t level,
                                 uint8_t *line, size_t line_len)
{
    if (samples_len != SUBFRAMES || side_len != SIDE || line_len != LINE)
        return refused(1, 0);
    if (level > 1)
        return refused(2, 0);
    if (first_fault(side) < SUBFRAMES)
        return refused(20, first_fault(side));
    if (first_sample_outside(samples) < SUBFRAMES)
        return refused(3, first_sample_outside(samples));
    for (int number = 4; number <= 6; number++)
        for (int channel = 0; channel <= 1; channel++)
            if (status_breaks(side, channel, number))
                return refused((uint32_t)number, (uint32_t)channel);
    for (uint32_t i = 0; i < SUBFRAMES; i++)
        if (second_overlong(side + 96 * (i % 2) + 48, samples[i]))
            return refused(18, i);
    int now = (int)level;
    for (int i = 0; i < SUBFRAMES; i++) {
        uint32_t v = (uint32_t)side_bit(side, i % 2, V_COLUMN, i / 2);
        uint32_t u = (uint32_t)side_bit(side, i % 2, U_COLUMN, i / 2);
        uint32_t c = (uint32_t)side_bit(side, i % 2, C_COLUMN, i / 2);
        now = write_subframe(line, i, second_body_write(samples[i], v, u, c).body, now);
    }
    return refused(0, 0);
}

/* For each octet the sixteen symbols that follow level 0, its lowest bit first; the earliest has the highest weight. */
second_verdict second_biphase_table(uint16_t *table, size_t table_len)
{
    second_verdict r = {table_len != ENTRIES, 0};
    for (uint32_t octet = 0; r.number == 0 && octet < ENTRIES; octet++) {
        uint32_t symbols = 0;
        int last = 0;
        for (int bit = 0; bit <= 7; bit++) {
            int one = 1 - last;
            int two = second_bit(octet, bit) == 1 ? 1 - one : one;
            if (one == 1)
                symbols = symbols + second_weight(15 - 2 * bit);
            if (two == 1)
                symbols = symbols + second_weight(14 - 2 * bit);
            last = two;
        }
        table[octet] = (uint16_t)symbols;
    }
    return r;
}

/* The 24 bits of slots 4 to 27 in two's complement, the sign in slot 27. */
static int32_t sample_of(uint32_t body)
{
    int32_t sample = second_bit(body, 27) == 1 ? -16777216 : 0;
    for (int k = 0; k < 24; k++)
        if (second_bit(body, 4 + k) == 1)
            sample += (int32_t)second_weight(k);
    return sample;
}

/* Reads a subframe into *body; the number of the slot rule that broke first, or 0. */
static uint32_t read_subframe(const uint8_t *line, int subframe, int level, uint32_t *body)
{
    long at = 64L * subframe;
    const int *due = preamble_due(subframe);
    for (int k = 0; k < 8; k++)
        if (second_symbol(line, at + k) != after(level, due[k]))
            return 7;
    *body = 0;
    for (int slot = 4; slot <= 31; slot++) {
        int before = second_symbol(line, at + 2 * slot - 1);
        int one = second_symbol(line, at + 2 * slot);
        int two = second_symbol(line, at + 2 * slot + 1);
        if (one == before)
            return 8;
        if (two != one)
            *body = *body + second_weight(slot);
    }
    return 0;
}

second_aes3_read_answer second_aes3_read(const uint8_t *line, size_t line_len, int32_t *samples, size_t samples_len, uint8_t *side,
                                         size_t side_len)
{
    second_aes3_read_answer r = {0, 0, 0, 0};
    uint32_t bodies[SUBFRAMES];
    if (line_len != LINE || samples_len != SUBFRAMES || side_len != SIDE) {
        r.number = 1;
        return r;
    }
    int level = 1 - second_symbol(line, 0);
    for (int i = 0; i < SUBFRAMES; i++) {
        r.number = read_subframe(line, i, level, &bodies[i]);
        if (r.number != 0) {
            r.place = (uint32_t)i;
            return r;
        }
        level = second_symbol(line, 64L * i + 63);
    }
    for (int k = 0; k < SIDE; k++)
        side[k] = 0;
    for (int i = 0; i < SUBFRAMES; i++) {
        /* the sample, U and C as received; an odd number of ones is told by E, and V is then 1 */
        int fault = second_odd(bodies[i]);
        int bits[4] = {fault ? 1 : second_bit(bodies[i], 28), second_bit(bodies[i], 29), second_bit(bodies[i], 30), fault};
        samples[i] = sample_of(bodies[i]);
        for (int column = 0; column < 4; column++)
            if (bits[column] == 1) {
                uint8_t *octet = &side[96 * (i % 2) + 24 * column + i / 2 / 8];
                *octet = (uint8_t)(*octet + second_weight(i / 2 % 8));
            }
    }
    r.crcc_a = (uint32_t)second_crcc_right(side + 48);
    r.crcc_b = (uint32_t)second_crcc_right(side + 144);
    return r;
}

static int preamble_stands(const uint8_t *line, long p, const int *preamble)
{
    int level = second_symbol(line, p - 1);
    for (int k = 0; k < 8; k++)
        if (second_symbol(line, p + k) != after(level, preamble[k]))
            return 0;
    return 1;
}

/* The cost of a candidate: its 16 required symbols, in line order, up to and including the first that differs, or all
   16. */
static uint32_t cost(const uint8_t *line, long p)
{
    int required[16], standing[16];
    for (int k = 0; k < 8; k++) {
        required[k] = after(second_symbol(line, p - 1), preamble_z[k]);
        required[8 + k] = after(second_symbol(line, p + 63), preamble_y[k]);
        standing[k] = second_symbol(line, p + k);
        standing[8 + k] = second_symbol(line, p + 64 + k);
    }
    for (uint32_t k = 0; k < 16; k++)
        if (standing[k] != required[k])
            return k + 1;
    return 16;
}

/* The sum of the costs of the candidates from 1 to the last. */
static uint32_t costs(const uint8_t *line, long last)
{
    uint32_t sum = 0;
    for (long q = 1; q <= last; q++)
        sum += cost(line, q);
    return sum;
}

second_aes3_start second_aes3_find(const uint8_t *line, size_t line_len)
{
    second_aes3_start r = {0, 0, 0, 0};
    if (line_len > 8192) {
        r.number = 1;
        return r;
    }
    long symbols = 8 * (long)line_len;
    for (long p = 1; p <= symbols - 72; p++)
        if (preamble_stands(line, p, preamble_z) && preamble_stands(line, p + 64, preamble_y)) {
            r.position = (uint32_t)p;
            r.compared = costs(line, p);
            return r;
        }
    r.number = 17;
    r.compared = costs(line, symbols - 72);
    return r;
}

/* Symbol by symbol: the block's symbol k is the line's symbol position + k. */
second_verdict second_aes3_align(const uint8_t *line, size_t line_len, uint32_t position, uint8_t *block, size_t block_len)
{
    const second_verdict aligned = {0, 0};
    if (block_len != LINE || line_len > 8192)
        return refused(1, 0);
    if (8 * (uint64_t)line_len < (uint64_t)position + 8 * LINE)
        return refused(2, 0);
    for (uint32_t k = 0; k < 8 * LINE; k++) {
        uint32_t from = position + k;
        uint32_t symbol = line[from / 8] >> (7 - from % 8) & 1u;
        block[k / 8] = (uint8_t)((block[k / 8] & ~(0x80u >> k % 8)) | symbol << (7 - k % 8));
    }
    return aligned;
}
