/* The second program: HD audio control packets, by section 6 of BT.1365 and its tables 5 to 10. */
#include "second.h"

enum { WORDS = 18, LAST = 17 };

static const uint32_t did_of_group[4] = {0x1E3, 0x2E2, 0x2E1, 0x1E0};

static second_verdict verdict(uint32_t number, uint32_t place)
{
    second_verdict r = {number, place};
    return r;
}

/* Ten bits, b0 first; b9 is not given but found. */
static uint16_t nine_bits(const int bit[9])
{
    uint32_t x = 0;
    for (int k = 0; k < 9; k++)
        if (bit[k] == 1)
            x = x + second_weight(k);
    return (uint16_t)(bit[8] == 1 ? x : x + 512);
}

/* b0 to b8 of a number. */
static uint16_t as_value(uint32_t number)
{
    int bit[9];
    for (int k = 0; k < 9; k++)
        bit[k] = second_bit(number, k);
    return nine_bits(bit);
}

/* b0 to b7 of a number, b8 their even parity. */
static uint16_t as_octet(uint32_t number)
{
    int bit[9], ones = 0;
    for (int k = 0; k < 8; k++) {
        bit[k] = second_bit(number, k);
        ones = ones + bit[k];
    }
    bit[8] = ones % 2;
    return nine_bits(bit);
}

static uint16_t checksum(const uint16_t *words)
{
    uint32_t sum = 0;
    for (int w = 3; w < LAST; w++)
        sum = sum + words[w] % 512;
    return as_value(sum % 512);
}

/* Table 9: e, then del 0 to del 25, nine to a word. A negative delay has 2^26 added to it. */
static void put_delay(uint16_t *words, uint32_t valid, int32_t delay)
{
    int64_t code = delay < 0 ? (int64_t)delay + 67108864 : delay;
    int bit[27];
    bit[0] = (int)valid;
    for (int k = 0; k < 26; k++)
        bit[1 + k] = second_bit((uint32_t)code, k);
    for (int w = 0; w < 3; w++)
        words[w] = nine_bits(bit + 9 * w);
}

static int32_t delay_of(const uint16_t *words)
{
    int64_t delay = 0;
    for (int k = 0; k < 26; k++)
        if (second_bit(words[(1 + k) / 9], (1 + k) % 9) == 1)
            delay = delay + (k == 25 ? -(int64_t)second_weight(25) : (int64_t)second_weight(k));
    return (int32_t)delay;
}

static int known_rate(uint32_t rate)
{
    return rate == 0 || rate == 1 || rate == 2 || rate == 7;
}

static int outside(int32_t delay)
{
    return delay < -33554432 || delay > 33554431;
}

second_verdict second_hd_control_write(uint32_t group, uint32_t frame, uint32_t rate, uint32_t asynchronous, uint32_t active,
                                       uint32_t valid12, int32_t delay12, uint32_t valid34, int32_t delay34,
                                       uint16_t *words, size_t words_len)
{
    if (words_len != WORDS)
        return verdict(1, 0);
    if (group < 1 || group > 4 || frame > 511 || rate > 7 || asynchronous > 1 || active > 15 || valid12 > 1 || valid34 > 1)
        return verdict(2, 0);
    if (outside(delay12) || outside(delay34))
        return verdict(2, 0);
    if (asynchronous == 1 && frame != 0)
        return verdict(12, 6);
    if (!known_rate(rate))
        return verdict(12, 7);
    words[0] = 0x000;
    words[1] = 0x3FF;
    words[2] = 0x3FF;
    words[3] = (uint16_t)did_of_group[group - 1];
    words[4] = 0x200;
    words[5] = 0x10B;
    words[6] = as_value(frame);
    words[7] = as_value(asynchronous + 2 * rate);
    words[8] = as_octet(active);
    put_delay(words + 9, valid12, delay12);
    put_delay(words + 12, valid34, delay34);
    words[15] = as_value(0);
    words[16] = as_value(0);
    words[LAST] = checksum(words);
    return verdict(0, 0);
}

static uint32_t group_of(uint32_t did)
{
    for (uint32_t g = 1; g <= 4; g++)
        if (did_of_group[g - 1] == did)
            return g;
    return 0;
}

/* 13 for words 0, 1, 2, 3 and 5. */
static int listed(const uint16_t *words, uint32_t w)
{
    if (w == 0)
        return words[w] == 0x000;
    if (w == 1 || w == 2)
        return words[w] == 0x3FF;
    if (w == 3)
        return group_of(words[w]) != 0;
    return w != 5 || words[w] == 0x10B;
}

/* b8 and b9 of words 3 to 16: b8 is parity in DID, DBN, DC and ACT, 0 in RATE and in the reserved words. */
static int upper_right(const uint16_t *words, uint32_t w)
{
    if (second_bit(words[w], 9) == second_bit(words[w], 8))
        return 0;
    if (w <= 5 || w == 8)
        return as_octet(words[w]) == words[w];
    if (w == 7 || w == 15 || w == 16)
        return second_bit(words[w], 8) == 0;
    return 1;
}

/* 12: each word that has bits or a code with a required state. */
static int state_right(const uint16_t *words, uint32_t w)
{
    if (w == 4)
        return words[w] == 0x200;
    if (w == 6)
        return second_bit(words[7], 0) == 0 || words[w] % 512 == 0;
    if (w == 7)
        return words[w] / 16 % 16 == 0 && known_rate((uint32_t)words[w] / 2 % 8);
    if (w == 8)
        return words[w] / 16 % 16 == 0;
    return (w != 15 && w != 16) || words[w] % 512 == 0;
}

static second_verdict judged(const uint16_t *words)
{
    for (uint32_t w = 0; w < WORDS; w++)
        if (words[w] > 1023)
            return verdict(14, w);
    for (uint32_t w = 0; w <= 5; w++)
        if (!listed(words, w))
            return verdict(13, w);
    for (uint32_t w = 3; w < LAST; w++)
        if (!upper_right(words, w))
            return verdict(14, w);
    if (words[LAST] != checksum(words))
        return verdict(16, LAST);
    for (uint32_t w = 4; w < LAST; w++)
        if (!state_right(words, w))
            return verdict(12, w);
    return verdict(0, 0);
}

second_hd_control_answer second_hd_control_read(const uint16_t *words, size_t words_len)
{
    second_hd_control_answer r = {0, 0, 0, 0, 0, 0, 0, 0, 0, 0, 0};
    if (words_len != WORDS) {
        r.number = 1;
        return r;
    }
    second_verdict v = judged(words);
    r.number = v.number;
    r.place = v.place;
    if (v.number != 0)
        return r;
    r.group = group_of(words[3]);
    r.frame = words[6] % 512;
    r.rate = (uint32_t)words[7] / 2 % 8;
    r.asynchronous = (uint32_t)second_bit(words[7], 0);
    r.active = words[8] % 16;
    r.valid12 = (uint32_t)second_bit(words[9], 0);
    r.delay12 = delay_of(words + 9);
    r.valid34 = (uint32_t)second_bit(words[12], 0);
    r.delay34 = delay_of(words + 12);
    return r;
}
