/* HD control packets by hand. */
#include "hand.h"

static inline lampcoil_hd_control_answer refused(uint32_t number, uint32_t place)
{
    lampcoil_hd_control_answer r = {number, place, 0, 0, 0, 0, 0, 0, 0, 0, 0};
    return r;
}

/* 1 if eight bits hold an odd number of ones. */
static inline uint32_t parity(uint32_t x)
{
#ifdef FORMED
    return (uint32_t)__builtin_parity(x);
#else
    x ^= x >> 4;
    return 0x6996u >> (x & 15) & 1;
#endif
}

/* b8 and b9 as two bits; b8 is parity in words 3 to 5 and 8, 0 in 7, 15 and 16. */
static inline int upper_wrong(uint32_t word, uint32_t w)
{
    uint32_t upper = word >> 8;
    if (1u << w & 0x00138u)
        return upper != 2u - parity(word & 0xFFu);
    if (1u << w & 0x18080u)
        return upper != 2;
    return upper != 1 && upper != 2;
}

static inline uint32_t delay_bits(const uint16_t *p)
{
    return (p[0] & 511u) | (p[1] & 511u) << 9 | (p[2] & 511u) << 18;
}

static inline int32_t delay_of(uint32_t bits)
{
    return (int32_t)(bits >> 1 ^ 0x2000000u) - 0x2000000;
}

lampcoil_hd_control_answer hand_hd_control_read(const uint16_t *words, size_t words_len)
{
    uint32_t group, sum = 0, d, e;
    if (words_len != 18)
        return refused(1, 0);
    for (uint32_t w = 0; w < 18; w++)
        if (words[w] > 1023)
            return refused(14, w);
    if (words[0] != 0x000)
        return refused(13, 0);
    if (words[1] != 0x3FF)
        return refused(13, 1);
    if (words[2] != 0x3FF)
        return refused(13, 2);
    group = 4u - (words[3] & 3u);
    if ((words[3] & 0xFCu) != 0xE0u || upper_wrong(words[3], 3))
        return refused(13, 3);
    if (words[5] != 0x10B)
        return refused(13, 5);
    for (uint32_t w = 3; w < 17; w++) {
        if (upper_wrong(words[w], w))
            return refused(14, w);
        sum += words[w];
    }
    sum &= 511;
    if (words[17] != (sum | (~sum & 256u) << 1))
        return refused(16, 17);
    if (words[4] != 0x200)
        return refused(12, 4);
    if ((words[7] & 1u) && (words[6] & 511u))
        return refused(12, 6);
    if ((words[7] & 0xF0u) || (0x78u >> (words[7] >> 1 & 7u) & 1))
        return refused(12, 7);
    if (words[8] & 0xF0u)
        return refused(12, 8);
    if (words[15] & 511u)
        return refused(12, 15);
    if (words[16] & 511u)
        return refused(12, 16);
    d = delay_bits(words + 9);
    e = delay_bits(words + 12);
    lampcoil_hd_control_answer r = {0, 0, group, words[6] & 511u, words[7] >> 1 & 7u, words[7] & 1u, words[8] & 15u,
                                    d & 1, delay_of(d), e & 1, delay_of(e)};
    return r;
}

/* Nine bits and b9, the opposite of b8. */
static inline uint16_t value_word(uint32_t x)
{
    return (uint16_t)(x | (~x & 256u) << 1);
}

static inline void put_delay(uint16_t *p, uint32_t valid, int32_t delay)
{
    uint32_t bits = valid | (uint32_t)delay << 1;
    p[0] = value_word(bits & 511u);
    p[1] = value_word(bits >> 9 & 511u);
    p[2] = value_word(bits >> 18 & 511u);
}

lampcoil_verdict hand_hd_control_write(uint32_t group, uint32_t frame, uint32_t rate, uint32_t asynchronous, uint32_t active,
                                       uint32_t valid12, int32_t delay12, uint32_t valid34, int32_t delay34, uint16_t *words,
                                       size_t words_len)
{
    static const uint16_t did_of_group[4] = {0x1E3, 0x2E2, 0x2E1, 0x1E0};
    if (words_len != 18)
        return (lampcoil_verdict){1, 0};
    if (group - 1 > 3 || frame > 511 || rate > 7 || active > 15 || (asynchronous | valid12 | valid34) > 1 ||
        (((uint32_t)delay12 + 0x2000000u) | ((uint32_t)delay34 + 0x2000000u)) > 0x3FFFFFFu)
        return (lampcoil_verdict){2, 0};
    if (asynchronous && frame)
        return (lampcoil_verdict){12, 6};
    if (0x78u >> rate & 1)
        return (lampcoil_verdict){12, 7};
    words[0] = 0x000;
    words[1] = words[2] = 0x3FF;
    words[3] = did_of_group[group - 1];
    words[4] = 0x200;
    words[5] = 0x10B;
    words[6] = value_word(frame);
    words[7] = value_word(asynchronous | rate << 1);
    words[8] = value_word(active | parity(active) << 8);
    put_delay(words + 9, valid12, delay12);
    put_delay(words + 12, valid34, delay34);
    words[15] = words[16] = 0x200;
    uint32_t sum = 0;
    for (int w = 3; w < 17; w++)
        sum += words[w];
    words[17] = value_word(sum & 511u);
    return (lampcoil_verdict){0, 0};
}
