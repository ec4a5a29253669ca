/* HD packets by hand. The check octets of all eight lanes are a sum of octets, each times a constant that copies it
   to the octets it counts in; a lane's syndrome of six bits leads to its place by a table. */
#include "hand.h"

/* packing a few octets into vector registers costs more than it saves here */
#if defined(__GNUC__) && !defined(__clang__)
#pragma GCC optimize("no-tree-vectorize")
#endif

static const uint16_t did_of_group[4] = {0x2E7, 0x1E6, 0x1E5, 0x2E4};

static uint64_t copies[24];      /* octet n of copies[k] is 1 if data place k counts in the coefficient of x^n */
static uint16_t with_parity[256]; /* an octet with b8 and b9 */
static uint8_t place_of[64];     /* the one place of a syndrome; 30 for none, 31 for syndrome 0 */

void hand_init_hd(void)
{
    uint32_t power = 1;
    memset(place_of, 30, sizeof place_of);
    place_of[0] = 31;
    for (uint32_t n = 0; n < 6; n++)
        place_of[1u << n] = (uint8_t)(24 + n);
    for (int n = 1; n <= 29; n++) {   /* x^n modulo the generator */
        power = power << 1 ^ (power & 32 ? 0x6Fu : 0);
        if (n < 6)
            continue;
        copies[29 - n] = 0;
        for (int k = 0; k < 6; k++)
            copies[29 - n] |= (uint64_t)(power >> k & 1) << 8 * k;
        place_of[power] = (uint8_t)(29 - n);
    }
    for (uint32_t x = 0; x < 256; x++) {
        uint32_t y = (x ^ x >> 4) & 15;
        with_parity[x] = (uint16_t)(x | (0x6996u >> y & 1 ? 0x100u : 0x200u));
    }
}

/* An octet with b8 and b9. */
static inline uint16_t ten_bits(uint32_t octet)
{
#ifdef FORMED
    return (uint16_t)(octet | 0x200u >> __builtin_parity(octet));
#else
    return with_parity[octet];
#endif
}

static inline lampcoil_verdict verdict(uint32_t number, uint32_t place)
{
    lampcoil_verdict v = {number, place};
    return v;
}

/* The check octets for words 0 to 23, x^0 lowest. */
static inline uint64_t checks(const uint16_t *words)
{
    uint64_t sum = 0;
    for (int k = 0; k < 24; k++)
        sum ^= (words[k] & 0xFFu) * copies[k];
    return sum;
}

static inline uint64_t check_words(const uint16_t *words)
{
    uint64_t sum = 0;
    for (int n = 0; n < 6; n++)
        sum |= (uint64_t)(words[24 + n] & 0xFFu) << 8 * n;
    return sum;
}

static inline uint16_t last_word(uint32_t sum)
{
    sum &= 0x1FF;
    return (uint16_t)(sum | (~sum << 1 & 0x200));
}

lampcoil_verdict hand_hd_write(uint32_t group, uint32_t dbn, uint32_t phase, uint32_t ck12, uint32_t z1, uint32_t z2,
                               const uint32_t *bodies, size_t bodies_len, uint16_t *words, size_t words_len)
{
    if (bodies_len != 4 || words_len != 31)
        return verdict(1, 0);
    if (group - 1 > 3 || dbn > 255 || phase > 4095 || (ck12 | z1 | z2) > 1)
        return verdict(2, 0);
    if (odd(bodies[0]) | odd(bodies[1]) | odd(bodies[2]) | odd(bodies[3]))
        return verdict(9, odd(bodies[0]) ? 0 : odd(bodies[1]) ? 1 : odd(bodies[2]) ? 2 : 3);
    for (uint32_t n = 0; n < 4; n++)
        if ((bodies[n] & 15) != 0)
            return verdict(12, n);
    words[0] = 0;
    words[1] = words[2] = 0x3FF;
    words[3] = did_of_group[group - 1];
    words[4] = ten_bits(dbn);
    words[5] = 0x218;
    words[6] = ten_bits(phase & 255);
    words[7] = ten_bits(phase >> 8 | ck12 << 4);
    const uint32_t z[4] = {z1 << 3, 0, z2 << 3, 0};
    for (int n = 0; n < 4; n++) {
        uint32_t x = bodies[n] | z[n];
        words[8 + 4 * n] = ten_bits(x & 255);
        words[9 + 4 * n] = ten_bits(x >> 8 & 255);
        words[10 + 4 * n] = ten_bits(x >> 16 & 255);
        words[11 + 4 * n] = ten_bits(x >> 24);
    }
    uint64_t check = checks(words);
    for (int n = 0; n < 6; n++)
        words[24 + n] = ten_bits(check >> 8 * n & 255);
    uint32_t sum = 0;
    for (int w = 3; w < 30; w++)
        sum += words[w];
    words[30] = last_word(sum);
    return verdict(0, 0);
}

static uint32_t group_of(uint32_t did)
{
    return did == 0x2E7 ? 1 : did == 0x1E6 ? 2 : did == 0x1E5 ? 3 : did == 0x2E4 ? 4 : 0;
}

/* The first refusal of a packet that the quick test has turned away. */
static lampcoil_verdict broken(const uint16_t *words, const uint32_t *bodies)
{
    static const uint16_t head[6] = {0, 0x3FF, 0x3FF, 0, 0, 0x218};
    static const uint16_t zeros[21] = {[7] = 0xE0, [8] = 7, [12] = 15, [16] = 7, [20] = 15};
    uint32_t sum = 0;
    for (uint32_t w = 0; w < 31; w++)
        if (words[w] > 1023)
            return verdict(14, w);
    for (uint32_t w = 0; w < 6; w++)
        if (w == 3 ? group_of(words[w]) == 0 : w != 4 && words[w] != head[w])
            return verdict(13, w);
    for (uint32_t w = 3; w < 30; w++) {
        if (words[w] != ten_bits(words[w] & 255))
            return verdict(14, w);
        sum += words[w];
    }
    if (words[30] != last_word(sum))
        return verdict(16, 30);
    uint64_t s = checks(words) ^ check_words(words);
    for (uint32_t lane = 0; lane < 8; lane++)
        if ((s >> lane & 0x010101010101u) != 0)
            return verdict(15, lane);
    for (uint32_t w = 7; w < 21; w++)
        if ((words[w] & zeros[w]) != 0)
            return verdict(12, w);
    for (uint32_t n = 0; n < 4; n++)
        if (odd(bodies[n]))
            return verdict(9, n);
    return verdict(0, 0);
}

lampcoil_hd_read_answer hand_hd_read(const uint16_t *words, size_t words_len, uint32_t *bodies, size_t bodies_len)
{
    lampcoil_hd_read_answer r = {0, 0, 0, 0, 0, 0, 0, 0};
    uint32_t bad, sum = 0, body[4];
    if (words_len != 31 || bodies_len != 4) {
        r.number = 1;
        return r;
    }
    uint32_t group = group_of(words[3]);
    bad = words[0] | (words[1] ^ 0x3FFu) | (words[2] ^ 0x3FFu) | (words[5] ^ 0x218u) | (group == 0);
    bad |= (words[7] & 0xE0u) | ((words[8] | words[16]) & 7u) | ((words[12] | words[20]) & 15u);
    for (int w = 3; w < 30; w++) {
        bad |= words[w] ^ ten_bits(words[w] & 255);
        sum += words[w];
    }
    bad |= words[30] ^ last_word(sum);
    for (int n = 0; n < 4; n++) {
        body[n] = (words[8 + 4 * n] & 0xF0u) | (words[9 + 4 * n] & 255u) << 8 | (words[10 + 4 * n] & 255u) << 16 |
                  (words[11 + 4 * n] & 255u) << 24;
        bad |= odd(body[n]);
    }
    if (bad != 0 || checks(words) != check_words(words)) {
        lampcoil_verdict v = broken(words, body);
        r.number = v.number;
        r.place = v.place;
        return r;
    }
    memcpy(bodies, body, sizeof body);
    r.group = group;
    r.dbn = words[4] & 255;
    r.phase = (words[6] & 255u) | (words[7] & 15u) << 8;
    r.ck12 = words[7] >> 4 & 1;
    r.z1 = words[8] >> 3 & 1;
    r.z2 = words[16] >> 3 & 1;
    return r;
}

lampcoil_hd_repair_answer hand_hd_repair(const uint16_t *words, size_t words_len, uint16_t *repaired, size_t repaired_len)
{
    lampcoil_hd_repair_answer r = {0, 0, 0};
    uint16_t octet[32] = {0};   /* places 30 and 31 take the changes that are none */
    uint32_t above = 0, sum = 0, lanes = 0;
    if (words_len != 31 || repaired_len != 31) {
        r.number = 1;
        return r;
    }
    for (int w = 0; w < 31; w++)
        above |= words[w];
    for (uint32_t w = 0; above > 1023 && w < 31; w++)
        if (words[w] > 1023) {
            r.number = 14;
            r.place = w;
            return r;
        }
    memcpy(octet, words, 30 * sizeof octet[0]);
    uint64_t s = checks(words) ^ check_words(words);
    for (uint32_t lane = 0; s != 0 && lane < 8; lane++) {
        uint32_t place = place_of[(s >> lane & 0x010101010101u) * 0x1020408102000u >> 48 & 63];
        if (place == 30) {
            r.number = 15;
            r.place = lane;
            return r;
        }
        octet[place] ^= (uint16_t)(1u << lane);
        lanes += place != 31;
    }
    for (uint32_t w = 0; w < 3; w++)
        if ((octet[w] & 255) != (w == 0 ? 0 : 255)) {
            r.number = 13;
            r.place = w;
            return r;
        }
    for (int w = 3; w < 30; w++) {
        repaired[w] = ten_bits(octet[w] & 255);
        sum += repaired[w];
    }
    repaired[0] = 0;
    repaired[1] = repaired[2] = 0x3FF;
    repaired[30] = last_word(sum);
    r.lanes = lanes;
    return r;
}
