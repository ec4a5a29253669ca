/* AES3 by hand. A subframe with even ones ends on the level that it began after, since each preamble ends as it began: an
   odd one is told by its last symbol, and turns the mask over for those after it. */
#include "hand.h"

#ifdef FORMED
static uint16_t codings[256]; /* 16 symbols of eight bits, after level 0 */
#else
static uint32_t fourteen[16384]; /* 28 symbols of 14 bits, after level 0 */
static uint8_t crcc_step[256];   /* the CRCC's register over an octet, in byte 23's order */
#endif
static uint32_t nibbles[256];    /* bit i of an octet at weight 16^i */

/* The biphase symbols of the low `count` bits, the lowest first, after level 0. */
static uint32_t symbols_of(uint32_t bits, int count)
{
    uint32_t out = 0, level = 0;
    for (int k = 0; k < count; k++) {
        uint32_t one = !level, two = one ^ (bits >> k & 1);
        out = out << 2 | one << 1 | two;
        level = two;
    }
    return out;
}

void hand_init_aes3(void)
{
#ifdef FORMED
    for (uint32_t x = 0; x < 256; x++)
        codings[x] = (uint16_t)symbols_of(x, 8);
#else
    for (uint32_t x = 0; x < 16384; x++)
        fourteen[x] = symbols_of(x, 14);
    for (uint32_t x = 0; x < 256; x++) {
        uint32_t r = x;
        for (int k = 0; k < 8; k++)
            r = r >> 1 ^ (r & 1 ? 0xB8u : 0);
        crcc_step[x] = (uint8_t)r;
    }
#endif
    for (uint32_t x = 0; x < 256; x++) {
        nibbles[x] = 0;
        for (int k = 0; k < 8; k++)
            nibbles[x] |= (x >> k & 1) << 4 * k;
    }
}

#ifdef FORMED
/* The CRCC's stages, the coefficient of x^n at weight 2^n, fed one bit at a time and handed on. */
typedef struct { uint8_t stages; } crcc;

static inline crcc crcc_fed(crcc c, uint32_t bit)
{
    uint8_t entered = (uint8_t)(c.stages ^ bit << 7);
    c.stages = (uint8_t)(entered << 1 ^ (entered >> 7) * 29);
    return c;
}

static inline crcc crcc_octet(crcc c, uint8_t octet)
{
    for (int k = 0; k < 8; k++)
        c = crcc_fed(c, octet >> k & 1u);
    return c;
}

static inline uint8_t crcc_value(crcc c)
{
    uint32_t x = c.stages;
    x = x << 4 | x >> 4;
    x = (x & 0x33) << 2 | (x >> 2 & 0x33);
    return (uint8_t)((x & 0x55) << 1 | (x >> 1 & 0x55));
}

static uint8_t crcc_of(const uint8_t *status)
{
    crcc c = {0xFF};
    for (int k = 0; k < 23; k++)
        c = crcc_octet(c, status[k]);
    return crcc_value(c);
}

/* Whether the CRCC of A is right and that of B, fed side by side. */
static void both_right(const uint8_t *side, int right[2])
{
    const uint8_t *a = side + 48, *b = side + 144;
    crcc of_a = {0xFF}, of_b = {0xFF};
    for (int k = 0; k < 23; k++) {
        of_a = crcc_octet(of_a, a[k]);
        of_b = crcc_octet(of_b, b[k]);
    }
    right[0] = crcc_value(of_a) == a[23];
    right[1] = crcc_value(of_b) == b[23];
}

/* An edit by the difference: its bits, and zeros up to byte 22, into stages that hold 0. */
static uint8_t crcc_edited(const uint8_t *status, uint32_t byte, uint32_t value)
{
    crcc c = crcc_octet((crcc){0}, (uint8_t)(status[byte] ^ value));
    for (uint32_t k = byte; k < 22; k++)
        c = crcc_octet(c, 0);
    return status[23] ^ crcc_value(c);
}
#else
static uint8_t crcc_of(const uint8_t *status)
{
    uint8_t r = 0xFF;
    for (int k = 0; k < 23; k++)
        r = crcc_step[r ^ status[k]];
    return r;
}

static void both_right(const uint8_t *side, int right[2])
{
    for (int c = 0; c < 2; c++)
        right[c] = crcc_of(side + 96 * c + 48) == side[96 * c + 71];
}

/* An edit by sealing afresh: the byte is set, and the CRCC goes over all 23 again. */
static uint8_t crcc_edited(uint8_t *status, uint32_t byte, uint32_t value)
{
    status[byte] = (uint8_t)value;
    return crcc_of(status);
}
#endif

lampcoil_verdict hand_status_edit(uint8_t *status, size_t status_len, uint32_t byte, uint32_t value)
{
    if (status_len != 24)
        return (lampcoil_verdict){1, 0};
    if (byte > 22 || value > 255)
        return (lampcoil_verdict){2, 0};
    if (crcc_of(status) != status[23])
        return (lampcoil_verdict){5, 0};
    uint8_t last = crcc_edited(status, byte, value);
    status[byte] = (uint8_t)value;
    status[23] = last;
    return (lampcoil_verdict){0, 0};
}

lampcoil_verdict hand_status_seal(uint8_t *status, size_t status_len)
{
    if (status_len != 24)
        return (lampcoil_verdict){1, 0};
    status[23] = crcc_of(status);
    return (lampcoil_verdict){0, 0};
}

static int all_ones(const uint8_t *octets)
{
    uint8_t all = 0xFF;
    for (int k = 0; k < 24; k++)
        all &= octets[k];
    return all == 0xFF;
}

static inline lampcoil_verdict verdict(uint32_t number, uint32_t place)
{
    lampcoil_verdict v = {number, place};
    return v;
}

/* The bits of a channel's samples that must be 0 under bytes 0 to 2 of its status: 20-bit use has them four bits up. */
static uint32_t bound_bits(const uint8_t *status)
{
    static const uint8_t unused[8] = {0, 4, 2, 0, 1, 0, 3, 0}; /* by bits 3 to 5 */
    uint32_t use = status[2] & 7, bits = (1u << unused[status[2] >> 3 & 7]) - 1;
    if ((status[0] & 2) != 0 || (use & 1) != 0 || use == 6)
        return 0;
    return use == 4 ? bits : bits << 4;
}

static uint32_t first_busy(const int32_t *samples, uint32_t a, uint32_t b)
{
    uint32_t busy = 0, k = 0;
    if ((a | b) == 0)
        return 384;
    for (; k < 384; k += 2)
        busy |= ((uint32_t)samples[k] & a) | ((uint32_t)samples[k + 1] & b);
    for (k = busy != 0 ? 0 : 384; k < 384; k++)
        if (((uint32_t)samples[k] & (k % 2 == 0 ? a : b)) != 0)
            break;
    return k;
}

static uint32_t first_fault(const uint8_t *side)
{
    uint8_t any = 0;
    for (int j = 0; j < 24; j++)
        any |= side[72 + j] | side[168 + j];
    if (any != 0)
        for (uint32_t k = 0; k < 384; k++)
            if ((side[96 * (k % 2) + 72 + k / 16] >> k / 2 % 8 & 1) != 0)
                return k;
    return 384;
}

static lampcoil_verdict judge(const int32_t *samples, const uint8_t *side)
{
    uint32_t fault = first_fault(side);
    if (fault < 384)
        return verdict(20, fault);
    uint32_t outside = 0;
    for (int k = 0; k < 384; k++)
        outside |= ((uint32_t)samples[k] + 0x800000u) >> 24;
    if (outside != 0)
        for (uint32_t k = 0; k < 384; k++)
            if (((uint32_t)samples[k] + 0x800000u) >> 24 != 0)
                return verdict(3, k);
    for (uint32_t c = 0; c < 2; c++)
        if ((side[96 * c + 48] & 1) == 0)
            return verdict(4, c);
    int right[2];
    both_right(side, right);
    for (uint32_t c = 0; c < 2; c++)
        if (!right[c])
            return verdict(5, c);
    for (uint32_t c = 0; c < 2; c++)
        if ((side[96 * c + 48] & 2) != 0 && !all_ones(side + 96 * c))
            return verdict(6, c);
    uint32_t k = first_busy(samples, bound_bits(side + 48), bound_bits(side + 144));
    if (k < 384)
        return verdict(18, k);
    return verdict(0, 0);
}

/* The 64 symbols of a subframe of 27 bits after level 0. */
#ifdef FORMED
/* Three codings side by side and four slots of a fourth; the last symbols of the three tell which of them to invert. */
static inline uint64_t subframe(uint32_t d, uint64_t preamble)
{
    static const uint64_t inverting[8] = {0,            0xFF,         0xFFFFFF,     0xFFFF00,
                                          0xFFFFFFFFFF, 0xFFFFFFFF00, 0xFFFF000000, 0xFFFF0000FF};
    uint32_t last = d >> 24 | (uint32_t)__builtin_parity(d) << 3;
    uint64_t u = (uint64_t)codings[d & 255] << 32 | (uint64_t)codings[d >> 8 & 255] << 16 | codings[d >> 16 & 255];
    uint64_t v = inverting[(u & 0x100010001u) * 0x80010002u >> 31 & 7];
    return preamble << 56 | ((u << 8 | codings[last] >> 8) ^ v);
}
#else
/* The last slot makes parity even: its second symbol is 0. */
static inline uint64_t subframe(uint32_t d, uint64_t preamble)
{
    uint32_t a = fourteen[d & 16383];
    uint32_t b = (fourteen[d >> 14] ^ (-(a & 1) & 0xFFFFFFFu)) >> 2;
    return preamble << 56 | (uint64_t)a << 28 | (uint64_t)b << 2 | (uint64_t)(~b & 1) << 1;
}
#endif

lampcoil_verdict hand_aes3_write(const int32_t *samples, size_t samples_len, const uint8_t *side, size_t side_len, uint32_t level,
                                 uint8_t *line, size_t line_len)
{
    if (samples_len != 384 || side_len != 192 || line_len != 3072)
        return verdict(1, 0);
    if (level > 1)
        return verdict(2, 0);
    lampcoil_verdict v = judge(samples, side);
    if (v.number != 0)
        return v;
    uint64_t mask = 0 - (uint64_t)level, first = 0xE8;
    for (int j = 0; j < 24; j++) {
        uint32_t a = nibbles[side[j]] | nibbles[side[24 + j]] << 1 | nibbles[side[48 + j]] << 2;
        uint32_t b = nibbles[side[96 + j]] | nibbles[side[120 + j]] << 1 | nibbles[side[144 + j]] << 2;
        for (int i = 0; i < 8; i++, a >>= 4, b >>= 4, samples += 2, line += 16) {
            store_be64(line, subframe(((uint32_t)samples[0] & 0xFFFFFFu) | (a & 7) << 24, first) ^ mask);
            store_be64(line + 8, subframe(((uint32_t)samples[1] & 0xFFFFFFu) | (b & 7) << 24, 0xE4) ^ mask);
            first = 0xE2;
        }
    }
    return v;
}

#define FIRSTS 0x00AAAAAAAAAAAAAAu /* the first symbol of each slot */

/* The 28 bits of a subframe from its changes, slot 4 lowest. */
static inline uint32_t bits_of(uint64_t change)
{
    uint64_t m = __builtin_bswap64(change << 8);
    m = (m >> 6 & 0x01010101010101u) | (m >> 3 & 0x02020202020202u) | (m & 0x04040404040404u) | (m << 3 & 0x08080808080808u);
    m = (m | m >> 4) & 0x00FF00FF00FF00FFu;
    m = (m | m >> 8) & 0x0000FFFF0000FFFFu;
    return (uint32_t)(m | m >> 16);
}

static inline uint8_t column(uint32_t x)
{
    x &= 0x11111111u;
    x = (x | x >> 3) & 0x03030303u;
    x = (x | x >> 6) & 0x000F000Fu;
    return (uint8_t)(x | x >> 12);
}

static lampcoil_aes3_read_answer broken(uint64_t x, uint64_t preamble, uint32_t place)
{
    lampcoil_aes3_read_answer r = {x >> 56 != preamble ? 7 : 8, place, 0, 0};
    return r;
}

/* 1 for a subframe with odd ones: it leaves level 1. */
static inline uint32_t fault_of(uint32_t bits, uint64_t symbols)
{
#ifdef FORMED
    (void)symbols;
    return (uint32_t)__builtin_parity(bits);
#else
    (void)bits;
    return (uint32_t)(symbols & 1);
#endif
}

lampcoil_aes3_read_answer hand_aes3_read(const uint8_t *line, size_t line_len, int32_t *samples, size_t samples_len, uint8_t *side,
                                         size_t side_len)
{
    lampcoil_aes3_read_answer r = {0, 0, 0, 0};
    int32_t kept[384];
    uint8_t table[192];
    if (line_len != 3072 || samples_len != 384 || side_len != 192) {
        r.number = 1;
        return r;
    }
    uint64_t mask = (uint64_t)(line[0] >> 7) - 1, preamble = 0xE8;
    for (uint32_t j = 0; j < 24; j++) {
        uint32_t tail[2] = {0, 0};
        for (uint32_t i = 0; i < 16; i++) {
            uint64_t x = load_be64(line + 128 * j + 8 * i) ^ mask, change = x ^ x >> 1;
            if (((x >> 56 ^ preamble) | (~change & FIRSTS)) != 0)
                return broken(x, preamble, 16 * j + i);
            uint32_t d = bits_of(change), fault = fault_of(d, x);
            kept[16 * j + i] = (int32_t)(d << 8) >> 8;
            tail[i & 1] |= ((d >> 24 & 7) | fault | fault << 3) << 4 * (i >> 1);
            mask ^= 0 - (x & 1);
            preamble = i & 1 ? 0xE2 : 0xE4;
        }
        for (int c = 0; c < 2; c++) {
            for (uint32_t k = 0; k < 4; k++)
                table[96 * (uint32_t)c + 24 * k + j] = column(tail[c] >> k);
        }
    }
    int right[2];
    both_right(table, right);
    r.crcc_a = (uint32_t)right[0];
    r.crcc_b = (uint32_t)right[1];
    memcpy(samples, kept, sizeof kept);
    memcpy(side, table, sizeof table);
    return r;
}

/* The word of 64 symbols that begins at an octet; beyond the end, 0. */
static uint64_t word_at(const uint8_t *line, size_t len, size_t at)
{
    if (at + 8 <= len)
        return load_be64(line + at);
    uint64_t x = 0;
    for (size_t k = at; k < len; k++)
        x |= (uint64_t)line[k] << (56 - 8 * (k - at));
    return x;
}

/* The changes of level at 64 symbols, given their word and the one before it. */
static inline uint64_t changes(uint64_t word, uint64_t before)
{
    return word ^ (word >> 1 | before << 63);
}

/* The number of ones in each octet of a word. */
static inline uint64_t ones_by_octet(uint64_t x)
{
    x -= x >> 1 & 0x5555555555555555;
    x = (x & 0x3333333333333333) + (x >> 2 & 0x3333333333333333);
    return (x + (x >> 4)) & 0x0F0F0F0F0F0F0F0F;
}

/* Of 64 candidates those that fit, given the changes at them, at the word after them and at the one after that. Symbol
   k is compared at those whose first k symbols were the ones required; the symbols compared are added up by octets. */
static inline uint64_t fitting(uint64_t candidates, const uint64_t change[3], uint32_t *compared)
{
    /* the changes that make Z, then those that make Y, the first highest */
    const uint32_t due = 0x9C96;
    uint64_t sum = 0;
    for (uint32_t k = 0; k < 16 && candidates != 0; k++) {
        const uint64_t *now = change + k / 8;
        uint64_t step = k % 8 == 0 ? now[0] : now[0] << k % 8 | now[1] >> (64 - k % 8);
        sum += ones_by_octet(candidates);
        candidates &= due >> (15 - k) & 1 ? step : ~step;
    }
    sum = (sum & 0x00FF00FF00FF00FF) + (sum >> 8 & 0x00FF00FF00FF00FF);
    *compared += (uint32_t)(sum * 0x0001000100010001 >> 48);
    return candidates;
}

lampcoil_aes3_start hand_aes3_find(const uint8_t *line, size_t line_len)
{
    lampcoil_aes3_start r = {0, 0, 0, 0};
    if (line_len > 8192) {
        r.number = 1;
        return r;
    }
    uint64_t last = word_at(line, line_len, 8), word = word_at(line, line_len, 0);
    uint64_t change[3] = {word ^ word >> 1, changes(last, word), 0};
    /* 64 candidates at a time; symbol 0 is none: it has no symbol before it. Y stands one word after its Z. */
    for (size_t at = 0; at + 9 <= line_len; at += 8) {
        size_t left = 8 * (line_len - at) - 71;
        uint64_t candidates = at == 0 ? UINT64_MAX >> 1 : UINT64_MAX;
        uint32_t before = r.compared;
        if (left < 64)
            candidates &= ~(UINT64_MAX >> left);
        word = word_at(line, line_len, at + 16);
        change[2] = changes(word, last);
        uint64_t found = fitting(candidates, change, &r.compared);
        if (found != 0) {
            uint32_t first = (uint32_t)__builtin_clzll(found);
            r.compared = before;
            fitting(candidates & ~(UINT64_MAX >> first >> 1), change, &r.compared);
            r.position = (uint32_t)(8 * at) + first;
            return r;
        }
        change[0] = change[1];
        change[1] = change[2];
        last = word;
    }
    r.number = 17;
    return r;
}

/* The search as the library must make it: candidate by candidate, each left at its first symbol that differs. */
lampcoil_aes3_start hand_aes3_find_by_candidate(const uint8_t *line, size_t line_len)
{
    /* the 16 places after a candidate and what must stand there, after level 0 */
    static const uint8_t due[16] = {1, 1, 1, 0, 1, 0, 0, 0, 1, 1, 1, 0, 0, 1, 0, 0};
    lampcoil_aes3_start r = {0, 0, 0, 0};
    if (line_len > 8192) {
        r.number = 1;
        return r;
    }
    size_t symbols = 8 * line_len;
    for (size_t p = 1; p + 72 <= symbols; p++) {
        size_t k = 0;
        for (; k < 16; k++) {
            size_t start = k < 8 ? p : p + 64, at = start + k % 8, last = start - 1;
            r.compared++;
            if (((line[at / 8] >> (7 - at % 8) ^ line[last / 8] >> (7 - last % 8)) & 1) != due[k])
                break;
        }
        if (k == 16) {
            r.position = (uint32_t)p;
            return r;
        }
    }
    r.number = 17;
    return r;
}
