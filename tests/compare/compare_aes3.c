/* Comparing the AES3 writer, reader, the search for a block start, and biphase by octet. */
#include "compare.h"
#include "spoil.h"
#include <string.h>

static int32_t samples[400];
static uint8_t side[208], line[3100];

static void good_block(void)
{
    for (int k = 0; k < 400; k++)
        samples[k] = once_in(50) ? (once_in(2) ? 8388607 : -8388608) : (int32_t)below(16777216) - 8388608;
    random_octets(side, sizeof side);
    for (int channel = 0; channel < 2; channel++) {
        memset(side + 96 * channel + 72, 0, 24); /* E is empty */
        random_status(side + 96 * channel + 48);
        if (second_bit(side[96 * channel + 48], 1) == 1)
            memset(side + 96 * channel, 0xFF, 24);
    }
    for (int k = 0; k < 384; k++) /* as long as declared, and now and then a bit that may be below */
        samples[k] = second_shortened(side + 96 * (k % 2) + 48, samples[k]);
    if (once_in(4))
        samples[below(384)] |= 1 << below(8);
}

/* One thing that the writer refuses, or nothing. */
static void spoil_block(void)
{
    static const int32_t outside[] = {8388608, -8388609, INT32_MAX, INT32_MIN, 16777215};
    uint8_t *channel = side + 96 * below(2);
    uint32_t at = below(384);
    switch (below(9)) {
    case 0:
        samples[at] = outside[below(5)];
        break;
    case 4: /* an E, at either end or anywhere */
        channel[72 + (once_in(3) ? 0 : once_in(2) ? 23 : at % 24)] |= (uint8_t)second_weight((int)below(8));
        break;
    case 1: /* consumer use, sealed or not */
        channel[48] &= 0xFE;
        if (once_in(2))
            second_status_seal(channel + 48, 24);
        break;
    case 2:
        channel[48 + at % 24] ^= (uint8_t)second_weight((int)below(8));
        break;
    case 3: /* other purposes with one V of 0 */
        memset(channel, 0xFF, 24);
        if (once_in(2))
            channel[at % 24] ^= (uint8_t)second_weight((int)below(8));
        else
            channel[at % 2 == 0 ? 0 : 23] ^= (uint8_t)(once_in(2) ? 0x01 : 0x80);
        channel[48] |= 2;
        second_status_seal(channel + 48, 24);
        break;
    default:
        break;
    }
}

static void aes3_write(void)
{
    good_block();
    for (uint32_t k = below(3); k > 0; k--)
        spoil_block();
    size_t n = any_length(384), s = any_length(192), m = any_length(3072);
    uint32_t level = any_number(1);
    begin("aes3_write");
    lent p = lend_in("samples", samples, n, 4), q = lend_in("side", side, s, 1), r = lend_out("line", m, 1);
    lampcoil_verdict a = lampcoil_aes3_write(p.library, p.elements, q.library, q.elements, level, r.library, r.elements);
    second_verdict b = second_aes3_write(p.second, p.elements, q.second, q.elements, level, r.second, r.elements);
    END(a, b);
}

static void biphase_table_of(size_t n)
{
    begin("biphase_table");
    lent t = lend_out("table", n, 2);
    lampcoil_verdict a = lampcoil_biphase_table(t.library, t.elements);
    second_verdict b = second_biphase_table(t.second, t.elements);
    END(a, b);
}

static void biphase_table(void)
{
    biphase_table_of(256);
}

/* A line whose status may be anything: written with good statuses, then C bits changed in pairs, so that parity
   holds. */
static void good_line(void)
{
    good_block();
    second_aes3_write(samples, 384, side, 192, below(2), line, 3072);
}

static void damage_line(void)
{
    uint32_t subframe = below(384), one = 4 + below(27), two;
    switch (below(7)) {
    case 0: /* one symbol */
        spoil_flip(line, below(24576));
        break;
    case 1: /* a preamble symbol */
        spoil_flip(line, 64 * subframe + below(8));
        break;
    case 2: /* an odd body */
        spoil_slot(line, subframe, one, 24576);
        break;
    case 3: /* two bits of one subframe: parity holds, and only the CRCC may tell */
        two = one + 1 + below(31 - one);
        spoil_slot(line, subframe, one, 64 * subframe + 2 * two + 1);
        break;
    case 4: /* the other polarity from a subframe on */
        for (uint32_t k = 64 * subframe; k < 24576; k++)
            spoil_flip(line, k);
        break;
    case 5: /* C and P of one subframe */
        spoil_slot(line, subframe, 30, 64 * subframe + 63);
        break;
    default: /* a slot that does not begin with a change: both its symbols and all after them turn over */
        one = once_in(4) ? 31 : one;
        for (uint32_t k = 64 * subframe + 2 * one; k < 24576; k++)
            spoil_flip(line, k);
        break;
    }
}

static void aes3_read(void)
{
    random_octets(line, sizeof line);
    if (!once_in(40))
        good_line();
    for (uint32_t k = below(3); k > 0; k--)
        damage_line();
    if (once_in(16)) /* every body odd */
        for (uint32_t k = 0; k < 384; k++)
            spoil_slot(line, k, 4 + below(28), 24576);
    if (once_in(4))
        for (int k = 0; k < 3072; k++)
            line[k] = (uint8_t)(255 - line[k]);
    size_t n = any_length(384), s = any_length(192), m = any_length(3072);
    begin("aes3_read");
    lent p = lend_in("line", line, m, 1), q = lend_out("samples", n, 4), r = lend_out("side", s, 1);
    lampcoil_aes3_read_answer a = lampcoil_aes3_read(p.library, p.elements, q.library, q.elements, r.library, r.elements);
    second_aes3_read_answer b = second_aes3_read(p.second, p.elements, q.second, q.elements, r.second, r.elements);
    END(a, b);
}

/* Puts a preamble with its level before it at a symbol of a stretch; pattern of nine, the first the symbol before. */
static void plant(uint8_t *octets, size_t n, uint32_t at, uint32_t pattern, int inverted)
{
    for (uint32_t k = 0; k < 9; k++) {
        uint32_t bit = second_bit(pattern, 8 - (int)k) ^ (uint32_t)inverted;
        if (at + k < 8 * n && (uint32_t)second_symbol(octets, at + k) != bit)
            spoil_flip(octets, at + k);
    }
}

static uint8_t stretch[8400];

static void fill_stretch(void)
{
    switch (below(3)) {
    case 0:
        random_octets(stretch, sizeof stretch);
        break;
    case 1:
        memset(stretch, once_in(2) ? 0xCC : 0, sizeof stretch);
        break;
    default: /* all candidates go far: preambles without their partner */
        memset(stretch, 0xE8, sizeof stretch);
        break;
    }
}

/* Answer, and the number of symbols compared. */
static void find_in(size_t n)
{
    begin("aes3_find");
    lent in = lend_in("line", stretch, n, 1);
    lampcoil_aes3_start a = lampcoil_aes3_find(in.library, in.elements);
    second_aes3_start b = second_aes3_find(in.second, in.elements);
    END(a, b);
}

static void aes3_find(size_t n)
{
    fill_stretch();
    for (uint32_t k = n < 10 ? 0 : below(3); k > 0; k--) {
        uint32_t at = below(8 * (uint32_t)n - 72);
        if (once_in(4)) /* the end cuts the second preamble */
            at = 8 * (uint32_t)n - 72 + below(8);
        int first = once_in(2), other = once_in(8), second = once_in(2);
        plant(stretch, n, at, 0x0E8, first);
        plant(stretch, n, at + 64, other ? 0x0E2 : 0x0E4, second);
    }
    find_in(n);
}

/* A start at every candidate of a short line, the last among them; and with each of its sixteen symbols turned over. */
static void every_candidate(size_t n)
{
    for (uint32_t p = 1; p + 72 <= 8 * n; p++)
        for (uint32_t k = 0; k <= 16; k++) {
            fill_stretch();
            plant(stretch, n, p - 1, 0x0E8, once_in(2));
            plant(stretch, n, p + 63, 0x0E4, once_in(2));
            if (k < 16)
                spoil_flip(stretch, k < 8 ? p + k : p + 56 + k);
            find_in(n);
        }
}

/* A start at the last candidate, and before it a Z with no Y behind it, or with X. */
static void false_z(size_t n)
{
    uint32_t last = 8 * (uint32_t)n - 72;
    for (uint32_t p = 1; p < last; p++) {
        memset(stretch, 0, sizeof stretch);
        plant(stretch, n, p - 1, 0x0E8, once_in(2));
        if (once_in(2))
            plant(stretch, n, p + 63, 0x0E2, once_in(2));
        plant(stretch, n, last - 1, 0x0E8, once_in(2));
        plant(stretch, n, last + 63, 0x0E4, once_in(2));
        find_in(n);
    }
}

/* A line of n octets, from a position on, into a block of so many. */
static void align_from(size_t n, uint32_t position, size_t octets)
{
    random_octets(stretch, n < sizeof stretch ? n : sizeof stretch);
    begin("aes3_align");
    lent in = lend_in("line", stretch, n, 1);
    lent out = lend_out("block", octets, 1);
    lampcoil_verdict a = lampcoil_aes3_align(in.library, in.elements, position, out.library, out.elements);
    second_verdict b = second_aes3_align(in.second, in.elements, position, out.second, out.elements);
    END(a, b);
}

static void aes3_align(void)
{
    size_t n = once_in(8) ? 3068 + below(8) : 3072 + below(5121);
    uint32_t last = n < 3072 ? 0 : (uint32_t)(8 * n) - 24576;
    uint32_t position = once_in(4) ? last : once_in(8) ? last + 1 + below(9) : once_in(8) ? draw() : below(last + 1);
    align_from(n, position, once_in(16) ? 3071 + 2 * below(2) : 3072);
}

/* Every position of a line that is some octets longer than a block, and some past the last. */
static void every_position(void)
{
    for (uint32_t p = 0; p < 8 * 5 + 12; p++)
        align_from(3077, p, 3072);
    for (size_t n = 8190; n < 8195; n++)
        align_from(n, 8191 * 8 - 24576, 3072);
    align_from(3072, UINT32_MAX, 3072); /* a sum that would wrap in 32 bits */
    align_from(3072, UINT32_MAX - 24575, 3072);
}

static void aes3_find_in_some(void)
{
    aes3_find(9 + below(120));
}

void compare_aes3(uint32_t cases)
{
    static const int of_write[] = {0, 1, 2, 3, 4, 5, 6, 20, -1}, of_read[] = {0, 1, 7, 8, -1};
    for (uint32_t k = 0; k < cases; k += 16) {
        aes3_write();
        aes3_read();
    }
    at_the_edges(aes3_write);
    at_the_edges(aes3_read);
    must_have_seen("aes3_write", of_write);
    must_have_seen("aes3_read", of_read);
}

void compare_biphase(uint32_t cases)
{
    static const int of_table[] = {0, 1, -1};
    (void)cases;                     /* nothing here is drawn as often as it is asked */
    for (size_t n = 0; n < 520; n++) /* every entry where there are 256 of them, and nothing at any other length */
        biphase_table_of(n);
    at_the_edges(biphase_table);
    must_have_seen("biphase_table", of_table);
}

void compare_hunt(uint32_t cases)
{
    static const int of_find[] = {0, 1, 17, -1};
    for (uint32_t k = 0; k < cases; k += 4)
        aes3_find(once_in(300) ? 8190 + below(6) : once_in(50) ? 3072 : once_in(4) ? 9 + below(4) : below(120));
    for (size_t n = 0; n < 12; n++)
        for (int k = 0; k < 12; k++)
            aes3_find(n);
    for (size_t n = 9; n < 19; n++)
        every_candidate(n);
    for (size_t n = 10; n < 30; n += 3)
        false_z(n);
    for (size_t n = 8189; n < 8196; n++)
        aes3_find(n);
    at_the_edges(aes3_find_in_some);
    must_have_seen("aes3_find", of_find);
}

void compare_align(uint32_t cases)
{
    static const int of_align[] = {0, 1, 2, -1};
    every_position();
    for (uint32_t k = 0; k < cases; k += 32)
        aes3_align();
    at_the_edges(aes3_align);
    must_have_seen("aes3_align", of_align);
}
