/* What the trial program trial_carriers must print, by the second program: calls with known answers, published vectors,
   and carriers that are changed in one place, each place in its turn. `make expected` writes its output. */
#include "second.h"
#include <stdio.h>
#include <string.h>

/* ---- sums that every octet counts in by its place */

static unsigned with(unsigned sum, unsigned x)
{
    return (sum * 31 + x) % 65536;
}

static unsigned sum_octets(const uint8_t *octets, size_t n)
{
    unsigned sum = 0;
    for (size_t k = 0; k < n; k++)
        sum = with(sum, octets[k]);
    return sum;
}

static unsigned sum_words(const uint16_t *words, size_t n)
{
    unsigned sum = 0;
    for (size_t k = 0; k < n; k++)
        sum = with(sum, words[k]);
    return sum;
}

/* ---- bodies, lanes, status */

static void body(int32_t sample, uint32_t v)
{
    second_body a = second_body_write(sample, v, 0, 0);
    printf("body %u %u %u\n", a.number, a.place, a.body);
}

static void lane(uint32_t x)
{
    second_lane a = second_lane_repair(x);
    printf("lane %u %u %u\n", a.number, a.place, a.lane);
}

static void seal(uint8_t byte0, uint8_t byte1, uint8_t byte4)
{
    uint8_t status[24] = {byte0, byte1, 0, 0, byte4};
    second_verdict v = second_status_seal(status, 24);
    printf("seal %u %u %u\n", v.number, v.place, status[23]);
}

static void small(void)
{
    body(8388607, 0);
    body(8388608, 0);
    body(-8388608, 0);
    body(-8388609, 0);
    body(8388608, 2);
    lane(0);
    lane(3);
    lane(536870912);
    lane(1073741824);
    seal(0x3D, 0x02, 0x02);
    seal(0x01, 0, 0);
}

/* ---- AES3 */

static int32_t samples[384];
static uint8_t side[192], line[8193];

static void write_block(uint32_t level)
{
    second_verdict v = second_aes3_write(samples, 384, side, 192, level, line, 3072);
    printf("write %u %u %u\n", v.number, v.place, sum_octets(line, 3072));
}

static void read_block(size_t n)
{
    int32_t back[384];
    uint8_t table[192];
    memset(table, 7, sizeof table);
    second_aes3_read_answer a = second_aes3_read(line, n, back, 384, table, 192);
    printf("read %u %u", a.number, a.place);
    if (a.number == 0)
        printf(" %u %u", a.crcc_a, a.crcc_b);
    printf(" %u\n", sum_octets(table, 192));
}

static void fill_side(uint8_t a, uint8_t crcc_a, uint8_t b, uint8_t crcc_b)
{
    memset(side, 0, sizeof side);
    side[48] = a;
    side[71] = crcc_a;
    side[144] = b;
    side[167] = crcc_b;
}

static void block(int32_t last, uint8_t a, uint8_t crcc_a, uint8_t b, uint8_t crcc_b, uint32_t level)
{
    memset(samples, 0, sizeof samples);
    memset(line, 5, sizeof line);
    samples[383] = last;
    fill_side(a, crcc_a, b, crcc_b);
    write_block(level);
    read_block(3072);
}

static void blocks(void)
{
    block(8388607, 1, 0x32, 1, 0x32, 0);
    block(-8388608, 1, 0x32, 1, 0x32, 1);
    block(8388608, 1, 0x32, 1, 0x32, 0);
    block(-8388609, 0, 0, 0, 0, 2);
    block(8388608, 0, 0, 0, 0, 0);
    block(0, 0, 0, 0, 0, 0);
    block(0, 1, 0, 0, 0, 0);
    block(0, 3, 0, 1, 0, 0);
    block(0, 3, 0x47, 1, 0, 0);
    block(0, 3, 0x47, 3, 0x47, 0);
    block(0, 1, 0x32, 3, 0x47, 0);
}

static void flip(unsigned symbol)
{
    second_put(line, symbol, !second_symbol(line, symbol));
}

/* From the last symbol of each sixteenth subframe on, the line turns over, and stays so: one odd body more each time. */
static void odd_bodies(void)
{
    for (unsigned k = 0; k < 24; k++) {
        for (unsigned symbol = 1024 * k + 63; symbol < 24576; symbol++)
            flip(symbol);
        read_block(3072);
    }
}

/* E of frame 191 of A; of frame 0 of B as well; of frame 0 of A as well, with a level that is no level and with one. */
static void tables_with_faults(void)
{
    fill_side(1, 0x32, 1, 0x32);
    side[95] = 128;
    write_block(0);
    side[168] = 1;
    write_block(0);
    side[72] = 1;
    write_block(2);
    write_block(1);
}

/* The first symbol of a preamble, the first of slot 31 and the last, of every subframe; odd bodies; tables with E set; a
   line that is one octet short. */
static void damaged(void)
{
    static const unsigned at[3] = {0, 62, 63};
    for (int k = 0; k < 384; k++)
        samples[k] = 1;
    fill_side(1, 0x32, 1, 0x32);
    write_block(0);
    for (unsigned k = 0; k < 1152; k++) {
        flip(64 * (k / 3) + at[k % 3]);
        read_block(3072);
        flip(64 * (k / 3) + at[k % 3]);
    }
    odd_bodies();
    tables_with_faults();
    read_block(3071);
}

static void find(const uint8_t *from, size_t n)
{
    second_aes3_start a = second_aes3_find(from, n);
    printf("find %u %u %u %u\n", a.number, a.place, a.position, a.compared);
}

/* A start behind an octet, and each symbol changed. */
static void hunts(void)
{
    memset(line, 0xCC, 18);
    line[0] = 0;
    line[1] = 0xE8;
    line[9] = 0xE4;
    find(line, 18);
    find(line, 10);
    find(line, 9);
    find(line + 1, 17);
    for (unsigned k = 0; k < 144; k++) {
        flip(k);
        find(line, 18);
        flip(k);
    }
    memset(line, 0, sizeof line);
    find(line, 8193);
    find(line, 8192);
    find(line, 0);
}

/* ---- MADI */

static void write_frame(uint32_t channels, const uint32_t *words, size_t n, size_t commands, uint32_t level, size_t octets)
{
    static const uint8_t list[256] = {[1] = 1, [2] = 15, [200] = 8};
    second_verdict v = second_madi_write(channels, words, n, list, commands, level, line, octets);
    printf("frame %u %u %u\n", v.number, v.place, sum_octets(line, octets));
}

static void read_frame(uint32_t channels, uint32_t level, uint32_t bits, size_t octets)
{
    uint32_t words[64];
    uint8_t commands[255];
    for (int k = 0; k < 64; k++)
        words[k] = 7;
    memset(commands, 9, sizeof commands);
    second_madi_read_answer a = second_madi_read(channels, level, bits, line, octets, words, channels, commands, 255);
    printf("units %u %u", a.number, a.place);
    if (a.number == 0)
        printf(" %u %u", a.active, a.commands);
    printf(" %u %u %u %u %u\n", words[0], words[channels - 1], commands[1], commands[2], sum_octets(commands, 255));
}

/* The link coding example of BS.1873, annex: its first 40 symbols. */
static void annex(void)
{
    static const int set[] = {4, 6, 9, 11, 12, 13, 14, 15, 20, 21, 26, 27};
    uint32_t word = 0;
    for (size_t k = 0; k < sizeof set / sizeof set[0]; k++)
        word += second_weight(set[k]);
    memset(line, 5, sizeof line);
    write_frame(56, &word, 1, 1, 0, 640);
    printf("annex %u %u %u %u %u\n", line[0], line[1], line[2], line[3], line[4]);
}

/* 255 commands and 256, to write and to read; no word to write; no bits to read. */
static void counts(void)
{
    uint32_t words[64] = {0};
    memset(line, 5, sizeof line);
    write_frame(64, words, 64, 255, 1, 639);
    read_frame(64, 1, 5110, 639);
    write_frame(64, words, 64, 256, 1, 639);
    write_frame(64, words, 0, 1, 1, 639);
    memset(line, 5, sizeof line);
    write_frame(56, words, 56, 255, 0, 600);
    for (long k = 4784; k < 4800; k++)
        second_put(line, k, second_symbol(line, k - 40));
    read_frame(56, 0, 4800, 600);
    read_frame(56, 0, 0, 0);
}

/* No active channel: what follows the first group of channel 0 with both marks after level 1 follows 0000 after level
   0. */
static void none_active(void)
{
    uint32_t word = 0;
    memset(line, 5, sizeof line);
    write_frame(56, &word, 1, 1, 1, 282);
    for (int k = 0; k < 5; k++)
        second_put(line, k, k == 0 || k == 2);
    read_frame(56, 0, 2250, 282);
}

/* Each symbol of a frame changed, and a spare bit. */
static void frames(void)
{
    static const uint32_t words[3] = {0x80000010u, 0x0FFFFFF0u, 0x90000004u};
    memset(line, 5, sizeof line);
    write_frame(56, words, 3, 1, 0, 282);
    for (unsigned k = 0; k < 2250; k++) {
        flip(k);
        read_frame(56, 0, 2250, 282);
        flip(k);
    }
    flip(2255);
    read_frame(56, 0, 2250, 282);
}

/* ---- HD packets */

static void write_packet(uint16_t words[31], uint32_t a, uint32_t b, uint32_t c, uint32_t d)
{
    const uint32_t bodies[4] = {a, b, c, d};
    for (int k = 0; k < 31; k++)
        words[k] = 5;
    second_verdict v = second_hd_write(1, 255, 4095, 1, 1, 0, bodies, 4, words, 31);
    printf("packet %u %u %u\n", v.number, v.place, sum_words(words, 31));
}

static void read_and_repair(const uint16_t words[31])
{
    uint32_t bodies[4] = {7, 7, 7, 7};
    uint16_t out[31];
    for (int k = 0; k < 31; k++)
        out[k] = 9;
    second_hd_read_answer a = second_hd_read(words, 31, bodies, 4);
    printf("fields %u %u", a.number, a.place);
    if (a.number == 0)
        printf(" %u %u %u %u %u %u", a.group, a.dbn, a.phase, a.ck12, a.z1, a.z2);
    printf(" %u %u %u %u\n", bodies[0], bodies[1], bodies[2], bodies[3]);
    second_hd_repair_answer r = second_hd_repair(words, 31, out, 31);
    printf("repair %u %u %u %u\n", r.number, r.place, r.lanes, sum_words(out, 31));
}

static void packets(void)
{
    uint16_t words[31], others[31];
    write_packet(words, 0x80000010u, 0, 0x90000000u, 0);
    printf("channel %u %u %u %u\n", words[8], words[9], words[10], words[11]);
    read_and_repair(words);
    for (unsigned c = 0; c < 496; c++) {
        words[c / 16] = (uint16_t)(words[c / 16] ^ 1u << c % 16);
        read_and_repair(words);
        words[c / 16] = (uint16_t)(words[c / 16] ^ 1u << c % 16);
    }
    write_packet(others, 0, 0, 0, 16);
    write_packet(others, 0, 0, 0, 1);
    write_packet(others, 1, 0, 16, 0);
    for (uint32_t n = 254; n <= 256; n++) {
        second_dbn d = second_hd_next_dbn(n);
        printf("next %u %u %u\n", d.number, d.place, d.dbn);
    }
}

int main(void)
{
    small();
    blocks();
    damaged();
    hunts();
    annex();
    counts();
    none_active();
    frames();
    packets();
    return 0;
}
