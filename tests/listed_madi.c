/* What is written down with its answer of MADI: frames, commands, the patch and leases. */
#include "listed.h"
#include <string.h>

/* The link coding example of BS.1873: sent symbols printed one late. */
static void test_madi(void)
{
    const char *printed = "0100110010001101010010101101100110010101";
    static const int set[] = {4, 6, 9, 11, 12, 13, 14, 15, 20, 21, 26, 27};
    uint32_t word = 0;
    uint8_t line[640], list[1] = {0};
    int same = 1;
    for (size_t k = 0; k < sizeof set / sizeof set[0]; k++)
        word += weight(set[k]);
    expect(lampcoil_madi_write(56, &word, 1, list, 1, 0, line, 640).number == 0, "frame");
    for (int k = 0; k < 39; k++)
        if (symbol_of(line, k) != printed[k + 1] - '0')
            same = 0;
    expect(same && printed[0] == '0', "link coding example of BS.1873");
}

static void test_madi_counts(void)
{
    uint32_t back[64], words[64] = {0};
    uint8_t line[640], list[256] = {0}, got[255];
    expect(lampcoil_madi_write(64, words, 64, list, 255, 1, line, 639).number == 0, "255 syncs");
    lampcoil_madi_read_answer r = lampcoil_madi_read(64, 1, 5110, line, 639, back, 64, got, 255);
    expect(r.number == 0 && r.active == 64 && r.commands == 255, "255 syncs read");
    expect(lampcoil_madi_write(64, words, 64, list, 256, 1, line, 640).number == 2, "256 syncs");
    expect(lampcoil_madi_write(64, words, 64, list, 0, 1, line, 640).number == 2, "no command");
    expect(lampcoil_madi_write(64, words, 0, list, 1, 1, line, 640).number == 2, "0 active channels");
    expect(lampcoil_madi_read(64, 0, 0, line, 0, back, 64, got, 255).number == 10, "no bits");
    /* one more sync after 255: the same ten symbols again, since a sync leaves the level as it was */
    lampcoil_madi_write(56, words, 56, list, 255, 0, line, 640);
    for (int k = 4790; k < 4800; k++)
        line[k / 8] = (uint8_t)((line[k / 8] & ~(128 >> k % 8)) | symbol_of(line, k - 10) << (7 - k % 8));
    r = lampcoil_madi_read(56, 0, 4800, line, 600, back, 56, got, 255);
    expect(r.number == 10 && r.place == 4790, "a 256th sync read");
    /* no active channel: 11110 eight times a channel, then a sync */
    const char *sync = "1100010001";
    memset(line, 0, sizeof line);
    for (int k = 0, level = 0; k < 2250; k++) {
        level ^= k < 2240 ? k % 5 != 4 : sync[k - 2240] == '1';
        line[k / 8] = (uint8_t)(line[k / 8] | level << (7 - k % 8));
    }
    r = lampcoil_madi_read(56, 0, 2250, line, 282, back, 56, got, 255);
    expect(r.number == 12 && r.place == 0, "0 active channels read");
}

/* The sixteen commands of BS.1873's table 6, as they stand on a line after the last channel. */
static void test_madi_commands(void)
{
    static const char *const table[16] = {"1100010001", "1111111111", "0110101101", "0110111001",
                                          "1111100100", "0110100111", "1100100111", "1100111001",
                                          "0010000100", "0010011111", "0010000000", "0011100111",
                                          "0011111001", "0000000100", "0000011111", "0000000000"};
    uint32_t words[64] = {0};
    uint8_t line[600], list[16], got[255];
    for (int c = 0; c < 16; c++)
        list[c] = (uint8_t)c;
    expect(lampcoil_madi_write(56, words, 56, list, 16, 0, line, 600).number == 0, "sixteen commands");
    int same = 1;
    for (int k = 0; k < 160; k++)
        if ((symbol_of(line, 2240 + k) != symbol_of(line, 2239 + k)) != (table[k / 10][k % 10] == '1'))
            same = 0;
    expect(same, "the symbols of the sixteen commands");
    memset(got, 9, sizeof got);
    lampcoil_madi_read_answer r = lampcoil_madi_read(56, 0, 2400, line, 300, words, 56, got, 255);
    same = r.number == 0 && r.commands == 16 && memcmp(got, list, 16) == 0;
    for (int k = 16; k < 255; k++)
        same = same && got[k] == 0;
    expect(same, "the commands in their order, and zeros after them");
    expect(lampcoil_madi_write(56, words, 56, list + 1, 15, 0, line, 600).number == 2, "a list without 0");
    list[15] = 16;
    expect(lampcoil_madi_write(56, words, 56, list, 16, 0, line, 600).number == 2, "command 16");
    expect(lampcoil_madi_read(56, 0, 2400, line, 300, words, 56, got, 254).number == 1, "a list of 254");
}

/* The patch: each verdict, the first that applies; what is carried of a word; refusals in their order. */
static void test_patch(void)
{
    uint8_t leases[64] = {1, 1, 1, 2, 1}, verdicts[64];
    uint32_t rows[64] = {2, 1, 3, 3, 1}, in[64] = {0x30, 0x10, 0x3F, 0x10, 0x3F}, out[64];
    for (int k = 5; k < 64; k++)
        rows[k] = k % 2 == 0 ? 0xFFFFFFFFu : 4;
    lampcoil_verdict v = lampcoil_madi_patch(64, 4, leases, 64, rows, 64, in, 64, out, 64, verdicts, 64);
    expect(v.number == 0 && verdicts[0] == 0 && out[0] == 0x3C, "carried, bits 0 and 1 cleared, bits 2 and 3 kept");
    expect(verdicts[1] == 3 && out[1] == 0, "the tenant's own slot of odd parity");
    expect(verdicts[2] == 2 && out[2] == 0, "another tenant's slot of odd parity is foreign");
    expect(verdicts[3] == 3 && out[3] == 0, "the other tenant's own slot of odd parity");
    expect(verdicts[4] == 1 && out[4] == 0, "an output slot at the active count");
    rows[0] = 4;
    lampcoil_madi_patch(64, 4, leases, 64, rows, 64, in, 64, out, 64, verdicts, 64);
    expect(verdicts[0] == 1 && out[0] == 0, "a row that names a slot at the active count");
    rows[0] = 0xFFFFFFFFu;
    lampcoil_madi_patch(64, 4, leases, 64, rows, 64, in, 64, out, 64, verdicts, 64);
    expect(verdicts[0] == 1 && verdicts[63] == 1 && out[63] == 0, "a row that names no slot");
    rows[0] = 2;
    leases[0] = leases[2] = 0;
    lampcoil_madi_patch(64, 4, leases, 64, rows, 64, in, 64, out, 64, verdicts, 64);
    expect(verdicts[0] == 0 && out[0] == 0x3C, "free slots are the house's, and the house is one tenant");
    expect(lampcoil_madi_patch(60, 4, leases, 0, rows, 64, in, 64, out, 64, verdicts, 64).number == 2, "2 goes before 1");
    expect(lampcoil_madi_patch(64, 0, leases, 64, rows, 64, in, 64, out, 64, verdicts, 64).number == 2, "no active slot");
    expect(lampcoil_madi_patch(56, 57, leases, 64, rows, 56, in, 56, out, 56, verdicts, 56).number == 2, "57 of 56");
    expect(lampcoil_madi_patch(56, 56, leases, 64, rows, 56, in, 56, out, 56, verdicts, 56).number == 0, "64 leases, cut to 56");
    expect(lampcoil_madi_patch(56, 56, leases, 56, rows, 56, in, 56, out, 56, verdicts, 56).number == 1, "56 leases");
    expect(lampcoil_madi_patch(64, 64, leases, 64, rows, 64, in, 64, out, 64, verdicts, 63).number == 1, "63 verdicts");
}

/* Leases: the lowest free slots, a return that opens a gap, the gap closed with its moves; refusals in their order. */
static void test_leases(void)
{
    static const uint8_t gap[6] = {9, 0, 0, 7, 7, 0}, closed[6] = {9, 7, 7, 0, 0, 0}, moved[8] = {0, 0, 3, 1, 4, 2, 0, 0};
    uint8_t table[64] = {0}, moves[128], full[64];
    lampcoil_lease l = lampcoil_lease_ask(table, 64, 5, 3);
    expect(l.number == 0 && l.slots == 0x7, "the three lowest");
    l = lampcoil_lease_ask(table, 64, 7, 2);
    expect(l.number == 0 && l.slots == 0x18, "the two above them");
    l = lampcoil_lease_return(table, 64, 5);
    expect(l.number == 0 && l.slots == 0, "given back");
    l = lampcoil_lease_ask(table, 64, 9, 1);
    expect(l.number == 0 && l.slots == 0x1 && memcmp(table, gap, 6) == 0, "the lowest of the gap");
    l = lampcoil_lease_return(table, 64, 5);
    expect(l.number == 0 && l.slots == 0 && memcmp(table, gap, 6) == 0, "giving back with no slots");
    memset(moves, 0xA5, sizeof moves);
    lampcoil_lease_closed c = lampcoil_lease_close(table, 64, moves, 128);
    expect(c.number == 0 && c.leased == 3 && memcmp(table, closed, 6) == 0, "the gap closed, in order");
    expect(memcmp(moves, moved, 8) == 0 && moves[127] == 0, "the moves, and zeros after them");
    l = lampcoil_lease_ask(table, 64, 9, 62);
    expect(l.number == 21 && l.place == 0 && l.slots == 0 && memcmp(table, closed, 6) == 0, "61 are free");
    l = lampcoil_lease_ask(table, 64, 9, 61);
    expect(l.number == 0 && l.slots == 0xFFFFFFFFFFFFFFF9u, "61 of 61, beside the one that it holds");
    memcpy(full, table, 64);
    expect(lampcoil_lease_ask(table, 64, 7, 1).number == 21 && memcmp(table, full, 64) == 0, "none is free");
    expect(lampcoil_lease_ask(table, 63, 0, 1).number == 2 && lampcoil_lease_ask(table, 64, 256, 1).number == 2, "tenants 0 and 256");
    expect(lampcoil_lease_ask(table, 64, 1, 0).number == 2 && lampcoil_lease_ask(table, 64, 1, 65).number == 2, "0 and 65 slots");
    expect(lampcoil_lease_ask(table, 63, 1, 1).number == 1 && lampcoil_lease_return(table, 65, 1).number == 1, "63 and 65 octets");
    expect(lampcoil_lease_return(table, 63, 0).number == 2, "2 goes before 1");
    expect(lampcoil_lease_close(table, 64, moves, 127).number == 1 && lampcoil_lease_close(table, 63, moves, 128).number == 1, "moves");
}

void listed_madi(void)
{
    test_madi();
    test_madi_counts();
    test_madi_commands();
    test_patch();
    test_leases();
}
