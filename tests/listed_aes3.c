/* What is written down with its answer of AES3: subframes, blocks, word lengths, faults, the search, and what a block
   carries or is measured by: talkback and the level sheet. */
#include "listed.h"
#include <string.h>

/* How many silent X subframes with no status bit stand in a silent block after a level, and whether all are as given. */
static int silent_subframes(uint32_t level, const uint8_t due[8], int *same)
{
    int32_t samples[384];
    uint8_t side[192], line[3072];
    int found = 0;
    quiet_block(samples, side);
    lampcoil_aes3_write(samples, 384, side, 192, level, line, 3072);
    for (int n = 2; n < 384; n += 2)
        if (bit_of(side[48 + n / 16], n / 2 % 8) == 0 && line[8 * n - 1] % 2u == level) {
            found = found + 1;
            if (memcmp(line + 8 * n, due, 8) != 0)
                *same = 0;
        }
    return found;
}

static void test_silence(void)
{
    static const uint8_t x0[8] = {0xE2, 0xCC, 0xCC, 0xCC, 0xCC, 0xCC, 0xCC, 0xCC};
    static const uint8_t x1[8] = {0x1D, 0x33, 0x33, 0x33, 0x33, 0x33, 0x33, 0x33};
    int same = 1;
    expect(silent_subframes(0, x0, &same) > 100 && same, "example 5");
    expect(silent_subframes(1, x1, &same) > 100 && same, "example 6");
}

/* Example 7 has no status bit, which the writer asks of a block's first subframe: the reader takes it there, with a wrong CRCC. */
static void test_under_z(void)
{
    static const uint8_t z0[8] = {0xE8, 0xB3, 0x33, 0x33, 0x33, 0x33, 0x33, 0x32};
    int32_t samples[384], back[384];
    uint8_t side[192], back_side[192], line[3072];
    quiet_block(samples, side);
    samples[0] = 1;
    lampcoil_aes3_write(samples, 384, side, 192, 0, line, 3072);
    expect(memcmp(line, z0, 6) == 0, "example 7, first six octets");
    memcpy(line, z0, 8);
    lampcoil_aes3_read_answer r = lampcoil_aes3_read(line, 3072, back, 384, back_side, 192);
    expect(r.number == 0 && back[0] == 1 && back_side[48] % 2 == 0 && r.crcc_a == 0 && r.crcc_b == 1, "example 7 read");
    for (int k = 0; k < 3072; k++)
        line[k] = (uint8_t)~line[k];
    r = lampcoil_aes3_read(line, 3072, back, 384, back_side, 192);
    expect(r.number == 0 && back[0] == 1 && r.crcc_a == 0 && r.crcc_b == 1, "the same, inverted");
    expect(lampcoil_aes3_read(line, 3071, back, 384, back_side, 192).number == 1, "a 3,071-octet block");
    samples[383] = 8388607;
    expect(lampcoil_aes3_write(samples, 384, side, 192, 0, line, 3072).number == 0, "sample 8,388,607 in a block");
    samples[383] = 8388608;
    lampcoil_verdict v = lampcoil_aes3_write(samples, 384, side, 192, 0, line, 3072);
    expect(v.number == 3 && v.place == 383, "sample 8,388,608 in a block");
}

/* The write of silence but for one sample, under bytes 0 and 2 for both channels and every V set. */
static lampcoil_verdict declared(uint8_t byte0, uint8_t byte2, uint32_t at, int32_t sample)
{
    int32_t samples[384];
    uint8_t side[192], line[3072];
    quiet_block(samples, side);
    memset(side, 0xFF, 24);
    memset(side + 96, 0xFF, 24);
    for (int channel = 0; channel < 2; channel++) {
        side[96 * channel + 48] = byte0;
        side[96 * channel + 50] = byte2;
        lampcoil_status_seal(side + 96 * channel + 48, 24);
    }
    samples[at] = sample;
    return lampcoil_aes3_write(samples, 384, side, 192, 0, line, 3072);
}

/* Byte 2 in the tables' order, bits 5 4 3, then 2 1 0: 001 100 is 20 bits with 24-bit use, 001 000 is 16 with 20-bit
   use. */
static void test_word_length(void)
{
    lampcoil_verdict v = declared(1, 0x0C, 7, 8);
    expect(v.number == 18 && v.place == 7, "24 busy bits under a status that says 20");
    expect(declared(1, 0x0C, 7, 16).number == 0, "20 bits under a status that says 20");
    expect(declared(1, 0x04, 7, 1).number == 0, "an undeclared length allows all 24");
    expect(declared(1, 0x1C, 7, 1).number == 0, "a reserved state binds nothing");
    expect(declared(1, 0x0E, 7, 1).number == 0, "a user-defined state binds nothing");
    expect(declared(3, 0x0C, 7, 1).number == 0, "other-purpose audio is not bound");
    expect(declared(1, 0x08, 7, 15).number == 0, "with 20-bit use slots 4 to 7 are free");
    v = declared(1, 0x08, 8, 16);
    expect(v.number == 18 && v.place == 8, "with 20-bit use slot 8 is bound under 16 bits");
    expect(declared(1, 0x0A, 8, 128).number == 18 && declared(1, 0x08, 8, 256).number == 0, "slot 11 is, slot 12 is not");
}

/* All symbols after the first of slot 31 turned over: the body is odd, and the block is read. */
static void test_fault(void)
{
    int32_t samples[384], back[384];
    uint8_t side[192], back_side[192], line[3072];
    quiet_block(samples, side);
    samples[7] = -5;
    lampcoil_aes3_write(samples, 384, side, 192, 0, line, 3072);
    for (int symbol = 64 * 7 + 63; symbol < 24576; symbol++)
        line[symbol / 8] ^= (uint8_t)(128 >> symbol % 8);
    lampcoil_aes3_read_answer r = lampcoil_aes3_read(line, 3072, back, 384, back_side, 192);
    expect(r.number == 0 && r.crcc_a == 1 && r.crcc_b == 1, "an odd subframe does not cost the block");
    expect(memcmp(samples, back, sizeof back) == 0, "the sample of an odd subframe is as received");
    expect(back_side[168] == 8 && back_side[96] == 8, "E and V of frame 3 of B are set");
    back_side[168] = back_side[96] = 0;
    expect(memcmp(side, back_side, sizeof side) == 0, "and nothing else");
    side[168] = 8;
    samples[0] = 8388608;
    lampcoil_verdict v = lampcoil_aes3_write(samples, 384, side, 192, 0, line, 3072);
    expect(v.number == 20 && v.place == 7, "20 for an E that is set, before 3");
    line[3071] ^= 1;
    r = lampcoil_aes3_read(line, 3072, back, 384, back_side, 192);
    expect(r.number == 0 && back_side[168] == 8 && back_side[191] == 128, "the last symbol of a block turned over is E of the last subframe");
    line[3063] ^= 1;
    r = lampcoil_aes3_read(line, 3072, back, 384, back_side, 192);
    expect(r.number == 7 && r.place == 383, "that of another subframe is 7 at the next");
}

/* The number of symbols that the search compares. */
static void test_compared(void)
{
    static int32_t samples[384];
    static uint8_t side[192], line[8193];
    lampcoil_aes3_start s = lampcoil_aes3_find(line, 8193);
    expect(s.number == 1 && s.position == 0 && s.compared == 0, "refusal 1 carries 0");
    s = lampcoil_aes3_find(line, 9);
    expect(s.number == 17 && s.position == 0 && s.compared == 0, "72 symbols have no candidate");
    s = lampcoil_aes3_find(line, 10);
    expect(s.number == 17 && s.position == 0 && s.compared == 8, "eight candidates, each left at its first symbol");
    /* behind an octet of zeros: seven candidates are left at their first symbol, the eighth fits */
    quiet_block(samples, side);
    lampcoil_aes3_write(samples, 384, side, 192, 0, line + 1, 3072);
    s = lampcoil_aes3_find(line, 3073);
    expect(s.number == 0 && s.position == 8 && s.compared == 7 + 16, "a candidate that fits costs 16");
    line[9] ^= 0x80; /* the first symbol of Y */
    s = lampcoil_aes3_find(line, 10);
    expect(s.number == 17 && s.position == 0 && s.compared == 7 + 9, "one whose first symbol of Y differs costs 9");
}

/* A block behind three symbols, found at 3 and read from there. */
static void test_aligned(void)
{
    static int32_t samples[384], back[384];
    static uint8_t side[192], side_back[192], line[3072], shifted[3073], block[3072];
    quiet_block(samples, side);
    lampcoil_aes3_write(samples, 384, side, 192, 0, line, 3072);
    for (size_t k = 0; k < 3072; k++) {
        shifted[k] = (uint8_t)(shifted[k] | line[k] >> 3);
        shifted[k + 1] = (uint8_t)(line[k] << 5);
    }
    lampcoil_aes3_start s = lampcoil_aes3_find(shifted, 3073);
    expect(s.number == 0 && s.position == 3, "found at symbol 3");
    lampcoil_verdict v = lampcoil_aes3_align(shifted, 3073, 3, block, 3072);
    expect(v.number == 0 && v.place == 0 && memcmp(block, line, 3072) == 0, "aligned is the block that was written");
    lampcoil_aes3_read_answer r = lampcoil_aes3_read(block, 3072, back, 384, side_back, 192);
    expect(r.number == 0 && memcmp(back, samples, sizeof back) == 0, "and is read");
    v = lampcoil_aes3_align(shifted, 3073, 8, block, 3072);
    expect(v.number == 0, "the last position");
    v = lampcoil_aes3_align(shifted, 3073, 9, block, 3072);
    expect(v.number == 2 && v.place == 0, "a symbol too few");
}

/* Appendix A to part 3 of BS.647: a voice sample in slots 4 to 7 of three frames, the lowest four bits in frame 0. The
   program has slots 8 to 27, and comes back with the voice, also over the line. */
static void test_talkback(void)
{
    static int32_t program[384], joined[384], samples[384], back[384], voice[128], heard[128];
    static uint8_t side[LAMPCOIL_SIDE_OCTETS], read[LAMPCOIL_SIDE_OCTETS], line[3072];
    quiet_block(program, side);
    expect(lampcoil_talkback_join(program, 384, voice, 128, side, sizeof side, joined, 384).number == 19, "the use is not declared");
    lampcoil_status_edit(side + LAMPCOIL_SIDE_C_A, 24, 2, 2);
    lampcoil_status_edit(side + LAMPCOIL_SIDE_C_B, 24, 2, 2);
    program[0] = 0x123450;
    program[1] = -16;
    program[383] = -8388608;
    voice[0] = 0x123;
    voice[1] = -1;
    voice[2] = -2048;
    voice[127] = 2047;
    lampcoil_verdict v = lampcoil_talkback_join(program, 384, voice, 128, side, sizeof side, joined, 384);
    expect(v.number == 0, "joined");
    expect(joined[0] == 0x123453 && joined[2] == 2 && joined[4] == 1, "1, 2, 3 in A: 3 in frame 0");
    expect(joined[1] == -1 && joined[3] == 15 && joined[5] == 15, "-1 in B");
    expect(joined[6] == 0 && joined[8] == 0 && joined[10] == 8, "the sign in frame 5 of A");
    expect(joined[379] == 15 && joined[381] == 15 && joined[383] == -8388601, "the last voice sample");
    expect(lampcoil_aes3_write(joined, 384, side, sizeof side, 1, line, 3072).number == 0, "the writer takes it");
    expect(lampcoil_aes3_read(line, 3072, samples, 384, read, sizeof read).number == 0, "and the reader");
    v = lampcoil_talkback_separate(samples, 384, read, sizeof read, back, 384, heard, 128);
    expect(v.number == 0, "separated");
    expect(memcmp(back, program, sizeof program) == 0 && memcmp(heard, voice, sizeof voice) == 0, "program and voice come back");
    program[5] = 8;
    voice[3] = 2048;
    v = lampcoil_talkback_join(program, 384, voice, 128, side, sizeof side, joined, 384);
    expect(v.number == 3 && v.place == 5, "a busy low bit is 3 at its sample");
    program[5] = 0;
    v = lampcoil_talkback_join(program, 384, voice, 128, side, sizeof side, joined, 384);
    expect(v.number == 3 && v.place == 387, "voice sample 3 outside is 3 at 387");
}

/* The lowest sample, both ends, the mark, a sheet that is full; two stretches on end. */
static void test_levels(void)
{
    static int32_t samples[384];
    static uint8_t side[192];
    lampcoil_level_channel sheet[2], other[2], kept[2];
    int64_t *s = &sheet[0].samples, *o = &other[0].samples;
    quiet_block(samples, side);
    expect(lampcoil_level_start(s, 20).number == 0 && sheet[0].samples == 0 && sheet[0].absent == 1 && sheet[1].absent == 1,
           "the sheet of no blocks");
    samples[0] = -8388608;
    samples[2] = 8388607;
    samples[3] = 8388606;
    side[96] = 0x81;
    side[96 + 72] = 0x10;
    side[48] ^= 2;
    expect(lampcoil_level_add(s, 20, samples, 384, side, 192).number == 0, "a block added");
    expect(sheet[0].samples == 192 && sheet[0].absent == 0 && sheet[0].smallest == -8388608 && sheet[0].largest == 8388607 &&
           sheet[0].magnitude == 8388608 && sheet[0].sum == -1 && sheet[0].ends == 2, "channel A: the lowest sample and both ends");
    expect(sheet[0].v_frames == 0 && sheet[0].e_frames == 0 && sheet[0].right_blocks == 0, "channel A: no V, no E, a wrong CRCC");
    expect(sheet[1].smallest == 0 && sheet[1].largest == 8388606 && sheet[1].ends == 0 && sheet[1].v_frames == 2 &&
           sheet[1].e_frames == 1 && sheet[1].right_blocks == 1, "channel B: V, E and CRCC of its own");
    lampcoil_level_start(o, 20);
    memcpy(kept, sheet, sizeof kept);
    expect(lampcoil_level_join(s, 20, o, 20).number == 0 && memcmp(kept, sheet, sizeof kept) == 0, "the empty sheet joined");
    expect(lampcoil_level_join(o, 20, s, 20).number == 0 && memcmp(kept, other, sizeof kept) == 0, "joined to the empty sheet");
    expect(lampcoil_level_add(o, 20, samples, 384, side, 192).number == 0 && lampcoil_level_join(s, 20, o, 19).number == 1 &&
           other[0].samples == 384 && other[0].sum == -2 && other[0].ends == 4 && other[0].smallest == -8388608, "two blocks");
    sheet[1].samples = 4294967296 - 192;
    expect(lampcoil_level_add(s, 20, samples, 384, side, 192).number == 0 && sheet[1].samples == 4294967296, "2^32 samples");
    memcpy(kept, sheet, sizeof kept);
    lampcoil_verdict v = lampcoil_level_add(s, 20, samples, 384, side, 192);
    expect(v.number == 22 && v.place == 0 && memcmp(kept, sheet, sizeof kept) == 0, "2^32 and one block more");
    samples[5] = 8388608;
    v = lampcoil_level_add(s, 20, samples, 384, side, 192);
    expect(v.number == 3 && v.place == 5, "3 goes before 22");
    sheet[0].ends = 385;
    v = lampcoil_level_add(s, 20, samples, 384, side, 192);
    expect(v.number == 2 && v.place == 0, "2 goes before 3");
    expect(lampcoil_level_add(s, 20, samples, 383, side, 192).number == 1, "383 samples");
}

void listed_aes3(void)
{
    test_silence();
    test_under_z();
    test_word_length();
    test_fault();
    test_compared();
    test_aligned();
    test_talkback();
    test_levels();
}
