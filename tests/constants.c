/* Every constant of the header, held to what the entries do: the numbers that they give, the lengths that they take and
   the ones beside them that they refuse, the columns of a side table, the states of the status; records and sheets in a
   file of their own. tests/header checks that no constant is left out. Run over the library, and over the second
   program under the library's names. */
#include "constants.h"
#include <stdio.h>
#include <string.h>

static int passed, failed;

void expect(int holds, const char *what)
{
    if (holds)
        passed = passed + 1;
    else {
        failed = failed + 1;
        printf("FAILED: %s\n", what);
    }
}

static int32_t samples[LAMPCOIL_BLOCK_SAMPLES + 1], joined[LAMPCOIL_BLOCK_SAMPLES], voice[LAMPCOIL_VOICE_SAMPLES + 1];
static uint8_t side[LAMPCOIL_SIDE_OCTETS + 1], line[LAMPCOIL_FIND_MOST_OCTETS + 1];
static uint32_t words[LAMPCOIL_MADI_MOST_CHANNELS + 1], bodies[LAMPCOIL_PACKET_BODIES + 1];
static uint16_t packet[LAMPCOIL_PACKET_WORDS + 1], repaired[LAMPCOIL_PACKET_WORDS + 1];
static uint16_t table[LAMPCOIL_BIPHASE_ENTRIES + 1];

/* Silence, professional and sealed. */
static void quiet(void)
{
    memset(samples, 0, sizeof samples);
    memset(side, 0, sizeof side);
    side[LAMPCOIL_SIDE_C_A] = side[LAMPCOIL_SIDE_C_B] = 1;
    lampcoil_status_seal(side + LAMPCOIL_SIDE_C_A, LAMPCOIL_STATUS_OCTETS);
    lampcoil_status_seal(side + LAMPCOIL_SIDE_C_B, LAMPCOIL_STATUS_OCTETS);
}

static lampcoil_verdict write_block(size_t samples_len, size_t side_len, size_t line_len)
{
    return lampcoil_aes3_write(samples, samples_len, side, side_len, 0, line, line_len);
}

static lampcoil_aes3_read_answer read_block(void)
{
    return lampcoil_aes3_read(line, LAMPCOIL_BLOCK_OCTETS, samples, LAMPCOIL_BLOCK_SAMPLES, side, LAMPCOIL_SIDE_OCTETS);
}

static void test_block_lengths(void)
{
    const size_t n = LAMPCOIL_BLOCK_SAMPLES, s = LAMPCOIL_SIDE_OCTETS, m = LAMPCOIL_BLOCK_OCTETS;
    quiet();
    GIVES(write_block(n, s, m), LAMPCOIL_ACCEPTED);
    GIVES(write_block(n - 1, s, m), LAMPCOIL_REFUSED_LENGTH);
    GIVES(write_block(n + 1, s, m), LAMPCOIL_REFUSED_LENGTH);
    GIVES(write_block(n, s - 1, m), LAMPCOIL_REFUSED_LENGTH);
    GIVES(write_block(n, s + 1, m), LAMPCOIL_REFUSED_LENGTH);
    GIVES(write_block(n, s, m - 1), LAMPCOIL_REFUSED_LENGTH);
    GIVES(write_block(n, s, m + 1), LAMPCOIL_REFUSED_LENGTH);
    GIVES(lampcoil_status_right(side, LAMPCOIL_STATUS_OCTETS), LAMPCOIL_ACCEPTED);
    GIVES(lampcoil_status_right(side, LAMPCOIL_STATUS_OCTETS - 1), LAMPCOIL_REFUSED_LENGTH);
    GIVES(lampcoil_status_right(side, LAMPCOIL_STATUS_OCTETS + 1), LAMPCOIL_REFUSED_LENGTH);
    memset(line, 0, sizeof line);
    GIVES(lampcoil_aes3_find(line, LAMPCOIL_FIND_MOST_OCTETS), LAMPCOIL_REFUSED_NO_START);
    GIVES(lampcoil_aes3_find(line, LAMPCOIL_FIND_MOST_OCTETS + 1), LAMPCOIL_REFUSED_LENGTH);
    GIVES(lampcoil_biphase_table(table, LAMPCOIL_BIPHASE_ENTRIES), LAMPCOIL_ACCEPTED);
    GIVES(lampcoil_biphase_table(table, LAMPCOIL_BIPHASE_ENTRIES - 1), LAMPCOIL_REFUSED_LENGTH);
    GIVES(lampcoil_biphase_table(table, LAMPCOIL_BIPHASE_ENTRIES + 1), LAMPCOIL_REFUSED_LENGTH);
    EXPECT(table[0] == 0xCCCC && table[1] == 0xB333 && table[128] == 0xCCCD && table[255] == 0xAAAA);
}

/* The library's version is the header's, and the text of it is made of its parts. */
static void test_version(void)
{
    char text[32];
    lampcoil_version_answer v = lampcoil_version();
    GIVES(v, LAMPCOIL_ACCEPTED);
    EXPECT(v.place == 0 && v.version == LAMPCOIL_VERSION_NUMBER);
    snprintf(text, sizeof text, "%u.%u.%u", v.version >> 16, v.version >> 8 & 255u, v.version & 255u);
    EXPECT(strcmp(text, LAMPCOIL_VERSION) == 0);
}

/* A sample at either end and one beyond it. */
static void test_samples(void)
{
    GIVES(lampcoil_body_write(LAMPCOIL_SAMPLE_LEAST, 0, 0, 0), LAMPCOIL_ACCEPTED);
    GIVES(lampcoil_body_write(LAMPCOIL_SAMPLE_MOST, 0, 0, 0), LAMPCOIL_ACCEPTED);
    GIVES(lampcoil_body_write(LAMPCOIL_SAMPLE_LEAST - 1, 0, 0, 0), LAMPCOIL_REFUSED_SAMPLE);
    GIVES(lampcoil_body_write(LAMPCOIL_SAMPLE_MOST + 1, 0, 0, 0), LAMPCOIL_REFUSED_SAMPLE);
}

/* Two blocks, the second after the level that the first ended with: its start is found behind the end of the first. */
static void test_level_after(void)
{
    const size_t n = LAMPCOIL_BLOCK_SAMPLES, s = LAMPCOIL_SIDE_OCTETS, m = LAMPCOIL_BLOCK_OCTETS;
    quiet();
    for (uint32_t level = 0; level < 2; level++) {
        GIVES(lampcoil_aes3_write(samples, n, side, s, level, line, m), LAMPCOIL_ACCEPTED);
        uint32_t next = LAMPCOIL_AES3_LEVEL_AFTER(line);
        memmove(line, line + m - 8, 8);
        GIVES(lampcoil_aes3_write(samples, n, side, s, next, line + 8, m), LAMPCOIL_ACCEPTED);
        EXPECT(lampcoil_aes3_find(line, m + 8).position == 64);
        GIVES(lampcoil_aes3_write(samples, n, side, s, 1 - next, line + 8, m), LAMPCOIL_ACCEPTED);
        EXPECT(lampcoil_aes3_find(line, m + 8).position != 64);
    }
}

/* 24-bit use with words of 20 bits, declared for B alone; left as quiet, with that label. */
static void test_word_length(void)
{
    const size_t n = LAMPCOIL_BLOCK_SAMPLES, s = LAMPCOIL_SIDE_OCTETS, m = LAMPCOIL_BLOCK_OCTETS;
    quiet();
    side[LAMPCOIL_SIDE_C_B + 2] = 0x0C;
    lampcoil_status_seal(side + LAMPCOIL_SIDE_C_B, LAMPCOIL_STATUS_OCTETS);
    samples[0] = samples[2] = 1;
    GIVES(write_block(n, s, m), LAMPCOIL_ACCEPTED);
    samples[3] = 8;
    GIVES(write_block(n, s, m), LAMPCOIL_REFUSED_WORD_LENGTH);
    EXPECT(write_block(n, s, m).place == 3);
    samples[3] = 16;
}

/* What the AES3 writer and reader refuse. */
static void test_block_refusals(void)
{
    const size_t n = LAMPCOIL_BLOCK_SAMPLES, s = LAMPCOIL_SIDE_OCTETS, m = LAMPCOIL_BLOCK_OCTETS;
    quiet();
    GIVES(lampcoil_aes3_write(samples, n, side, s, 2, line, m), LAMPCOIL_REFUSED_RANGE);
    samples[0] = 8388608;
    GIVES(write_block(n, s, m), LAMPCOIL_REFUSED_SAMPLE);
    quiet();
    side[LAMPCOIL_SIDE_C_A] = 0;
    GIVES(write_block(n, s, m), LAMPCOIL_REFUSED_CONSUMER);
    quiet();
    side[LAMPCOIL_SIDE_C_B + 23] ^= 1;
    GIVES(write_block(n, s, m), LAMPCOIL_REFUSED_CRCC);
    quiet();
    side[LAMPCOIL_SIDE_C_A] = 3;
    lampcoil_status_seal(side + LAMPCOIL_SIDE_C_A, LAMPCOIL_STATUS_OCTETS);
    GIVES(write_block(n, s, m), LAMPCOIL_REFUSED_VALIDITY);
    memset(side + LAMPCOIL_SIDE_V_A, 0xFF, LAMPCOIL_STATUS_OCTETS);
    GIVES(write_block(n, s, m), LAMPCOIL_ACCEPTED);
    test_word_length();
    GIVES(write_block(n, s, m), LAMPCOIL_ACCEPTED);
    line[8] ^= 0x10;
    GIVES(read_block(), LAMPCOIL_REFUSED_PREAMBLE);
    line[8] ^= 0x10;
    for (size_t k = 9; k < m; k++) /* all from a slot on turned over: it no longer begins with a change */
        line[k] = (uint8_t)~line[k];
    GIVES(read_block(), LAMPCOIL_REFUSED_SLOT);
    quiet();
    write_block(n, s, m);
    line[7] ^= 1; /* slot 31 of the first subframe, and the polarity of all after it */
    for (size_t k = 8; k < m; k++)
        line[k] = (uint8_t)~line[k];
    GIVES(read_block(), LAMPCOIL_ACCEPTED);
    EXPECT(side[LAMPCOIL_SIDE_E_A] == 1 && side[LAMPCOIL_SIDE_E_B] == 0);
    GIVES(write_block(n, s, m), LAMPCOIL_REFUSED_FAULT_MAP);
    quiet();
    side[LAMPCOIL_SIDE_E_B + 23] = 0x80;
    GIVES(write_block(n, s, m), LAMPCOIL_REFUSED_FAULT_MAP);
    EXPECT(write_block(n, s, m).place == 383);
}

/* A bit of octet 1 of a column belongs to frame 8: it must show in that subframe's slot, whose two symbols then
   differ. */
static void test_columns(void)
{
    static const struct { uint32_t column, channel, slot; } columns[] = {
        {LAMPCOIL_SIDE_V_A, 0, 28}, {LAMPCOIL_SIDE_U_A, 0, 29}, {LAMPCOIL_SIDE_C_A, 0, 30},
        {LAMPCOIL_SIDE_V_B, 1, 28}, {LAMPCOIL_SIDE_U_B, 1, 29}, {LAMPCOIL_SIDE_C_B, 1, 30},
    };
    for (size_t set = 0; set < 6; set++) {
        quiet();
        side[columns[set].column + 1] = 1;
        lampcoil_status_seal(side + LAMPCOIL_SIDE_C_A, LAMPCOIL_STATUS_OCTETS);
        lampcoil_status_seal(side + LAMPCOIL_SIDE_C_B, LAMPCOIL_STATUS_OCTETS);
        GIVES(write_block(LAMPCOIL_BLOCK_SAMPLES, LAMPCOIL_SIDE_OCTETS, LAMPCOIL_BLOCK_OCTETS), LAMPCOIL_ACCEPTED);
        for (size_t seen = 0; seen < 6; seen++) {
            uint32_t at = 64 * (16 + columns[seen].channel) + 2 * columns[seen].slot;
            int one = line[at / 8] >> (7 - at % 8) & 1, two = line[at / 8] >> (6 - at % 8) & 1;
            expect((one != two) == (seen == set), "a column of the side table");
        }
    }
}

static void test_madi(void)
{
    const uint32_t most = LAMPCOIL_MADI_MOST_CHANNELS, many = LAMPCOIL_MADI_MOST_COMMANDS;
    const uint32_t bits = LAMPCOIL_MADI_BITS(most, many), octets = LAMPCOIL_MADI_OCTETS(most, many);
    static uint8_t commands[LAMPCOIL_MADI_MOST_COMMANDS + 1];
    EXPECT(bits == LAMPCOIL_MADI_MOST_BITS);
    memset(words, 0, sizeof words);
    words[0] = LAMPCOIL_MADI_B_SUBFRAME;
    words[1] = LAMPCOIL_MADI_BLOCK_START;
    GIVES(lampcoil_madi_write(most, words, most, commands, many, 0, line, octets), LAMPCOIL_ACCEPTED);
    GIVES(lampcoil_madi_write(most, words, most, commands, many, 0, line, octets - 1), LAMPCOIL_REFUSED_LENGTH);
    GIVES(lampcoil_madi_write(most + 1, words, most, commands, many, 0, line, sizeof line), LAMPCOIL_REFUSED_RANGE);
    GIVES(lampcoil_madi_write(most, words, most, commands, many + 1, 0, line, sizeof line), LAMPCOIL_REFUSED_RANGE);
    GIVES(lampcoil_madi_read(most, 0, bits, line, octets, words, most, commands, many), LAMPCOIL_ACCEPTED);
    EXPECT(words[0] == LAMPCOIL_MADI_B_SUBFRAME && words[1] == LAMPCOIL_MADI_BLOCK_START && words[2] == 0);
    EXPECT(line[0] >> 3 == 0x17); /* the first channel's bits 0 to 3 are 1110, group 11100: levels 1 0 1 1 1 */
    GIVES(lampcoil_madi_read(most, 0, bits + 1, line, octets, words, most, commands, many), LAMPCOIL_REFUSED_RANGE);
    GIVES(lampcoil_madi_read(most, 0, 0, line, 0, words, most, commands, many), LAMPCOIL_REFUSED_FRAME);
    words[0] = 1;
    GIVES(lampcoil_madi_write(most, words, most, commands, many, 0, line, octets), LAMPCOIL_REFUSED_STATE);
    words[0] = 16;
    GIVES(lampcoil_madi_write(most, words, most, commands, many, 0, line, octets), LAMPCOIL_REFUSED_PARITY);
    memset(line, 0x55, octets); /* 01111 is data, and 11111 after it is not */
    line[octets - 1] = 0x54;
    GIVES(lampcoil_madi_read(most, 0, bits, line, octets, words, most, commands, many), LAMPCOIL_REFUSED_GROUP);
}

/* The level after frames of every number of commands up to nine, so that the last octet holds any number of bits. */
static void test_madi_level(void)
{
    static const uint8_t commands[9];
    memset(words, 0, sizeof words);
    for (uint32_t k = 1; k <= 9; k++)
        for (uint32_t level = 0; level < 2; level++) {
            uint32_t bits = LAMPCOIL_MADI_BITS(56, k), last = level;
            GIVES(lampcoil_madi_write(56, words, 1, commands, k, level, line, sizeof line), LAMPCOIL_ACCEPTED);
            for (uint32_t at = 0; at < bits; at++)
                last = (line[at / 8] & 0x80 >> at % 8) != 0;
            EXPECT(LAMPCOIL_MADI_LEVEL_AFTER(line, bits) == last);
        }
}

/* A table and its moves, at their lengths and beside them; one slot more than there are. */
static void test_leases(void)
{
    uint8_t table[LAMPCOIL_LEASE_SLOTS + 1] = {0}, moves[LAMPCOIL_LEASE_MOVES + 1];
    GIVES(lampcoil_lease_ask(table, LAMPCOIL_LEASE_SLOTS, 1, 60), LAMPCOIL_ACCEPTED);
    GIVES(lampcoil_lease_ask(table, LAMPCOIL_LEASE_SLOTS, 1, 5), LAMPCOIL_REFUSED_SLOTS);
    GIVES(lampcoil_lease_ask(table, LAMPCOIL_LEASE_SLOTS - 1, 1, 1), LAMPCOIL_REFUSED_LENGTH);
    GIVES(lampcoil_lease_return(table, LAMPCOIL_LEASE_SLOTS + 1, 1), LAMPCOIL_REFUSED_LENGTH);
    GIVES(lampcoil_lease_close(table, LAMPCOIL_LEASE_SLOTS, moves, LAMPCOIL_LEASE_MOVES), LAMPCOIL_ACCEPTED);
    GIVES(lampcoil_lease_close(table, LAMPCOIL_LEASE_SLOTS, moves, LAMPCOIL_LEASE_MOVES - 1), LAMPCOIL_REFUSED_LENGTH);
    GIVES(lampcoil_lease_close(table, LAMPCOIL_LEASE_SLOTS, moves, LAMPCOIL_LEASE_MOVES + 1), LAMPCOIL_REFUSED_LENGTH);
}

/* A verdict of each kind: slot 0 to itself, to no slot, to another tenant's slot, and to itself with odd parity. */
static void test_verdicts(void)
{
    uint8_t leases[LAMPCOIL_LEASE_SLOTS] = {1, 2}, verdicts[LAMPCOIL_MADI_MOST_CHANNELS];
    uint32_t rows[LAMPCOIL_MADI_MOST_CHANNELS] = {0}, out[LAMPCOIL_MADI_MOST_CHANNELS];
    const size_t n = LAMPCOIL_MADI_MOST_CHANNELS;
    memset(words, 0, sizeof words);
    GIVES(lampcoil_madi_patch(64, 64, leases, LAMPCOIL_LEASE_SLOTS, rows, n, words, n, out, n, verdicts, n), LAMPCOIL_ACCEPTED);
    EXPECT(verdicts[0] == LAMPCOIL_PATCH_CARRIED);
    rows[0] = 64;
    lampcoil_madi_patch(64, 64, leases, LAMPCOIL_LEASE_SLOTS, rows, n, words, n, out, n, verdicts, n);
    EXPECT(verdicts[0] == LAMPCOIL_PATCH_NONE);
    rows[0] = 1;
    lampcoil_madi_patch(64, 64, leases, LAMPCOIL_LEASE_SLOTS, rows, n, words, n, out, n, verdicts, n);
    EXPECT(verdicts[0] == LAMPCOIL_PATCH_FOREIGN);
    rows[0] = 0;
    words[0] = 0x10;
    lampcoil_madi_patch(64, 64, leases, LAMPCOIL_LEASE_SLOTS, rows, n, words, n, out, n, verdicts, n);
    EXPECT(verdicts[0] == LAMPCOIL_PATCH_PARITY);
}

static lampcoil_verdict write_packet(size_t bodies_len, size_t words_len)
{
    return lampcoil_hd_write(1, 2, 3, 0, 1, 0, bodies, bodies_len, packet, words_len);
}

static lampcoil_hd_read_answer read_packet(void)
{
    return lampcoil_hd_read(packet, LAMPCOIL_PACKET_WORDS, bodies, LAMPCOIL_PACKET_BODIES);
}

static void test_packet(void)
{
    const size_t b = LAMPCOIL_PACKET_BODIES, w = LAMPCOIL_PACKET_WORDS;
    memset(bodies, 0, sizeof bodies);
    GIVES(write_packet(b - 1, w), LAMPCOIL_REFUSED_LENGTH);
    GIVES(write_packet(b + 1, w), LAMPCOIL_REFUSED_LENGTH);
    GIVES(write_packet(b, w - 1), LAMPCOIL_REFUSED_LENGTH);
    GIVES(write_packet(b, w + 1), LAMPCOIL_REFUSED_LENGTH);
    GIVES(write_packet(b, w), LAMPCOIL_ACCEPTED);
    GIVES(read_packet(), LAMPCOIL_ACCEPTED);
    packet[0] = 1;
    GIVES(read_packet(), LAMPCOIL_REFUSED_HEADER);
    packet[0] = 1024;
    GIVES(read_packet(), LAMPCOIL_REFUSED_WORD);
    packet[0] = 0;
    packet[30] ^= 1;
    GIVES(read_packet(), LAMPCOIL_REFUSED_CHECKSUM);
    packet[6] ^= 1;
    packet[9] ^= 1;
    GIVES(lampcoil_hd_repair(packet, w, repaired, w), LAMPCOIL_REFUSED_LANE);
}

static lampcoil_verdict write_control(uint32_t rate, size_t words_len)
{
    return lampcoil_hd_control_write(1, 0, rate, 1, 15, 1, -1, 0, 0, packet, words_len);
}

static void test_control(void)
{
    const size_t w = LAMPCOIL_CONTROL_WORDS;
    static const uint32_t rate[] = {LAMPCOIL_CONTROL_48_KHZ, LAMPCOIL_CONTROL_44_1_KHZ, LAMPCOIL_CONTROL_32_KHZ,
                                    LAMPCOIL_CONTROL_FREE_RUNNING};
    GIVES(write_control(LAMPCOIL_CONTROL_48_KHZ, w - 1), LAMPCOIL_REFUSED_LENGTH);
    GIVES(write_control(LAMPCOIL_CONTROL_48_KHZ, w + 1), LAMPCOIL_REFUSED_LENGTH);
    for (int k = 0; k < 4; k++) {
        GIVES(write_control(rate[k], w), LAMPCOIL_ACCEPTED);
        EXPECT(packet[7] == (0x201 | "\0\1\2\7"[k] << 1));
    }
    for (uint32_t k = LAMPCOIL_CONTROL_32_KHZ + 1; k < LAMPCOIL_CONTROL_FREE_RUNNING; k++)
        GIVES(write_control(k, w), LAMPCOIL_REFUSED_STATE);
    GIVES(lampcoil_hd_control_read(packet, w - 1), LAMPCOIL_REFUSED_LENGTH);
    GIVES(lampcoil_hd_control_read(packet, w), LAMPCOIL_ACCEPTED);
    GIVES(lampcoil_hd_repair(packet, w, repaired, w), LAMPCOIL_REFUSED_LENGTH);
}

/* A state of bytes 0 to 2 and what the field at an offset of the meaning must then hold. */
typedef struct { uint8_t byte, bits; size_t field; uint32_t state; } row;

#define ROW(byte, bits, field, state) {byte, bits, offsetof(lampcoil_status_meaning, field), state}

static const row rows[] = {
    ROW(0, 0x00, audio, LAMPCOIL_AUDIO_LINEAR_PCM), ROW(0, 0x02, audio, LAMPCOIL_AUDIO_OTHER),
    ROW(0, 0x00, emphasis, LAMPCOIL_EMPHASIS_NOT_INDICATED), ROW(0, 0x04, emphasis, LAMPCOIL_EMPHASIS_NONE),
    ROW(0, 0x0C, emphasis, LAMPCOIL_EMPHASIS_50_15_US), ROW(0, 0x1C, emphasis, LAMPCOIL_EMPHASIS_J17),
    ROW(0, 0x10, emphasis, LAMPCOIL_RESERVED),
    ROW(0, 0x00, lock, LAMPCOIL_LOCK_NOT_INDICATED), ROW(0, 0x20, lock, LAMPCOIL_LOCK_UNLOCKED),
    ROW(0, 0x00, rate, LAMPCOIL_RATE_NOT_INDICATED), ROW(0, 0x80, rate, LAMPCOIL_RATE_48_KHZ),
    ROW(0, 0x40, rate, LAMPCOIL_RATE_44_1_KHZ), ROW(0, 0xC0, rate, LAMPCOIL_RATE_32_KHZ),
    ROW(1, 0x00, mode, LAMPCOIL_MODE_NOT_INDICATED), ROW(1, 0x08, mode, LAMPCOIL_MODE_TWO_CHANNEL),
    ROW(1, 0x04, mode, LAMPCOIL_MODE_SINGLE_CHANNEL), ROW(1, 0x0C, mode, LAMPCOIL_MODE_PRIMARY_SECONDARY),
    ROW(1, 0x02, mode, LAMPCOIL_MODE_STEREOPHONIC), ROW(1, 0x0A, mode, LAMPCOIL_MODE_USER_1010),
    ROW(1, 0x06, mode, LAMPCOIL_MODE_USER_0110), ROW(1, 0x0E, mode, LAMPCOIL_MODE_DOUBLE_RATE),
    ROW(1, 0x01, mode, LAMPCOIL_MODE_DOUBLE_RATE_LEFT), ROW(1, 0x09, mode, LAMPCOIL_MODE_DOUBLE_RATE_RIGHT),
    ROW(1, 0x0F, mode, LAMPCOIL_MODE_MULTICHANNEL),
    ROW(1, 0x00, user, LAMPCOIL_USER_NOT_INDICATED), ROW(1, 0x80, user, LAMPCOIL_USER_BLOCK_192),
    ROW(1, 0x40, user, LAMPCOIL_USER_AES18), ROW(1, 0xC0, user, LAMPCOIL_USER_DEFINED),
    ROW(1, 0x20, user, LAMPCOIL_USER_IEC_60958_3), ROW(1, 0xA0, user, LAMPCOIL_USER_AES52),
    ROW(1, 0x60, user, LAMPCOIL_USER_IEC_62537),
    ROW(2, 0x00, auxiliary, LAMPCOIL_AUXILIARY_20_UNDEFINED), ROW(2, 0x04, auxiliary, LAMPCOIL_AUXILIARY_24_MAIN),
    ROW(2, 0x02, auxiliary, LAMPCOIL_AUXILIARY_20_COORDINATION), ROW(2, 0x06, auxiliary, LAMPCOIL_AUXILIARY_USER_DEFINED),
    ROW(2, 0x00, length, LAMPCOIL_LENGTH_NOT_INDICATED), ROW(2, 0x20, length, 19), ROW(2, 0x2C, length, 24),
    ROW(2, 0x00, alignment, LAMPCOIL_ALIGNMENT_NOT_INDICATED), ROW(2, 0x80, alignment, LAMPCOIL_ALIGNMENT_RP155),
    ROW(2, 0x40, alignment, LAMPCOIL_ALIGNMENT_R68),
};

static void test_sheet(void)
{
    int64_t sheet[LAMPCOIL_SHEET_NUMBERS + 1] = {0};
    const size_t n = LAMPCOIL_SHEET_NUMBERS;
    EXPECT(n * sizeof sheet[0] == 2 * sizeof(lampcoil_level_channel));
    GIVES(lampcoil_level_start(sheet, n - 1), LAMPCOIL_REFUSED_LENGTH);
    GIVES(lampcoil_level_start(sheet, n + 1), LAMPCOIL_REFUSED_LENGTH);
    GIVES(lampcoil_level_start(sheet, n), LAMPCOIL_ACCEPTED);
    quiet();
    GIVES(lampcoil_level_add(sheet, n, samples, LAMPCOIL_BLOCK_SAMPLES, side, LAMPCOIL_SIDE_OCTETS), LAMPCOIL_ACCEPTED);
    sheet[0] = 4294967296;
    GIVES(lampcoil_level_add(sheet, n, samples, LAMPCOIL_BLOCK_SAMPLES, side, LAMPCOIL_SIDE_OCTETS), LAMPCOIL_REFUSED_FULL);
    sheet[0] = 4294967297;
    GIVES(lampcoil_level_add(sheet, n, samples, LAMPCOIL_BLOCK_SAMPLES, side, LAMPCOIL_SIDE_OCTETS), LAMPCOIL_REFUSED_RANGE);
}

static void test_replay(void)
{
    static const uint8_t too_long[] = {0, 0, 0x20, 1}, cut[] = {0, 0, 0x20, 0};
    uint32_t sheet[LAMPCOIL_REPLAY_NUMBERS + 1] = {0};
    const size_t n = LAMPCOIL_REPLAY_NUMBERS;
    uint8_t short_packet[6] = {0, 0, 0, 2, 1, 2}; /* a data packet of no words: refused by 1, without a group */
    EXPECT(n * sizeof sheet[0] == sizeof(lampcoil_replay_sheet));
    EXPECT(n * sizeof sheet[0] == 4 * sizeof(lampcoil_replay_line) + 18 * sizeof sheet[0]);
    GIVES(lampcoil_replay(short_packet, 6, sheet, n - 1), LAMPCOIL_REFUSED_LENGTH);
    GIVES(lampcoil_replay(short_packet, 6, sheet, n + 1), LAMPCOIL_REFUSED_LENGTH);
    GIVES(lampcoil_replay(short_packet, 6, sheet, n), LAMPCOIL_ACCEPTED);
    EXPECT(sheet[n - 18 + LAMPCOIL_REFUSED_LENGTH] == 1);
    EXPECT(lampcoil_replay(short_packet, 6, sheet, n).stop == LAMPCOIL_STOP_END);
    EXPECT(lampcoil_replay(too_long, 4, sheet, n).stop == LAMPCOIL_STOP_LONG);
    EXPECT(lampcoil_replay(cut, 4, sheet, n).stop == LAMPCOIL_STOP_CUT);
    sheet[n - 18 + LAMPCOIL_REFUSED_LENGTH] = UINT32_MAX;
    GIVES(lampcoil_replay(short_packet, 6, sheet, n), LAMPCOIL_REFUSED_COUNT);
    sheet[20] = 2;
    GIVES(lampcoil_replay(short_packet, 6, sheet, n), LAMPCOIL_REFUSED_RANGE);
}

static void test_status(void)
{
    uint8_t status[LAMPCOIL_STATUS_OCTETS] = {0};
    EXPECT(lampcoil_status_read(status, LAMPCOIL_STATUS_OCTETS).use == LAMPCOIL_USE_CONSUMER);
    for (size_t k = 0; k < sizeof rows / sizeof rows[0]; k++) {
        memset(status, 0, sizeof status);
        status[rows[k].byte] = rows[k].bits;
        status[0] |= 1;
        lampcoil_status_meaning m = lampcoil_status_read(status, LAMPCOIL_STATUS_OCTETS);
        uint32_t state;
        memcpy(&state, (const char *)&m + rows[k].field, sizeof state);
        expect(m.use == LAMPCOIL_USE_PROFESSIONAL && state == rows[k].state, "a state of the status");
    }
}

/* Each number has a text of its own, and no other number has one. */
static void test_texts(void)
{
    const char *none = lampcoil_refusal_text(LAMPCOIL_REFUSED_COUNT + 1);
    for (uint32_t k = LAMPCOIL_ACCEPTED; k <= LAMPCOIL_REFUSED_COUNT; k++) {
        EXPECT(strcmp(lampcoil_refusal_text(k), none) != 0);
        for (uint32_t j = LAMPCOIL_ACCEPTED; j < k; j++)
            EXPECT(strcmp(lampcoil_refusal_text(k), lampcoil_refusal_text(j)) != 0);
    }
    EXPECT(lampcoil_refusal_text(UINT32_MAX) == none);
}

static lampcoil_verdict join(size_t program_len, size_t voice_len)
{
    return lampcoil_talkback_join(samples, program_len, voice, voice_len, side, LAMPCOIL_SIDE_OCTETS, joined,
                                  LAMPCOIL_BLOCK_SAMPLES);
}

static lampcoil_verdict separate(size_t program_len, size_t voice_len)
{
    return lampcoil_talkback_separate(joined, LAMPCOIL_BLOCK_SAMPLES, side, LAMPCOIL_SIDE_OCTETS, samples, program_len,
                                      voice, voice_len);
}

/* What joining and separating refuse. */
static void test_talkback(void)
{
    const size_t n = LAMPCOIL_BLOCK_SAMPLES, v = LAMPCOIL_VOICE_SAMPLES;
    quiet();
    GIVES(join(n, v), LAMPCOIL_REFUSED_UNDECLARED);
    side[LAMPCOIL_SIDE_C_A + 2] = 2;
    GIVES(join(n, v), LAMPCOIL_REFUSED_UNDECLARED);
    EXPECT(join(n, v).place == 1);
    side[LAMPCOIL_SIDE_C_B + 2] = 2;
    GIVES(join(n, v), LAMPCOIL_ACCEPTED);
    GIVES(separate(n, v), LAMPCOIL_ACCEPTED);
    GIVES(join(n, v - 1), LAMPCOIL_REFUSED_LENGTH);
    GIVES(join(n, v + 1), LAMPCOIL_REFUSED_LENGTH);
    GIVES(separate(n, v - 1), LAMPCOIL_REFUSED_LENGTH);
    GIVES(separate(n, v + 1), LAMPCOIL_REFUSED_LENGTH);
    voice[v - 1] = 2048;
    GIVES(join(n, v), LAMPCOIL_REFUSED_SAMPLE);
    EXPECT(join(n, v).place == n + v - 1);
}

int main(void)
{
    test_version();
    test_samples();
    test_block_lengths();
    test_block_refusals();
    test_level_after();
    test_columns();
    test_talkback();
    test_madi();
    test_madi_level();
    test_verdicts();
    test_leases();
    test_packet();
    test_control();
    test_status();
    test_sheet();
    test_replay();
    test_texts();
    constants_records();
    constants_sheets();
    printf("constants: %d passed, %d failed\n", passed, failed);
    return failed != 0;
}
