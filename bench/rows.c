/* The rows of the table that bench.c measures: every entry that a driver calls often, with its input. */
#include "bench.h"
#include <stddef.h>
#include <string.h>

enum { HUNTED = 8192, SYNCS = 26, RECORDS = 1000, RECORD = 68 };

static int32_t samples[384], bound_samples[384], back_samples[384];
static int32_t plain[384], back_plain[384], voice[128], back_voice[128];
static uint8_t talk_side[LAMPCOIL_SIDE_OCTETS];
static uint8_t side[192], bound_side[192], back_side[192], line[3072], odd_line[3072], back_line[3072], hunted[HUNTED];
static uint32_t words[64], back_words[64], bodies[4], back_bodies[4];
static uint8_t madi[LAMPCOIL_MADI_OCTETS(64, SYNCS)], back_madi[LAMPCOIL_MADI_OCTETS(64, SYNCS)];
static uint8_t leases[64], back_leases[64], moves[128], verdicts[64];
static uint32_t rows[64];
static uint8_t full[LAMPCOIL_MADI_OCTETS(64, 255)], back_full[LAMPCOIL_MADI_OCTETS(64, 255)];
static uint8_t syncs[SYNCS], commands[255], back_commands[255];
static uint16_t packet[31], damaged[31], back_packet[31];
static uint16_t control[18], back_control[18];
static uint8_t night[RECORDS * RECORD];
static uint32_t figures[110], back_figures[110];
static uint8_t status[24], back_status[24];
static int64_t sheet[20], back_sheet[20];

/* An entry that leaves its input as it is. */
#define PROGRAM(name, type, call)                                                                                      \
    static uint32_t name##_timed(void) { return call.number; }                                                         \
    static size_t name##_whole(void *to)                                                                               \
    {                                                                                                                  \
        type answer = call;                                                                                            \
        memcpy(to, &answer, sizeof answer);                                                                            \
        return sizeof answer;                                                                                          \
    }                                                                                                                  \
    static const program name = {name##_timed, name##_whole};

/* An entry of the library and the same by hand. */
#define BOTH(name, type, entry, arguments)                                                                             \
    PROGRAM(library_##name, type, lampcoil_##entry arguments)                                                          \
    PROGRAM(by_hand_##name, type, hand_##entry arguments)

/* With them the C that takes the named forms. */
#define ALL(name, type, entry, arguments)                                                                              \
    BOTH(name, type, entry, arguments)                                                                                 \
    PROGRAM(by_forms_##name, type, formed_##entry arguments)

/* An entry that changes a buffer in place: each call starts from the same contents, and every program's time has the
   copy in it. */
#define CHANGING(name, type, back, from, call)                                                                         \
    static type name##_once(void)                                                                                      \
    {                                                                                                                  \
        memcpy(back, from, sizeof from);                                                                               \
        return call;                                                                                                   \
    }                                                                                                                  \
    PROGRAM(name, type, name##_once())

#define BOTH_CHANGING(name, type, back, from, entry, arguments)                                                        \
    CHANGING(library_##name, type, back, from, lampcoil_##entry arguments)                                             \
    CHANGING(by_hand_##name, type, back, from, hand_##entry arguments)

#define ALL_CHANGING(name, type, back, from, entry, arguments)                                                         \
    BOTH_CHANGING(name, type, back, from, entry, arguments)                                                            \
    CHANGING(by_forms_##name, type, back, from, formed_##entry arguments)

ALL(aes3_write, lampcoil_verdict, aes3_write, (samples, 384, side, 192, 0, back_line, 3072))
ALL(aes3_write_bound, lampcoil_verdict, aes3_write, (bound_samples, 384, bound_side, 192, 0, back_line, 3072))
ALL(aes3_read, lampcoil_aes3_read_answer, aes3_read, (line, 3072, back_samples, 384, back_side, 192))
ALL(aes3_read_odd, lampcoil_aes3_read_answer, aes3_read, (odd_line, 3072, back_samples, 384, back_side, 192))
BOTH(find, lampcoil_aes3_start, aes3_find, (hunted, HUNTED))
PROGRAM(by_forms_find, lampcoil_aes3_start, hand_aes3_find_by_candidate(hunted, HUNTED))
ALL_CHANGING(edit_0, lampcoil_verdict, back_status, status, status_edit, (back_status, 24, 0, status[0] ^ 0x5Au))
ALL_CHANGING(edit_22, lampcoil_verdict, back_status, status, status_edit, (back_status, 24, 22, status[22] ^ 0x5Au))
ALL_CHANGING(seal, lampcoil_verdict, back_status, status, status_seal, (back_status, 24))
ALL_CHANGING(level_add, lampcoil_verdict, back_sheet, sheet, level_add, (back_sheet, 20, samples, 384, side, 192))
BOTH_CHANGING(level_join, lampcoil_verdict, back_sheet, sheet, level_join, (back_sheet, 20, sheet, 20))
BOTH(join, lampcoil_verdict, talkback_join, (plain, 384, voice, 128, talk_side, 192, back_samples, 384))
BOTH(separate, lampcoil_verdict, talkback_separate, (samples, 384, talk_side, 192, back_plain, 384, back_voice, 128))
ALL(madi_write, lampcoil_verdict, madi_write, (64, words, 64, syncs, SYNCS, 0, back_madi, sizeof back_madi))
ALL(madi_read, lampcoil_madi_read_answer, madi_read,
    (64, 0, LAMPCOIL_MADI_BITS(64, SYNCS), madi, sizeof madi, back_words, 64, back_commands, 255))
ALL(madi_write_full, lampcoil_verdict, madi_write, (64, words, 64, commands, 255, 0, back_full, sizeof back_full))
ALL(madi_read_full, lampcoil_madi_read_answer, madi_read,
    (64, 0, LAMPCOIL_MADI_BITS(64, 255), full, sizeof full, back_words, 64, back_commands, 255))
ALL(patch, lampcoil_verdict, madi_patch, (64, 64, leases, 64, rows, 64, words, 64, back_words, 64, verdicts, 64))
BOTH_CHANGING(ask, lampcoil_lease, back_leases, leases, lease_ask, (back_leases, 64, 9, 8))
BOTH_CHANGING(give_back, lampcoil_lease, back_leases, leases, lease_return, (back_leases, 64, 2))
BOTH_CHANGING(close, lampcoil_lease_closed, back_leases, leases, lease_close, (back_leases, 64, moves, 128))
ALL(hd_write, lampcoil_verdict, hd_write, (1, 17, 1234, 0, 1, 0, bodies, 4, back_packet, 31))
ALL(hd_read, lampcoil_hd_read_answer, hd_read, (packet, 31, back_bodies, 4))
ALL(repair, lampcoil_hd_repair_answer, hd_repair, (packet, 31, back_packet, 31))
ALL(repair_damaged, lampcoil_hd_repair_answer, hd_repair, (damaged, 31, back_packet, 31))
ALL(control_write, lampcoil_verdict, hd_control_write, (2, 17, 0, 0, 15, 1, -1234, 1, 5678, back_control, 18))
ALL(control_read, lampcoil_hd_control_answer, hd_control_read, (control, 18))

/* A replay's answer ends in padding, which is not compared. */
#define REPLAY(name, entry)                                                                                            \
    static lampcoil_replay_answer name##_once(void)                                                                    \
    {                                                                                                                  \
        memcpy(back_figures, figures, sizeof figures);                                                                 \
        return entry(night, sizeof night, back_figures, 110);                                                          \
    }                                                                                                                  \
    static uint32_t name##_timed(void) { return name##_once().number; }                                                \
    static size_t name##_whole(void *to)                                                                               \
    {                                                                                                                  \
        lampcoil_replay_answer answer = name##_once();                                                                 \
        size_t octets = offsetof(lampcoil_replay_answer, figures) + sizeof answer.figures;                             \
        memcpy(to, &answer, octets);                                                                                   \
        return octets;                                                                                                 \
    }                                                                                                                  \
    static const program name = {name##_timed, name##_whole};

REPLAY(library_replay, lampcoil_replay)
REPLAY(by_hand_replay, hand_replay)
REPLAY(by_forms_replay, formed_replay)

static uint32_t state = 1;

static uint32_t draw(void)
{
    state = state * 1664525u + 1013904223u;
    return state >> 8;
}

static void nothing(void)
{
}

/* Symbols at random, and none of them preamble Z before a Y: the hunt goes to the end. */
static void hunt_noise(void)
{
    for (int k = 0; k < HUNTED; k++)
        hunted[k] = (uint8_t)(draw() >> 4);
    if (hand_aes3_find(hunted, HUNTED).number == 0)
        hunt_noise();
}

/* Preamble Z in every octet, so that one candidate in eight goes far. */
static void hunt_z(void)
{
    memset(hunted, 0xE8, HUNTED);
}

static void prepare_blocks(void)
{
    for (int k = 0; k < 384; k++)
        samples[k] = (int32_t)(draw() & 0xFFFFFF) - 8388608;
    for (int k = 0; k < 192; k++)
        side[k] = k % 96 < 72 ? (uint8_t)draw() : 0;
    for (int c = 0; c < 2; c++) {
        side[96 * c + 48] = 0x85;
        side[96 * c + 50] = 0;
        lampcoil_status_seal(side + 96 * c + 48, 24);
    }
    memcpy(bound_side, side, sizeof side);
    for (int c = 0; c < 2; c++) { /* words of 20 bits with 24-bit use, and of 16 bits with 20-bit use */
        bound_side[96 * c + 50] = c == 0 ? 0x0C : 0x08;
        lampcoil_status_seal(bound_side + 96 * c + 48, 24);
    }
    for (int k = 0; k < 384; k++)
        bound_samples[k] = samples[k] & ~(k % 2 == 0 ? 0x0F : 0xF0);
    for (int k = 0; k < 384; k++)
        plain[k] = samples[k] & ~15;
    for (int k = 0; k < 128; k++)
        voice[k] = (int32_t)(draw() & 0xFFF) - 2048;
    talk_side[LAMPCOIL_SIDE_C_A + 2] = talk_side[LAMPCOIL_SIDE_C_B + 2] = 2;
    memcpy(status, side + 48, sizeof status);
    lampcoil_level_start(sheet, 20);
    lampcoil_level_add(sheet, 20, samples, 384, side, 192);
    lampcoil_aes3_write(samples, 384, side, 192, 0, line, 3072);
    for (int k = 0; k < 3072; k++) /* the last symbol of each subframe, and all after it, inverted */
        odd_line[k] = (uint8_t)(line[k] ^ (k / 8 % 2 == 0 ? 0x00 : 0xFF) ^ (k % 8 == 7 ? 0x01 : 0x00));
}

/* Four tenants with 14 slots each, the house with 8 of them free; most patch rows stay within one tenant. */
static void prepare_frames(void)
{
    for (int k = 0; k < 64; k++) {
        int32_t sample = (int32_t)(draw() & 0xFFFFFF) - 8388608;
        uint32_t flags = draw();
        words[k] = lampcoil_body_write(sample, flags & 1, flags >> 1 & 1, flags >> 2 & 1).body;
    }
    for (uint32_t k = 0; k < 64; k++) {
        leases[k] = k % 8 == 5 ? 0 : (uint8_t)(1 + k / 16);
        rows[k] = draw() % 8 == 0 ? draw() % 80 : k / 16 * 16 + draw() % 16;
    }
    for (int k = 1; k < 255; k++)
        commands[k] = (uint8_t)(draw() & 15);
    lampcoil_madi_write(64, words, 64, syncs, SYNCS, 0, madi, sizeof madi);
    lampcoil_madi_write(64, words, 64, commands, 255, 0, full, sizeof full);
}

/* A packet, and a night of a thousand: four groups that count, one packet in ten with a damaged place. */
static void prepare_packets(void)
{
    memcpy(bodies, words, sizeof bodies);
    lampcoil_hd_write(1, 17, 1234, 0, 1, 0, bodies, 4, packet, 31);
    memcpy(damaged, packet, sizeof packet);
    for (int lane = 0; lane < 8; lane++)
        damaged[3 * lane + 5] ^= (uint16_t)(1u << lane);
    lampcoil_hd_control_write(2, 17, 0, 0, 15, 1, -1234, 1, 5678, control, 18);
    for (uint32_t n = 0; n < RECORDS; n++) {
        uint8_t *o = night + RECORD * n;
        uint16_t one[31];
        for (int k = 0; k < 4; k++)
            bodies[k] = words[draw() % 64];
        lampcoil_hd_write(1 + n % 4, 1 + n / 4 % 255, draw() % 4096, 0, 0, 0, bodies, 4, one, 31);
        if (n % 10 == 9)
            one[draw() % 30] ^= (uint16_t)(1u << draw() % 8);
        memcpy(o, "\0\0\0\100\1\2", 6);
        for (int w = 0; w < 31; w++) {
            o[6 + 2 * w] = (uint8_t)(one[w] >> 8);
            o[7 + 2 * w] = (uint8_t)one[w];
        }
    }
}

void prepare_rows(void)
{
    hand_init_aes3();
    hand_init_madi();
    hand_init_hd();
    hand_init_levels();
    formed_init_aes3();
    formed_init_madi();
    formed_init_hd();
    formed_init_levels();
    prepare_blocks();
    prepare_frames();
    prepare_packets();
}

#define FILLS(buffer) {buffer, sizeof buffer}
#define TWO(name) &library_##name, &by_hand_##name, NULL
#define THREE(name) &library_##name, &by_hand_##name, &by_forms_##name

const operation all_rows[] = {
    {"AES3 write, a block with declared word lengths", THREE(aes3_write_bound), nothing, {FILLS(back_line)}},
    {"AES3 write, a block with none declared", THREE(aes3_write), nothing, {FILLS(back_line)}},
    {"AES3 read, a block", THREE(aes3_read), nothing, {FILLS(back_samples), FILLS(back_side)}},
    {"AES3 read, a fault in every subframe", THREE(aes3_read_odd), nothing, {FILLS(back_samples), FILLS(back_side)}},
    {"hunt, 8,192 octets at random, no start", THREE(find), hunt_noise, {{0}}},
    {"hunt, 8,192 octets with Z in each, no start", THREE(find), hunt_z, {{0}}},
    {"status edit, byte 0", THREE(edit_0), nothing, {FILLS(back_status)}},
    {"status edit, byte 22", THREE(edit_22), nothing, {FILLS(back_status)}},
    {"status seal", THREE(seal), nothing, {FILLS(back_status)}},
    {"level sheet, adding a block", THREE(level_add), nothing, {FILLS(back_sheet)}},
    {"level sheet, joining two", TWO(level_join), nothing, {FILLS(back_sheet)}},
    {"talkback, joining a block", TWO(join), nothing, {FILLS(back_samples)}},
    {"talkback, separating a block", TWO(separate), nothing, {FILLS(back_plain), FILLS(back_voice)}},
    {"MADI write, 64 channels", THREE(madi_write), nothing, {FILLS(back_madi)}},
    {"MADI read, 64 channels", THREE(madi_read), nothing, {FILLS(back_words), FILLS(back_commands)}},
    {"MADI write, 64 channels and 255 commands", THREE(madi_write_full), nothing, {FILLS(back_full)}},
    {"MADI read, 64 channels and 255 commands", THREE(madi_read_full), nothing, {FILLS(back_words), FILLS(back_commands)}},
    {"patch, 64 slots of four tenants", THREE(patch), nothing, {FILLS(back_words), FILLS(verdicts)}},
    {"lease, asking for 8 slots", TWO(ask), nothing, {FILLS(back_leases)}},
    {"lease, returning 14 slots", TWO(give_back), nothing, {FILLS(back_leases)}},
    {"lease, closing 8 gaps", TWO(close), nothing, {FILLS(back_leases), FILLS(moves)}},
    {"HD write, a packet", THREE(hd_write), nothing, {FILLS(back_packet)}},
    {"HD read, a packet", THREE(hd_read), nothing, {FILLS(back_bodies)}},
    {"HD repair, nothing damaged", THREE(repair), nothing, {FILLS(back_packet)}},
    {"HD repair, one place in every lane", THREE(repair_damaged), nothing, {FILLS(back_packet)}},
    {"control packet, write", THREE(control_write), nothing, {FILLS(back_control)}},
    {"control packet, read", THREE(control_read), nothing, {{0}}},
    {"replay, a thousand records", THREE(replay), nothing, {FILLS(back_figures)}},
};

const size_t row_count = sizeof all_rows / sizeof all_rows[0];
