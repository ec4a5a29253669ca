/* Records for the report program and the replay: carriers of all kinds, good, or spoilt in a chosen way. */
#include "records.h"
#include "second.h"
#include "spoil.h"
#include <stdio.h>
#include <string.h>

static uint32_t state;

void record_seed(uint32_t seed)
{
    state = seed;
}

uint32_t record_draw(void)
{
    state = state * 1664525u + 1013904223u;
    return state / 65536u;
}

uint32_t record_below(uint32_t n)
{
    return record_draw() % n;
}

void record_octets(const uint8_t *octets, size_t n)
{
    fwrite(octets, 1, n, stdout);
}

void record_put(int version, int kind, const uint8_t *payload, size_t n)
{
    size_t length = n + 2;
    uint8_t head[6] = {(uint8_t)(length >> 24), (uint8_t)(length >> 16), (uint8_t)(length >> 8), (uint8_t)length, (uint8_t)version,
                       (uint8_t)kind};
    record_octets(head, 6);
    record_octets(payload, n);
}

/* Draws that stand in one expression may be taken in any order; here each has a statement of its own, so that the records are the same
   whatever the compiler. */
static int32_t draw_sample(void)
{
    uint32_t high = record_draw();
    return (int32_t)(high * 256u + record_below(256)) - 8388608;
}

static uint32_t draw_body(void)
{
    int32_t sample = draw_sample();
    uint32_t v = record_below(2), u = record_below(2), c = record_below(2);
    return second_body_write(sample, v, u, c).body;
}

static void good_line(uint8_t line[3072])
{
    int32_t samples[384];
    uint8_t side[192];
    for (int k = 0; k < 384; k++)
        samples[k] = draw_sample();
    for (int k = 0; k < 192; k++)
        side[k] = k % 96 < 72 ? (uint8_t)record_below(256) : 0; /* E is empty */
    for (int channel = 0; channel < 2; channel++) {
        uint8_t *status = side + 96 * channel + 48;
        status[0] = (uint8_t)(status[0] / 4 * 4 + 1);
        second_status_seal(status, 24);
    }
    for (int k = 0; k < 384; k++)
        samples[k] = second_shortened(side + 96 * (k % 2) + 48, samples[k]);
    second_aes3_write(samples, 384, side, 192, record_below(2), line, 3072);
}

void record_aes3(int way)
{
    uint8_t line[3072];
    uint32_t subframe = record_below(384), symbol = 64 * subframe;
    good_line(line);
    if (way == AES3_INVERTED)
        for (int k = 0; k < 3072; k++)
            line[k] = (uint8_t)~line[k];
    if (way == AES3_CRCC_A || way == AES3_CRCC_B) { /* C and P of one subframe of the channel */
        subframe = subframe / 2 * 2 + (way == AES3_CRCC_B);
        spoil_slot(line, subframe, 30, 64 * subframe + 63);
    }
    if (way == AES3_PREAMBLE)
        spoil_flip(line, symbol + 1 + record_below(7));
    if (way == AES3_SLOT)
        for (uint32_t k = symbol + 8 + 2 * record_below(28); k < 24576; k++)
            spoil_flip(line, k);
    if (way == AES3_ODD)
        spoil_slot(line, subframe, 4 + record_below(28), 24576);
    record_put(1, 1, line, way == AES3_SHORT ? 3071 : 3072);
}

static void spoil_packet(uint16_t words[31], int way)
{
    if (way == HD_ABOVE)
        words[record_below(31)] |= 0x400;
    if (way == HD_HEADER) {
        words[record_below(4)] ^= 0x10;
        spoil_close_lanes(words);
    }
    if (way == HD_WORD)
        words[6 + record_below(24)] ^= 0x100;
    if (way == HD_CHECKSUM)
        words[30] ^= 0x001;
    if (way == HD_LANE) {
        uint32_t w = 6 + record_below(24);
        words[w] ^= (uint16_t)(1u << record_below(8));
        spoil_close_words(words);
    }
    if (way == HD_ZERO) {
        words[4 * record_below(4) + 8] ^= 0x02;
        spoil_close_lanes(words);
    }
    if (way == HD_PARITY) {
        words[9 + 4 * record_below(4)] ^= 0x40;
        spoil_close_lanes(words);
    }
}

/* What repair mends, and what it does not: at most one place of each lane, or two of one lane. */
static void spoil_for_repair(uint16_t words[31], int way)
{
    uint32_t lane = record_below(8), w = 6 + record_below(11);
    uint16_t bit = (uint16_t)(1u << lane);
    if (way == HD_LANES)
        for (uint32_t k = 2 + record_below(7); k > 0; k--)
            words[3 + record_below(27)] ^= (uint16_t)(1u << (lane + k) % 8);
    if (way == HD_DID)
        words[3] ^= bit;
    if (way == HD_TWICE || way == HD_LOST_DID) {
        words[w] ^= bit;
        words[way == HD_LOST_DID ? 3 : w + 1 + record_below(13)] ^= bit;
    }
    if (way == HD_LANE_ZERO) {
        words[4 * record_below(4) + 8] ^= 0x02;
        spoil_close_lanes(words);
        words[w] ^= bit;
    }
}

void record_hd(uint32_t group, uint32_t dbn, int way)
{
    uint32_t bodies[4];
    uint16_t words[31];
    uint8_t payload[62];
    for (int k = 0; k < 4; k++)
        bodies[k] = draw_body();
    uint32_t phase = record_below(4096), ck12 = record_below(2), z1 = record_below(2), z2 = record_below(2);
    second_hd_write(group, dbn, phase, ck12, z1, z2, bodies, 4, words, 31);
    if (way < HD_WAYS)
        spoil_packet(words, way);
    else
        spoil_for_repair(words, way);
    for (int w = 0; w < 31; w++) {
        payload[2 * w] = (uint8_t)(words[w] / 256);
        payload[2 * w + 1] = (uint8_t)(words[w] % 256);
    }
    record_put(1, 2, payload, way == HD_SHORT ? 61 : 62);
}

/* The last word of a control packet, from those before it. */
static void close_control(uint16_t words[18])
{
    uint32_t sum = 0;
    for (int w = 3; w < 17; w++)
        sum = (sum + words[w]) & 0x1FFu;
    words[17] = (uint16_t)(sum & 0x100u ? sum : sum | 0x200);
}

static void spoil_control(uint16_t words[18], int way)
{
    if (way == CTL_ABOVE)
        words[record_below(18)] |= 0x400;
    if (way == CTL_HEADER)
        words[record_below(4)] ^= 0x10;
    if (way == CTL_WORD)
        words[6 + record_below(11)] ^= 0x200;
    if (way == CTL_CHECKSUM)
        words[17] ^= 0x001;
    if (way == CTL_FRAME)
        words[7] |= 1;
    if (way == CTL_RATE)
        words[7] = (uint16_t)((words[7] & ~14u) | (3 + record_below(4)) << 1);
    if (way == CTL_ZERO)
        words[16] |= (uint16_t)(1u << record_below(8));
    if (way == CTL_FRAME || way == CTL_RATE || way == CTL_ZERO)
        close_control(words);
}

void record_control(uint32_t group, int way)
{
    uint16_t words[18];
    uint8_t payload[36];
    uint32_t asynchronous = way == CTL_ASYNCHRONOUS, frame = asynchronous == 1 ? 0 : 1 + record_below(511);
    uint32_t active = record_below(16), valid12 = record_below(2), valid34 = record_below(2);
    int32_t delay12 = (int32_t)(record_below(65536) * 1024u) - 33554432, delay34 = (int32_t)record_below(4096) - 2048;
    second_hd_control_write(group, frame, record_below(3), asynchronous, active, valid12, delay12, valid34, delay34, words, 18);
    spoil_control(words, way);
    for (int w = 0; w < 18; w++) {
        payload[2 * w] = (uint8_t)(words[w] / 256);
        payload[2 * w + 1] = (uint8_t)(words[w] % 256);
    }
    record_put(1, 4, payload, way == CTL_SHORT ? 35 : 36);
}

/* The line bits of a frame. */
static void frame_row(spoil_row *r, uint32_t channels, int way)
{
    uint32_t active = 1 + record_below(channels), at = record_below(active);
    r->bits = 0;
    for (uint32_t c = 0; c < channels; c++) {
        uint32_t word = c < active ? draw_body() | 2u | (c == 0) : 0;
        if (c < active)
            word |= record_below(4) * 4;
        if (way == MADI_STATE && c == at)
            word = word ^ (c == 0 || record_below(2) == 0 ? 1u : 3u);
        if (way == MADI_PARITY && c == at)
            word = word ^ 0x10000u;
        if (way == MADI_SPREAD && record_below(8) == 0)
            spoil_add_command(r, record_below(16));
        spoil_add_channel(r, word);
        if (way == MADI_GROUP && c == at)
            memset(r->bit + r->bits - 5 * (1 + record_below(8)), 0, 5);
    }
    spoil_add_syncs(r, way == MADI_NO_SYNC ? 0 : way == MADI_MANY ? 255 : 1 + 4 * record_below(5));
}

void record_madi(uint32_t channels, int way)
{
    static spoil_row r;
    static uint8_t payload[4 + SPOIL_MOST / 8];
    uint32_t level = record_below(2);
    frame_row(&r, channels, way);
    size_t n = 4 + spoil_pack(&r, level, payload + 4);
    uint32_t bits = r.bits;
    payload[0] = (uint8_t)(way == MADI_CHANNELS ? channels + 1 : channels);
    payload[1] = (uint8_t)(way == MADI_LEVEL ? 2 : level);
    if (way == MADI_BITS)
        bits = 5111;
    if (way == MADI_SPARE && bits % 8 != 0)
        payload[n - 1] |= 1;
    if (way == MADI_SHORT)
        n = n - 1;
    payload[2] = (uint8_t)(bits / 256);
    payload[3] = (uint8_t)(bits % 256);
    record_put(1, 3, payload, way == MADI_HEADLESS ? 3 : n);
}
