/* carry back: records to sound. */
#include "carry.h"
#include <string.h>

/* What one record held. */
typedef struct {
    uint32_t number, place; /* as the library answers */
    uint32_t kind, group, channels;
    int32_t samples[LAMPCOIL_BLOCK_SAMPLES];
    uint8_t padding[FRAMES]; /* 1 for a frame of which no channel is valid, and not for a fault in each of them */
    uint32_t faults;         /* subframes with odd parity, whose samples are as they came */
} received;

typedef struct {
    uint32_t kind, group, channels; /* of the first record that was accepted; kind is NO_KIND till then */
    uint32_t likely;                /* the kind that the first refused one before it says it has */
    uint64_t waiting;               /* how many were refused before it: their silence is due when it comes */
    int status;
} receiver;

static void put_samples(const int32_t *samples, uint32_t n)
{
    uint8_t octets[4 * MOST_CHANNELS];
    for (uint32_t k = 0; k < n; k++) {
        uint32_t bits = (uint32_t)samples[k];
        octets[4 * k] = 0;
        octets[4 * k + 1] = (uint8_t)bits;
        octets[4 * k + 2] = (uint8_t)(bits >> 8);
        octets[4 * k + 3] = (uint8_t)(bits >> 16);
    }
    put(octets, 4 * n);
}

static void put_silence(uint32_t frames, uint32_t channels)
{
    static const int32_t silence[MOST_CHANNELS] = {0};
    for (uint32_t f = 0; f < frames; f++)
        put_samples(silence, channels);
}

/* Whether the library accepted; its answer is kept. */
static int answered(received *got, uint32_t number, uint32_t place)
{
    got->number = number;
    got->place = place;
    return number == LAMPCOIL_ACCEPTED;
}

/* A wrong CRCC is no refusal: it speaks of the status, and the samples are what they are. */
static void receive_aes3(const uint8_t *payload, size_t n, received *got)
{
    uint8_t side[LAMPCOIL_SIDE_OCTETS];
    lampcoil_aes3_read_answer a = lampcoil_aes3_read(payload, n, got->samples, LAMPCOIL_BLOCK_SAMPLES, side,
                                                     LAMPCOIL_SIDE_OCTETS);
    if (!answered(got, a.number, a.place))
        return;
    if (a.crcc_a == 0 || a.crcc_b == 0)
        tell("the status of channel %s has a wrong CRCC; the samples are kept",
             a.crcc_a != 0 ? "B" : a.crcc_b != 0 ? "A" : "A and of channel B");
    for (uint32_t f = 0; f < FRAMES; f++) {
        const uint8_t *at = side + f / 8;
        uint32_t both_v = (at[LAMPCOIL_SIDE_V_A] & at[LAMPCOIL_SIDE_V_B]) >> f % 8 & 1u;
        uint32_t e_a = at[LAMPCOIL_SIDE_E_A] >> f % 8 & 1u, e_b = at[LAMPCOIL_SIDE_E_B] >> f % 8 & 1u;
        got->padding[f] = both_v == 1 && (e_a & e_b) == 0;
        got->faults += e_a + e_b;
    }
}

/* One frame, from bodies that their carrier's reader has accepted. */
static void receive_bodies(const uint32_t *bodies, uint32_t channels, received *got)
{
    got->channels = channels;
    got->padding[0] = 1;
    for (uint32_t c = 0; c < channels; c++) {
        lampcoil_body_meaning m = lampcoil_body_read(bodies[c] & ~0xFu);
        ACCEPTED("body", m);
        got->samples[c] = m.sample;
        got->padding[0] &= (uint8_t)m.v;
    }
}

/* The commands of a frame are not sound, and are left. */
static lampcoil_madi_read_answer read_frame(const uint8_t *payload, size_t n, uint32_t *words)
{
    uint8_t commands[LAMPCOIL_MADI_MOST_COMMANDS];
    uint32_t bits = (uint32_t)payload[2] << 8 | payload[3];
    return lampcoil_madi_read(payload[0], payload[1], bits, payload + 4, n - 4, words, payload[0], commands,
                              sizeof commands);
}

static void receive_madi(const uint8_t *payload, size_t n, received *got)
{
    uint32_t words[256]; /* as many as the octet that counts them can say */
    lampcoil_madi_read_answer a = {.number = LAMPCOIL_REFUSED_LENGTH};
    if (n >= 4)
        a = read_frame(payload, n, words);
    if (answered(got, a.number, a.place))
        receive_bodies(words, a.active, got);
}

/* Each packet goes through the repair, which leaves a good one as it is. */
static void receive_hd(const uint8_t *payload, size_t n, received *got)
{
    uint16_t words[LAMPCOIL_PACKET_WORDS], repaired[LAMPCOIL_PACKET_WORDS];
    uint32_t bodies[LAMPCOIL_PACKET_BODIES];
    if (n != 2 * LAMPCOIL_PACKET_WORDS) {
        answered(got, LAMPCOIL_REFUSED_LENGTH, 0);
        return;
    }
    for (uint32_t w = 0; w < LAMPCOIL_PACKET_WORDS; w++)
        words[w] = (uint16_t)(payload[2 * w] << 8 | payload[2 * w + 1]);
    lampcoil_hd_repair_answer q = lampcoil_hd_repair(words, LAMPCOIL_PACKET_WORDS, repaired, LAMPCOIL_PACKET_WORDS);
    if (!answered(got, q.number, q.place))
        return;
    lampcoil_hd_read_answer a = lampcoil_hd_read(repaired, LAMPCOIL_PACKET_WORDS, bodies, LAMPCOIL_PACKET_BODIES);
    if (!answered(got, a.number, a.place))
        return;
    got->group = a.group;
    if (memcmp(words, repaired, sizeof words) != 0)
        tell("repaired, lanes changed: %u", q.lanes);
    receive_bodies(bodies, LAMPCOIL_PACKET_BODIES, got);
}

static void receive(const uint8_t *record, size_t length, received *got)
{
    got->kind = NO_KIND;
    got->group = 0; /* a packet alone has one */
    got->faults = 0;
    if (length < 2 || record[0] != VERSION || record[1] == NO_KIND || record[1] >= KINDS) {
        answered(got, LAMPCOIL_REFUSED_RANGE, 0);
        return;
    }
    got->kind = record[1];
    got->channels = in_record[got->kind].channels;
    if (got->kind == AES3)
        receive_aes3(record + 2, length - 2, got);
    else if (got->kind == HD)
        receive_hd(record + 2, length - 2, got);
    else
        receive_madi(record + 2, length - 2, got);
}

/* Silence for a record that was refused, as long as those that are accepted: before the first of them nobody can tell,
   so it waits. */
static void lose(receiver *r, const received *got)
{
    tell("refused, number %u at %u: %s", got->number, got->place, lampcoil_refusal_text(got->number));
    r->status = LOST;
    if (r->kind != NO_KIND) {
        put_silence(in_record[r->kind].frames, r->channels);
        return;
    }
    r->waiting++;
    if (r->likely == NO_KIND)
        r->likely = got->kind;
}

static void keep(receiver *r, const received *got)
{
    if (r->kind == NO_KIND) {
        r->kind = got->kind;
        r->group = got->group;
        r->channels = got->channels;
        for (; r->waiting != 0; r->waiting--)
            put_silence(in_record[r->kind].frames, r->channels);
    }
    if (got->kind != r->kind || got->group != r->group || got->channels != r->channels)
        STOP("kind %u, group %u, %u channels, after kind %u, group %u, %u channels", got->kind, got->group,
             got->channels, r->kind, r->group, r->channels);
    if (got->faults != 0) {
        tell("subframes with odd parity: %u; their samples are kept", got->faults);
        r->status = LOST;
    }
    for (uint32_t f = 0; f < in_record[r->kind].frames; f++)
        if (got->padding[f] == 0)
            put_samples(got->samples + f * r->channels, r->channels);
}

/* One record without its length, which is the answer; 0 beside `end` where there is none. */
static size_t take_record(uint8_t *record, int *end)
{
    uint8_t head[4];
    size_t got = take(head, 4);
    *end = got == 0;
    if (*end)
        return 0;
    uint32_t length = (uint32_t)head[0] << 24 | (uint32_t)head[1] << 16 | (uint32_t)head[2] << 8 | head[3];
    if (got == 4 && length > MOST_RECORD)
        STOP("a length of %" PRIu32 ", above %d; it cannot be passed over", length, MOST_RECORD);
    if (got < 4 || take(record, length) < length)
        STOP("cut by the end");
    return length;
}

int carry_back(void)
{
    static uint8_t record[MOST_RECORD];
    static received got;
    receiver r = {0};
    for (;;) {
        int end;
        record_number++;
        size_t length = take_record(record, &end);
        if (end)
            break;
        receive(record, length, &got);
        if (got.number == LAMPCOIL_ACCEPTED)
            keep(&r, &got);
        else
            lose(&r, &got);
    }
    record_number = 0;
    if (r.waiting != 0 && in_record[r.likely].channels == 0)
        tell("no record was accepted, so that the channels are not known: no silence was written");
    for (; r.waiting != 0; r.waiting--)
        put_silence(in_record[r.likely].frames, in_record[r.likely].channels);
    return r.status;
}
