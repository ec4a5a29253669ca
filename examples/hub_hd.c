/* hub: a tenant's block as HD packets of its group, with control packets; damaged, repaired, read, replayed. */
#include "hub.h"
#include <stdlib.h>
#include <string.h>

/* The record goes to the night's file, and waits for the replay of this block. */
static void record_words(night *n, uint32_t kind, const uint16_t *words, uint32_t count)
{
    uint8_t *record = n->packets + n->packets_len, *payload = record + 6;
    size_t length = 2 + 2 * (size_t)count;
    const uint8_t head[6] = {0, 0, (uint8_t)(length >> 8), (uint8_t)length, 1, (uint8_t)kind};
    memcpy(record, head, sizeof head);
    for (uint32_t w = 0; w < count; w++) {
        payload[2 * w] = (uint8_t)(words[w] >> 8);
        payload[2 * w + 1] = (uint8_t)words[w];
    }
    n->packets_len += 4 + length;
    put(n, n->records, record, 4 + length);
}

/* The frame number, 48 kHz, all four channels active, no delay declared. */
static void control(night *n, uint32_t t)
{
    memory *m = &n->scratch;
    uint32_t number = n->block / CONTROL_EVERY % 511 + 1;
    lampcoil_verdict v = lampcoil_hd_control_write(t, number, LAMPCOIL_CONTROL_48_KHZ, 0, 15, 0, 0, 0, 0, m->control,
                                                   LAMPCOIL_CONTROL_WORDS);
    MUST(n, "hd control write", v);
    if (hits_of(n, CONTROL_BIT, t) != 0)
        m->control[6 + draw(n, 11)] ^= (uint16_t)(1u << draw(n, 8));
    record_words(n, RECORD_CONTROL, m->control, LAMPCOIL_CONTROL_WORDS);
    lampcoil_hd_control_answer a = lampcoil_hd_control_read(m->control, LAMPCOIL_CONTROL_WORDS);
    if (!REFUSED(n, "hd control read", t, a) && (a.group != t || a.frame != number || a.active != 15))
        differs(n, t, "a control packet of its group", 0);
}

/* The clock phase is the sample's place on a video line of 2,200 clocks at 74.25 MHz, as in carry. */
static void write_packet(night *n, uint32_t t, uint32_t f, const uint32_t *bodies)
{
    tenant *w = &n->tenants[t];
    uint32_t phase = (uint32_t)(12375 * ((uint64_t)n->block * FRAMES + f) / 8 % 2200), z = f == 0;
    lampcoil_verdict v = lampcoil_hd_write(t, w->dbn, phase, 0, z, z, bodies, LAMPCOIL_PACKET_BODIES,
                                           n->scratch.packet, LAMPCOIL_PACKET_WORDS);
    MUST(n, "hd write", v);
}

/* Repaired and read; 1 if both accepted. */
static int read_packet(night *n, uint32_t t, lampcoil_hd_read_answer *a)
{
    memory *m = &n->scratch;
    lampcoil_hd_repair_answer q = lampcoil_hd_repair(m->packet, LAMPCOIL_PACKET_WORDS, m->repaired,
                                                     LAMPCOIL_PACKET_WORDS);
    if (REFUSED(n, "hd repair", t, q))
        return 0;
    n->mended += q.lanes;
    *a = lampcoil_hd_read(m->repaired, LAMPCOIL_PACKET_WORDS, m->bodies, LAMPCOIL_PACKET_BODIES);
    return !REFUSED(n, "hd read", t, *a);
}

/* Instead of a packet that is lost, a silent one of this tenant goes through the same memory. */
static void send_silence(night *n, uint32_t t, uint32_t f)
{
    uint32_t bodies[LAMPCOIL_PACKET_BODIES];
    lampcoil_hd_read_answer a = {.number = LAMPCOIL_REFUSED_RANGE};
    lampcoil_body b = lampcoil_body_write(marked(0, t), 1, 0, 0);
    MUST(n, "body write", b);
    for (uint32_t k = 0; k < LAMPCOIL_PACKET_BODIES; k++)
        bodies[k] = b.body;
    write_packet(n, t, f, bodies);
    read_packet(n, t, &a);
    MUST(n, "hd read", a);
    n->tenants[t].hit_hd[f] = 1;
}

/* What the plan does to this packet: EVENT_KINDS is nothing. */
static event_kind damage_of(const night *n, uint32_t t, uint32_t f)
{
    for (event_kind kind = HD_PLACE; kind <= HD_LOST; kind++)
        if (f < hits_of(n, kind, t))
            return kind;
    return EVENT_KINDS;
}

static void carry_packet(night *n, uint32_t t, uint32_t f, const uint32_t *bodies)
{
    memory *m = &n->scratch;
    tenant *w = &n->tenants[t];
    lampcoil_hd_read_answer a;
    event_kind damage = damage_of(n, t, f);
    write_packet(n, t, f, bodies);
    if (damage == HD_LOST) {
        send_silence(n, t, f);
        return;
    }
    if (damage != EVENT_KINDS)
        damage_packet(n, damage, m->packet);
    record_words(n, RECORD_HD, m->packet, LAMPCOIL_PACKET_WORDS);
    if (!read_packet(n, t, &a)) {
        send_silence(n, t, f);
        if (damage == EVENT_KINDS)
            differs(n, t, "a packet that was refused undamaged", f);
    } else if (a.group != t || a.dbn != w->dbn || memcmp(m->bodies, bodies, sizeof m->bodies) != 0)
        differs(n, t, "a packet of its group", f);
}

/* The two channels as they came in, and the two as they came back over MADI. */
void hd_block(night *n, uint32_t t)
{
    tenant *w = &n->tenants[t];
    memset(w->hit_hd, 0, sizeof w->hit_hd);
    if (n->block % CONTROL_EVERY == 0 || hits_of(n, CONTROL_BIT, t) != 0)
        control(n, t);
    for (uint32_t f = 0; f < FRAMES && !n->found; f++) {
        const uint32_t bodies[LAMPCOIL_PACKET_BODIES] = {w->bodies[2 * f], w->bodies[2 * f + 1],
                                                         w->back[2 * f] & ~0xFu, w->back[2 * f + 1] & ~0xFu};
        carry_packet(n, t, f, bodies);
        n->last.packet = t;
        lampcoil_dbn next = lampcoil_hd_next_dbn(w->dbn);
        MUST(n, "next data block", next);
        w->dbn = next.dbn;
        for (uint32_t c = 0; c < 2; c++) {
            lampcoil_body_meaning b = lampcoil_body_read(n->scratch.bodies[c]);
            MUST(n, "body read", b);
            w->out_hd_samples[2 * f + c] = b.sample;
        }
    }
}

/* The packets of this block, as they were recorded, go on from the figures of those before. */
void replay_block(night *n)
{
    lampcoil_replay_answer a = lampcoil_replay(n->packets, n->packets_len, n->replayed, LAMPCOIL_REPLAY_NUMBERS);
    if (!REFUSED(n, "replay", 0, a) && (a.stop != LAMPCOIL_STOP_END || a.taken != n->packets_len))
        differs(n, 0, "the replay of a block's packets", 0);
    n->packets_len = 0;
}
