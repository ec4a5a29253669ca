/* hub: the search for a tenant's material in places that are not its own.

   Tenant t sends t in four bits of every sample (slots 8 to 11), in the last letter of the label's origin and in the
   lowest four bits of every voice sample. Of four bits in every octet of user bits it sends one, which is its own:
   these are spread over eight frames, and a lost frame must not make another tenant's mark of them. Nobody else sends
   any of this there, and silence has 0 there. So of each element one can tell whose it is, in its carrier's code too. */
#include "hub.h"
#include <string.h>

/* A part of the memory: how many elements, and whose marks element k has, tenant t at weight 2^t; silence has 1. */
typedef struct {
    const char *name;
    const void *from;
    uint32_t count;
    size_t octets; /* of an element */
    uint32_t (*marks)(const void *from, uint32_t k);
} part;

static uint32_t of_sample(const void *from, uint32_t k)
{
    return 1u << ((uint32_t)((const int32_t *)from)[k] >> 4 & 15u);
}

static uint32_t of_voice(const void *from, uint32_t k)
{
    return 1u << ((uint32_t)((const int32_t *)from)[k] & 15u);
}

static uint32_t of_word(const void *from, uint32_t k)
{
    return 1u << (((const uint32_t *)from)[k] >> 8 & 15u);
}

/* The octets of user bits, and byte 9 of each label; the other octets of a side table have no mark. */
static uint32_t of_side(const void *from, uint32_t k)
{
    uint32_t octet = ((const uint8_t *)from)[k], at = k % LAMPCOIL_SIDE_V_B;
    if (at >= LAMPCOIL_SIDE_U_A && at < LAMPCOIL_SIDE_C_A)
        return octet >> 4 << 1;
    return at == LAMPCOIL_SIDE_C_A + 9 && octet > '0' && octet <= '0' + TENANTS ? 1u << (octet - '0') : 1u;
}

/* The four bits of slots 8 to 11 are octet 2 of a subframe's eight: a bit is 1 where its two symbols differ. */
static uint32_t of_subframe(const void *from, uint32_t k)
{
    uint32_t octet = ((const uint8_t *)from)[8 * k + 2], mark = 0;
    for (uint32_t b = 0; b < 4; b++)
        mark |= ((octet >> (7 - 2 * b) ^ octet >> (6 - 2 * b)) & 1u) << b;
    return 1u << mark;
}

/* The third five-bit group of a channel, with a 1 where the level changes: it and the bit before it are in the second
   of a channel's five octets. Groups that are none of the sixteen are nobody's. */
static uint32_t of_channel(const void *from, uint32_t k)
{
    static const uint8_t marks[32] = {[18] = 1, [10] = 2, [26] = 3, [20] = 4, [22] = 5, [14] = 6, [28] = 7, [9] = 8,
                                      [19] = 9, [11] = 10, [27] = 11, [21] = 12, [23] = 13, [15] = 14, [29] = 15};
    uint32_t levels = ((const uint8_t *)from)[5 * k + 1] >> 1;
    return 1u << marks[(levels ^ levels >> 1) & 31u];
}

/* The second word of a channel of a packet; the first channel's is word 9. */
static uint32_t of_packet(const void *from, uint32_t k)
{
    return 1u << (((const uint16_t *)from)[4 * k] & 15u);
}

/* The first tenant but the owner whose mark element k has; 0 is none. */
static uint32_t stranger(const part *p, uint32_t k, uint32_t owner)
{
    uint32_t marks = p->marks(p->from, k) & ~(1u | 1u << owner);
    for (uint32_t t = 1; marks != 0 && t < 16; t++)
        if ((marks >> t & 1u) != 0)
            return t;
    return 0;
}

static int report(night *n, const part *p, uint32_t k, uint32_t mark, uint32_t owner, const char *where)
{
    if (owner == 0)
        say(n, "%s: material of tenant %u in %s, element %u, which nobody has", where, mark, p->name, k);
    else
        say(n, "%s: material of tenant %u in %s, element %u, which is tenant %u's", where, mark, p->name, k, owner);
    const uint8_t *at = (const uint8_t *)p->from + p->octets * k, *begin = (const uint8_t *)&n->scratch;
    if (at >= begin && at < begin + sizeof n->scratch)
        say(n, "the place is octet %zu of %zu of the scratch memory", (size_t)(at - begin), sizeof n->scratch);
    fprintf(n->figures, "found %u %u %u %u %s\n", n->block, mark, owner, k, p->name);
    return 1;
}

/* Every element has its owner's mark or none. */
static int search_part(night *n, const part *p, uint32_t owner, const char *where)
{
    for (uint32_t k = 0; k < p->count; k++) {
        uint32_t t = stranger(p, k, owner);
        if (t != 0)
            return report(n, p, k, t, owner, where);
    }
    return 0;
}

/* Of a frame, each slot has its owner. */
static int search_slots(night *n, const part *p)
{
    for (uint32_t k = 0; k < p->count; k++) {
        uint32_t t = stranger(p, k, n->last.slots[k]);
        if (t != 0)
            return report(n, p, k, t, n->last.slots[k], "the scratch memory");
    }
    return 0;
}

int search_frame(night *n)
{
    const memory *m = &n->scratch;
    const part parts[] = {
        {"the frame before the patch", m->frame_in, SLOTS, 4, of_word},
        {"the frame after the patch", m->frame_out, SLOTS, 4, of_word},
        {"the frame that was read", m->words, SLOTS, 4, of_word},
        {"the MADI line", m->madi, SLOTS, 5, of_channel},
    };
    for (size_t k = 0; k < sizeof parts / sizeof parts[0]; k++)
        if (search_slots(n, &parts[k]))
            return 1;
    return 0;
}

/* All of it, each part by who went through it last. */
int search_scratch(night *n)
{
    static const char *const where = "the scratch memory";
    const memory *m = &n->scratch;
    const owners *o = &n->last;
    const struct { part part; uint32_t owner; } parts[] = {
        {{"the AES3 line", m->line, LAMPCOIL_BLOCK_SAMPLES, 8, of_subframe}, o->block},
        {{"the samples", m->samples, LAMPCOIL_BLOCK_SAMPLES, 4, of_sample}, o->block},
        {{"the side table", m->side, LAMPCOIL_SIDE_OCTETS, 1, of_side}, o->block},
        {{"the joined samples", m->joined, LAMPCOIL_BLOCK_SAMPLES, 4, of_sample}, o->talk},
        {{"the program samples", m->program, LAMPCOIL_BLOCK_SAMPLES, 4, of_sample}, o->talk},
        {{"the voice", m->voice, LAMPCOIL_VOICE_SAMPLES, 4, of_voice}, o->talk},
        {{"the packet", m->packet + 9, LAMPCOIL_PACKET_BODIES, 8, of_packet}, o->packet},
        {{"the repaired packet", m->repaired + 9, LAMPCOIL_PACKET_BODIES, 8, of_packet}, o->packet},
        {{"the packet's bodies", m->bodies, LAMPCOIL_PACKET_BODIES, 4, of_word}, o->packet},
    };
    for (size_t k = 0; k < sizeof parts / sizeof parts[0]; k++)
        if (search_part(n, &parts[k].part, parts[k].owner, where))
            return 1;
    return search_frame(n);
}

/* What each tenant gets, before it goes out. */
int search_outputs(night *n)
{
    for (uint32_t t = 1; t <= TENANTS; t++) {
        const tenant *w = &n->tenants[t];
        const part parts[] = {
            {"the samples from the AES3 line", w->out_samples, LAMPCOIL_BLOCK_SAMPLES, 4, of_sample},
            {"the side table from the AES3 line", w->out_side, LAMPCOIL_SIDE_OCTETS, 1, of_side},
            {"the voice", w->out_voice, LAMPCOIL_VOICE_SAMPLES, 4, of_voice},
            {"the samples from the packets", w->out_hd_samples, LAMPCOIL_BLOCK_SAMPLES, 4, of_sample},
        };
        for (size_t k = 0; w->on && k < sizeof parts / sizeof parts[0]; k++)
            if (search_part(n, &parts[k], t, "a tenant's output"))
                return 1;
    }
    return 0;
}
