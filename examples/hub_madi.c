/* hub: one MADI frame for each sample. Slots by the lease table, the patch, the line with commands, and back. */
#include "hub.h"
#include <stdlib.h>
#include <string.h>

/* The frame that goes into the patch: a leased slot has its tenant's channel, every other one the house's silence. */
static void fill_frame(night *n, uint32_t f)
{
    const desk *d = &n->desk;
    for (uint32_t k = 0; k < SLOTS; k++) {
        uint32_t t = d->table[k];
        n->scratch.frame_in[k] = 0;
        if (t == 0 || t > TENANTS)
            continue;
        n->scratch.frame_in[k] = n->tenants[t].bodies[2 * f + d->feed[k]] |
                                 (d->feed[k] == 0 ? 0 : LAMPCOIL_MADI_B_SUBFRAME) |
                                 (f == 0 ? LAMPCOIL_MADI_BLOCK_START : 0);
        if (f < hits_of(n, PATCH_WORD, k))
            n->scratch.frame_in[k] ^= 1u << (12 + draw(n, 16));
    }
}

/* What the desk expects of a row, by its own reading of the lease table. */
static uint32_t expected_verdict(const night *n, uint32_t out, uint32_t f)
{
    const desk *d = &n->desk;
    uint32_t in = d->rows[out];
    if (out >= d->active || in >= d->active)
        return LAMPCOIL_PATCH_NONE;
    if (d->table[in] != d->table[out])
        return LAMPCOIL_PATCH_FOREIGN;
    return f < hits_of(n, PATCH_WORD, in) ? LAMPCOIL_PATCH_PARITY : LAMPCOIL_PATCH_CARRIED;
}

static void patch_frame(night *n, uint32_t f)
{
    memory *m = &n->scratch;
    uint8_t expected[SLOTS];
    lampcoil_verdict v = lampcoil_madi_patch(SLOTS, n->desk.active, n->desk.table, SLOTS, n->desk.rows, SLOTS,
                                             m->frame_in, SLOTS, m->frame_out, SLOTS, m->verdicts, SLOTS);
    MUST(n, "madi patch", v);
    for (uint32_t k = 0; k < SLOTS; k++) {
        expected[k] = (uint8_t)expected_verdict(n, k, f);
        if (m->verdicts[k] != expected[k])
            differs(n, n->desk.table[k], "the patch's verdict on a slot", k);
    }
    if (f == 0 || n->hit_count != 0)
        figures_of_patch(n, m->verdicts, f);
}

/* The symbols that the channels leave of a link of 125 Mbit/s at 48 kHz; a preamp's command is the last of them. */
static uint32_t commands_of(const night *n, uint32_t f, uint8_t *commands)
{
    uint32_t count = (uint32_t)(3125 * (n->frame + 1) / 12 - 3125 * n->frame / 12) - 4 * SLOTS;
    memset(commands, 0, MOST_SYNCS);
    if (f == 0 && n->preamp != 0)
        commands[count - 1] = (uint8_t)(n->preamp - 1 < 255 ? n->preamp - 1 : 255);
    return count;
}

static void record_frame(night *n, uint32_t bits)
{
    uint8_t payload[4 + sizeof n->scratch.madi];
    payload[0] = SLOTS;
    payload[1] = (uint8_t)n->madi_level;
    payload[2] = (uint8_t)(bits >> 8);
    payload[3] = (uint8_t)bits;
    memcpy(payload + 4, n->scratch.madi, (bits + 7) / 8);
    put_record(n, NULL, RECORD_MADI, payload, 4 + (bits + 7) / 8);
}

static lampcoil_verdict write_frame(night *n, const uint32_t *words, const uint8_t *commands, uint32_t count)
{
    return lampcoil_madi_write(SLOTS, words, n->desk.active, commands, count, n->madi_level, n->scratch.madi,
                               sizeof n->scratch.madi);
}

static lampcoil_madi_read_answer read_frame(night *n, uint32_t bits)
{
    memory *m = &n->scratch;
    return lampcoil_madi_read(SLOTS, n->madi_level, bits, m->madi, (bits + 7) / 8, m->words, SLOTS, m->commands,
                              sizeof m->commands);
}

/* A frame that is lost is silent in all slots: a silent one goes the same way, for the buffers are as they were. */
static void lose_frame(night *n, uint32_t f, const uint8_t *commands, uint32_t count)
{
    static const uint32_t silence[SLOTS] = {0};
    lampcoil_verdict v = write_frame(n, silence, commands, count);
    MUST(n, "madi write", v);
    lampcoil_madi_read_answer a = read_frame(n, LAMPCOIL_MADI_BITS(SLOTS, count));
    MUST(n, "madi read", a);
    n->madi_refused++;
    for (uint32_t t = 1; t <= TENANTS; t++)
        n->tenants[t].hit_back[f] = 1;
}

/* What came of a frame. Some damage passes every check: a word is then wrong, and the frame is listed as hit too. */
static void judge_frame(night *n, uint32_t f, lampcoil_madi_read_answer a, const uint8_t *commands, uint32_t count,
                        int hit)
{
    const memory *m = &n->scratch;
    int lost = REFUSED(n, "madi read", 0, a);
    if (lost)
        lose_frame(n, f, commands, count);
    if (lost && !hit)
        differs(n, 0, "a MADI frame that was refused undamaged", f);
    else if (!lost && (a.active != n->desk.active || a.commands != count || memcmp(m->commands, commands, count) != 0))
        differs(n, 0, "the count of slots, or a command, of a MADI frame", f);
    else if (!hit && memcmp(m->words, m->frame_out, sizeof m->words) != 0)
        differs(n, 0, "a MADI frame", f);
    else if (!lost)
        n->commands += commands[count - 1] != 0;
    for (uint32_t t = 1; t <= TENANTS && hit; t++)
        n->tenants[t].hit_back[f] = 1;
    n->madi_damaged += (uint32_t)hit;
    n->madi_passed += (uint32_t)(hit && !lost);
}

/* Out on the line and back. A command that the library refuses is reported, and the frame goes without it. */
static void carry_frame(night *n, uint32_t f)
{
    memory *m = &n->scratch;
    uint8_t commands[MOST_SYNCS];
    uint32_t count = commands_of(n, f, commands), bits = LAMPCOIL_MADI_BITS(SLOTS, count);
    int hit = f < hits_of(n, MADI_BIT, 0);
    lampcoil_verdict v = write_frame(n, m->frame_out, commands, count);
    if (f == 0 && n->preamp != 0 && REFUSED(n, "madi write", 0, v)) {
        commands[count - 1] = 0;
        v = write_frame(n, m->frame_out, commands, count);
    }
    MUST(n, "madi write", v);
    uint32_t level = m->madi[(bits - 1) / 8] >> (7 - (bits - 1) % 8) & 1u;
    if (hit)
        turn_madi_bit(n, m->madi, n->desk.active);
    if (hit || commands[count - 1] != 0 || n->frame % n->plan.record == 0)
        record_frame(n, bits);
    judge_frame(n, f, read_frame(n, bits), commands, count, hit);
    n->madi_level = level;
}

static void hand_back(night *n, uint32_t f)
{
    for (uint32_t t = 1; t <= TENANTS; t++)
        for (uint32_t c = 0; c < 2; c++) {
            uint32_t slot = n->desk.home[t][c];
            n->tenants[t].back[2 * f + c] = slot == NO_SLOT ? 0 : n->scratch.words[slot];
        }
}

void madi_block(night *n)
{
    for (uint32_t t = 1; t <= TENANTS; t++)
        memset(n->tenants[t].hit_back, 0, FRAMES);
    memcpy(n->last.slots, n->desk.table, SLOTS);
    for (uint32_t f = 0; f < FRAMES && !n->found; f++) {
        fill_frame(n, f);
        patch_frame(n, f);
        carry_frame(n, f);
        n->found = search_frame(n);
        hand_back(n, f);
        n->frame++;
    }
}
