/* hub: the desk. Leases, patch rows and what the plan's events do to them. */
#include "hub.h"
#include <string.h>

void start_desk(night *n)
{
    memset(&n->desk, 0, sizeof n->desk);
    for (uint32_t k = 0; k < SLOTS; k++)
        n->desk.rows[k] = NO_SLOT;
    for (uint32_t t = 0; t <= TENANTS; t++)
        n->desk.home[t][0] = n->desk.home[t][1] = NO_SLOT;
    n->desk.active = 1;
}

/* Slots must be active from 0 on, so that free ones below the last leased one are too, with the house's silence. */
static void count_active(night *n)
{
    desk *d = &n->desk;
    d->active = 1;
    for (uint32_t k = 0; k < SLOTS; k++)
        if (d->table[k] != 0)
            d->active = k + 1;
    for (uint32_t t = 1; t <= TENANTS; t++)
        n->tenants[t].on = d->home[t][0] != NO_SLOT || d->home[t][1] != NO_SLOT;
    figures_of_leases(n);
}

/* A new slot carries the tenant's channels in turn, and is patched to itself. The first of each channel is the one that
   the tenant's sound comes back from. */
static void ask(night *n, uint32_t t, uint32_t count)
{
    desk *d = &n->desk;
    uint8_t before[SLOTS];
    uint32_t held = 0;
    memcpy(before, d->table, sizeof before);
    lampcoil_lease l = lampcoil_lease_ask(d->table, SLOTS, t, count);
    fprintf(n->figures, "event %u %u ask %u: %s\n", n->block, t, count, lampcoil_refusal_text(l.number));
    if (REFUSED(n, "lease ask", t, l))
        return;
    for (uint32_t k = 0; k < SLOTS; k++)
        held += before[k] == t;
    for (uint32_t k = 0; k < SLOTS; k++) {
        if ((l.slots >> k & 1u) == 0 || before[k] == t)
            continue;
        d->feed[k] = (uint8_t)(held++ % 2);
        d->rows[k] = k;
        if (d->home[t][d->feed[k]] == NO_SLOT)
            d->home[t][d->feed[k]] = k;
    }
    count_active(n);
}

static void give_back(night *n, uint32_t t)
{
    desk *d = &n->desk;
    uint8_t before[SLOTS];
    memcpy(before, d->table, sizeof before);
    lampcoil_lease l = lampcoil_lease_return(d->table, SLOTS, t);
    fprintf(n->figures, "event %u %u return: %s\n", n->block, t, lampcoil_refusal_text(l.number));
    if (REFUSED(n, "lease return", t, l))
        return;
    for (uint32_t k = 0; k < SLOTS; k++)
        if (before[k] == t)
            d->rows[k] = NO_SLOT;
    d->home[t][0] = d->home[t][1] = NO_SLOT;
    count_active(n);
}

/* The leased slots move down; what they carry, their rows and the slots that rows name move with them. */
static void close_gaps(night *n)
{
    desk *d = &n->desk, was = n->desk;
    uint8_t moves[LAMPCOIL_LEASE_MOVES];
    uint32_t now[SLOTS + 1];
    lampcoil_lease_closed c = lampcoil_lease_close(d->table, SLOTS, moves, sizeof moves);
    fprintf(n->figures, "event %u 0 close: %s\n", n->block, lampcoil_refusal_text(c.number));
    if (REFUSED(n, "lease close", 0, c))
        return;
    for (uint32_t k = 0; k <= SLOTS; k++)
        now[k] = NO_SLOT;
    for (uint32_t k = 0; k < c.leased; k++)
        now[moves[2 * k] % SLOTS] = moves[2 * k + 1] % SLOTS;
    for (uint32_t k = 0; k < SLOTS; k++)
        d->rows[k] = NO_SLOT;
    for (uint32_t k = 0; k < SLOTS; k++) {
        if (now[k] == NO_SLOT)
            continue;
        d->feed[now[k]] = was.feed[k];
        d->rows[now[k]] = now[was.rows[k]];
        if (now[k] != k)
            fprintf(n->figures, "move %u %u %u %u\n", n->block, k, now[k], was.table[k]);
    }
    for (uint32_t t = 1; t <= TENANTS; t++)
        for (uint32_t c2 = 0; c2 < 2; c2++)
            d->home[t][c2] = now[was.home[t][c2]];
    count_active(n);
}

static void set_row(night *n, uint32_t out, uint32_t in)
{
    n->desk.rows[out] = in;
    if (in == NO_SLOT)
        fprintf(n->figures, "event %u %u patch: slot %u takes none\n", n->block, n->desk.table[out], out);
    else
        fprintf(n->figures, "event %u %u patch: slot %u takes slot %u\n", n->block, n->desk.table[out], out, in);
}

/* Damage waits for the carrier of this block that it hits. */
static void hit(night *n, const event *e)
{
    if (n->hit_count == MOST_HITS) {
        say(n, "more than %d damages in one block: `%s` is left out", MOST_HITS, event_words[e->kind]);
        return;
    }
    n->hits[n->hit_count++] = *e;
    fprintf(n->figures, "event %u %u %s\n", n->block,
            e->kind == MADI_BIT ? 0 : e->kind == PATCH_WORD ? n->desk.table[e->a] : e->a, event_words[e->kind]);
}

void run_events(night *n)
{
    n->hit_count = 0;
    n->preamp = 0;
    for (; n->next_event < n->plan.count && n->plan.events[n->next_event].block == n->block; n->next_event++) {
        const event *e = &n->plan.events[n->next_event];
        if (e->kind == ASK)
            ask(n, e->a, e->b);
        else if (e->kind == GIVE_BACK)
            give_back(n, e->a);
        else if (e->kind == CLOSE)
            close_gaps(n);
        else if (e->kind == PATCH)
            set_row(n, e->a, e->b);
        else if (e->kind == TALK) {
            n->tenants[e->a].talk = e->b;
            fprintf(n->figures, "event %u %u talkback %s\n", n->block, e->a, e->b != 0 ? "on" : "off");
        } else if (e->kind == PREAMP) {
            n->preamp = e->a + 1;
            fprintf(n->figures, "event %u 0 preamp command %u\n", n->block, e->a);
        } else
            hit(n, e);
    }
}

uint32_t hits_of(const night *n, event_kind kind, uint32_t a)
{
    uint32_t most = 0;
    for (uint32_t k = 0; k < n->hit_count; k++) {
        const event *e = &n->hits[k];
        uint32_t count = kind == MADI_BIT ? e->a : kind == AES3_SYMBOL || kind == CONTROL_BIT ? 1 : e->b;
        if (e->kind == kind && (kind == MADI_BIT || e->a == a) && count > most)
            most = count;
    }
    return most;
}

/* ---- Damage itself. None of it touches the bits of a mark, so that a mark that is found was sent. ---- */

uint32_t draw(night *n, uint32_t below)
{
    n->draw = n->draw * 1664525u + 1013904223u;
    return (n->draw >> 8) % below;
}

void turn_symbol(night *n, uint8_t *line)
{
    uint32_t k = draw(n, 8 * LAMPCOIL_BLOCK_OCTETS - 1);
    line[k / 8] ^= (uint8_t)(0x80u >> k % 8);
}

/* One bit of slots 12 to 27 changes and the line keeps its rule: from the middle of that slot on all is inverted. */
void turn_parity(night *n, uint8_t *line, uint32_t subframe)
{
    uint32_t from = 64 * subframe + 2 * (12 + draw(n, 16)) + 1;
    for (uint32_t k = from; k < 8 * LAMPCOIL_BLOCK_OCTETS; k++)
        line[k / 8] ^= (uint8_t)(0x80u >> k % 8);
}

/* One bit of the line within the groups of slots 12 to 27 of a channel. */
void turn_madi_bit(night *n, uint8_t *line, uint32_t active)
{
    uint32_t k = 40 * draw(n, active) + 15 + draw(n, 19);
    line[k / 8] ^= (uint8_t)(0x80u >> k % 8);
}

/* One place; all eight places of a word; two places of one lane. Words 9, 13, 17 and 21 hold marks and are left out. */
void damage_packet(night *n, event_kind kind, uint16_t *words)
{
    static const uint8_t place[] = {3, 4, 6, 8, 10, 11, 12, 14, 15, 16, 18, 19, 20, 22, 23, 24, 25, 26, 27, 28};
    uint32_t at = draw(n, sizeof place), lane = draw(n, 8), other = (at + 1 + draw(n, sizeof place - 1)) % sizeof place;
    words[place[at]] ^= (uint16_t)(kind == HD_OCTET ? 0xFFu : 1u << lane);
    if (kind == HD_LANE)
        words[place[other]] ^= (uint16_t)(1u << lane);
}
