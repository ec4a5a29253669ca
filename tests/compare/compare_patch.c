/* Comparing the patch between tenants; and two runs of the library beside each other, for its separation. */
#include "compare.h"
#include <string.h>

enum { MOST = 64, ROOM = 80 };

typedef struct {
    uint32_t channels, active, tenants;
    uint8_t leases[ROOM];
    uint32_t rows[ROOM], frame[ROOM];
} panel;

/* A row names any slot, mostly an active one; now and then the slot at the active count, or none at all. */
static uint32_t any_row(uint32_t active)
{
    if (!once_in(6))
        return below(active);
    return once_in(2) ? active : once_in(2) ? 0xFFFFFFFFu : draw();
}

/* Any bits 0 to 3, now and then an odd body. */
static uint32_t any_word(void)
{
    uint32_t word = even_body();
    word |= below(16);
    return once_in(6) ? word ^ second_weight(4 + (int)below(28)) : word;
}

/* Few tenants or many; a row mostly names a slot of its own tenant, where it finds one in a few draws. */
static void draw_panel(panel *p)
{
    static const uint32_t counts[] = {1, 2, 3, 8, 256};
    p->channels = once_in(2) ? 56 : 64;
    p->active = once_in(2) ? p->channels : 1 + below(p->channels);
    p->tenants = counts[below(5)];
    for (int k = 0; k < ROOM; k++)
        p->leases[k] = (uint8_t)below(p->tenants);
    for (int k = 0; k < ROOM; k++) {
        p->rows[k] = any_row(p->active);
        for (int more = 0; more < 6 && p->rows[k] < ROOM && p->leases[p->rows[k]] != p->leases[k]; more++)
            p->rows[k] = any_row(p->active);
        p->frame[k] = any_word();
    }
}

static void madi_patch(void)
{
    panel p;
    size_t n[5];
    draw_panel(&p);
    uint32_t right = p.channels;
    if (once_in(24))
        p.active = any_number(64);
    if (once_in(24))
        p.channels = once_in(2) ? 55 + below(11) : draw();
    for (int k = 0; k < 5; k++)
        n[k] = any_length(k == 0 ? 64 : right);
    begin("madi_patch");
    lent leases = lend_in("leases", p.leases, n[0], 1), rows = lend_in("rows", p.rows, n[1], 4);
    lent in = lend_in("frame_in", p.frame, n[2], 4), out = lend_out("frame_out", n[3], 4);
    lent verdicts = lend_out("verdicts", n[4], 1);
    lampcoil_verdict a = lampcoil_madi_patch(p.channels, p.active, leases.library, leases.elements, rows.library, rows.elements,
                                             in.library, in.elements, out.library, out.elements, verdicts.library,
                                             verdicts.elements);
    second_verdict b = second_madi_patch(p.channels, p.active, leases.second, leases.elements, rows.second, rows.elements, in.second,
                                         in.elements, out.second, out.elements, verdicts.second, verdicts.elements);
    END(a, b);
}

/* What one tenant gets: the words and verdicts at its output slots, and 0 elsewhere. */
typedef struct { uint32_t number, place, words[MOST], verdicts[MOST]; } view;

static view seen_by(const panel *p, uint32_t tenant)
{
    uint32_t out[MOST];
    uint8_t verdicts[MOST];
    view v;
    memset(&v, 0, sizeof v);
    lampcoil_verdict a = lampcoil_madi_patch(p->channels, p->active, p->leases, MOST, p->rows, p->channels, p->frame, p->channels,
                                             out, p->channels, verdicts, p->channels);
    v.number = a.number;
    v.place = a.place;
    for (uint32_t k = 0; k < p->channels && a.number == 0; k++)
        if (p->leases[k] == tenant) {
            v.words[k] = out[k];
            v.verdicts[k] = verdicts[k];
        }
    return v;
}

/* Every row and every input slot that is not the tenant's is drawn anew: the tenant must not see it. */
static void separation(void)
{
    panel p;
    draw_panel(&p);
    uint32_t tenant = below(p.tenants);
    view a = seen_by(&p, tenant);
    for (int k = 0; k < ROOM; k++) {
        uint32_t row = any_row(p.active), word = any_word();
        if (p.leases[k] != tenant) {
            p.rows[k] = row;
            p.frame[k] = word;
        }
    }
    view b = seen_by(&p, tenant);
    begin("separation");
    END(a, b);
}

void compare_patch(uint32_t cases)
{
    static const int of_patch[] = {0, 1, 2, -1}, of_separation[] = {0, -1};
    for (uint32_t k = 0; k < cases; k += 4) {
        madi_patch();
        separation();
    }
    at_the_edges(madi_patch);
    must_have_seen("madi_patch", of_patch);
    must_have_seen("separation", of_separation);
}
