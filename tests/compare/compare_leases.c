/* Comparing the calls of the lease table, one by one over drawn tables and in long sequences from the empty one, where
   what each tenant holds is held to a count of its own. */
#include "compare.h"
#include <string.h>

enum { SLOTS = 64, MOVES = 128, ROOM = 160, TENANTS = 256 };

/* The table that the next case begins with, and ends with where it is a step of a sequence. */
static uint8_t table[ROOM];

/* What was granted to each tenant since its last return, by the answers alone. */
static uint32_t granted[TENANTS];

static void draw_table(void)
{
    static const uint32_t counts[] = {2, 3, 8, 256};
    uint32_t tenants = counts[below(4)], gaps = below(5);
    for (int k = 0; k < ROOM; k++) {
        uint32_t tenant = below(tenants);
        table[k] = (uint8_t)(below(4) < gaps ? 0 : tenant);
    }
}

/* The tenant that asks is mostly one that is there. */
static uint32_t any_tenant(void)
{
    return once_in(16) ? (once_in(2) ? 256 : any_number(255)) : once_in(3) ? 1 + below(255) : table[below(SLOTS)];
}

static uint32_t any_request(void)
{
    uint32_t free = 0;
    for (int k = 0; k < SLOTS; k++)
        free = free + (table[k] == 0);
    return once_in(4) ? free + below(3) : once_in(3) ? any_number(64) : 1 + below(8);
}

static second_lease ask(size_t n, uint32_t tenant, uint32_t slots)
{
    begin("lease_ask");
    lent t = lend_both("table", table, n, 1);
    lampcoil_lease a = lampcoil_lease_ask(t.library, t.elements, tenant, slots);
    second_lease b = second_lease_ask(t.second, t.elements, tenant, slots);
    if (b.number == 0)
        memcpy(table, t.library, SLOTS);
    END(a, b);
    return b;
}

static second_lease give_back(size_t n, uint32_t tenant)
{
    begin("lease_return");
    lent t = lend_both("table", table, n, 1);
    lampcoil_lease a = lampcoil_lease_return(t.library, t.elements, tenant);
    second_lease b = second_lease_return(t.second, t.elements, tenant);
    if (b.number == 0)
        memcpy(table, t.library, SLOTS);
    END(a, b);
    return b;
}

static void close_gaps(size_t n, size_t m)
{
    begin("lease_close");
    lent t = lend_both("table", table, n, 1), moves = lend_out("moves", m, 1);
    lampcoil_lease_closed a = lampcoil_lease_close(t.library, t.elements, moves.library, moves.elements);
    second_lease_closed b = second_lease_close(t.second, t.elements, moves.second, moves.elements);
    if (b.number == 0)
        memcpy(table, t.library, SLOTS);
    END(a, b);
}

static void lease_ask(void)
{
    draw_table();
    uint32_t tenant = any_tenant(), slots = any_request();
    ask(any_length(SLOTS), tenant, slots);
}

static void lease_return(void)
{
    draw_table();
    uint32_t tenant = any_tenant();
    give_back(any_length(SLOTS), tenant);
}

static void lease_close(void)
{
    draw_table();
    size_t n = any_length(SLOTS), m = any_length(MOVES);
    close_gaps(n, m);
}

/* Every tenant holds what was granted to it since its last return, and no other slot is leased. */
static void held_as_granted(void)
{
    struct { uint32_t number, place, held[TENANTS]; } a, b;
    memset(&a, 0, sizeof a);
    memset(&b, 0, sizeof b);
    for (int k = 0; k < SLOTS; k++)
        if (table[k] != 0)
            a.held[table[k]]++;
    memcpy(b.held, granted, sizeof granted);
    begin("lease_counts");
    END(a, b);
}

/* A long sequence from the empty table, of few tenants or many. */
static void sequence(uint32_t calls)
{
    uint32_t tenants = once_in(2) ? 4 : 255;
    memset(table, 0, sizeof table);
    memset(granted, 0, sizeof granted);
    for (uint32_t k = 0; k < calls; k++) {
        uint32_t tenant = 1 + below(tenants), slots = 1 + below(once_in(8) ? 66 : 9);
        switch (below(8)) {
        case 0:
            close_gaps(SLOTS, once_in(8) ? MOVES - 1 : MOVES);
            break;
        case 1:
        case 2:
            if (give_back(SLOTS, tenant).number == 0)
                granted[tenant] = 0;
            break;
        default:
            if (ask(SLOTS, tenant, slots).number == 0)
                granted[tenant] = granted[tenant] + slots;
            break;
        }
        held_as_granted();
    }
}

void compare_leases(uint32_t cases)
{
    static const int of_ask[] = {0, 1, 2, 21, -1}, of_return[] = {0, 1, 2, -1}, of_close[] = {0, 1, -1}, of_counts[] = {0, -1};
    for (uint32_t k = 0; k < cases; k += 8) {
        lease_ask();
        lease_return();
        lease_close();
    }
    for (uint32_t k = 0; k < cases; k += 400)
        sequence(200);
    at_the_edges(lease_ask);
    at_the_edges(lease_return);
    at_the_edges(lease_close);
    must_have_seen("lease_ask", of_ask);
    must_have_seen("lease_return", of_return);
    must_have_seen("lease_close", of_close);
    must_have_seen("lease_counts", of_counts);
}
