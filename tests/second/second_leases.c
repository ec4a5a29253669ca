/* The second program: the lease table. */
#include "second.h"

enum { SLOTS = 64, MOVES = 128 };

/* The slots of a tenant, slot k at weight 2^k. */
static uint64_t slots_of(const uint8_t *table, uint32_t tenant)
{
    uint64_t slots = 0, weight = 1;
    for (int k = 0; k < SLOTS; k++) {
        if (table[k] == tenant)
            slots = slots + weight;
        weight = weight * 2;
    }
    return slots;
}

/* The lowest free slot, or SLOTS. */
static int lowest_free(const uint8_t *table)
{
    int k = 0;
    while (k < SLOTS && table[k] != 0)
        k++;
    return k;
}

static int free_slots(const uint8_t *table)
{
    int free = 0;
    for (int k = 0; k < SLOTS; k++)
        if (table[k] == 0)
            free++;
    return free;
}

second_lease second_lease_ask(uint8_t *table, size_t table_len, uint32_t tenant, uint32_t n)
{
    second_lease r = {0, 0, 0};
    if (tenant < 1 || tenant > 255 || n < 1 || n > 64)
        r.number = 2;
    else if (table_len != SLOTS)
        r.number = 1;
    else if (free_slots(table) < (int)n)
        r.number = 21;
    else {
        for (uint32_t given = 0; given < n; given++)
            table[lowest_free(table)] = (uint8_t)tenant;
        r.slots = slots_of(table, tenant);
    }
    return r;
}

second_lease second_lease_return(uint8_t *table, size_t table_len, uint32_t tenant)
{
    second_lease r = {0, 0, 0};
    if (tenant < 1 || tenant > 255)
        r.number = 2;
    else if (table_len != SLOTS)
        r.number = 1;
    else {
        for (int k = 0; k < SLOTS; k++)
            if (table[k] == tenant)
                table[k] = 0;
        r.slots = slots_of(table, tenant);
    }
    return r;
}

/* A leased slot goes to the lowest free one, if that is below it; else it stays. */
second_lease_closed second_lease_close(uint8_t *table, size_t table_len, uint8_t *moves, size_t moves_len)
{
    second_lease_closed r = {0, 0, 0};
    if (table_len != SLOTS || moves_len != MOVES) {
        r.number = 1;
        return r;
    }
    for (int k = 0; k < MOVES; k++)
        moves[k] = 0;
    for (int old = 0; old < SLOTS; old++) {
        if (table[old] == 0)
            continue;
        int to = lowest_free(table) < old ? lowest_free(table) : old;
        uint8_t tenant = table[old];
        table[old] = 0;
        table[to] = tenant;
        moves[2 * r.leased] = (uint8_t)old;
        moves[2 * r.leased + 1] = (uint8_t)to;
        r.leased = r.leased + 1;
    }
    return r;
}
