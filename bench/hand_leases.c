/* Slot leases by hand: a table of 64 octets taken as eight words of 64 bits. */
#include "hand.h"

enum { SLOTS = 64, MOVES = 128 };

/* The slots whose octet is `tenant`, slot k at weight 2^k. */
static uint64_t slots_of(const uint8_t *table, uint8_t tenant)
{
    uint64_t slots = 0;
    for (int w = 0; w < 8; w++) {
        uint64_t x, low = 0x7F7F7F7F7F7F7F7Fu;
        memcpy(&x, table + 8 * w, sizeof x);
        x ^= 0x0101010101010101u * tenant;
        x = ~(((x & low) + low) | x | low); /* the highest bit of each octet that is 0 */
        slots |= (x >> 7) * 0x0102040810204080u >> 56 << 8 * w;
    }
    return slots;
}

lampcoil_lease hand_lease_ask(uint8_t *table, size_t table_len, uint32_t tenant, uint32_t n)
{
    lampcoil_lease r = {0, 0, 0};
    if (tenant - 1 > 254 || n - 1 > 63) {
        r.number = 2;
        return r;
    }
    if (table_len != SLOTS) {
        r.number = 1;
        return r;
    }
    uint64_t empty = slots_of(table, 0);
    if ((uint32_t)__builtin_popcountll(empty) < n) {
        r.number = 21;
        return r;
    }
    for (; n > 0; n--) {
        table[__builtin_ctzll(empty)] = (uint8_t)tenant;
        empty &= empty - 1;
    }
    r.slots = slots_of(table, (uint8_t)tenant);
    return r;
}

lampcoil_lease hand_lease_return(uint8_t *table, size_t table_len, uint32_t tenant)
{
    lampcoil_lease r = {0, 0, 0};
    if (tenant - 1 > 254) {
        r.number = 2;
        return r;
    }
    if (table_len != SLOTS) {
        r.number = 1;
        return r;
    }
    for (int k = 0; k < SLOTS; k++)
        table[k] = table[k] == tenant ? 0 : table[k];
    return r;
}

lampcoil_lease_closed hand_lease_close(uint8_t *table, size_t table_len, uint8_t *moves, size_t moves_len)
{
    lampcoil_lease_closed r = {0, 0, 0};
    if (table_len != SLOTS || moves_len != MOVES) {
        r.number = 1;
        return r;
    }
    uint8_t closed[SLOTS + 1] = {0}, list[MOVES + 2] = {0};
    uint32_t leased = 0;
    for (uint32_t k = 0; k < SLOTS; k++) {
        closed[leased] = table[k];
        list[2 * leased] = (uint8_t)k;
        list[2 * leased + 1] = (uint8_t)leased;
        leased += table[k] != 0;
    }
    list[2 * leased] = list[2 * leased + 1] = 0;
    memcpy(table, closed, SLOTS);
    memcpy(moves, list, MOVES);
    r.leased = leased;
    return r;
}
