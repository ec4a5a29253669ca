/* The second program: a declared word length is binding. A sample's highest bit is in slot 27, and a word of n bits ends at
   slot 28 - n; with 24-bit use the word may begin at slot 4, with 20-bit use at slot 8, below which nothing is bound. */
#include "second.h"

/* The lowest slot that a length binds, and the lowest that it leaves to the word; nothing is bound where they agree. */
static void bound_slots(const uint8_t *status, int *from, int *to)
{
    second_status_meaning m = second_status_read(status, 24);
    *from = *to = 4;
    if (m.use == 0 || m.audio == 1)
        return;
    if (m.auxiliary == SECOND_RESERVED || m.auxiliary == 3)
        return;
    if (m.length == SECOND_RESERVED || m.length == 0)
        return;
    *from = m.auxiliary == 1 ? 4 : 8;
    *to = 28 - (int)m.length;
}

int second_overlong(const uint8_t *status, int32_t sample)
{
    int from, to;
    uint32_t body = second_body_write(sample, 0, 0, 0).body;
    bound_slots(status, &from, &to);
    for (int slot = from; slot < to; slot++)
        if (second_bit(body, slot) == 1)
            return 1;
    return 0;
}

int32_t second_shortened(const uint8_t *status, int32_t sample)
{
    int from, to;
    uint32_t body = second_body_write(sample, 0, 0, 0).body;
    bound_slots(status, &from, &to);
    for (int slot = from; slot < to; slot++)
        if (second_bit(body, slot) == 1)
            body = body - second_weight(slot);
    return second_body_read(second_odd(body) ? body ^ second_weight(31) : body).sample;
}
