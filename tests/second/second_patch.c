/* The second program: the patch between tenants. */
#include "second.h"

enum { CARRIED = 0, NONE = 1, FOREIGN = 2, PARITY = 3 };

/* What is said of one output slot: the first that applies. */
static int slot_verdict(uint32_t active, uint32_t out, const uint8_t *leases, const uint32_t *rows, const uint32_t *frame_in)
{
    if (out >= active)
        return NONE;
    if (rows[out] >= active)
        return NONE;
    if (leases[rows[out]] != leases[out])
        return FOREIGN;
    if (second_odd(frame_in[rows[out]]))
        return PARITY;
    return CARRIED;
}

second_verdict second_madi_patch(uint32_t channels, uint32_t active, const uint8_t *leases, size_t leases_len,
                                 const uint32_t *rows, size_t rows_len, const uint32_t *frame_in, size_t frame_in_len,
                                 uint32_t *frame_out, size_t frame_out_len, uint8_t *verdicts, size_t verdicts_len)
{
    second_verdict r = {0, 0};
    if ((channels != 56 && channels != 64) || active < 1 || active > channels) {
        r.number = 2;
        return r;
    }
    if (leases_len != 64 || rows_len != channels || frame_in_len != channels || frame_out_len != channels ||
        verdicts_len != channels) {
        r.number = 1;
        return r;
    }
    for (uint32_t out = 0; out < channels; out++) {
        int v = slot_verdict(active, out, leases, rows, frame_in);
        uint32_t word = 0;
        if (v == CARRIED)
            for (int k = 2; k < 32; k++)
                if (second_bit(frame_in[rows[out]], k) == 1)
                    word = word + second_weight(k);
        verdicts[out] = (uint8_t)v;
        frame_out[out] = word;
    }
    return r;
}
