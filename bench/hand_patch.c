/* The patch between tenants by hand: one pass over the active slots, zeros and "none" after them. */
#include "hand.h"

lampcoil_verdict hand_madi_patch(uint32_t channels, uint32_t active, const uint8_t *leases, size_t leases_len,
                                 const uint32_t *rows, size_t rows_len, const uint32_t *frame_in, size_t frame_in_len,
                                 uint32_t *frame_out, size_t frame_out_len, uint8_t *verdicts, size_t verdicts_len)
{
    if ((channels != 56 && channels != 64) || active - 1 >= channels)
        return (lampcoil_verdict){2, 0};
    if (leases_len != 64 || rows_len != channels || frame_in_len != channels || frame_out_len != channels ||
        verdicts_len != channels)
        return (lampcoil_verdict){1, 0};
    for (uint32_t o = 0; o < active; o++) {
        uint32_t r = rows[o], word = 0;
        uint8_t v = LAMPCOIL_PATCH_NONE;
        if (r < active) {
            if (leases[r] != leases[o])
                v = LAMPCOIL_PATCH_FOREIGN;
            else if (odd(frame_in[r]))
                v = LAMPCOIL_PATCH_PARITY;
            else {
                v = LAMPCOIL_PATCH_CARRIED;
                word = frame_in[r] & ~3u;
            }
        }
        frame_out[o] = word;
        verdicts[o] = v;
    }
    memset(frame_out + active, 0, (channels - active) * sizeof frame_out[0]);
    memset(verdicts + active, LAMPCOIL_PATCH_NONE, channels - active);
    return (lampcoil_verdict){0, 0};
}
