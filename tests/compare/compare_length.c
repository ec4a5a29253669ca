/* Comparing the AES3 writer where a declared word length binds: every state of byte 2 bits 0 to 5, for A and for B, with a
   busy bit at each place of a sample. */
#include "compare.h"
#include <string.h>

static int32_t samples[384];
static uint8_t side[192];

static void aes3_write(void)
{
    begin("aes3_write");
    lent p = lend_in("samples", samples, 384, 4), q = lend_in("side", side, 192, 1), r = lend_out("line", 3072, 1);
    lampcoil_verdict a = lampcoil_aes3_write(p.library, p.elements, q.library, q.elements, 0, r.library, r.elements);
    second_verdict b = second_aes3_write(p.second, p.elements, q.second, q.elements, 0, r.second, r.elements);
    END(a, b);
}

/* Bytes 0 and 2 of a channel, sealed; every V is 1, so that no purpose of the audio is refused for it. */
static void declare(int channel, uint8_t byte0, uint32_t byte2)
{
    uint8_t *status = side + 96 * channel + 48;
    random_status(status);
    status[0] = byte0;
    status[2] = (uint8_t)byte2;
    second_status_seal(status, 24);
    memset(side + 96 * channel, 0xFF, 24);
}

/* One busy bit, at a place that the other channel's status may bind; the other samples are as long as declared. */
static void busy(int channel, int bit)
{
    for (int k = 0; k < 384; k++)
        samples[k] = second_shortened(side + 96 * (k % 2) + 48, (int32_t)below(16777216) - 8388608);
    uint32_t at = 2 * below(192) + (uint32_t)channel;
    samples[at] = bit == 23 ? -8388608 : 1 << bit;
    aes3_write();
}

void compare_length(uint32_t cases)
{
    static const int of_write[] = {0, 6, 18, -1};
    (void)cases; /* nothing here is drawn as often as it is asked */
    for (uint32_t state = 0; state < 64; state++)
        for (int channel = 0; channel < 2; channel++) {
            for (int bit = 0; bit < 24; bit++) {
                declare(channel, 0x85, state + 64 * below(4));
                declare(1 - channel, once_in(4) ? 0x87 : 0x85, below(256));
                busy(channel, bit);
            }
            /* another purpose binds nothing: each sample as it comes */
            declare(channel, 0x87, state);
            declare(1 - channel, 0x85, 0);
            for (int k = 0; k < 384; k++)
                samples[k] = (int32_t)below(16777216) - 8388608;
            aes3_write();
            /* both bound, each busy somewhere: the smaller index, whose channel it is */
            declare(channel, 0x85, state);
            declare(1 - channel, 0x85, 0x0C);
            memset(samples, 0, sizeof samples);
            samples[2 * below(192) + (uint32_t)channel] = once_in(2) ? 16 : 1;
            samples[2 * below(192) + 1 - (uint32_t)channel] = 8;
            aes3_write();
            /* 6 is before 18 */
            declare(channel, 0x87, state);
            side[96 * channel + below(24)] ^= 1;
            aes3_write();
        }
    must_have_seen("aes3_write", of_write);
}
