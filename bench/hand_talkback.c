/* Talkback by hand: samples are judged all at once, without a branch, and looked for one by one only where one is bad; A
   and B of a frame are taken together, as they lie in memory. */
#include "hand.h"

static const uint32_t status_at[2] = {LAMPCOIL_SIDE_C_A, LAMPCOIL_SIDE_C_B};

static lampcoil_verdict verdict(uint32_t number, uint32_t place)
{
    lampcoil_verdict v = {number, place};
    return v;
}

/* Not 0 for a sample of more than `width` bits or with one of the bits `low`. */
static inline uint32_t bad(int32_t sample, uint32_t width, uint32_t low)
{
    return ((uint32_t)sample + (1u << (width - 1))) >> width | ((uint32_t)sample & low);
}

static uint32_t first_bad(const int32_t *samples, uint32_t n, uint32_t width, uint32_t low)
{
    uint32_t raised = 0, some = 0, i = n;
    for (uint32_t k = 0; k < n; k++) {
        raised |= (uint32_t)samples[k] + (1u << (width - 1));
        some |= (uint32_t)samples[k];
    }
    if ((raised >> width | (some & low)) != 0)
        for (i = 0; bad(samples[i], width, low) == 0; i++)
            ;
    return i;
}

static lampcoil_verdict judge(size_t program_len, size_t voice_len, const uint8_t *side, size_t side_len, size_t samples_len)
{
    if (program_len != 384 || voice_len != 128 || side_len != LAMPCOIL_SIDE_OCTETS || samples_len != 384)
        return verdict(1, 0);
    for (uint32_t c = 0; c < 2; c++)
        if ((side[status_at[c] + 2] & 7) != 2)
            return verdict(19, c);
    return verdict(0, 0);
}

static const uint64_t low_fours = 0xF0000000F;

static uint64_t two(const int32_t *samples)
{
    uint64_t w;
    memcpy(&w, samples, sizeof w);
    return w;
}

lampcoil_verdict hand_talkback_join(const int32_t *program, size_t program_len, const int32_t *voice, size_t voice_len,
                                    const uint8_t *side, size_t side_len, int32_t *samples, size_t samples_len)
{
    lampcoil_verdict v = judge(program_len, voice_len, side, side_len, samples_len);
    if (v.number != 0)
        return v;
    uint32_t i = first_bad(program, 384, 24, 15);
    if (i < 384)
        return verdict(3, i);
    i = first_bad(voice, 128, 12, 0);
    if (i < 128)
        return verdict(3, 384 + i);
    for (uint32_t k = 0; k < 64; k++, program += 6, samples += 6) {
        uint64_t w = two(voice + 2 * k), x = two(program) | (w & low_fours), y = two(program + 2) | (w >> 4 & low_fours),
                 z = two(program + 4) | (w >> 8 & low_fours);
        memcpy(samples, &x, sizeof x);
        memcpy(samples + 2, &y, sizeof y);
        memcpy(samples + 4, &z, sizeof z);
    }
    return v;
}

lampcoil_verdict hand_talkback_separate(const int32_t *samples, size_t samples_len, const uint8_t *side, size_t side_len,
                                        int32_t *program, size_t program_len, int32_t *voice, size_t voice_len)
{
    lampcoil_verdict v = judge(program_len, voice_len, side, side_len, samples_len);
    if (v.number != 0)
        return v;
    uint32_t i = first_bad(samples, 384, 24, 0);
    if (i < 384)
        return verdict(3, i);
    for (uint32_t k = 0; k < 384; k++)
        program[k] = samples[k] & ~15;
    for (uint32_t k = 0; k < 128; k += 2, samples += 6) {
        int32_t a = (samples[0] & 15) | (samples[2] & 15) << 4 | (samples[4] & 15) << 8;
        int32_t b = (samples[1] & 15) | (samples[3] & 15) << 4 | (samples[5] & 15) << 8;
        voice[k] = (a ^ 2048) - 2048;
        voice[k + 1] = (b ^ 2048) - 2048;
    }
    return v;
}
