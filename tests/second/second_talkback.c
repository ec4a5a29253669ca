/* The second program: talkback, a voice of 12 bits in slots 4 to 7 of three frames. */
#include "second.h"

enum { SAMPLES = 384, VOICES = 128, SIDE = 192, OF_CHANNEL = 96, STATUS = 48 };

static second_verdict refused(uint32_t number, uint32_t place)
{
    second_verdict r = {number, place};
    return r;
}

/* The bits of a sample in two's complement, the lowest first. */
static void bits_of(int32_t sample, int width, int *bits)
{
    int64_t code = sample < 0 ? (int64_t)sample + second_weight(width) : sample;
    for (int k = 0; k < width; k++)
        bits[k] = second_bit((uint32_t)code, k);
}

static int32_t sample_of(const int *bits, int width)
{
    int32_t sample = 0;
    for (int k = 0; k < width - 1; k++)
        if (bits[k] == 1)
            sample = sample + (int32_t)second_weight(k);
    if (bits[width - 1] == 1)
        sample = sample - (int32_t)second_weight(width - 1);
    return sample;
}

/* Byte 2 of the channel's status has bits 2, 1, 0 as 0, 1, 0. */
static int declares(const uint8_t *side, int channel)
{
    uint8_t byte = side[OF_CHANNEL * channel + STATUS + 2];
    return second_bit(byte, 2) == 0 && second_bit(byte, 1) == 1 && second_bit(byte, 0) == 0;
}

/* 1 and 19, for both operations. */
static second_verdict not_declared(size_t program_len, size_t voice_len, const uint8_t *side, size_t side_len, size_t samples_len)
{
    if (program_len != SAMPLES || voice_len != VOICES || side_len != SIDE || samples_len != SAMPLES)
        return refused(1, 0);
    for (int channel = 0; channel < 2; channel++)
        if (!declares(side, channel))
            return refused(19, (uint32_t)channel);
    return refused(0, 0);
}

static int outside(int32_t sample, int32_t lowest, int32_t highest)
{
    return sample < lowest || sample > highest;
}

static int busy(int32_t sample)
{
    int bits[24];
    bits_of(sample, 24, bits);
    return bits[0] == 1 || bits[1] == 1 || bits[2] == 1 || bits[3] == 1;
}

/* The sample of a channel in a frame. */
static int place_of(int frame, int channel)
{
    return 2 * frame + channel;
}

second_verdict second_talkback_join(const int32_t *program, size_t program_len, const int32_t *voice, size_t voice_len,
                                    const uint8_t *side, size_t side_len, int32_t *samples, size_t samples_len)
{
    second_verdict r = not_declared(program_len, voice_len, side, side_len, samples_len);
    if (r.number != 0)
        return r;
    for (uint32_t i = 0; i < SAMPLES; i++)
        if (outside(program[i], -8388608, 8388607) || busy(program[i]))
            return refused(3, i);
    for (uint32_t i = 0; i < VOICES; i++)
        if (outside(voice[i], -2048, 2047))
            return refused(3, 384 + i);
    for (int i = 0; i < VOICES; i++) {
        int said[12], bits[24];
        bits_of(voice[i], 12, said);
        for (int part = 0; part < 3; part++) {
            int at = place_of(3 * (i / 2) + part, i % 2);
            bits_of(program[at], 24, bits);
            for (int k = 0; k < 4; k++)
                bits[k] = said[4 * part + k];
            samples[at] = sample_of(bits, 24);
        }
    }
    return r;
}

second_verdict second_talkback_separate(const int32_t *samples, size_t samples_len, const uint8_t *side, size_t side_len,
                                        int32_t *program, size_t program_len, int32_t *voice, size_t voice_len)
{
    second_verdict r = not_declared(program_len, voice_len, side, side_len, samples_len);
    if (r.number != 0)
        return r;
    for (uint32_t i = 0; i < SAMPLES; i++)
        if (outside(samples[i], -8388608, 8388607))
            return refused(3, i);
    for (int i = 0; i < VOICES; i++) {
        int heard[12], bits[24];
        for (int part = 0; part < 3; part++) {
            int at = place_of(3 * (i / 2) + part, i % 2);
            bits_of(samples[at], 24, bits);
            for (int k = 0; k < 4; k++) {
                heard[4 * part + k] = bits[k];
                bits[k] = 0;
            }
            program[at] = sample_of(bits, 24);
        }
        voice[i] = sample_of(heard, 12);
    }
    return r;
}
