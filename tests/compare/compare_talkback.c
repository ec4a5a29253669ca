/* Comparing joining and separating of talkback. */
#include "compare.h"
#include <string.h>

static int32_t program[400], voice[140], samples[400];
static uint8_t side[LAMPCOIL_SIDE_OCTETS + 16];

static const uint32_t status_at[2] = {LAMPCOIL_SIDE_C_A, LAMPCOIL_SIDE_C_B};

/* Bits 2, 1, 0 of byte 2 of a channel's status, the other bits as they are. */
static void declare(int channel, uint32_t state)
{
    uint8_t *byte = side + status_at[channel] + 2;
    *byte = (uint8_t)((*byte & 0xF8u) | state);
}

static int32_t any_program(void)
{
    static const int32_t edges[] = {0, 16, -16, 8388592, -8388608, -8388592, 4194304, -4194304};
    return once_in(8) ? edges[below(8)] : 16 * ((int32_t)below(1048576) - 524288);
}

static int32_t any_voice(void)
{
    static const int32_t edges[] = {0, 1, -1, 2047, -2048, 16, -16, 256, -256};
    return once_in(8) ? edges[below(9)] : (int32_t)below(4096) - 2048;
}

static void good_talk(void)
{
    for (int k = 0; k < 400; k++) {
        program[k] = any_program();
        samples[k] = once_in(16) ? (once_in(2) ? 8388607 : -8388608) : (int32_t)below(16777216) - 8388608;
    }
    for (int k = 0; k < 140; k++)
        voice[k] = any_voice();
    random_octets(side, sizeof side);
    declare(0, 2);
    declare(1, 2);
}

static void joins(size_t n, size_t v, size_t s, size_t m)
{
    begin("talkback_join");
    lent p = lend_in("program", program, n, 4), q = lend_in("voice", voice, v, 4), r = lend_in("side", side, s, 1);
    lent o = lend_out("samples", m, 4);
    lampcoil_verdict a = lampcoil_talkback_join(p.library, p.elements, q.library, q.elements, r.library, r.elements,
                                                o.library, o.elements);
    second_verdict b = second_talkback_join(p.second, p.elements, q.second, q.elements, r.second, r.elements, o.second,
                                            o.elements);
    END(a, b);
}

static void separates(size_t n, size_t v, size_t s, size_t m)
{
    begin("talkback_separate");
    lent p = lend_in("samples", samples, m, 4), r = lend_in("side", side, s, 1);
    lent o = lend_out("program", n, 4), q = lend_out("voice", v, 4);
    lampcoil_verdict a = lampcoil_talkback_separate(p.library, p.elements, r.library, r.elements, o.library, o.elements,
                                                    q.library, q.elements);
    second_verdict b = second_talkback_separate(p.second, p.elements, r.second, r.elements, o.second, o.elements, q.second,
                                                q.elements);
    END(a, b);
}

static void both(void)
{
    joins(384, 128, LAMPCOIL_SIDE_OCTETS, 384);
    separates(384, 128, LAMPCOIL_SIDE_OCTETS, 384);
}

/* One thing that is refused, or nothing. */
static void spoil_talk(void)
{
    static const int32_t out[] = {8388608, -8388609, INT32_MAX, INT32_MIN, 16777216, -16777216};
    static const int32_t loud[] = {2048, -2049, INT32_MAX, INT32_MIN, 4096, -4096, 8388608};
    uint32_t at = below(384);
    switch (below(6)) {
    case 0:
        program[at] = samples[at] = out[below(6)];
        break;
    case 1:
        program[at] = program[at] + 1 + (int32_t)below(15);
        break;
    case 2:
        voice[at % 128] = loud[below(7)];
        break;
    case 3:
        declare((int)below(2), below(8));
        break;
    default:
        break;
    }
}

static void one_join(void)
{
    good_talk();
    for (uint32_t k = below(3); k > 0; k--)
        spoil_talk();
    size_t n = any_length(384), v = any_length(128), s = any_length(LAMPCOIL_SIDE_OCTETS), m = any_length(384);
    joins(n, v, s, m);
}

static void one_separate(void)
{
    good_talk();
    for (uint32_t k = below(3); k > 0; k--)
        spoil_talk();
    size_t n = any_length(384), v = any_length(128), s = any_length(LAMPCOIL_SIDE_OCTETS), m = any_length(384);
    separates(n, v, s, m);
}

/* Every voice value, in A and in B; what was joined is separated. */
static void every_voice(void)
{
    for (int32_t first = -2048; first < 2048; first += 64) {
        good_talk();
        for (int32_t k = 0; k < 128; k++)
            voice[k] = first + k / 2;
        if (second_talkback_join(program, 384, voice, 128, side, LAMPCOIL_SIDE_OCTETS, samples, 384).number == 0)
            both();
    }
}

/* Every place, with one sample outside on either side, or with one busy low bit. */
static void every_place(void)
{
    static const int32_t out[] = {8388608, -8388609, -8388624};
    static const int32_t loud[] = {2048, -2049};
    for (int i = 0; i < 384; i++) {
        for (int k = 0; k < 3; k++) {
            good_talk();
            program[i] = samples[i] = out[k];
            both();
        }
        for (int k = 0; k < 4; k++) {
            good_talk();
            program[i] = program[i] + (int32_t)second_weight(k);
            both();
        }
    }
    for (int i = 0; i < 128; i++)
        for (int k = 0; k < 2; k++) {
            good_talk();
            voice[i] = loud[k];
            both();
        }
}

/* Every state of bits 2, 1, 0 in A with every state in B. */
static void every_state(void)
{
    for (uint32_t a = 0; a < 8; a++)
        for (uint32_t b = 0; b < 8; b++) {
            good_talk();
            declare(0, a);
            declare(1, b);
            both();
        }
}

void compare_talkback(uint32_t cases)
{
    static const int of_both[] = {0, 1, 3, 19, -1};
    for (uint32_t k = 0; k < cases; k += 16) {
        one_join();
        one_separate();
    }
    every_voice();
    every_place();
    every_state();
    at_the_edges(one_join);
    at_the_edges(one_separate);
    must_have_seen("talkback_join", of_both);
    must_have_seen("talkback_separate", of_both);
}
