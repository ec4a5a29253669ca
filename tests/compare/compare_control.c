/* Comparing the HD control packet's writer and reader. */
#include "compare.h"

enum { WORDS = 18, LAST = 17 };

/* The edges of 26 bits, of e and of the three words, and any. */
static int32_t any_delay(void)
{
    static const int32_t edge_of[] = {0, 1, -1, 127, 128, 255, 256, 65535, 65536, 131071, 131072, 33554431, -33554432, 33554432, -33554433,
                                      -131072, -131073, -256, -257, 2147483647, -2147483647 - 1};
    uint32_t k = below(2 * sizeof edge_of / sizeof edge_of[0]);
    if (k < sizeof edge_of / sizeof edge_of[0])
        return edge_of[k];
    return (int32_t)(draw() % 67108864u) - 33554432;
}

static uint32_t known_rate(void)
{
    static const uint32_t rate[4] = {0, 1, 2, 7};
    return rate[below(4)];
}

static void control_write(void)
{
    uint32_t group = once_in(12) ? any_number(5) : 1 + below(4), asynchronous = any_number(1);
    uint32_t frame = asynchronous == 1 && !once_in(4) ? 0 : any_number(511), rate = once_in(8) ? any_number(7) : known_rate();
    uint32_t active = any_number(15), valid12 = any_number(1), valid34 = any_number(1);
    int32_t delay12 = any_delay(), delay34 = any_delay();
    size_t n = any_length(WORDS);
    begin("hd_control_write");
    lent out = lend_out("words", n, 2);
    lampcoil_verdict a = lampcoil_hd_control_write(group, frame, rate, asynchronous, active, valid12, delay12, valid34, delay34,
                                                   out.library, out.elements);
    second_verdict b = second_hd_control_write(group, frame, rate, asynchronous, active, valid12, delay12, valid34, delay34,
                                               out.second, out.elements);
    END(a, b);
}

static void good_control(uint16_t words[40])
{
    for (int k = 0; k < 40; k++)
        words[k] = (uint16_t)draw();
    uint32_t group = 1 + below(4), asynchronous = below(2), frame = asynchronous == 1 ? 0 : below(512), rate = known_rate();
    uint32_t active = below(16), valid12 = below(2), valid34 = below(2);
    int32_t delay12 = (int32_t)(draw() % 67108864u) - 33554432, delay34 = (int32_t)(draw() % 67108864u) - 33554432;
    second_hd_control_write(group, frame, rate, asynchronous, active, valid12, delay12, valid34, delay34, words, WORDS);
}

/* The last word as the words before it ask. */
static void close_sum(uint16_t *words)
{
    uint32_t sum = 0;
    for (int w = 3; w < LAST; w++)
        sum = (sum + words[w]) % 512;
    words[LAST] = (uint16_t)(sum >= 256 ? sum : sum + 512);
}

static void control_read_of(const uint16_t *words, size_t n)
{
    begin("hd_control_read");
    lent in = lend_in("words", words, n, 2);
    lampcoil_hd_control_answer a = lampcoil_hd_control_read(in.library, in.elements);
    second_hd_control_answer b = second_hd_control_read(in.second, in.elements);
    END(a, b);
}

static void control_read(void)
{
    uint16_t words[40];
    good_control(words);
    while (once_in(2)) {
        uint32_t w = below(WORDS);
        switch (below(4)) {
        case 0: /* a bit anywhere, more than ten among them */
            words[w] ^= (uint16_t)(1u << below(12));
            break;
        case 1: /* another word, the last one being right */
            words[3 + below(14)] = (uint16_t)below(1024);
            close_sum(words);
            break;
        case 2: /* nine bits, b9 and the last word being right */
            w = 3 + below(14);
            words[w] = (uint16_t)below(512);
            words[w] = (uint16_t)(words[w] >= 256 ? words[w] : words[w] + 512);
            close_sum(words);
            break;
        default: /* the other kind's DID, or a group's in another place */
            words[3] = (uint16_t)(0x2E0 + below(8));
            close_sum(words);
            break;
        }
    }
    control_read_of(words, any_length(WORDS));
}

/* Every value of words 4, 6, 7, 8, 15 and 16, the last word being right, in either use. */
static void every_value(void)
{
    static const int place[] = {4, 6, 7, 8, 15, 16};
    for (uint32_t k = 0; k < sizeof place / sizeof place[0]; k++)
        for (uint32_t value = 0; value < 1024; value++) {
            uint16_t words[40];
            good_control(words);
            words[place[k]] = (uint16_t)value;
            close_sum(words);
            control_read_of(words, WORDS);
        }
}

/* Each single changed bit of a packet, with the last word as it was and as it would be. */
static void every_bit(void)
{
    for (uint32_t again = 0; again < 2; again++)
        for (uint32_t k = 0; k < 16 * WORDS; k++) {
            uint16_t words[40];
            good_control(words);
            words[k / 16] ^= (uint16_t)(1u << k % 16);
            if (again == 1)
                close_sum(words);
            control_read_of(words, WORDS);
        }
}

void compare_control(uint32_t cases)
{
    static const int of_write[] = {0, 1, 2, 12, -1}, of_read[] = {0, 1, 12, 13, 14, 16, -1};
    for (uint32_t k = 0; k < cases / 4; k++) {
        control_write();
        control_read();
    }
    every_value();
    every_bit();
    at_the_edges(control_write);
    at_the_edges(control_read);
    must_have_seen("hd_control_write", of_write);
    must_have_seen("hd_control_read", of_read);
}
