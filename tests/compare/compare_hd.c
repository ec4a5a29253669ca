/* Comparing the HD packet's writer, reader and repair. */
#include "compare.h"
#include "spoil.h"

/* Draws stand in statements of their own here and below, so that the cases are the same whatever the compiler. */

/* Turns over one of the low `bits` bits of one of `count` words. */
static void flip_one(uint16_t *words, uint32_t count, uint32_t bits)
{
    uint32_t w = below(count);
    words[w] ^= (uint16_t)(1u << below(bits));
}

static void hd_write(void)
{
    uint32_t group = once_in(12) ? any_number(5) : 1 + below(4), bodies[40];
    uint32_t dbn = any_number(255), phase = any_number(4095), ck12 = any_number(1), z1 = any_number(1), z2 = any_number(1);
    size_t n = any_length(4), m = any_length(31);
    for (int k = 0; k < 40; k++)
        bodies[k] = even_body();
    while (once_in(6)) {
        uint32_t k = below(4);
        bodies[k] ^= second_weight((int)below(32));
    }
    if (once_in(8)) {
        uint32_t k = below(4);
        bodies[k] |= below(16);
    }
    begin("hd_write");
    lent in = lend_in("bodies", bodies, n, sizeof bodies[0]), out = lend_out("words", m, 2);
    lampcoil_verdict a = lampcoil_hd_write(group, dbn, phase, ck12, z1, z2, in.library, in.elements, out.library, out.elements);
    second_verdict b = second_hd_write(group, dbn, phase, ck12, z1, z2, in.second, in.elements, out.second, out.elements);
    END(a, b);
}

static void good_packet(uint16_t words[64])
{
    uint32_t bodies[4];
    for (int k = 0; k < 64; k++)
        words[k] = (uint16_t)draw();
    for (int k = 0; k < 4; k++)
        bodies[k] = even_body();
    uint32_t group = 1 + below(4), dbn = below(256), phase = below(4096), ck12 = below(2), z1 = below(2), z2 = below(2);
    second_hd_write(group, dbn, phase, ck12, z1, z2, bodies, 4, words, 31);
}

/* Damages a good packet so that each of the reader's and of repair's refusals comes up. */
static void damage(uint16_t *words)
{
    uint32_t at = below(31), datum = 6 + below(24);
    switch (below(10)) {
    case 0: /* a word above 1,023 */
        words[at] |= (uint16_t)(1024u << below(6));
        break;
    case 1: /* one bit anywhere */
        flip_one(words, 31, 10);
        break;
    case 2: /* a header word */
        flip_one(words, 6, 10);
        spoil_close_lanes(words);
        break;
    case 3: /* the checksum */
        words[30] = (uint16_t)below(1024);
        break;
    case 4: /* lanes, all else being right */
        words[datum] ^= (uint16_t)(1 + below(255));
        spoil_close_words(words);
        break;
    case 5: /* any data bit, all else being right: a required zero, or parity */
        flip_one(words + 6, 18, 8);
        spoil_close_lanes(words);
        break;
    case 6: /* one place in some lanes, each anywhere */
        for (int lane = 0; lane < 8; lane++)
            if (once_in(2))
                words[below(30)] ^= (uint16_t)(1u << lane);
        break;
    case 7: /* two places in one lane */
        words[below(15)] ^= 4;
        words[15 + below(15)] ^= 4;
        break;
    case 8: /* another packet altogether */
        for (int w = 0; w < 31; w++)
            words[w] = (uint16_t)below(once_in(2) ? 1024 : 1030);
        break;
    default: /* another first word, with lanes that are right */
        flip_one(words, 3, 8);
        spoil_close_lanes(words);
        while (once_in(2))
            flip_one(words, 30, 8);
        break;
    }
}

static void hd_read_and_repair(void)
{
    uint16_t words[64];
    good_packet(words);
    for (uint32_t k = below(4); k > 1; k--)
        damage(words);
    size_t n = any_length(31), m = any_length(4);
    begin("hd_read");
    lent in = lend_in("words", words, n, 2), out = lend_out("bodies", m, 4);
    lampcoil_hd_read_answer a = lampcoil_hd_read(in.library, in.elements, out.library, out.elements);
    second_hd_read_answer b = second_hd_read(in.second, in.elements, out.second, out.elements);
    END(a, b);

    m = any_length(31);
    begin("hd_repair");
    in = lend_in("words", words, n, 2);
    out = lend_out("repaired", m, 2);
    lampcoil_hd_repair_answer c = lampcoil_hd_repair(in.library, in.elements, out.library, out.elements);
    second_hd_repair_answer d = second_hd_repair(in.second, in.elements, out.second, out.elements);
    END(c, d);
}

void compare_hd(uint32_t cases)
{
    static const int of_write[] = {0, 1, 2, 9, 12, -1}, of_read[] = {0, 1, 9, 12, 13, 14, 15, 16, -1};
    static const int of_repair[] = {0, 1, 13, 14, 15, -1};
    for (uint32_t k = 0; k < cases; k += 2) {
        hd_write();
        hd_read_and_repair();
    }
    at_the_edges(hd_write);
    at_the_edges(hd_read_and_repair);
    must_have_seen("hd_write", of_write);
    must_have_seen("hd_read", of_read);
    must_have_seen("hd_repair", of_repair);
}
