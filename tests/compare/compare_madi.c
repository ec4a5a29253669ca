/* Comparing the MADI writer and reader. */
#include "compare.h"
#include "spoil.h"

static uint32_t any_channels(void)
{
    static const uint32_t others[] = {0, 55, 57, 63, 65, 120};
    if (once_in(24))
        return once_in(2) ? others[below(6)] : draw();
    return once_in(2) ? 56 : 64;
}

/* A body with any bits 2 and 3. Draws stand in statements of their own, so that the cases are the same whatever the
   compiler. */
static uint32_t marked_body(void)
{
    uint32_t body = even_body();
    return body | (draw() & 12u);
}

static void madi_write(void)
{
    uint32_t words[80], channels = any_channels(), level = any_number(1);
    uint8_t list[300];
    size_t n = 1 + below(64), commands = once_in(8) ? below(260) : 1 + below(20), bits, m;
    if (once_in(4))
        n = channels < 70 ? channels : 64;
    if (once_in(10))
        n = below(70);
    if (once_in(8))
        commands = 254 + below(3);
    for (int k = 0; k < 300; k++)
        list[k] = once_in(2) ? 0 : (uint8_t)below(16);
    if (once_in(8))
        list[below(20)] = (uint8_t)(16 + below(240));
    bits = 40 * (size_t)(channels < 70 ? channels : 64) + 10 * commands;
    m = (bits + 7) / 8 + (once_in(2) ? 0 : below(40));
    if (!edge_set() && once_in(12)) /* at an edge the start of the line is written, whatever length is told */
        m = below(700);
    for (int k = 0; k < 80; k++)
        words[k] = marked_body();
    if (n > 0) {
        uint32_t one = below((uint32_t)n), two = below((uint32_t)n);
        if (once_in(6))
            words[one] ^= second_weight((int)below(32));
        if (once_in(6))
            words[two] |= 1 + below(3);
    }
    begin("madi_write");
    lent in = lend_in("words", words, n, 4), said = lend_in("commands", list, commands, 1), out = lend_start("line", m, 1);
    lampcoil_verdict a = lampcoil_madi_write(channels, in.library, in.elements, said.library, said.elements, level, out.library,
                                             out.elements);
    second_verdict b = second_madi_write(channels, in.second, in.elements, said.second, said.elements, level, out.second,
                                         out.elements);
    END(a, b);
}

static void add_commands(spoil_row *r, uint32_t count)
{
    for (; count > 0; count--)
        spoil_add_command(r, once_in(2) ? 0 : below(16));
}

/* A frame with commands at any boundaries. */
static void good_frame(spoil_row *r, uint32_t channels, uint32_t active)
{
    int spread = once_in(2);
    r->bits = 0;
    for (uint32_t c = 0; c < channels; c++) {
        if (spread && once_in(16))
            add_commands(r, below(4));
        uint32_t word = c < active ? marked_body() | 2u | (c == 0) : 0;
        if (once_in(2000)) /* a wrong bit, first without and then with odd parity */
            word = word ^ second_weight((int)below(32));
        if (once_in(2000))
            word = word ^ second_weight((int)below(4));
        spoil_add_channel(r, word);
    }
    add_commands(r, once_in(16) ? 240 + below(18) : once_in(20) ? 0 : 1 + below(9));
}

static void damage(spoil_row *r)
{
    uint32_t at = r->bits == 0 ? 0 : below(r->bits);
    switch (below(6)) {
    case 0: /* one bit */
        r->bit[at] ^= 1;
        break;
    case 1: /* cut */
        r->bits = at;
        break;
    case 2: /* cut at a boundary of ten */
        r->bits = at / 10 * 10;
        break;
    case 3: /* something more */
        spoil_add_channel(r, once_in(2) ? 0 : even_body() | 2u);
        break;
    case 4:
        add_commands(r, 1 + below(3));
        at = draw();
        spoil_add_bits(r, at, (int)below(32));
        break;
    default: /* a group elsewhere */
        for (uint32_t k = 0; k < 5; k++)
            r->bit[at / 5 * 5 + k] = (uint8_t)below(2);
        break;
    }
}

static void madi_read(void)
{
    static spoil_row r;
    static uint8_t line[SPOIL_MOST / 8 + 16];
    uint32_t channels = once_in(2) ? 56 : 64, level = below(2);
    good_frame(&r, channels, once_in(3) ? channels : below(channels + 1));
    if (once_in(3))
        damage(&r);
    size_t n = spoil_pack(&r, level & 1, line), m = channels;
    uint32_t bits = r.bits;
    if (once_in(24) && bits % 8 != 0)
        line[n - 1] |= (uint8_t)second_weight((int)below(8 - bits % 8));
    if (once_in(16))
        channels = any_channels();
    if (once_in(24))
        level = any_number(1);
    if (once_in(24))
        bits = once_in(2) ? bits + 8 : once_in(2) ? 5110 + below(3) : draw();
    if (once_in(24))
        n = below((uint32_t)n + 2);
    m = once_in(24) ? below(66) : channels < 70 ? channels : m;
    size_t places = any_length(255);
    begin("madi_read");
    lent in = lend_in("line", line, n, 1), out = lend_out("words", m, 4), list = lend_out("commands", places, 1);
    lampcoil_madi_read_answer a =
        lampcoil_madi_read(channels, level, bits, in.library, in.elements, out.library, out.elements, list.library, list.elements);
    second_madi_read_answer b =
        second_madi_read(channels, level, bits, in.second, in.elements, out.second, out.elements, list.second, list.elements);
    END(a, b);
}

void compare_madi(uint32_t cases)
{
    static const int of_write[] = {0, 1, 2, 9, 12, -1}, of_read[] = {0, 1, 2, 9, 10, 11, 12, -1};
    for (uint32_t k = 0; k < cases; k += 8) {
        madi_write();
        madi_read();
        madi_read();
    }
    at_the_edges(madi_write);
    at_the_edges(madi_read);
    must_have_seen("madi_write", of_write);
    must_have_seen("madi_read", of_read);
}
