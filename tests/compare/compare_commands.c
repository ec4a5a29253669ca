/* Comparing MADI commands: every pair of five-bit groups at a boundary, every command at every boundary of a frame, and
   lists of every kind. */
#include "compare.h"
#include "spoil.h"

/* Reads a row in both. */
static void read_row(const spoil_row *r, uint32_t channels, uint32_t level)
{
    static uint8_t line[SPOIL_MOST / 8 + 16];
    size_t n = spoil_pack(r, level, line);
    begin("madi_read");
    lent in = lend_in("line", line, n, 1), out = lend_out("words", channels, 4), list = lend_out("commands", 255, 1);
    lampcoil_madi_read_answer a =
        lampcoil_madi_read(channels, level, r->bits, in.library, in.elements, out.library, out.elements, list.library, list.elements);
    second_madi_read_answer b =
        second_madi_read(channels, level, r->bits, in.second, in.elements, out.second, out.elements, list.second, list.elements);
    END(a, b);
}

/* A frame with ten bits more before channel `at`, or after the last one, and then a sync or none. */
static void frame_with(uint32_t channels, uint32_t active, uint32_t at, uint32_t ten, int sync)
{
    static spoil_row r;
    r.bits = 0;
    for (uint32_t c = 0; c <= channels; c++) {
        if (c == at)
            spoil_add_bits(&r, ten, 10);
        if (c < channels)
            spoil_add_channel(&r, c < active ? (c == 0 ? 3u : 2u) | 0x80000010u : 0);
    }
    spoil_add_syncs(&r, sync ? 1 : 0);
    read_row(&r, channels, ten & 1);
}

/* All 1,024 pairs: before the first channel, among the active ones, at the first inactive one, after the last channel
   with a sync after them, and at the end, where only command 0 is enough. */
static void pairs(void)
{
    for (uint32_t ten = 0; ten < 1024; ten++) {
        frame_with(56, 40, 0, ten, 1);
        frame_with(56, 40, 7, ten, 1);
        frame_with(64, 40, 40, ten, 1);
        frame_with(56, 56, 56, ten, 1);
        frame_with(64, 64, 64, ten, 0);
    }
}

/* Each of the sixteen commands at each boundary, and a row of commands in each place of a short list. */
static void boundaries(void)
{
    static spoil_row r;
    for (uint32_t command = 0; command < 16; command++)
        for (uint32_t at = 0; at <= 64; at++) {
            r.bits = 0;
            for (uint32_t c = 0; c <= 64; c++) {
                if (c == at)
                    spoil_add_command(&r, command);
                if (c < 64)
                    spoil_add_channel(&r, c == 0 ? 3u : c < 50 ? 2u : 0);
            }
            spoil_add_syncs(&r, (command + at) % 2);
            read_row(&r, 64, at & 1);
        }
}

/* Writes a frame with a list in both. */
static void write_list(const uint8_t *list, size_t n)
{
    uint32_t words[56];
    for (int k = 0; k < 56; k++)
        words[k] = even_body();
    begin("madi_write");
    lent in = lend_in("words", words, 56, 4), commands = lend_in("commands", list, n, 1), out = lend_start("line", 640, 1);
    lampcoil_verdict a = lampcoil_madi_write(56, in.library, in.elements, commands.library, commands.elements, (uint32_t)n & 1,
                                             out.library, out.elements);
    second_verdict b = second_madi_write(56, in.second, in.elements, commands.second, commands.elements, (uint32_t)n & 1,
                                         out.second, out.elements);
    END(a, b);
}

/* Lists of 0 to 256 commands with a 0 at some place, without one, and with a number above 15. */
static void lists(void)
{
    uint8_t list[257];
    for (size_t n = 0; n <= 256; n++)
        for (int way = 0; way < 4; way++) {
            for (size_t k = 0; k < n; k++)
                list[k] = (uint8_t)(1 + below(15));
            if (n > 0 && way > 0)
                list[way == 1 ? n - 1 : way == 2 ? 0 : below((uint32_t)n)] = 0;
            if (n > 1 && way == 3)
                list[below((uint32_t)n)] = (uint8_t)(once_in(2) ? 16 : 16 + below(240));
            write_list(list, n);
        }
}

void compare_commands(uint32_t cases)
{
    (void)cases; /* nothing here is drawn as often as it is asked */
    pairs();
    boundaries();
    lists();
}
