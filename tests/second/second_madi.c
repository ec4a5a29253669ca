/* The second program: MADI frames. */
#include "second.h"

/* The groups of five for 0000 to 1111, leftmost first. */
static const char *const groups[16] = {"11110", "01001", "10100", "10101", "01010", "01011", "01110", "01111",
                                       "10010", "10011", "10110", "10111", "11010", "11011", "11100", "11101"};

/* Table 6: commands 0 to F, two symbols each. */
static const char *const commands_of[16] = {"1100010001", "1111111111", "0110101101", "0110111001",
                                            "1111100100", "0110100111", "1100100111", "1100111001",
                                            "0010000100", "0010011111", "0010000000", "0011100111",
                                            "0011111001", "0000000100", "0000011111", "0000000000"};

enum { MOST_BITS = 5110 };

/* A line that is being written: the next place and the level now. */
typedef struct {
    uint8_t *line;
    long place;
    int level;
} pen;

/* NRZI: a 1 changes the level. */
static void send(pen *p, const char *bits)
{
    for (int k = 0; bits[k] != '\0'; k++) {
        if (bits[k] == '1')
            p->level = 1 - p->level;
        second_put(p->line, p->place, p->level);
        p->place = p->place + 1;
    }
}

/* Bit 4g of the channel is the leftmost of group g. */
static void send_channel(pen *p, const int bit[32])
{
    for (int g = 0; g < 8; g++)
        send(p, groups[8 * bit[4 * g] + 4 * bit[4 * g + 1] + 2 * bit[4 * g + 2] + bit[4 * g + 3]]);
}

static second_verdict verdict(uint32_t number, uint32_t place)
{
    second_verdict r = {number, place};
    return r;
}

/* 1 to 255 commands, none above 15, at least one of them 0. */
static int is_list(const uint8_t *commands, size_t commands_len)
{
    int zeros = 0;
    if (commands_len < 1 || commands_len > 255)
        return 0;
    for (size_t k = 0; k < commands_len; k++) {
        if (commands[k] > 15)
            return 0;
        if (commands[k] == 0)
            zeros = zeros + 1;
    }
    return zeros > 0;
}

second_verdict second_madi_write(uint32_t channels, const uint32_t *words, size_t words_len, const uint8_t *commands,
                                 size_t commands_len, uint32_t level, uint8_t *line, size_t line_len)
{
    if (channels != 56 && channels != 64)
        return verdict(2, 0);
    if (words_len < 1 || words_len > channels || level > 1 || !is_list(commands, commands_len))
        return verdict(2, 0);
    long bits = 40L * (long)channels + 10L * (long)commands_len;
    if (line_len < (size_t)((bits + 7) / 8))
        return verdict(1, 0);
    for (uint32_t c = 0; c < words_len; c++)
        if (second_odd(words[c]))
            return verdict(9, c);
    for (uint32_t c = 0; c < words_len; c++)
        if (second_bit(words[c], 0) == 1 || second_bit(words[c], 1) == 1)
            return verdict(12, c);
    pen p = {line, 0, (int)level};
    for (uint32_t c = 0; c < channels; c++) {
        int bit[32] = {0};
        if (c < words_len) {
            for (int k = 0; k < 32; k++)
                bit[k] = second_bit(words[c], k);
            bit[0] = c == 0;
            bit[1] = 1;
        }
        send_channel(&p, bit);
    }
    for (size_t k = 0; k < commands_len; k++)
        send(&p, commands_of[commands[k]]);
    for (; p.place % 8 != 0; p.place++)
        second_put(line, p.place, 0);
    return verdict(0, 0);
}

/* A frame that is being read: the bits after NRZI, and what has been found. */
typedef struct {
    int bit[MOST_BITS];
    long bits, at;
    uint32_t channels, read, active, came;
    uint32_t words[64];
    uint8_t commands[255];
} frame;

static int stands(const frame *f, long at, const char *wanted)
{
    for (int k = 0; wanted[k] != '\0'; k++)
        if (at + k >= f->bits || f->bit[at + k] != wanted[k] - '0')
            return 0;
    return 1;
}

/* The four bits of the group at a place, as a number 0 to 15, or -1. */
static int group_at(const frame *f, long at)
{
    for (int g = 0; g < 16; g++)
        if (stands(f, at, groups[g]))
            return g;
    return -1;
}

/* The command at a place, or -1: a pair outside the table is none. */
static int command_at(const frame *f, long at)
{
    for (int c = 0; c < 16; c++)
        if (stands(f, at, commands_of[c]))
            return c;
    return -1;
}

/* 1 if a bit of the channel that has a required state has the other. */
static int wrong_state(const frame *f, const int bit[32])
{
    if (bit[0] != (f->read == 0))
        return 1;
    if (f->read == 0 && bit[1] == 0)
        return 1;
    if (bit[1] == 1 && f->active < f->read)
        return 1;
    for (int k = 0; k < 32; k++)
        if (bit[1] == 0 && bit[k] == 1)
            return 1;
    return 0;
}

static second_verdict read_channel(frame *f)
{
    int bit[32];
    if (f->bits - f->at < 40 || f->read == f->channels)
        return verdict(10, (uint32_t)f->at);
    for (int g = 0; g < 8; g++) {
        int four = group_at(f, f->at + 5 * g);
        if (four < 0)
            return verdict(11, (uint32_t)(f->at + 5 * g));
        bit[4 * g] = four / 8;
        bit[4 * g + 1] = four / 4 % 2;
        bit[4 * g + 2] = four / 2 % 2;
        bit[4 * g + 3] = four % 2;
    }
    if (wrong_state(f, bit))
        return verdict(12, f->read);
    uint32_t word = 0;
    for (int k = 2; k < 32; k++)
        if (bit[k] == 1)
            word = word + second_weight(k);
    if (second_odd(word))
        return verdict(9, f->read);
    f->words[f->read] = word;
    f->read = f->read + 1;
    if (bit[1] == 1)
        f->active = f->active + 1;
    f->at = f->at + 40;
    return verdict(0, 0);
}

static second_verdict read_frame(frame *f)
{
    second_verdict v = {0, 0};
    while (f->at < f->bits) {
        int command = command_at(f, f->at);
        if (command >= 0) {
            if (f->came == 255)
                return verdict(10, (uint32_t)f->at);
            f->commands[f->came] = (uint8_t)command;
            f->came = f->came + 1;
            f->at = f->at + 10;
        } else {
            v = read_channel(f);
            if (v.number != 0)
                return v;
        }
    }
    for (uint32_t k = 0; k < f->came; k++)
        if (f->commands[k] == 0 && f->read == f->channels)
            return v;
    return verdict(10, (uint32_t)f->bits);
}

/* The refusals before the first boundary: arguments, lengths, spare bits. */
static uint32_t madi_asked_wrong(uint32_t channels, uint32_t level, uint32_t bits, const uint8_t *line, size_t line_len,
                                 size_t words_len, size_t commands_len)
{
    if ((channels != 56 && channels != 64) || level > 1 || bits > MOST_BITS)
        return 2;
    if (line_len != (size_t)((bits + 7) / 8) || words_len != channels || commands_len != 255)
        return 1;
    for (long k = (long)bits; k < 8 * (long)line_len; k++)
        if (second_symbol(line, k) == 1)
            return 2;
    return 0;
}

second_madi_read_answer second_madi_read(uint32_t channels, uint32_t level, uint32_t bits, const uint8_t *line, size_t line_len,
                                         uint32_t *words, size_t words_len, uint8_t *commands, size_t commands_len)
{
    second_madi_read_answer r = {0, 0, 0, 0};
    frame f = {.bits = (long)bits, .channels = channels};
    r.number = madi_asked_wrong(channels, level, bits, line, line_len, words_len, commands_len);
    if (r.number != 0)
        return r;
    int now = (int)level;
    for (long k = 0; k < (long)bits; k++) {
        f.bit[k] = second_symbol(line, k) != now;
        now = second_symbol(line, k);
    }
    second_verdict v = read_frame(&f);
    r.number = v.number;
    r.place = v.place;
    if (v.number != 0)
        return r;
    for (uint32_t c = 0; c < channels; c++)
        words[c] = f.words[c];
    for (uint32_t k = 0; k < 255; k++)
        commands[k] = k < f.came ? f.commands[k] : 0;
    r.active = f.active;
    r.commands = f.came;
    return r;
}
