/* The report program by hand: what the report program prints for the records on standard input, as quick as C goes,
   and as it does: one record at a time, each line written when it is told. */
#define _POSIX_C_SOURCE 200809L
#include "hand.h"
#include <string.h>
#include <unistd.h>

enum { MOST = 8192, ROOM = 128 };

static uint8_t body[MOST];
static char line[ROOM];

/* Reads n octets, fewer only at the end of input. */
static size_t take(uint8_t *p, size_t n)
{
    size_t got = 0;
    while (got < n) {
        ssize_t more = read(0, p + got, n - got);
        if (more <= 0)
            break;
        got += (size_t)more;
    }
    return got;
}

/* Writes the line from t on to the end of its buffer. */
static void tell(const char *t)
{
    while (t < line + ROOM) {
        ssize_t put = write(1, t, (size_t)(line + ROOM - t));
        if (put <= 0)
            break;
        t += put;
    }
}

/* Both put a text before t, and give its start: a line is made from its end. */
static char *text(char *t, const char *words, size_t n) { return memcpy(t - n, words, n); }

static char *number(char *t, unsigned long x)
{
    do
        *--t = (char)('0' + x % 10);
    while ((x /= 10) != 0);
    return t;
}

static void report_line(unsigned long n, const char *words, size_t length, uint32_t a, uint32_t b)
{
    char *t = line + ROOM;
    *--t = '\n';
    t = number(t, b);
    *--t = ' ';
    t = number(t, a);
    t = text(t, words, length);
    tell(number(t, n));
}

static void report_refused(unsigned long n, uint32_t number, uint32_t place) { report_line(n, " refused ", 9, number, place); }

static void report_aes3(unsigned long n, const uint8_t *p, size_t length)
{
    static int32_t samples[384];
    static uint8_t side[192];
    lampcoil_aes3_read_answer r = hand_aes3_read(p, length, samples, 384, side, 192);
    if (r.number)
        report_refused(n, r.number, r.place);
    else
        report_line(n, " aes3 ok ", 9, r.crcc_a, r.crcc_b);
}

static void report_hd(unsigned long n, const uint8_t *p, size_t length)
{
    uint16_t words[31];
    uint32_t bodies[4];
    if (length != 62) {
        report_refused(n, 1, 0);
        return;
    }
    for (int w = 0; w < 31; w++)
        words[w] = (uint16_t)(p[2 * w] << 8 | p[2 * w + 1]);
    lampcoil_hd_read_answer r = hand_hd_read(words, 31, bodies, 4);
    if (r.number)
        report_refused(n, r.number, r.place);
    else
        report_line(n, " hd ok ", 7, r.group, r.dbn);
}

static void report_madi(unsigned long n, const uint8_t *p, size_t length)
{
    uint32_t words[256];
    uint8_t commands[255];
    if (length < 4) {
        report_refused(n, 1, 0);
        return;
    }
    lampcoil_madi_read_answer r = hand_madi_read(p[0], p[1], (uint32_t)p[2] << 8 | p[3], p + 4, length - 4, words, p[0], commands,
                                                 sizeof commands);
    if (r.number)
        report_refused(n, r.number, r.place);
    else
        report_line(n, " madi ok ", 9, r.active, r.commands);
}

static void report_control(unsigned long n, const uint8_t *p, size_t length)
{
    uint16_t words[18];
    if (length != 36) {
        report_refused(n, 1, 0);
        return;
    }
    for (int w = 0; w < 18; w++)
        words[w] = (uint16_t)(p[2 * w] << 8 | p[2 * w + 1]);
    lampcoil_hd_control_answer r = hand_hd_control_read(words, 18);
    if (r.number) {
        report_refused(n, r.number, r.place);
        return;
    }
    char *t = line + ROOM;
    *--t = '\n';
    tell(number(text(number(t, r.group), " ctl ok ", 8), n));
}

static void report(unsigned long n, const uint8_t *p, size_t length)
{
    if (length < 2 || p[0] != 1 || p[1] - 1u > 3)
        report_refused(n, 2, 0);
    else if (p[1] == 1)
        report_aes3(n, p + 2, length - 2);
    else if (p[1] == 2)
        report_hd(n, p + 2, length - 2);
    else if (p[1] == 3)
        report_madi(n, p + 2, length - 2);
    else
        report_control(n, p + 2, length - 2);
}

int main(void)
{
    unsigned long n = 0;
    uint8_t head[4];
    hand_init_aes3();
    hand_init_madi();
    hand_init_hd();
    tell(text(line + ROOM, "carrier report 1\n", 17));
    for (size_t got; (got = take(head, 4)) != 0;) {
        size_t length = (size_t)head[0] << 24 | (size_t)head[1] << 16 | (size_t)head[2] << 8 | head[3];
        if (got == 4 && length > MOST) {
            report_refused(++n, 2, 0);
            break;
        }
        if (got < 4 || take(body, length) < length) {
            tell(text(line + ROOM, "cut\n", 4));
            break;
        }
        report(++n, body, length);
    }
    char *t = line + ROOM;
    *--t = '\n';
    tell(text(number(t, n), "records ", 8));
    return 0;
}
