/* The second program's report: reads records from standard input and prints what the report program must print. */
#include "second.h"
#include <stdio.h>

enum { MOST = 8192 };

static void refused(unsigned long n, uint32_t number, uint32_t place)
{
    printf("%lu refused %u %u\n", n, (unsigned)number, (unsigned)place);
}

static void report_aes3(unsigned long n, const uint8_t *payload, size_t length)
{
    int32_t samples[384];
    uint8_t side[192];
    second_aes3_read_answer r = second_aes3_read(payload, length, samples, 384, side, 192);
    if (r.number != 0)
        refused(n, r.number, r.place);
    else
        printf("%lu aes3 ok %u %u\n", n, (unsigned)r.crcc_a, (unsigned)r.crcc_b);
}

static void report_hd(unsigned long n, const uint8_t *payload, size_t length)
{
    uint16_t words[31];
    uint32_t bodies[4];
    if (length != 62) {
        refused(n, 1, 0);
        return;
    }
    for (int w = 0; w < 31; w++)
        words[w] = (uint16_t)(payload[2 * w] * 256 + payload[2 * w + 1]);
    second_hd_read_answer r = second_hd_read(words, 31, bodies, 4);
    if (r.number != 0)
        refused(n, r.number, r.place);
    else
        printf("%lu hd ok %u %u\n", n, (unsigned)r.group, (unsigned)r.dbn);
}

static void report_madi(unsigned long n, const uint8_t *payload, size_t length)
{
    uint32_t words[256];
    uint8_t commands[255];
    if (length < 4) {
        refused(n, 1, 0);
        return;
    }
    uint32_t bits = payload[2] * 256u + payload[3];
    second_madi_read_answer r = second_madi_read(payload[0], payload[1], bits, payload + 4, length - 4, words, payload[0], commands,
                                                 sizeof commands);
    if (r.number != 0)
        refused(n, r.number, r.place);
    else
        printf("%lu madi ok %u %u\n", n, (unsigned)r.active, (unsigned)r.commands);
}

static void report_control(unsigned long n, const uint8_t *payload, size_t length)
{
    uint16_t words[18];
    if (length != 36) {
        refused(n, 1, 0);
        return;
    }
    for (int w = 0; w < 18; w++)
        words[w] = (uint16_t)(payload[2 * w] * 256 + payload[2 * w + 1]);
    second_hd_control_answer r = second_hd_control_read(words, 18);
    if (r.number != 0)
        refused(n, r.number, r.place);
    else
        printf("%lu ctl ok %u\n", n, (unsigned)r.group);
}

static void report_record(unsigned long n, const uint8_t *record, size_t length)
{
    if (length < 2 || record[0] != 1 || record[1] < 1 || record[1] > 4)
        refused(n, 2, 0);
    else if (record[1] == 1)
        report_aes3(n, record + 2, length - 2);
    else if (record[1] == 2)
        report_hd(n, record + 2, length - 2);
    else if (record[1] == 3)
        report_madi(n, record + 2, length - 2);
    else
        report_control(n, record + 2, length - 2);
}

int main(void)
{
    unsigned long n = 0;
    uint8_t header[4], record[MOST];
    printf("carrier report 1\n");
    for (;;) {
        size_t got = fread(header, 1, 4, stdin);
        if (got == 0)
            break;
        if (got < 4) {
            printf("cut\n");
            break;
        }
        unsigned long length = 0;
        for (int k = 0; k < 4; k++)
            length = length * 256 + header[k];
        if (length > MOST) {
            n = n + 1;
            refused(n, 2, 0);
            break;
        }
        if (fread(record, 1, length, stdin) < length) {
            printf("cut\n");
            break;
        }
        n = n + 1;
        report_record(n, record, length);
    }
    printf("records %lu\n", n);
    return 0;
}
