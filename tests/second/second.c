/* The second program: bits, subframe bodies and the CRCC of the channel status. */
#include "second.h"

uint32_t second_weight(int place)
{
    return (uint32_t)1 << place;
}

int second_bit(uint32_t number, int place)
{
    return (int)(number >> place & 1);
}

/* The earliest symbol of an octet is its highest bit. */
int second_symbol(const uint8_t *line, long place)
{
    return second_bit(line[place / 8], 7 - (int)(place % 8));
}

void second_put(uint8_t *line, long place, int symbol)
{
    uint32_t w = second_weight(7 - (int)(place % 8));
    uint32_t octet = line[place / 8];
    if (octet / w % 2 == 1)
        octet = octet - w;
    if (symbol == 1)
        octet = octet + w;
    line[place / 8] = (uint8_t)octet;
}

int second_odd(uint32_t body)
{
    int ones = 0;
    for (int slot = 4; slot <= 31; slot++)
        ones = ones + second_bit(body, slot);
    return ones % 2;
}

second_body second_body_write(int32_t sample, uint32_t v, uint32_t u, uint32_t c)
{
    second_body r = {0, 0, 0};
    if (v > 1 || u > 1 || c > 1) {
        r.number = 2;
        return r;
    }
    if (sample < -8388608 || sample > 8388607) {
        r.number = 3;
        return r;
    }
    /* 24-bit two's complement: a negative sample is written as itself plus 2^24 */
    uint32_t pattern = sample < 0 ? (uint32_t)(sample + 16777216) : (uint32_t)sample;
    uint32_t body = 0;
    for (int k = 0; k < 24; k++)
        if (second_bit(pattern, k) == 1)
            body = body + second_weight(4 + k);
    if (v == 1)
        body = body + second_weight(28);
    if (u == 1)
        body = body + second_weight(29);
    if (c == 1)
        body = body + second_weight(30);
    if (second_odd(body))
        body = body + second_weight(31);
    r.body = body;
    return r;
}

second_body_meaning second_body_read(uint32_t body)
{
    second_body_meaning r = {0, 0, 0, 0, 0, 0};
    for (int k = 0; k < 4; k++)
        if (second_bit(body, k) == 1)
            r.number = 12;
    if (r.number == 12)
        return r;
    if (second_odd(body)) {
        r.number = 9;
        return r;
    }
    int32_t sample = 0;
    for (int k = 0; k < 23; k++)
        if (second_bit(body, 4 + k) == 1)
            sample = sample + (int32_t)second_weight(k);
    if (second_bit(body, 27) == 1)
        sample = sample - 8388608;
    r.sample = sample;
    r.v = (uint32_t)second_bit(body, 28);
    r.u = (uint32_t)second_bit(body, 29);
    r.c = (uint32_t)second_bit(body, 30);
    return r;
}

/* One step of the register: stage[k] holds the coefficient of x^k, generator x^8 + x^4 + x^3 + x^2 + 1. */
static void crcc_step(int stage[8], int bit)
{
    int back = (stage[7] + bit) % 2;
    int next[8];
    next[0] = back;
    next[1] = stage[0];
    next[2] = (stage[1] + back) % 2;
    next[3] = (stage[2] + back) % 2;
    next[4] = (stage[3] + back) % 2;
    next[5] = stage[4];
    next[6] = stage[5];
    next[7] = stage[6];
    for (int k = 0; k < 8; k++)
        stage[k] = next[k];
}

/* The octet that belongs in byte 23: its bit 0 is the coefficient of x^7, its bit 7 that of x^0. */
static uint8_t crcc_octet(const uint8_t *status)
{
    int stage[8] = {1, 1, 1, 1, 1, 1, 1, 1};
    for (int i = 0; i <= 183; i++)
        crcc_step(stage, second_bit(status[i / 8], i % 8));
    uint32_t octet = 0;
    for (int i = 0; i < 8; i++)
        if (stage[7 - i] == 1)
            octet = octet + second_weight(i);
    return (uint8_t)octet;
}

int second_crcc_right(const uint8_t *status)
{
    return status[23] == crcc_octet(status);
}

second_verdict second_status_seal(uint8_t *status, size_t status_len)
{
    second_verdict r = {0, 0};
    if (status_len != 24)
        r.number = 1;
    else
        status[23] = crcc_octet(status);
    return r;
}

/* One byte set anew, and all 184 bits gone through again. */
second_verdict second_status_edit(uint8_t *status, size_t status_len, uint32_t byte, uint32_t value)
{
    second_verdict r = {0, 0};
    if (status_len != 24)
        r.number = 1;
    else if (byte > 22 || value > 255)
        r.number = 2;
    else if (!second_crcc_right(status))
        r.number = 5;
    else {
        status[byte] = (uint8_t)value;
        status[23] = crcc_octet(status);
    }
    return r;
}

second_status_check second_status_right(const uint8_t *status, size_t status_len)
{
    second_status_check r = {0, 0, 0};
    if (status_len != 24)
        r.number = 1;
    else
        r.right = (uint32_t)second_crcc_right(status);
    return r;
}

second_version_answer second_version(void)
{
    second_version_answer r = {0, 0, 5u * 65536u + 3u * 256u};
    return r;
}

second_crcc second_crcc_start(void)
{
    second_crcc r = {0, 0, 255};
    return r;
}

second_crcc second_crcc_feed(uint32_t stages, uint32_t bit)
{
    second_crcc r = {0, 0, 0};
    if (stages > 255 || bit > 1) {
        r.number = 2;
        return r;
    }
    int stage[8];
    for (int k = 0; k < 8; k++)
        stage[k] = second_bit(stages, k);
    crcc_step(stage, (int)bit);
    for (int k = 0; k < 8; k++)
        if (stage[k] == 1)
            r.stages = r.stages + second_weight(k);
    return r;
}

second_crcc_octet second_crcc_value(uint32_t stages)
{
    second_crcc_octet r = {0, 0, 0};
    if (stages > 255) {
        r.number = 2;
        return r;
    }
    for (int k = 0; k < 8; k++)
        if (second_bit(stages, 7 - k) == 1)
            r.value = r.value + second_weight(k);
    return r;
}
