/* The second program: HD audio data packets, their lanes and their repair. */
#include "second.h"

enum { WORDS = 31, LAST = 30, PLACES = 30, DATA = 24, BODIES = 4 };

static const uint32_t did_of_group[4] = {0x2E7, 0x1E6, 0x1E5, 0x2E4};

/* The remainder of a lane's data, times x^6, by x^6+x^5+x^3+x^2+x+1: long division, the first data place at the highest power. */
static void remainder_of(const int data[DATA], int remainder[6])
{
    int power[30] = {0};                              /* power[n] is the coefficient of x^n */
    const int generator[7] = {1, 1, 1, 1, 0, 1, 1};   /* likewise */
    for (int k = 0; k < DATA; k++)
        power[29 - k] = data[k];
    for (int n = 29; n >= 6; n--)
        if (power[n] == 1)
            for (int k = 0; k <= 6; k++)
                power[n - 6 + k] = (power[n - 6 + k] + generator[k]) % 2;
    for (int n = 0; n < 6; n++)
        remainder[n] = power[n];
}

/* The check place 24 + n carries the coefficient of x^n. */
static int satisfies(const int place[PLACES])
{
    int remainder[6];
    remainder_of(place, remainder);
    for (int n = 0; n < 6; n++)
        if (place[DATA + n] != remainder[n])
            return 0;
    return 1;
}

/* Makes the lane the satisfying one within one place; 0 if there is none. */
static int repair_places(int place[PLACES])
{
    if (satisfies(place))
        return 1;
    for (int k = 0; k < PLACES; k++) {
        place[k] = 1 - place[k];
        if (satisfies(place))
            return 1;
        place[k] = 1 - place[k];
    }
    return 0;
}

second_lane second_lane_repair(uint32_t lane)
{
    second_lane r = {0, 0, 0};
    int place[PLACES];
    if (lane >= second_weight(30)) {
        r.number = 2;
        return r;
    }
    for (int k = 0; k < PLACES; k++)
        place[k] = second_bit(lane, k);
    if (!repair_places(place)) {
        r.number = 15;
        return r;
    }
    for (int k = 0; k < PLACES; k++)
        if (place[k] == 1)
            r.lane = r.lane + second_weight(k);
    return r;
}

second_dbn second_hd_next_dbn(uint32_t dbn)
{
    second_dbn r = {0, 0, 0};
    if (dbn > 255)
        r.number = 2;
    else
        r.dbn = dbn == 0 ? 0 : dbn % 255 + 1; /* 0 does not count; 1 to 255 go round */
    return r;
}

/* An octet with b8, which makes the ones even, and b9, its opposite. */
static uint16_t with_parity(uint32_t octet)
{
    int ones = 0;
    for (int k = 0; k < 8; k++)
        ones = ones + second_bit(octet, k);
    return (uint16_t)(ones % 2 == 1 ? octet + 256 : octet + 512);
}

static uint16_t checksum(const uint16_t *words)
{
    uint32_t sum = 0;
    for (int w = 3; w <= 29; w++)
        sum = (sum + words[w] % 512) % 512;
    return (uint16_t)(second_bit(sum, 8) == 1 ? sum : sum + 512);
}

static void lane_of(const uint16_t *words, int lane, int place[PLACES])
{
    for (int w = 0; w < PLACES; w++)
        place[w] = second_bit(words[w], lane);
}

static uint32_t from_bits(const int *bit, int count)
{
    uint32_t x = 0;
    for (int k = 0; k < count; k++)
        if (bit[k] == 1)
            x = x + second_weight(k);
    return x;
}

/* The four octets of a channel: 32 bits in the order sent, the low four of them Z's place and zeros, then the body. */
static void channel_octets(uint32_t body, int z, uint32_t octet[4])
{
    int bit[32];
    for (int k = 0; k < 32; k++)
        bit[k] = second_bit(body, k);
    bit[3] = z;
    for (int k = 0; k < 4; k++)
        octet[k] = from_bits(bit + 8 * k, 8);
}

/* Fills words 24 to 29 from the lanes of words 0 to 23, with their parity bits. */
static void put_checks(uint16_t *words)
{
    uint32_t octet[6] = {0};
    for (int lane = 0; lane < 8; lane++) {
        int place[PLACES] = {0}, remainder[6];
        for (int w = 0; w < DATA; w++)
            place[w] = second_bit(words[w], lane);
        remainder_of(place, remainder);
        for (int n = 0; n < 6; n++)
            octet[n] = octet[n] + second_weight(lane) * (uint32_t)remainder[n];
    }
    for (int n = 0; n < 6; n++)
        words[DATA + n] = with_parity(octet[n]);
}

static second_verdict verdict(uint32_t number, uint32_t place)
{
    second_verdict r = {number, place};
    return r;
}

static int low_four(uint32_t body)
{
    return second_bit(body, 0) + second_bit(body, 1) + second_bit(body, 2) + second_bit(body, 3) > 0;
}

second_verdict second_hd_write(uint32_t group, uint32_t dbn, uint32_t phase, uint32_t ck12, uint32_t z1, uint32_t z2,
                               const uint32_t *bodies, size_t bodies_len, uint16_t *words, size_t words_len)
{
    if (bodies_len != BODIES || words_len != WORDS)
        return verdict(1, 0);
    if (group < 1 || group > 4 || dbn > 255 || phase > 4095 || ck12 > 1 || z1 > 1 || z2 > 1)
        return verdict(2, 0);
    for (uint32_t n = 0; n < BODIES; n++)
        if (second_odd(bodies[n]))
            return verdict(9, n);
    for (uint32_t n = 0; n < BODIES; n++)
        if (low_four(bodies[n]))
            return verdict(12, n);
    words[0] = 0x000;
    words[1] = 0x3FF;
    words[2] = 0x3FF;
    words[3] = (uint16_t)did_of_group[group - 1];
    words[4] = with_parity(dbn);
    words[5] = 0x218;
    words[6] = with_parity(phase % 256);
    words[7] = with_parity(phase / 256 + 16 * ck12);
    for (int n = 1; n <= 4; n++) {
        uint32_t octet[4];
        channel_octets(bodies[n - 1], n == 1 ? (int)z1 : n == 3 ? (int)z2 : 0, octet);
        for (int k = 0; k < 4; k++)
            words[6 + 4 * n - 2 + k] = with_parity(octet[k]);
    }
    put_checks(words);
    words[LAST] = checksum(words);
    return verdict(0, 0);
}

static second_verdict first_above(const uint16_t *words)
{
    for (uint32_t w = 0; w < WORDS; w++)
        if (words[w] > 1023)
            return verdict(14, w);
    return verdict(0, 0);
}

static uint32_t group_of(uint32_t did)
{
    for (uint32_t g = 1; g <= 4; g++)
        if (did_of_group[g - 1] == did)
            return g;
    return 0;
}

/* 13 for words 0, 1, 2, 3 and 5. */
static int listed(const uint16_t *words, uint32_t w)
{
    if (w == 0)
        return words[w] == 0x000;
    if (w == 1 || w == 2)
        return words[w] == 0x3FF;
    if (w == 3)
        return group_of(words[w]) != 0;
    return w == 5 ? words[w] == 0x218 : 1;
}

/* The bits of a word that are required to be 0, as lowest and highest. */
static int zeros_stand(const uint16_t *words, uint32_t w)
{
    int low = 0, high = -1;
    if (w == 7) {
        low = 5;
        high = 7;
    }
    if (w == 8 || w == 16)
        high = 2;
    if (w == 12 || w == 20)
        high = 3;
    for (int k = low; k <= high; k++)
        if (second_bit(words[w], k) == 1)
            return 0;
    return 1;
}

static uint32_t body_in(const uint16_t *words, int n)
{
    uint32_t body = 0;
    for (int k = 0; k < 4; k++)
        body = body + words[6 + 4 * n - 2 + k] % 256 * second_weight(8 * k);
    for (int k = 0; k < 4; k++)
        if (second_bit(body, k) == 1)
            body = body - second_weight(k);
    return body;
}

static second_verdict packet_breaks(const uint16_t *words)
{
    second_verdict v = first_above(words);
    if (v.number != 0)
        return v;
    for (uint32_t w = 0; w <= 5; w++)
        if (!listed(words, w))
            return verdict(13, w);
    for (uint32_t w = 3; w <= 29; w++)
        if (words[w] != with_parity(words[w] % 256u))
            return verdict(14, w);
    if (words[LAST] != checksum(words))
        return verdict(16, LAST);
    for (uint32_t lane = 0; lane < 8; lane++) {
        int place[PLACES];
        lane_of(words, (int)lane, place);
        if (!satisfies(place))
            return verdict(15, lane);
    }
    for (uint32_t w = 0; w < WORDS; w++)
        if (!zeros_stand(words, w))
            return verdict(12, w);
    for (uint32_t n = 0; n < BODIES; n++)
        if (second_odd(body_in(words, (int)n + 1)))
            return verdict(9, n);
    return verdict(0, 0);
}

second_hd_read_answer second_hd_read(const uint16_t *words, size_t words_len, uint32_t *bodies, size_t bodies_len)
{
    second_hd_read_answer r = {0, 0, 0, 0, 0, 0, 0, 0};
    if (words_len != WORDS || bodies_len != BODIES) {
        r.number = 1;
        return r;
    }
    second_verdict v = packet_breaks(words);
    r.number = v.number;
    r.place = v.place;
    if (v.number != 0)
        return r;
    for (int n = 1; n <= 4; n++)
        bodies[n - 1] = body_in(words, n);
    r.group = group_of(words[3]);
    r.dbn = words[4] % 256u;
    r.phase = words[6] % 256u + words[7] % 16u * 256u;
    r.ck12 = (uint32_t)second_bit(words[7], 4);
    r.z1 = (uint32_t)second_bit(words[8], 3);
    r.z2 = (uint32_t)second_bit(words[16], 3);
    return r;
}

/* Puts a repaired lane into the octets; the answer is 1 if it differs from what came. */
static uint32_t put_lane(uint32_t octet[PLACES], const uint16_t *words, int lane, const int place[PLACES])
{
    uint32_t differs = 0;
    for (int w = 0; w < PLACES; w++) {
        octet[w] = octet[w] + second_weight(lane) * (uint32_t)place[w];
        if (place[w] != second_bit(words[w], lane))
            differs = 1;
    }
    return differs;
}

second_hd_repair_answer second_hd_repair(const uint16_t *words, size_t words_len, uint16_t *repaired, size_t repaired_len)
{
    second_hd_repair_answer r = {0, 0, 0};
    uint32_t octet[PLACES] = {0}, lanes = 0;
    const uint32_t adf[3] = {0x00, 0xFF, 0xFF};
    if (words_len != WORDS || repaired_len != WORDS) {
        r.number = 1;
        return r;
    }
    second_verdict v = first_above(words);
    for (uint32_t lane = 0; v.number == 0 && lane < 8; lane++) {
        int place[PLACES];
        lane_of(words, (int)lane, place);
        if (repair_places(place))
            lanes = lanes + put_lane(octet, words, (int)lane, place);
        else
            v = verdict(15, lane);
    }
    for (uint32_t w = 0; v.number == 0 && w < 3; w++)
        if (octet[w] != adf[w])
            v = verdict(13, w);
    r.number = v.number;
    r.place = v.place;
    if (v.number != 0)
        return r;
    repaired[0] = 0x000;
    repaired[1] = 0x3FF;
    repaired[2] = 0x3FF;
    for (int w = 3; w < PLACES; w++)
        repaired[w] = with_parity(octet[w]);
    repaired[LAST] = checksum(repaired);
    r.lanes = lanes;
    return r;
}
