/* Comparing bodies, channel status, the CRCC, single lanes and data block numbers. */
#include "compare.h"

static void body_write(void)
{
    static const int32_t edges[] = {8388607, 8388608, -8388608, -8388609, 0, 1, -1, INT32_MAX, INT32_MIN};
    int32_t sample = (int32_t)below(16777216) - 8388608;
    if (once_in(8))
        sample = edges[below(9)];
    if (once_in(16))
        sample = (int32_t)(draw() - 2147483648u);
    uint32_t v = any_number(1), u = any_number(1), c = any_number(1);
    begin("body_write");
    lampcoil_body a = lampcoil_body_write(sample, v, u, c);
    second_body b = second_body_write(sample, v, u, c);
    END(a, b);
}

static void body_read(void)
{
    uint32_t body = once_in(4) ? draw() : even_body();
    if (once_in(4))
        body = body ^ second_weight((int)below(32));
    begin("body_read");
    lampcoil_body_meaning a = lampcoil_body_read(body);
    second_body_meaning b = second_body_read(body);
    END(a, b);
}

/* A status: random, sealed, sealed and damaged in one bit. */
static void draw_status(uint8_t status[32])
{
    random_octets(status, 32);
    if (!once_in(4))
        random_status(status);
    if (once_in(4)) {
        uint32_t at = below(24);
        status[at] ^= (uint8_t)second_weight((int)below(8));
    }
}

static void status_edit(const uint8_t *status, size_t n, uint32_t byte, uint32_t value)
{
    begin("status_edit");
    lent s = lend_both("status", status, n, 1);
    lampcoil_verdict a = lampcoil_status_edit(s.library, s.elements, byte, value);
    second_verdict b = second_status_edit(s.second, s.elements, byte, value);
    END(a, b);
}

static void status_entries(void)
{
    uint8_t status[32];
    draw_status(status);
    size_t n = any_length(24);
    begin("status_seal");
    lent s = lend_both("status", status, n, 1);
    lampcoil_verdict a = lampcoil_status_seal(s.library, s.elements);
    second_verdict b = second_status_seal(s.second, s.elements);
    END(a, b);

    n = any_length(24);
    uint32_t byte = any_number(22), value = any_number(255);
    status_edit(status, n, byte, value);

    n = any_length(24);
    begin("status_right");
    s = lend_in("status", status, n, 1);
    lampcoil_status_check c = lampcoil_status_right(s.library, s.elements);
    second_status_check d = second_status_right(s.second, s.elements);
    END(c, d);

    n = any_length(24);
    begin("status_read");
    s = lend_in("status", status, n, 1);
    lampcoil_status_meaning e = lampcoil_status_read(s.library, s.elements);
    second_status_meaning f = second_status_read(s.second, s.elements);
    END(e, f);
}

/* Every byte with every value, each on a right block of its own, and byte 23 and a value of 256 too; and for each byte
   a block that is wrong in one bit, and lengths of 23 and 25. */
static void all_edits(void)
{
    uint8_t status[32];
    for (uint32_t byte = 0; byte <= 23; byte++) {
        for (uint32_t value = 0; value <= 256; value++) {
            random_octets(status, 32);
            second_status_seal(status, 24);
            status_edit(status, 24, byte, value);
        }
        status_edit(status, 23, byte, below(256));
        status_edit(status, 25, byte, below(256));
        for (uint32_t at = 0; at < 24; at++) {
            random_octets(status, 32);
            second_status_seal(status, 24);
            status[at] ^= (uint8_t)second_weight((int)below(8));
            status_edit(status, 24, byte, below(256));
        }
    }
}

/* Every state of bytes 0 to 2, one byte at a time, and of byte 2 under professional use. */
static void all_states(void)
{
    for (uint32_t k = 0; k < 3 * 256; k++) {
        uint8_t status[24];
        random_octets(status, 24);
        status[0] = (uint8_t)(status[0] | 1);
        status[k / 256] = (uint8_t)k;
        begin("status_read");
        lent s = lend_in("status", status, 24, 1);
        lampcoil_status_meaning a = lampcoil_status_read(s.library, 24);
        second_status_meaning b = second_status_read(s.second, 24);
        END(a, b);
    }
}

static void crcc_feed(uint32_t stages, uint32_t bit)
{
    begin("crcc_feed");
    lampcoil_crcc a = lampcoil_crcc_feed(stages, bit);
    second_crcc b = second_crcc_feed(stages, bit);
    END(a, b);
}

static void crcc_value(uint32_t stages)
{
    begin("crcc_value");
    lampcoil_crcc_octet a = lampcoil_crcc_value(stages);
    second_crcc_octet b = second_crcc_value(stages);
    END(a, b);
}

static void version(void)
{
    begin("version");
    lampcoil_version_answer a = lampcoil_version();
    second_version_answer b = second_version();
    END(a, b);
}

static void crcc(void)
{
    begin("crcc_start");
    lampcoil_crcc a = lampcoil_crcc_start();
    second_crcc b = second_crcc_start();
    END(a, b);
    for (uint32_t stages = 0; stages < 260; stages++) {
        for (uint32_t bit = 0; bit < 4; bit++)
            crcc_feed(stages, bit);
        crcc_value(stages);
    }
    for (int k = 0; k < 500; k++) {
        crcc_feed(any_number(255), any_number(1));
        crcc_value(any_number(255));
    }
}

/* A lane of the code from any one, by way of a packet's check places; then up to three places changed. */
static void lane_repair(void)
{
    uint32_t lane = draw() & 0x00FFFFFFu;
    for (uint32_t check = 0; check < 64; check++) {
        second_lane r = second_lane_repair(lane + check * second_weight(24));
        if (r.number == 0) {
            lane = r.lane;
            break;
        }
    }
    for (uint32_t k = below(4); k > 0; k--)
        lane = lane ^ second_weight((int)below(30));
    if (once_in(16))
        lane = draw();
    begin("lane_repair");
    lampcoil_lane a = lampcoil_lane_repair(lane);
    second_lane b = second_lane_repair(lane);
    END(a, b);
}

static void next_dbn(uint32_t dbn)
{
    begin("hd_next_dbn");
    lampcoil_dbn a = lampcoil_hd_next_dbn(dbn);
    second_dbn b = second_hd_next_dbn(dbn);
    END(a, b);
}

void compare_small(uint32_t cases)
{
    static const int of_body_write[] = {0, 2, 3, -1}, of_body_read[] = {0, 9, 12, -1}, of_status[] = {0, 1, -1},
                     of_edit[] = {0, 1, 2, 5, -1}, of_crcc[] = {0, 2, -1}, of_lane[] = {0, 2, 15, -1};
    for (uint32_t k = 0; k < cases; k++) {
        body_write();
        body_read();
        if (k % 2 == 0)
            status_entries();
        if (k % 4 == 0)
            lane_repair();
    }
    all_states();
    all_edits();
    at_the_edges(status_entries);
    version();
    crcc();
    for (uint32_t dbn = 0; dbn < 300; dbn++)
        next_dbn(dbn);
    for (int k = 0; k < 300; k++)
        next_dbn(any_number(255));
    must_have_seen("body_write", of_body_write);
    must_have_seen("body_read", of_body_read);
    must_have_seen("status_seal", of_status);
    must_have_seen("status_edit", of_edit);
    must_have_seen("status_right", of_status);
    must_have_seen("status_read", of_status);
    must_have_seen("crcc_feed", of_crcc);
    must_have_seen("crcc_value", of_crcc);
    must_have_seen("lane_repair", of_lane);
    must_have_seen("hd_next_dbn", of_crcc);
}
