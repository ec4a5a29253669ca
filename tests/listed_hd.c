/* What is written down with its answer of HD packets: lanes, the audio packet and the control packet. */
#include "listed.h"
#include <string.h>

static void test_lanes(void)
{
    int remainder_found = 1;
    /* the lane with the place of UDW17 (word 23) and the check places of x^5+x^3+x^2+x+1 satisfies; its neighbours go back to it */
    uint32_t lane = weight(23);
    const int powers[5] = {5, 3, 2, 1, 0};
    for (int k = 0; k < 5; k++)
        lane += weight(24 + powers[k]);
    for (int k = 0; k < 30; k++) {
        uint32_t bad = bit_of(lane, k) ? lane - weight(k) : lane + weight(k);
        if (lampcoil_lane_repair(bad).lane != lane)
            remainder_found = 0;
    }
    expect(lampcoil_lane_repair(lane).lane == lane && remainder_found, "example 10");
    expect(lampcoil_lane_repair(weight(30)).number == 2, "a lane of 2^30");
    expect(lampcoil_lane_repair(3).number == 15, "two places of the zero lane");
}

static void test_packet(void)
{
    uint32_t bodies[4] = {lampcoil_body_write(1, 0, 0, 0).body, 0, 0, 0}, back[4];
    uint16_t w[31], again[31];
    expect(lampcoil_hd_write(1, 7, 4095, 1, 1, 0, bodies, 4, w, 31).number == 0, "packet");
    expect(w[8] == 0x218 && w[9] == 0x200 && w[10] == 0x200 && w[11] == 0x180, "example 11");
    lampcoil_hd_read_answer r = lampcoil_hd_read(w, 31, back, 4);
    expect(r.number == 0 && r.group == 1 && r.dbn == 7 && r.phase == 4095 && r.ck12 == 1 && r.z1 == 1 && r.z2 == 0, "packet read");
    expect(memcmp(bodies, back, sizeof back) == 0, "bodies read");
    w[9] ^= 0xFF;
    lampcoil_hd_repair_answer q = lampcoil_hd_repair(w, 31, again, 31);
    w[9] ^= 0xFF;
    expect(q.number == 0 && q.lanes == 8 && memcmp(w, again, sizeof w) == 0, "a word's low octet inverted is repaired");
    expect(lampcoil_hd_next_dbn(254).dbn == 255 && lampcoil_hd_next_dbn(255).dbn == 1, "next DBN");
    expect(lampcoil_hd_next_dbn(0).number == 0 && lampcoil_hd_next_dbn(0).dbn == 0, "a sender that does not count");
    expect(lampcoil_hd_next_dbn(256).number == 2, "no DBN");
}

/* A control packet worked out by the tables of BT.1365, section 6; and what is refused of one. */
static void test_control(void)
{
    static const uint16_t worked[18] = {0x000, 0x3FF, 0x3FF, 0x2E2, 0x200, 0x10B, 0x12C, 0x20E, 0x107, 0x203, 0x200, 0x200,
                                        0x1FE, 0x1FF, 0x1FF, 0x200, 0x200, 0x22D};
    uint16_t w[18];
    expect(lampcoil_hd_control_write(2, 300, 7, 0, 7, 1, 1, 0, -1, w, 18).number == 0, "control packet");
    expect(memcmp(w, worked, sizeof w) == 0, "control packet word by word");
    lampcoil_hd_control_answer r = lampcoil_hd_control_read(worked, 18);
    expect(r.number == 0 && r.group == 2 && r.frame == 300 && r.rate == 7 && r.asynchronous == 0 && r.active == 7, "control packet read");
    expect(r.valid12 == 1 && r.delay12 == 1 && r.valid34 == 0 && r.delay34 == -1, "its delays read");
    lampcoil_verdict v = lampcoil_hd_control_write(2, 300, 7, 1, 7, 1, 1, 0, -1, w, 18);
    expect(v.number == 12 && v.place == 6, "a frame number in asynchronous use");
    v = lampcoil_hd_control_write(2, 300, 3, 0, 7, 1, 1, 0, -1, w, 18);
    expect(v.number == 12 && v.place == 7, "a reserved rate code");
    v = lampcoil_hd_control_write(2, 0, 3, 0, 7, 1, 33554432, 0, -1, w, 18);
    expect(v.number == 2 && v.place == 0, "a delay of 27 bits");
    w[17] ^= 1;
    r = lampcoil_hd_control_read(w, 18);
    expect(r.number == 16 && r.place == 17, "the last word of a control packet");
    expect(lampcoil_hd_repair(worked, 18, w, 18).number == 1, "repair does not take it");
}

void listed_hd(void)
{
    test_lanes();
    test_packet();
    test_control();
}
