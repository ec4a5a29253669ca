/* What is written down with its answer: eleven examples worked out by hand, the published vectors, and counts that are
   known. Run over the library, and over the second program under the library's names. Here bodies and status; each
   carrier has a file of its own. */
#include "listed.h"
#include <stdio.h>
#include <string.h>

static int passed, failed;

void expect(int holds, const char *what)
{
    if (holds)
        passed = passed + 1;
    else {
        failed = failed + 1;
        printf("FAILED: %s\n", what);
    }
}

uint32_t weight(int place)
{
    return (uint32_t)1 << place;
}

int bit_of(uint32_t number, int place)
{
    return (int)(number >> place & 1u);
}

int symbol_of(const uint8_t *line, int place)
{
    return bit_of(line[place / 8], 7 - place % 8);
}

void quiet_block(int32_t samples[384], uint8_t side[192])
{
    memset(samples, 0, 384 * sizeof samples[0]);
    memset(side, 0, 192);
    side[48] = 1;
    side[144] = 1;
    lampcoil_status_seal(side + 48, 24);
    lampcoil_status_seal(side + 144, 24);
}

static void test_bodies(void)
{
    expect(lampcoil_body_write(1, 0, 0, 0).body == 0x80000010u, "example 1");
    expect(lampcoil_body_write(-1, 0, 0, 0).body == 0x0FFFFFF0u, "example 2");
    expect(lampcoil_body_write(-8388608, 0, 0, 0).body == 0x88000000u, "example 3");
    expect(lampcoil_body_write(0, 1, 0, 0).body == 0x90000000u, "example 4");
    expect(lampcoil_body_write(8388607, 0, 0, 0).number == 0, "sample 8,388,607");
    expect(lampcoil_body_write(8388608, 0, 0, 0).number == 3, "sample 8,388,608");
    expect(lampcoil_body_write(8388608, 0, 2, 0).number == 2, "u of 2 goes before the sample");
    expect(lampcoil_body_read(0x80000010u).sample == 1, "body of +1 read");
    expect(lampcoil_body_read(0x0FFFFFF0u).sample == -1, "body of -1 read");
    expect(lampcoil_body_read(0x00000011u).number == 12, "a low bit and odd ones is 12");
    expect(lampcoil_body_read(0x00000010u).number == 9, "odd ones is 9");
}

static void test_status(void)
{
    uint8_t one[24] = {0x3D, 0x02, 0, 0, 0x02}, two[24] = {0x01};
    lampcoil_status_seal(one, 24);
    lampcoil_status_seal(two, 24);
    expect(one[23] == 0x9B, "example 8");
    expect(two[23] == 0x32, "example 9");
    uint32_t stages = lampcoil_crcc_start().stages;
    for (const char *t = "123456789"; *t != '\0'; t++)
        for (int k = 0; k < 8; k++)
            stages = lampcoil_crcc_feed(stages, (uint32_t)bit_of((uint32_t)*t, k)).stages;
    expect(lampcoil_crcc_value(stages).value == 0x97, "check value of CRC-8/AES");
    expect(lampcoil_crcc_value(256).number == 2, "no stages");
    expect(lampcoil_crcc_feed(256, 0).number == 2 && lampcoil_crcc_feed(0, 2).number == 2, "stages and bit out of range");
    lampcoil_status_meaning m = lampcoil_status_read(one, 24);
    expect(m.use == 1 && m.audio == 0 && m.emphasis == 3 && m.lock == 1 && m.rate == 0 && m.mode == 4, "meaning of example 8");
    uint8_t three[24] = {0x8B, 0x98, 0xEC};
    m = lampcoil_status_read(three, 24);
    expect(m.audio == 1 && m.emphasis == LAMPCOIL_RESERVED && m.emphasis_bits == 2, "reserved emphasis");
    expect(m.rate == 1 && m.mode == 1, "48 kHz, two channels");
    expect(m.user == LAMPCOIL_RESERVED && m.user_bits == 9, "reserved user bits");
    expect(m.auxiliary == 1 && m.length == 24, "24-bit words");
    expect(m.alignment == LAMPCOIL_RESERVED && m.alignment_bits == 3, "reserved alignment");
    three[2] = 0x2E;
    m = lampcoil_status_read(three, 24);
    expect(m.auxiliary == 3 && m.length == LAMPCOIL_RESERVED && m.length_bits == 5, "no length under user-defined auxiliary use");
    three[2] = 0x07;
    m = lampcoil_status_read(three, 24);
    expect(m.auxiliary == LAMPCOIL_RESERVED && m.auxiliary_bits == 7, "reserved auxiliary use");
    expect(m.length == LAMPCOIL_RESERVED && m.length_bits == 0, "no length under it");
    three[0] = 0xFE;
    m = lampcoil_status_read(three, 24);
    expect(m.number == 0 && m.use == 0 && m.mode == 0 && m.length == 0, "consumer use holds nothing");
    expect(lampcoil_status_read(three, 23).number == 1, "23 octets of status");
}

/* Three edits lead from the block of example 9 to that of example 8; refusals in their order; sums of right blocks. */
static void test_edit(void)
{
    uint8_t one[24] = {0x3D, 0x02, 0, 0, 0x02}, two[24] = {0x01}, three[24] = {0x01}, kept[24];
    lampcoil_status_seal(one, 24);
    lampcoil_status_seal(two, 24);
    lampcoil_status_seal(three, 24);
    expect(lampcoil_status_edit(two, 24, 0, 0x3D).number == 0 && lampcoil_status_edit(two, 24, 1, 0x02).number == 0 &&
           lampcoil_status_edit(two, 24, 4, 0x02).number == 0 && memcmp(one, two, 24) == 0, "example 9 edited into example 8");
    expect(lampcoil_status_edit(two, 24, 22, 0xFF).number == 0 && two[22] == 0xFF && lampcoil_status_right(two, 24).right == 1,
           "byte 22 edited");
    memcpy(kept, two, 24);
    expect(lampcoil_status_edit(two, 23, 23, 256).number == 1 && lampcoil_status_edit(two, 25, 0, 0).number == 1, "23 and 25 octets");
    expect(lampcoil_status_edit(two, 24, 23, 0).number == 2, "byte 23 is not edited");
    expect(lampcoil_status_edit(two, 24, 0, 256).number == 2, "a value of 256");
    two[23] ^= 1;
    expect(lampcoil_status_edit(two, 24, 23, 0).number == 2, "2 goes before 5");
    lampcoil_verdict v = lampcoil_status_edit(two, 24, 0, 0);
    two[23] ^= 1;
    expect(v.number == 5 && v.place == 0 && memcmp(two, kept, 24) == 0, "a wrong block is not edited");
    for (int k = 0; k < 24; k++)
        kept[k] = (uint8_t)(one[k] ^ two[k]);
    expect(lampcoil_status_right(kept, 24).right == 0, "the exclusive or of two right blocks");
    for (int k = 0; k < 24; k++)
        kept[k] = (uint8_t)(kept[k] ^ three[k]);
    expect(lampcoil_status_right(kept, 24).right == 1, "the exclusive or of three right blocks");
}

int main(void)
{
    test_bodies();
    test_status();
    test_edit();
    listed_aes3();
    listed_madi();
    listed_hd();
    printf("listed: %d passed, %d failed\n", passed, failed);
    return failed != 0;
}
