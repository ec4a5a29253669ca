/* Writes a night of COUNT records to standard output, the same for the same SEED: data and control packets of four groups,
   with damage that repair mends and that it does not, refused ones, lost and repeated block numbers, and records that a
   replay passes over. It ends as STOP says: end, long (a length above 8,192, and a packet after it) or cut.
   Usage: night_records COUNT SEED STOP */
#include "records.h"
#include <stdio.h>
#include <stdlib.h>
#include <string.h>

static uint32_t last[4];

/* The block numbers of a group mostly count; now and then some are lost, one comes again, or one is 0. */
static uint32_t next_number(uint32_t g)
{
    uint32_t n = last[g] % 255 + 1;
    switch (record_below(24)) {
    case 0:
        n = (n + record_below(8)) % 255 + 1;
        break;
    case 1:
        n = last[g];
        break;
    case 2:
        n = 0;
        break;
    default:
        break;
    }
    return last[g] = n;
}

static void data_packet(void)
{
    uint32_t g = record_below(4);
    int way = HD_GOOD;
    if (record_below(4) == 0)
        way = (int)record_below(HD_NIGHT_WAYS);
    record_hd(g + 1, next_number(g), way);
}

static void control_packet(void)
{
    uint32_t group = 1 + record_below(4);
    record_control(group, record_below(3) == 0 ? (int)record_below(CTL_WAYS) : CTL_GOOD);
}

/* Records that are passed over: lengths below 2, other versions, other kinds, among them the longest that there is. */
static void other_record(void)
{
    static const uint8_t empty[4] = {0, 0, 0, 0}, single[5] = {0, 0, 0, 1, 1}, longest[8190];
    uint32_t any = record_below(256), n = record_below(63);
    uint8_t some[63];
    for (int k = 0; k < 63; k++)
        some[k] = (uint8_t)record_draw();
    switch (record_below(8)) {
    case 0:
        record_octets(empty, 4);
        break;
    case 1:
        record_octets(single, 5);
        break;
    case 2:
        record_put(2 + (int)(any % 254), 2, some, 62);
        break;
    case 3:
        record_put(0, 4, some, 36);
        break;
    case 4:
        record_put(1, 5 + (int)(any % 251), some, n);
        break;
    case 5:
        record_madi(56, MADI_GOOD);
        break;
    case 6:
        record_put(1, 3, longest, any < 64 ? sizeof longest : n);
        break;
    default:
        record_put(1, any % 2 == 0 ? 0 : 1, some, n);
        break;
    }
}

static void stop(const char *how)
{
    static const uint8_t length[4] = {0, 0, 32, 1}, begun[9] = {0, 0, 0, 64, 1, 2, 0, 0, 3};
    if (strcmp(how, "long") == 0) {
        record_octets(length, sizeof length);
        record_hd(1, next_number(0), HD_GOOD);
    }
    if (strcmp(how, "cut") == 0)
        record_octets(begun, sizeof begun);
}

int main(int argc, char **argv)
{
    unsigned long count = argc > 1 ? strtoul(argv[1], NULL, 10) : 1000;
    record_seed(argc > 2 ? (uint32_t)strtoul(argv[2], NULL, 10) : 1);
    for (int g = 0; g < 4; g++)
        last[g] = 230 + 7 * (uint32_t)g;
    for (unsigned long k = 0; k < count; k++) {
        uint32_t what = record_below(24);
        if (what < 2)
            other_record();
        else if (what < 6)
            control_packet();
        else
            data_packet();
    }
    stop(argc > 3 ? argv[3] : "end");
    return ferror(stdout) || fflush(stdout) != 0;
}
