/* Writes COUNT mixed records to standard output, good and spoilt, the same for the same SEED. Usage: mixed_records COUNT SEED */
#include "records.h"
#include <stdio.h>
#include <stdlib.h>

static void odd_record(void)
{
    static const uint8_t empty[4] = {0, 0, 0, 0}, single[5] = {0, 0, 0, 1, 1};
    uint8_t few[3];
    for (int k = 0; k < 3; k++)
        few[k] = (uint8_t)record_draw();
    uint32_t any = record_below(256), n = record_below(4);
    switch (record_below(5)) {
    case 0:
        record_octets(empty, 4);
        break;
    case 1:
        record_octets(single, 5);
        break;
    case 2:
        record_put((int)any, 2, few, n);
        break;
    case 3:
        record_put(1, (int)any, few, n);
        break;
    default:
        record_put(1, 1 + (int)(any % 4), few, n);
        break;
    }
}

/* Good in every other case. */
static int way_of(int ways)
{
    return record_below(2) == 0 ? 0 : (int)record_below((uint32_t)ways);
}

int main(int argc, char **argv)
{
    unsigned long count = argc > 1 ? strtoul(argv[1], NULL, 10) : 1000;
    record_seed(argc > 2 ? (uint32_t)strtoul(argv[2], NULL, 10) : 1);
    for (unsigned long k = 0; k < count; k++) {
        uint32_t kind = record_below(32), group = 1 + record_below(4), dbn = record_below(256), channels = record_below(2) == 0 ? 56 : 64;
        if (kind < 2)
            record_aes3(way_of(AES3_WAYS));
        else if (kind < 12)
            record_hd(group, dbn, way_of(HD_WAYS));
        else if (kind < 16)
            record_control(group, way_of(CTL_WAYS));
        else if (kind < 29)
            record_madi(channels, way_of(MADI_WAYS));
        else
            odd_record();
    }
    return ferror(stdout) || fflush(stdout) != 0;
}
