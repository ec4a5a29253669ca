/* Writes examples/desk.rec to standard output: a desk's records of all kinds, good and spoilt, for the report program. */
#include "records.h"
#include <stdio.h>

int main(void)
{
    static const uint8_t small[4] = {0, 0, 0, 0}, empty[4] = {0, 0, 0, 0}, single[5] = {0, 0, 0, 1, 1};
    static const uint8_t cut[9] = {0, 0, 0, 64, 1, 2, 0, 0, 3};
    record_seed(1873);
    for (int way = 0; way < AES3_WAYS; way++)
        record_aes3(way);
    for (uint32_t group = 1; group <= 4; group++)
        record_hd(group, 252 + group - 1, HD_GOOD);
    for (int way = 1; way < HD_WAYS; way++)
        record_hd(1 + (uint32_t)way % 4, (uint32_t)way, way);
    for (int way = 0; way < MADI_WAYS; way++)
        record_madi(way % 2 == 0 ? 56 : 64, way);
    record_octets(empty, sizeof empty);
    record_octets(single, sizeof single);
    record_put(2, 1, small, 4);
    record_put(1, 5, small, 4);
    record_put(1, 4, small, 4);
    record_put(1, 2, small, 2);
    record_hd(2, 0, HD_GOOD);
    for (uint32_t group = 1; group <= 4; group++)
        record_control(group, CTL_GOOD);
    for (int way = 1; way < CTL_WAYS; way++)
        record_control(1 + (uint32_t)way % 4, way);
    record_octets(cut, sizeof cut);
    return ferror(stdout) || fflush(stdout) != 0;
}
