/* Records for the report program and the replay, written to standard output: carriers of all kinds, good, or spoilt in a chosen way. */
#ifndef RECORDS_H
#define RECORDS_H

#include <stddef.h>
#include <stdint.h>

/* The generator: x becomes (x * 1664525 + 1013904223) % 2^32, and gives x / 65536 % 65536. */
void record_seed(uint32_t seed);
uint32_t record_draw(void);
uint32_t record_below(uint32_t n);

void record_octets(const uint8_t *octets, size_t n);               /* octets as they are, outside any record */
void record_put(int version, int kind, const uint8_t *payload, size_t n);   /* a whole record */

/* Ways of spoiling; 0 is good. The number that the reader must give stands beside each. */
enum {
    AES3_GOOD, AES3_INVERTED, AES3_CRCC_A, AES3_CRCC_B, /* all accepted */
    AES3_PREAMBLE /* 7 */, AES3_SLOT /* 8 */, AES3_ODD /* accepted */, AES3_SHORT /* 1 */, AES3_WAYS
};
enum {
    HD_GOOD, HD_ABOVE /* 14 */, HD_HEADER /* 13 */, HD_WORD /* 14 */, HD_CHECKSUM /* 16 */, HD_LANE /* 15 */, HD_ZERO /* 12 */,
    HD_PARITY /* 9 */, HD_SHORT /* 1 */, HD_WAYS,
    /* in a night alone, with what comes after repair */
    HD_LANES = HD_WAYS /* accepted, 2 to 8 lanes mended */, HD_DID /* accepted, the DID mended */, HD_TWICE /* 15, as it came */,
    HD_LANE_ZERO /* 12, a lane mended */, HD_LOST_DID /* 15, its DID no group's */, HD_NIGHT_WAYS
};
enum {
    MADI_GOOD, MADI_SPREAD /* accepted */, MADI_MANY /* accepted, 255 syncs */, MADI_CHANNELS /* 2 */, MADI_LEVEL /* 2 */,
    MADI_BITS /* 2 */, MADI_SPARE /* 2 */, MADI_SHORT /* 1 */, MADI_NO_SYNC /* 10 */, MADI_GROUP /* 11 */, MADI_STATE /* 12 */,
    MADI_PARITY /* 9 */, MADI_HEADLESS /* 1 */, MADI_WAYS
};
enum {
    CTL_GOOD, CTL_ASYNCHRONOUS /* accepted */, CTL_ABOVE /* 14 */, CTL_HEADER /* 13 */, CTL_WORD /* 14 */, CTL_CHECKSUM /* 16 */,
    CTL_FRAME /* 12 at 6 */, CTL_RATE /* 12 at 7 */, CTL_ZERO /* 12 at 16 */, CTL_SHORT /* 1 */, CTL_WAYS
};
void record_aes3(int way);
void record_hd(uint32_t group, uint32_t dbn, int way);
void record_control(uint32_t group, int way);
void record_madi(uint32_t channels, int way);

#endif
