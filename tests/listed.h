/* What the files of the test of written answers share: one count of what was tried, and how numbers, symbols and a block
   are looked at and made. */
#ifndef LISTED_H
#define LISTED_H

#include "lampcoil.h"

void expect(int holds, const char *what);          /* counts, and prints what does not hold */
uint32_t weight(int place);
int bit_of(uint32_t number, int place);
int symbol_of(const uint8_t *line, int place);

/* A block with silent samples and both statuses professional, sealed. */
void quiet_block(int32_t samples[384], uint8_t side[192]);

/* What is written down of each carrier. */
void listed_aes3(void);
void listed_madi(void);
void listed_hd(void);

#endif
