/* Carriers that are wrong in one chosen place and right in all others, for tests that want each refusal. */
#ifndef SPOIL_H
#define SPOIL_H

#include <stddef.h>
#include <stdint.h>

/* A packet's b8, b9 and last word from its low octets; and its check octets from the 24 before them, with all that follows. */
void spoil_close_words(uint16_t words[31]);
void spoil_close_lanes(uint16_t words[31]);

/* Turns one symbol of a line over. */
void spoil_flip(uint8_t *line, uint32_t symbol);

/* Changes the bit of a slot of an AES3 line, and with it the level of every symbol after it up to `until`. */
void spoil_slot(uint8_t *line, uint32_t subframe, uint32_t slot, uint32_t until);

/* A row of MADI line bits before NRZI. */
enum { SPOIL_MOST = 8000 };
typedef struct { uint8_t bit[SPOIL_MOST]; uint32_t bits; } spoil_row;
void spoil_add_bits(spoil_row *r, uint32_t value, int count);   /* the highest first */
void spoil_add_syncs(spoil_row *r, uint32_t count);
void spoil_add_command(spoil_row *r, uint32_t command);
void spoil_add_channel(spoil_row *r, uint32_t word);            /* any 32 bits, bits 0 and 1 as given */
size_t spoil_pack(const spoil_row *r, uint32_t level, uint8_t *line);   /* after NRZI; the number of octets */

#endif
