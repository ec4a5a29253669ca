/* What the two files of carry share. */
#ifndef CARRY_H
#define CARRY_H

#include "lampcoil.h"
#include <inttypes.h>
#include <stddef.h>
#include <stdlib.h>

enum { FRAMES = LAMPCOIL_BLOCK_SAMPLES / 2, MOST_CHANNELS = LAMPCOIL_MADI_MOST_CHANNELS };

/* A record: its length in four octets, the highest first, then as many octets: a version, a kind, the payload. */
enum { VERSION = 1, MOST_RECORD = 8192 };
enum { NO_KIND, AES3, HD, MADI, KINDS };

/* How many frames a record of each kind has, and of how many channels; MADI's channels are the sound's. */
typedef struct { uint32_t frames, channels; } record_shape;
extern const record_shape in_record[KINDS];

/* What the program ends with. */
enum { CARRIED, LOST, STOPPED };

/* The number of the record at hand on the way back, the first being 1; every line of its time names it. */
extern uint64_t record_number;

/* A line on standard error; STOP then ends the program. */
void tell(const char *format, ...);
#define STOP(...) (tell(__VA_ARGS__), exit(STOPPED))

/* Ends the program where the library refuses what it must accept: the fault is then this program's own. */
void accepted(const char *step, uint32_t number, uint32_t place);
#define ACCEPTED(step, answer) accepted(step, (answer).number, (answer).place)

/* Standard output and input; a failure ends the program. `take` has less than n octets only at the end. */
void put(const uint8_t *octets, size_t n);
size_t take(uint8_t *octets, size_t n);

/* All of standard input as records, to samples on standard output. */
int carry_back(void);

#endif
