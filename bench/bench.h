/* What bench.c measures and rows.c lists. */
#ifndef BENCH_H
#define BENCH_H

#include "hand.h"

/* One operation in one program: the call that is timed, which returns the number of its answer, and the same call with
   its whole answer stored at `to`, whose size is returned. */
typedef struct { uint32_t (*timed)(void); size_t (*whole)(void *to); } program;

/* A row of the table: the operation in the library, in C by hand and, where a form of it is named, in C bound to that
   form; the function that prepares its input; and the buffers that a call fills. */
typedef struct {
    const char *name;
    const program *library, *hand, *formed;
    void (*prepare)(void);
    struct { void *at; size_t octets; } filled[2];
} operation;

enum { MOST_ANSWER = 1024, MOST_FILLED = 4096 };

extern const operation all_rows[];
extern const size_t row_count;

/* Fills the tables of the C programs and the inputs of all rows; once, before anything else. */
void prepare_rows(void);

#endif
