/* Comparing the library with the second program: every entry is called in both with the same arguments and with lent
   buffers of the same contents, and the answers and every octet of every buffer, with a guard zone on either side,
   must agree. */
#ifndef COMPARE_H
#define COMPARE_H

#include "lampcoil.h"
#include "second.h"
#ifdef IN_PLACE /* functions that take the place of the library's */
#include IN_PLACE
#endif

/* A seeded generator: the same cases in every run. */
uint32_t draw(void);                 /* 32 bits */
uint32_t below(uint32_t n);          /* 0 to n-1; n above 0 */
int once_in(uint32_t n);             /* 1 once in n times */
uint32_t any_number(uint32_t most);  /* mostly 0 to most, now and then just above it or anywhere */
size_t any_length(size_t right);     /* mostly right, now and then another */

/* A buffer lent to both programs. One end of it touches memory that cannot be reached, so that a step beyond stops
   the run; the zone on the other side is compared. With no elements it is a null pointer half of the time. `elements`
   is the length to hand on: at an edge (below) it is not the one that was asked for. */
typedef struct { void *library, *second; size_t elements; } lent;

/* One case: begin, lend buffers, call both, end. Answers are compared octet by octet; `number` is the second
   program's. Buffers are lent in the order of the entry's arguments, each by its name in the header. */
void begin(const char *entry);
lent lend_in(const char *argument, const void *contents, size_t elements, size_t octets_each);   /* read only */
lent lend_out(const char *argument, size_t elements, size_t octets_each);                        /* written */
lent lend_both(const char *argument, const void *contents, size_t elements, size_t octets_each); /* read and written */
lent lend_start(const char *argument, size_t elements, size_t octets_each);                      /* its start written */
void end(const void *library, const void *second, size_t octets, uint32_t number);

/* Ends a case whose answers are the variables a (library) and b (second program). */
#define END(a, b) end(&(a), &(b), sizeof(a) == sizeof(b) ? sizeof(a) : 0, (b).number)

/* Asks that an entry has given each of these numbers at least once (a list that ends with -1). */
void must_have_seen(const char *entry, const int *numbers);

/* The edges of a length, at each slice argument of an entry in turn, while the other lengths are right: a null
   pointer with length 0, and lengths of 2^32 and more, whose low half may be a right length. Behind these stands
   memory that can be read and that the entry must leave alone. `one_case` draws and ends one case of the entry. */
void at_the_edges(void (*one_case)(void));

/* Asks that every slice argument of every entry has been at every edge: the table in edges.c, and nothing outside it.
   The number of what is missing comes back. */
int edges_missing(void);

/* For compare.c: the edge that the buffer lent now is to take, if any, and whether one has been set at all; what stands
   there; that it was lent; and whether it was touched since. */
typedef enum { NO_EDGE, NULL_EMPTY, LONG_EMPTY, LONG_RIGHT, LONG_HIGH, LONG_MOST, EDGES } edge;
edge edge_for(int slice);
int edge_set(void);
void *edge_memory(void);
size_t edge_length(edge e, size_t right);
void edge_lent(const char *entry, const char *argument, edge e);
int edge_touched(void);

/* The groups of calls; each can be made by itself. `cases` is how many are drawn; what is tried at every place comes
   whole in any case. */
void compare_small(uint32_t cases);
void compare_hd(uint32_t cases);
void compare_control(uint32_t cases);
void compare_madi(uint32_t cases);
void compare_commands(uint32_t cases);
void compare_aes3(uint32_t cases);
void compare_length(uint32_t cases);
void compare_biphase(uint32_t cases);
void compare_hunt(uint32_t cases);
void compare_align(uint32_t cases);
void compare_talkback(uint32_t cases);
void compare_patch(uint32_t cases);
void compare_levels(uint32_t cases);
void compare_leases(uint32_t cases);
void compare_replay(uint32_t cases);

/* Things that are valid, for the cases to damage. */
uint32_t even_body(void);                        /* a body with even parity, sometimes all zero */
void make_even(uint32_t *body);                  /* sets slot 31 as parity asks */
void random_octets(uint8_t *octets, size_t n);
void random_status(uint8_t status[24]);          /* professional and sealed */

#endif
