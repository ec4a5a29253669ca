/* What the files of the test of the header's constants share: one count of what was tried. */
#ifndef CONSTANTS_H
#define CONSTANTS_H

#include "lampcoil.h"

void expect(int holds, const char *what); /* counts, and prints what does not hold */

#define EXPECT(condition) expect(condition, #condition)

/* An answer's number is the constant. */
#define GIVES(call, constant) expect((call).number == (constant), #constant ": " #call)

/* The layout of a record, and the two sheets as types. */
void constants_records(void);
void constants_sheets(void);

#endif
