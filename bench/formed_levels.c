/* The level sheet by hand with the named forms (hand.h). */
#define FORMED
#include "hand_levels.c"
