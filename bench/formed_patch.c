/* The patch by hand with the named forms (hand.h). */
#define FORMED
#include "hand_patch.c"
