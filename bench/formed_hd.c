/* HD packets by hand with the named forms (hand.h). */
#define FORMED
#include "hand_hd.c"
