/* HD control packets by hand with the named forms (hand.h). */
#define FORMED
#include "hand_control.c"
