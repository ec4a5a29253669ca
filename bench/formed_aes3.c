/* AES3 by hand with the named forms (hand.h). */
#define FORMED
#include "hand_aes3.c"
