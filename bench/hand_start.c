/* Fills the tables before main, for the comparing program, which knows nothing of them. */
#include "hand.h"

__attribute__((constructor)) static void fill_tables(void)
{
    hand_init_aes3();
    hand_init_madi();
    hand_init_hd();
    hand_init_levels();
    formed_init_aes3();
    formed_init_madi();
    formed_init_hd();
    formed_init_levels();
}
