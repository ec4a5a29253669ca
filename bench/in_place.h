/* The hand-written functions in the place of the library's, for the comparing program (cc -DIN_PLACE='"in_place.h"').
   Every function that a row of the figures measures stands here; BY_CANDIDATE chooses between the two searches for a
   block start, BY_FORMS the functions with the named forms. */
#ifndef IN_PLACE_H
#define IN_PLACE_H

#include "hand.h"

#ifdef BY_FORMS
#define lampcoil_aes3_write formed_aes3_write
#define lampcoil_aes3_read formed_aes3_read
#define lampcoil_madi_write formed_madi_write
#define lampcoil_madi_read formed_madi_read
#define lampcoil_hd_write formed_hd_write
#define lampcoil_hd_read formed_hd_read
#define lampcoil_hd_repair formed_hd_repair
#define lampcoil_hd_control_write formed_hd_control_write
#define lampcoil_hd_control_read formed_hd_control_read
#define lampcoil_status_edit formed_status_edit
#define lampcoil_status_seal formed_status_seal
#define lampcoil_madi_patch formed_madi_patch
#define lampcoil_level_add formed_level_add
#define lampcoil_replay formed_replay
#else
#define lampcoil_aes3_write hand_aes3_write
#define lampcoil_aes3_read hand_aes3_read
#define lampcoil_madi_write hand_madi_write
#define lampcoil_madi_read hand_madi_read
#define lampcoil_hd_write hand_hd_write
#define lampcoil_hd_read hand_hd_read
#define lampcoil_hd_repair hand_hd_repair
#define lampcoil_hd_control_write hand_hd_control_write
#define lampcoil_hd_control_read hand_hd_control_read
#define lampcoil_status_edit hand_status_edit
#define lampcoil_status_seal hand_status_seal
#define lampcoil_madi_patch hand_madi_patch
#define lampcoil_level_add hand_level_add
#define lampcoil_replay hand_replay
#endif
#ifdef BY_CANDIDATE
#define lampcoil_aes3_find hand_aes3_find_by_candidate
#else
#define lampcoil_aes3_find hand_aes3_find
#endif
#define lampcoil_talkback_join hand_talkback_join
#define lampcoil_talkback_separate hand_talkback_separate
#define lampcoil_level_join hand_level_join
#define lampcoil_lease_ask hand_lease_ask
#define lampcoil_lease_return hand_lease_return
#define lampcoil_lease_close hand_lease_close

#endif
