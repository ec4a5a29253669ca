/* The same work by hand, as quick as C goes: tables and word tricks, with every check that the library makes. What
   the library's speed is measured against. The functions have the library's types and the name hand_..; in_place.h
   lists what each of them stands for, and by it `make hand` holds them all to the second program. */
#ifndef HAND_H
#define HAND_H

#include "lampcoil.h"
#include <string.h>

/* Where FORMED is defined, before this is read, the files take the forms that the papers name in place of tables that are
   wider: the CRCC fed one bit at a time, P and b8 by the count of ones, 256 biphase codings, the symbol reader with three
   answers. (The library takes the CRCC of a block octet by octet, from a table.) What they define then has the name
   formed_... */
#ifdef FORMED
#define hand_init_aes3 formed_init_aes3
#define hand_init_madi formed_init_madi
#define hand_init_hd formed_init_hd
#define hand_aes3_write formed_aes3_write
#define hand_aes3_read formed_aes3_read
#define hand_aes3_find formed_aes3_find
#define hand_aes3_find_by_candidate formed_aes3_find_by_candidate
#define hand_status_edit formed_status_edit
#define hand_status_seal formed_status_seal
#define hand_madi_write formed_madi_write
#define hand_madi_read formed_madi_read
#define hand_hd_write formed_hd_write
#define hand_hd_read formed_hd_read
#define hand_hd_repair formed_hd_repair
#define hand_hd_control_write formed_hd_control_write
#define hand_hd_control_read formed_hd_control_read
#define hand_madi_patch formed_madi_patch
#define hand_level_add formed_level_add
#define hand_level_join formed_level_join
#define hand_init_levels formed_init_levels
#define hand_replay formed_replay
#endif

/* Fills the tables of each file; once, before anything else. */
void hand_init_aes3(void);
void hand_init_madi(void);
void hand_init_hd(void);
void hand_init_levels(void);

lampcoil_verdict hand_aes3_write(const int32_t *samples, size_t samples_len, const uint8_t *side, size_t side_len, uint32_t level,
                                 uint8_t *line, size_t line_len);
lampcoil_aes3_read_answer hand_aes3_read(const uint8_t *line, size_t line_len, int32_t *samples, size_t samples_len, uint8_t *side,
                                         size_t side_len);
lampcoil_aes3_start hand_aes3_find(const uint8_t *line, size_t line_len);
lampcoil_aes3_start hand_aes3_find_by_candidate(const uint8_t *line, size_t line_len);
lampcoil_verdict hand_status_edit(uint8_t *status, size_t status_len, uint32_t byte, uint32_t value);
lampcoil_verdict hand_status_seal(uint8_t *status, size_t status_len);
lampcoil_verdict hand_madi_write(uint32_t channels, const uint32_t *words, size_t words_len, const uint8_t *commands,
                                 size_t commands_len, uint32_t level, uint8_t *line, size_t line_len);
lampcoil_madi_read_answer hand_madi_read(uint32_t channels, uint32_t level, uint32_t bits, const uint8_t *line, size_t line_len,
                                         uint32_t *words, size_t words_len, uint8_t *commands, size_t commands_len);
lampcoil_verdict hand_madi_patch(uint32_t channels, uint32_t active, const uint8_t *leases, size_t leases_len,
                                 const uint32_t *rows, size_t rows_len, const uint32_t *frame_in, size_t frame_in_len,
                                 uint32_t *frame_out, size_t frame_out_len, uint8_t *verdicts, size_t verdicts_len);
lampcoil_verdict hand_hd_write(uint32_t group, uint32_t dbn, uint32_t phase, uint32_t ck12, uint32_t z1, uint32_t z2,
                               const uint32_t *bodies, size_t bodies_len, uint16_t *words, size_t words_len);
lampcoil_hd_read_answer hand_hd_read(const uint16_t *words, size_t words_len, uint32_t *bodies, size_t bodies_len);
lampcoil_verdict hand_hd_control_write(uint32_t group, uint32_t frame, uint32_t rate, uint32_t asynchronous, uint32_t active,
                                       uint32_t valid12, int32_t delay12, uint32_t valid34, int32_t delay34, uint16_t *words,
                                       size_t words_len);
lampcoil_hd_control_answer hand_hd_control_read(const uint16_t *words, size_t words_len);
lampcoil_hd_repair_answer hand_hd_repair(const uint16_t *words, size_t words_len, uint16_t *repaired, size_t repaired_len);
lampcoil_verdict hand_talkback_join(const int32_t *program, size_t program_len, const int32_t *voice, size_t voice_len,
                                    const uint8_t *side, size_t side_len, int32_t *samples, size_t samples_len);
lampcoil_verdict hand_talkback_separate(const int32_t *samples, size_t samples_len, const uint8_t *side, size_t side_len,
                                        int32_t *program, size_t program_len, int32_t *voice, size_t voice_len);

lampcoil_verdict hand_level_add(int64_t *sheet, size_t sheet_len, const int32_t *samples, size_t samples_len, const uint8_t *side,
                                size_t side_len);
lampcoil_verdict hand_level_join(int64_t *sheet, size_t sheet_len, const int64_t *later, size_t later_len);
lampcoil_lease hand_lease_ask(uint8_t *table, size_t table_len, uint32_t tenant, uint32_t n);
lampcoil_lease hand_lease_return(uint8_t *table, size_t table_len, uint32_t tenant);
lampcoil_lease_closed hand_lease_close(uint8_t *table, size_t table_len, uint8_t *moves, size_t moves_len);
lampcoil_replay_answer hand_replay(const uint8_t *records, size_t records_len, uint32_t *sheet, size_t sheet_len);

#ifndef FORMED
extern __typeof__(hand_init_aes3) formed_init_aes3, formed_init_madi, formed_init_hd, formed_init_levels;
extern __typeof__(hand_aes3_write) formed_aes3_write;
extern __typeof__(hand_aes3_read) formed_aes3_read;
extern __typeof__(hand_madi_write) formed_madi_write;
extern __typeof__(hand_madi_read) formed_madi_read;
extern __typeof__(hand_hd_write) formed_hd_write;
extern __typeof__(hand_hd_read) formed_hd_read;
extern __typeof__(hand_hd_repair) formed_hd_repair;
extern __typeof__(hand_status_edit) formed_status_edit;
extern __typeof__(hand_status_seal) formed_status_seal;
extern __typeof__(hand_madi_patch) formed_madi_patch;
extern __typeof__(hand_hd_control_write) formed_hd_control_write;
extern __typeof__(hand_hd_control_read) formed_hd_control_read;
extern __typeof__(hand_level_add) formed_level_add;
extern __typeof__(hand_replay) formed_replay;
#endif

/* Eight octets, the first highest, on a machine that has the lowest first. */
static inline uint64_t load_be64(const uint8_t *p)
{
    uint64_t x;
    memcpy(&x, p, sizeof x);
    return __builtin_bswap64(x);
}

static inline void store_be64(uint8_t *p, uint64_t x)
{
    x = __builtin_bswap64(x);
    memcpy(p, &x, sizeof x);
}

/* 1 if slots 4 to 31 hold an odd number of ones. */
static inline uint32_t odd(uint32_t body)
{
    body &= 0xFFFFFFF0u;
#ifdef FORMED
    return (uint32_t)__builtin_parity(body);
#else
    body ^= body >> 16;
    body ^= body >> 8;
    body ^= body >> 4;
    return 0x6996u >> (body & 15) & 1;
#endif
}

#endif
