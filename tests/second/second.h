/* The second program: the same operations as include/lampcoil.h, written a second time from the rules alone, bit by bit
   and as plainly as possible, so that the library can be held against it. It shares no table, no trick and no line with
   the library. Slow on purpose.
   Build: cc -std=c11 yours.c second*.c */
#ifndef SECOND_H
#define SECOND_H

#include <stddef.h>
#include <stdint.h>

typedef struct { uint32_t number, place; } second_verdict;

typedef struct { uint32_t number, place, body; } second_body;
typedef struct { uint32_t number, place; int32_t sample; uint32_t v, u, c; } second_body_meaning;

typedef struct { uint32_t number, place, right; } second_status_check;
typedef struct { uint32_t number, place, stages; } second_crcc;
typedef struct { uint32_t number, place, value; } second_crcc_octet;

/* The meaning of status bytes 0 to 2. Each field counts the rows of its table in the order in which the table prints them,
   from 0; a reserved state is SECOND_RESERVED, and its bits are then in the field `.._bits` (else 0), the lowest bit of
   the state at weight 1. `length` is the word length in bits, 0 where it is not indicated. Under consumer use every other
   field is 0. */
#define SECOND_RESERVED 255u
typedef struct {
    uint32_t number, place;
    uint32_t use, audio;
    uint32_t emphasis, emphasis_bits;
    uint32_t lock, rate;
    uint32_t mode, mode_bits;
    uint32_t user, user_bits;
    uint32_t auxiliary, auxiliary_bits;
    uint32_t length, length_bits;
    uint32_t alignment, alignment_bits;
} second_status_meaning;

typedef struct { uint32_t number, place, crcc_a, crcc_b; } second_aes3_read_answer;
typedef struct { uint32_t number, place, position, compared; } second_aes3_start;
typedef struct { uint32_t number, place, active, commands; } second_madi_read_answer;
typedef struct { uint32_t number, place; uint64_t slots; } second_lease;
typedef struct { uint32_t number, place, leased; } second_lease_closed;
typedef struct { uint32_t number, place, group, dbn, phase, ck12, z1, z2; } second_hd_read_answer;
typedef struct {
    uint32_t number, place, group, frame, rate, asynchronous, active, valid12;
    int32_t delay12;
    uint32_t valid34;
    int32_t delay34;
} second_hd_control_answer;
typedef struct { uint32_t number, place, lanes; } second_hd_repair_answer;
typedef struct { uint32_t read, lanes, refused[18], seen, last_dbn, breaks; } second_replay_line;
typedef struct { second_replay_line group[4]; uint32_t unlisted[18]; } second_replay_sheet;
typedef struct { uint32_t number, place; uint64_t taken; uint32_t stop, figures[110]; } second_replay_answer;
typedef struct { uint32_t number, place, lane; } second_lane;
typedef struct { uint32_t number, place, dbn; } second_dbn;

typedef struct { uint32_t number, place, version; } second_version_answer;

second_version_answer second_version(void);

second_body second_body_write(int32_t sample, uint32_t v, uint32_t u, uint32_t c);
second_body_meaning second_body_read(uint32_t body);

second_verdict second_status_seal(uint8_t *status, size_t status_len);
second_verdict second_status_edit(uint8_t *status, size_t status_len, uint32_t byte, uint32_t value);
second_status_check second_status_right(const uint8_t *status, size_t status_len);
second_status_meaning second_status_read(const uint8_t *status, size_t status_len);
second_crcc second_crcc_start(void);
second_crcc second_crcc_feed(uint32_t stages, uint32_t bit);
second_crcc_octet second_crcc_value(uint32_t stages);

second_verdict second_aes3_write(const int32_t *samples, size_t samples_len, const uint8_t *side, size_t side_len, uint32_t level,
                                 uint8_t *line, size_t line_len);
second_verdict second_biphase_table(uint16_t *table, size_t table_len);
second_aes3_read_answer second_aes3_read(const uint8_t *line, size_t line_len, int32_t *samples, size_t samples_len, uint8_t *side,
                                         size_t side_len);
second_aes3_start second_aes3_find(const uint8_t *line, size_t line_len);
second_verdict second_aes3_align(const uint8_t *line, size_t line_len, uint32_t position, uint8_t *block, size_t block_len);
second_verdict second_talkback_join(const int32_t *program, size_t program_len, const int32_t *voice, size_t voice_len,
                                    const uint8_t *side, size_t side_len, int32_t *samples, size_t samples_len);
second_verdict second_talkback_separate(const int32_t *samples, size_t samples_len, const uint8_t *side, size_t side_len,
                                        int32_t *program, size_t program_len, int32_t *voice, size_t voice_len);

second_verdict second_madi_write(uint32_t channels, const uint32_t *words, size_t words_len, const uint8_t *commands,
                                 size_t commands_len, uint32_t level, uint8_t *line, size_t line_len);
second_madi_read_answer second_madi_read(uint32_t channels, uint32_t level, uint32_t bits, const uint8_t *line, size_t line_len,
                                         uint32_t *words, size_t words_len, uint8_t *commands, size_t commands_len);
second_verdict second_madi_patch(uint32_t channels, uint32_t active, const uint8_t *leases, size_t leases_len,
                                 const uint32_t *rows, size_t rows_len, const uint32_t *frame_in, size_t frame_in_len,
                                 uint32_t *frame_out, size_t frame_out_len, uint8_t *verdicts, size_t verdicts_len);

second_lease second_lease_ask(uint8_t *table, size_t table_len, uint32_t tenant, uint32_t n);
second_lease second_lease_return(uint8_t *table, size_t table_len, uint32_t tenant);
second_lease_closed second_lease_close(uint8_t *table, size_t table_len, uint8_t *moves, size_t moves_len);

second_verdict second_hd_write(uint32_t group, uint32_t dbn, uint32_t phase, uint32_t ck12, uint32_t z1, uint32_t z2,
                               const uint32_t *bodies, size_t bodies_len, uint16_t *words, size_t words_len);
second_hd_read_answer second_hd_read(const uint16_t *words, size_t words_len, uint32_t *bodies, size_t bodies_len);
second_hd_repair_answer second_hd_repair(const uint16_t *words, size_t words_len, uint16_t *repaired, size_t repaired_len);
second_lane second_lane_repair(uint32_t lane);
second_dbn second_hd_next_dbn(uint32_t dbn);

second_verdict second_hd_control_write(uint32_t group, uint32_t frame, uint32_t rate, uint32_t asynchronous, uint32_t active,
                                       uint32_t valid12, int32_t delay12, uint32_t valid34, int32_t delay34,
                                       uint16_t *words, size_t words_len);
second_hd_control_answer second_hd_control_read(const uint16_t *words, size_t words_len);

second_replay_answer second_replay(const uint8_t *records, size_t records_len, uint32_t *sheet, size_t sheet_len);

second_verdict second_level_start(int64_t *sheet, size_t sheet_len);
second_verdict second_level_add(int64_t *sheet, size_t sheet_len, const int32_t *samples, size_t samples_len, const uint8_t *side,
                                size_t side_len);
second_verdict second_level_join(int64_t *sheet, size_t sheet_len, const int64_t *later, size_t later_len);

/* Small helps that the files of the second program share. */
int second_bit(uint32_t number, int place);               /* the bit of weight 2^place */
uint32_t second_weight(int place);                        /* 2^place */
int second_symbol(const uint8_t *line, long place);       /* the symbol at a place of a packed line */
void second_put(uint8_t *line, long place, int symbol);   /* sets it */
int second_odd(uint32_t body);                            /* 1 if slots 4 to 31 hold an odd number of ones */
int second_crcc_right(const uint8_t *status);             /* 1 if byte 23 of 24 octets is right */
int second_overlong(const uint8_t *status, int32_t sample); /* 1 if a bit is 1 below the length that the status declares */
int32_t second_shortened(const uint8_t *status, int32_t sample); /* the sample with such bits cleared */

#endif
