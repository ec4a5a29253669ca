/* lampcoil.h: audio samples with their validity, user and channel-status bits, to three carriers and back.

   The carriers are AES3 blocks on a biphase line, MADI frames, and HD-SDI audio packets: data packets with repair, and
   control packets. Link with liblampcoil, the archive or the shared library. Both are for x86-64 with the calling
   convention of the System V ABI (Linux and the BSDs; not Windows).

   What every entry does
   - It takes any value of its arguments, ends, and needs no check by its caller beforehand.
   - Its answer begins with `number` and `place`. Number 0 is acceptance; place is then 0, and the fields after it are
     the values named. Any other number is a refusal, LAMPCOIL_REFUSED_.. below (at the entries its last word alone is
     given); the fields after `place` are then 0, but for the count of aes3_find and the figures of replay.
   - Of several refusals that apply, the first in the order given at the entry is returned; of several places the
     smallest. Counts and places start at 0; where no place is named it is 0.
   - A refusal changes no buffer. An acceptance sets every element of the range that the entry writes, whatever its
     previous contents, and changes nothing outside it.
   - No state is kept between calls, and no memory is allocated. Calls from several threads do not affect each other as
     long as their buffers do not overlap.

   What the caller must ensure, since no library can
   - A pointer leads to as many elements as the length beside it says, and is aligned as its element type requires. It
     may be null only if that length is 0; then any pointer will do.
   - Buffers passed to one call do not overlap. */
#ifndef LAMPCOIL_H
#define LAMPCOIL_H

#include <stddef.h>
#include <stdint.h>

#ifdef __cplusplus
extern "C" {
#endif

/* The version of this header. A larger MAJOR may take something away; MINOR adds. VERSION_NUMBER has all three, and
   grows with them; lampcoil_version returns that of the library. */
#define LAMPCOIL_VERSION "5.3.0"
#define LAMPCOIL_VERSION_MAJOR 5
#define LAMPCOIL_VERSION_MINOR 3
#define LAMPCOIL_VERSION_PATCH 0
#define LAMPCOIL_VERSION_NUMBER \
    (65536u * LAMPCOIL_VERSION_MAJOR + 256u * LAMPCOIL_VERSION_MINOR + LAMPCOIL_VERSION_PATCH)

/* Numbers that are returned, and what their place is; lampcoil_refusal_text says when each is given. */
#define LAMPCOIL_ACCEPTED 0u
#define LAMPCOIL_REFUSED_LENGTH 1u
#define LAMPCOIL_REFUSED_RANGE 2u
#define LAMPCOIL_REFUSED_SAMPLE 3u       /* place: sample index; at body_write 0; a voice sample: 384 and its index */
#define LAMPCOIL_REFUSED_CONSUMER 4u     /* place: channel, 0 for A, 1 for B */
#define LAMPCOIL_REFUSED_CRCC 5u         /* place: channel; at status_edit 0 */
#define LAMPCOIL_REFUSED_VALIDITY 6u     /* place: channel */
#define LAMPCOIL_REFUSED_PREAMBLE 7u     /* place: subframe 0 to 383 */
#define LAMPCOIL_REFUSED_SLOT 8u         /* place: subframe */
#define LAMPCOIL_REFUSED_PARITY 9u       /* place: channel; at body_read 0 */
#define LAMPCOIL_REFUSED_FRAME 10u       /* place: bit offset of the boundary */
#define LAMPCOIL_REFUSED_GROUP 11u       /* place: bit offset of the group */
#define LAMPCOIL_REFUSED_STATE 12u       /* place: channel or word; at body_read 0 */
#define LAMPCOIL_REFUSED_HEADER 13u      /* place: word */
#define LAMPCOIL_REFUSED_WORD 14u        /* place: word */
#define LAMPCOIL_REFUSED_LANE 15u        /* place: lane; at lane_repair 0 */
#define LAMPCOIL_REFUSED_CHECKSUM 16u    /* place: the last word, 30; at hd_control_read 17 */
#define LAMPCOIL_REFUSED_NO_START 17u
#define LAMPCOIL_REFUSED_WORD_LENGTH 18u /* place: sample index */
#define LAMPCOIL_REFUSED_UNDECLARED 19u  /* place: channel */
#define LAMPCOIL_REFUSED_FAULT_MAP 20u   /* place: subframe */
#define LAMPCOIL_REFUSED_SLOTS 21u
#define LAMPCOIL_REFUSED_FULL 22u
#define LAMPCOIL_REFUSED_COUNT 23u

/* When a number is given, in words; never null. */
static inline const char *lampcoil_refusal_text(uint32_t number)
{
    static const char *const texts[] = {
        "accepted",
        "a buffer length is not as stated",
        "a number is outside its range",
        "a sample is outside its range, or a program sample has a busy low bit",
        "writer: status byte 0 bit 0 is 0",
        "writer or edit: status byte 23 is wrong",
        "writer: byte 0 bit 1 is 1 and some V of that channel is 0",
        "not the preamble due at this subframe",
        "a slot does not begin with a change of level",
        "slots 4 to 31 hold an odd number of ones",
        "units do not make one MADI frame",
        "a five-bit group is no data group",
        "a bit with a required state has the other",
        "ADF, DID or DC not one of those listed",
        "a word above 1,023, or b8 or b9 wrong",
        "a lane fails its code; in repair, no satisfying lane within one place",
        "the last packet word is wrong",
        "the search finds no block start",
        "writer: a sample has a 1 below the word length that its channel's status declares",
        "talkback: status byte 2 bits 2, 1, 0 are not 0, 1, 0",
        "writer: an E of the side table is set",
        "fewer slots are free than were asked for",
        "a channel of a level sheet would pass 2^32 samples",
        "a count of a replay would pass 2^32-1",
    };
    return number < sizeof texts / sizeof texts[0] ? texts[number] : "not a number of this library";
}

/* Lengths, in elements of the buffer. */
#define LAMPCOIL_STATUS_OCTETS 24u
#define LAMPCOIL_BLOCK_SAMPLES 384u
#define LAMPCOIL_VOICE_SAMPLES 128u
#define LAMPCOIL_SIDE_OCTETS 192u
#define LAMPCOIL_BLOCK_OCTETS 3072u
#define LAMPCOIL_BIPHASE_ENTRIES 256u
#define LAMPCOIL_FIND_MOST_OCTETS 8192u
#define LAMPCOIL_MADI_MOST_CHANNELS 64u
#define LAMPCOIL_MADI_MOST_COMMANDS 255u
#define LAMPCOIL_MADI_MOST_BITS 5110u
#define LAMPCOIL_MADI_BITS(channels, commands) (40u * (channels) + 10u * (commands))
#define LAMPCOIL_MADI_OCTETS(channels, commands) ((LAMPCOIL_MADI_BITS(channels, commands) + 7u) / 8u)
#define LAMPCOIL_LEASE_SLOTS 64u
#define LAMPCOIL_LEASE_MOVES 128u
#define LAMPCOIL_PACKET_WORDS 31u
#define LAMPCOIL_PACKET_BODIES 4u
#define LAMPCOIL_CONTROL_WORDS 18u
#define LAMPCOIL_SHEET_NUMBERS 20u
#define LAMPCOIL_REPLAY_NUMBERS 110u
#define LAMPCOIL_REPLAY_REFUSALS 18u

/* A sample has 24 bits, two's complement: it runs from LEAST to MOST. A 24-bit sample that is left-justified in 32 bits
   is shifted down by eight before it is passed. */
#define LAMPCOIL_SAMPLE_LEAST (-8388608)
#define LAMPCOIL_SAMPLE_MOST 8388607

/* Where the columns of a side table begin: LAMPCOIL_STATUS_OCTETS octets each; bit i of octet j belongs to frame 8j+i,
   bit 0 has weight 1. The C column of a channel is its channel status. E is the fault map: see aes3_read. */
#define LAMPCOIL_SIDE_V_A 0u
#define LAMPCOIL_SIDE_U_A 24u
#define LAMPCOIL_SIDE_C_A 48u
#define LAMPCOIL_SIDE_E_A 72u
#define LAMPCOIL_SIDE_V_B 96u
#define LAMPCOIL_SIDE_U_B 120u
#define LAMPCOIL_SIDE_C_B 144u
#define LAMPCOIL_SIDE_E_B 168u

/* Bits of a MADI channel word that the caller sets. Bits 0 and 1 (first channel, active) are the library's. */
#define LAMPCOIL_MADI_B_SUBFRAME 0x4u
#define LAMPCOIL_MADI_BLOCK_START 0x8u

/* The level of a line is 0 or 1. A writer is given the level before its first symbol, that is, the last symbol that was
   sent before; 0 or 1, as the caller likes, where there was none. The level to pass with the next block or frame is the
   last symbol of this one, which these return: for a block that aes3_write wrote, and for a frame of `bits` bits. */
#define LAMPCOIL_AES3_LEVEL_AFTER(line) ((uint32_t)(line)[LAMPCOIL_BLOCK_OCTETS - 1u] & 1u)
#define LAMPCOIL_MADI_LEVEL_AFTER(line, bits) ((uint32_t)(line)[((bits) - 1u) / 8u] >> (7u - ((bits) - 1u) % 8u) & 1u)

/* An answer without a value. */
typedef struct { uint32_t number, place; } lampcoil_verdict;

/* The version of the library, as LAMPCOIL_VERSION_NUMBER has that of the header: always accepted. A program that is
   linked with the shared library may refuse to run where MAJOR differs, or where the library has a smaller number. */
typedef struct { uint32_t number, place, version; } lampcoil_version_answer;
lampcoil_version_answer lampcoil_version(void);

/* ---- Subframe body: slot k has weight 2^k, slots 4 to 31; the low four weights are 0. ---- */

/* The body of a sample with its V, U and C; P is computed. Order: RANGE (v, u and c are 0 or 1), SAMPLE (a sample is
   -8,388,608 to 8,388,607). */
typedef struct { uint32_t number, place, body; } lampcoil_body;
lampcoil_body lampcoil_body_write(int32_t sample, uint32_t v, uint32_t u, uint32_t c);

/* The sample and V, U and C of a body. Order: STATE (one of the low four bits is set), PARITY (an odd number of ones in
   slots 4 to 31). */
typedef struct { uint32_t number, place; int32_t sample; uint32_t v, u, c; } lampcoil_body_meaning;
lampcoil_body_meaning lampcoil_body_read(uint32_t body);

/* ---- Channel status: 24 octets, the bit that is sent first is bit 0 of byte 0. ---- */

/* Writes byte 23, the CRCC over bytes 0 to 22, and nothing else. LENGTH unless 24 octets. */
lampcoil_verdict lampcoil_status_seal(uint8_t *status, size_t status_len);

/* Sets one byte, 0 to 22, of a block that is right to a value, 0 to 255, and byte 23 to the CRCC that belongs to it; no
   other byte is changed. The block is then what setting the byte and sealing afresh makes of it.
   Order: LENGTH (unless 24 octets), RANGE (byte above 22, value above 255), CRCC (byte 23 is wrong beforehand). */
lampcoil_verdict lampcoil_status_edit(uint8_t *status, size_t status_len, uint32_t byte, uint32_t value);

/* `right` is 1 if byte 23 is the CRCC over bytes 0 to 22, else 0. LENGTH unless 24 octets.
   What right excludes: a block that was right and of which one bit was changed, or two bits anywhere, or any set of
   bits within eight consecutive positions of the sending order (across bytes, byte 23 among them), is wrong afterwards.
   What it does not exclude: three or more scattered bits, that is, such as do not lie within eight positions. */
typedef struct { uint32_t number, place, right; } lampcoil_status_check;
lampcoil_status_check lampcoil_status_right(const uint8_t *status, size_t status_len);

/* The CRCC, one bit at a time: start, then feed each bit in sending order and pass the stages on. The stage of weight
   2^k holds the coefficient of x^k; byte 23 takes them from x^7 in its bit 0 to x^0 in its bit 7. So stages 0 after all
   192 bits, byte 23 among them, mean that the block is right, and any other stages that it is not.
   feed: stages above 255, or a bit that is neither 0 nor 1: RANGE. */
typedef struct { uint32_t number, place, stages; } lampcoil_crcc;
lampcoil_crcc lampcoil_crcc_start(void);
lampcoil_crcc lampcoil_crcc_feed(uint32_t stages, uint32_t bit);

/* Byte 23 from the stages after bits 0 to 183: the coefficient of x^7 in its bit 0. Stages above 255: RANGE. */
typedef struct { uint32_t number, place, value; } lampcoil_crcc_octet;
lampcoil_crcc_octet lampcoil_crcc_value(uint32_t stages);

/* The meaning of bytes 0 to 2, by the tables of BS.647-3, part 3, 3.3.1 to 3.3.3. LENGTH unless 24 octets; no state is
   ever refused. Each field takes the values named below, in the order of its table. A reserved state is
   LAMPCOIL_RESERVED, and its bits are in the field `.._bits` beside it, the lowest of them at weight 1; for every other
   state that field is 0. Under consumer use every field after `use` is 0. The fields are filled by the same tables for
   linear PCM and for other purposes; the Recommendation (part 3, 3.4) keeps only lock, rate, user bits and auxiliary
   use independent of that choice. Word length under a reserved or user-defined auxiliary use is reserved. The CRCC
   plays no part here. */
#define LAMPCOIL_RESERVED 255u

#define LAMPCOIL_USE_CONSUMER 0u
#define LAMPCOIL_USE_PROFESSIONAL 1u

#define LAMPCOIL_AUDIO_LINEAR_PCM 0u
#define LAMPCOIL_AUDIO_OTHER 1u

#define LAMPCOIL_EMPHASIS_NOT_INDICATED 0u
#define LAMPCOIL_EMPHASIS_NONE 1u
#define LAMPCOIL_EMPHASIS_50_15_US 2u
#define LAMPCOIL_EMPHASIS_J17 3u

#define LAMPCOIL_LOCK_NOT_INDICATED 0u
#define LAMPCOIL_LOCK_UNLOCKED 1u

#define LAMPCOIL_RATE_NOT_INDICATED 0u
#define LAMPCOIL_RATE_48_KHZ 1u
#define LAMPCOIL_RATE_44_1_KHZ 2u
#define LAMPCOIL_RATE_32_KHZ 3u

#define LAMPCOIL_MODE_NOT_INDICATED 0u
#define LAMPCOIL_MODE_TWO_CHANNEL 1u
#define LAMPCOIL_MODE_SINGLE_CHANNEL 2u
#define LAMPCOIL_MODE_PRIMARY_SECONDARY 3u
#define LAMPCOIL_MODE_STEREOPHONIC 4u
#define LAMPCOIL_MODE_USER_1010 5u
#define LAMPCOIL_MODE_USER_0110 6u
#define LAMPCOIL_MODE_DOUBLE_RATE 7u
#define LAMPCOIL_MODE_DOUBLE_RATE_LEFT 8u
#define LAMPCOIL_MODE_DOUBLE_RATE_RIGHT 9u
#define LAMPCOIL_MODE_MULTICHANNEL 10u

#define LAMPCOIL_USER_NOT_INDICATED 0u
#define LAMPCOIL_USER_BLOCK_192 1u
#define LAMPCOIL_USER_AES18 2u
#define LAMPCOIL_USER_DEFINED 3u
#define LAMPCOIL_USER_IEC_60958_3 4u
#define LAMPCOIL_USER_AES52 5u
#define LAMPCOIL_USER_IEC_62537 6u

#define LAMPCOIL_AUXILIARY_20_UNDEFINED 0u
#define LAMPCOIL_AUXILIARY_24_MAIN 1u
#define LAMPCOIL_AUXILIARY_20_COORDINATION 2u
#define LAMPCOIL_AUXILIARY_USER_DEFINED 3u

/* `length` is the word length in bits, 16 to 24, or this, or LAMPCOIL_RESERVED. */
#define LAMPCOIL_LENGTH_NOT_INDICATED 0u

#define LAMPCOIL_ALIGNMENT_NOT_INDICATED 0u
#define LAMPCOIL_ALIGNMENT_RP155 1u
#define LAMPCOIL_ALIGNMENT_R68 2u

typedef struct {
    uint32_t number, place;
    uint32_t use, audio;
    uint32_t emphasis, emphasis_bits;
    uint32_t lock, rate;
    uint32_t mode, mode_bits;
    uint32_t user, user_bits;
    uint32_t auxiliary, auxiliary_bits;
    uint32_t length, length_bits;
    uint32_t alignment, alignment_bits;
} lampcoil_status_meaning;
lampcoil_status_meaning lampcoil_status_read(const uint8_t *status, size_t status_len);

/* ---- AES3: 384 samples, A and B alternating; a side table of 192 octets; a line of 3,072 octets, eight for each
   subframe, the earliest symbol in the highest bit of an octet. ---- */

/* Writes the whole line. `level` is the level before its first symbol, 0 or 1; LAMPCOIL_AES3_LEVEL_AFTER(line) is the
   one to pass with the next block. A sample is -8,388,608 to 8,388,607. E must be empty: a block that was received
   with faults is not sent on before the caller has decided what goes in their place.
   Order: LENGTH (each of the three), RANGE (level), FAULT_MAP (an E is set, place 2 frame + channel), SAMPLE, CONSUMER,
   CRCC, VALIDITY, WORD_LENGTH, each over all its places. Status byte 2 binds a channel's samples where it declares a
   length: of n bits with 24-bit use (auxiliary bits for the main audio), so that a sample's lowest 24 - n bits are 0;
   of n bits with 20-bit use (undefined, or coordination), so that bits 4 to 23 - n are 0 and bits 0 to 3 are free. No
   length, a reserved or user-defined state, and audio for another purpose (byte 0 bit 1) bind nothing. */
lampcoil_verdict lampcoil_aes3_write(const int32_t *samples, size_t samples_len,
                                     const uint8_t *side, size_t side_len,
                                     uint32_t level, uint8_t *line, size_t line_len);

/* The table of biphase codings by octet, for a card to load: the one that aes3_write uses. Entry d has, for the
   octet d, lowest bit first, the sixteen symbols that follow level 0, the earliest symbol in the highest bit. After
   level 1 all sixteen are inverted. Its first eight symbols are those of the octet's lowest four bits.
   LENGTH unless 256 entries. */
lampcoil_verdict lampcoil_biphase_table(uint16_t *table, size_t table_len);

/* Fills all samples and the side table; crcc_a and crcc_b are 1 if byte 23 of that channel's status is right. A wrong
   CRCC is never refused, and nothing of the status is judged. The level before is taken as the opposite of the first
   symbol, so that a line and its inversion read the same; before every later subframe it is the symbol before it.
   A subframe whose slots 4 to 31 hold an odd number of ones is not refused: its E is 1 and its V is 1, and its sample,
   U and C are as received, C in the CRCC's verdict too. Every other subframe has E 0, and V as received.
   So E means that an odd number of bits of a subframe changed, in a signal that kept the line's rule. A single inverted
   symbol breaks that rule, at its slot or at the next preamble, and is SLOT or PREAMBLE; but for the last symbol of the
   block, which nothing follows: it sets E of subframe 383.
   Order: LENGTH (each of the three buffers), then subframe by subframe PREAMBLE, SLOT. */
typedef struct { uint32_t number, place, crcc_a, crcc_b; } lampcoil_aes3_read_answer;
lampcoil_aes3_read_answer lampcoil_aes3_read(const uint8_t *line, size_t line_len,
                                             int32_t *samples, size_t samples_len,
                                             uint8_t *side, size_t side_len);

/* The first place of a line, counted in symbols from its highest bit, at which a block starts: preamble Z, and Y 64
   symbols later. Places run from 1, since a preamble is judged by the symbol before it, to 72 before the end. A start
   is in general not a multiple of eight: the block then lies across octets, and aes3_align copies it into octets of its
   own, which aes3_read takes.
   `compared` is the number of symbols that the search compares, and is given with NO_START too: a place costs its
   sixteen required symbols up to and including the first that differs, or 16 if it fits, and `compared` is the sum over
   the places from 1 to the answer, or over all. It is at most 16 times the number of places, and 0 with LENGTH and in
   72 symbols or fewer.
   Order: LENGTH (above 8,192 octets), NO_START. */
typedef struct { uint32_t number, place, position, compared; } lampcoil_aes3_start;
lampcoil_aes3_start lampcoil_aes3_find(const uint8_t *line, size_t line_len);

/* Copies LAMPCOIL_BLOCK_OCTETS octets of symbols, from a position counted as aes3_find counts it; 0 is a position too.
   A block that was aligned at a start that aes3_find returned is read as it is on the line: the level that aes3_read
   takes as the one before is then the symbol before the start.
   Order: LENGTH (a block of another length, a line above 8,192 octets), RANGE (fewer symbols than a block has, from the
   position on). */
lampcoil_verdict lampcoil_aes3_align(const uint8_t *line, size_t line_len, uint32_t position,
                                     uint8_t *block, size_t block_len);

/* ---- Talkback: a voice in the auxiliary bits of a block (BS.647-3, part 3, appendix A). The status of both channels
   must declare it, byte 2 bits 2, 1, 0 as 0, 1, 0; nothing else of the status is judged. 384 program samples, A and B
   alternating, have 20 bits each: 24, of which the lowest four are 0. 128 voice samples, A and B alternating, have 12,
   -2,048 to 2,047: sample 2k + c is in frames 3k (its lowest four bits), 3k + 1 and 3k + 2 of channel c. ---- */

/* Fills the samples: slots 8 to 27 from the program, slots 4 to 7 from the voice.
   Order: LENGTH (each of the four), UNDECLARED, SAMPLE (a program sample out of range or with one of its lowest four
   bits set, at its index), SAMPLE (a voice sample out of range, at 384 and its index). */
lampcoil_verdict lampcoil_talkback_join(const int32_t *program, size_t program_len,
                                        const int32_t *voice, size_t voice_len,
                                        const uint8_t *side, size_t side_len,
                                        int32_t *samples, size_t samples_len);

/* Fills program and voice: the samples without slots 4 to 7, and the voice that these slots hold.
   Order: LENGTH (each of the four), UNDECLARED, SAMPLE (a sample out of range). */
lampcoil_verdict lampcoil_talkback_separate(const int32_t *samples, size_t samples_len,
                                            const uint8_t *side, size_t side_len,
                                            int32_t *program, size_t program_len,
                                            int32_t *voice, size_t voice_len);

/* ---- MADI: a frame of 56 or 64 channels of 40 line bits, and command symbols of ten. A command is a number 0 to 15 of
   BS.1873's table 6; command 0 is the default sync, and every frame has at least one. A channel's word is sent from bit
   0 on, four bits to a five-bit group, bit 0 of the word leftmost in its first group. Line bits are after NRZI, where
   a 1 changes the level, and are packed with the earliest in the highest bit of an octet. ---- */

/* Writes a frame: words_len active channels, the others inactive, then the commands in their order. A word is a body,
   with bits 2 and 3 (B subframe, block start) as the caller sets them. Writes the first LAMPCOIL_MADI_OCTETS(channels,
   commands_len) octets of the line, unused bits of the last of them 0; the octets after them are unchanged. `level` is
   the level before the first bit, 0 or 1. The one to pass with the next frame is LAMPCOIL_MADI_LEVEL_AFTER(line, bits),
   where bits is LAMPCOIL_MADI_BITS(channels, commands_len).
   Order: RANGE (channels 56 or 64, words_len 1 to channels, commands_len 1 to 255, a command above 15, no command 0,
   level 0 or 1), LENGTH (line at least the octets needed), PARITY over all words, STATE (bit 0 or 1 set) over all
   words. */
lampcoil_verdict lampcoil_madi_write(uint32_t channels, const uint32_t *words, size_t words_len,
                                     const uint8_t *commands, size_t commands_len,
                                     uint32_t level, uint8_t *line, size_t line_len);

/* Reads a frame of `bits` bits; commands may come at any boundary between channels. Fills all the words, bits 0 and 1
   cleared, inactive channels 0, and all 255 places of the list: the commands in their order, and 0 after them; returns
   the number of active channels and of commands. `level` is the level before the frame, the last bit of the frame
   before it (LAMPCOIL_MADI_LEVEL_AFTER); it decides the first bit alone, since a bit is a 1 where the level changes.
   Order: RANGE (channels, level, bits at most 5,110), LENGTH (line exactly the octets of `bits`, words exactly
   `channels`, commands exactly 255), RANGE (a spare bit of the last octet set), then unit by unit FRAME, GROUP, STATE,
   PARITY. Ten bits that are none of the sixteen begin a channel. */
typedef struct { uint32_t number, place, active, commands; } lampcoil_madi_read_answer;
lampcoil_madi_read_answer lampcoil_madi_read(uint32_t channels, uint32_t level, uint32_t bits,
                                             const uint8_t *line, size_t line_len,
                                             uint32_t *words, size_t words_len,
                                             uint8_t *commands, size_t commands_len);

/* ---- Slot leases: a table of 64 octets, slot k in octet k: its tenant, 1 to 255, or 0 where it is free. 64 zeros are
   the empty table; every octet is a tenant or 0, so that any 64 octets are a table. ---- */

/* A tenant asks for n slots, 1 to 64, and gets the n lowest free ones, beside those that it holds. Bit k of `slots` is
   1 where slot k is the tenant's after the call; it is 0 on a refusal.
   Order: RANGE (tenant 1 to 255, n), LENGTH (unless 64 octets), SLOTS (fewer than n are free). */
typedef struct { uint32_t number, place; uint64_t slots; } lampcoil_lease;
lampcoil_lease lampcoil_lease_ask(uint8_t *table, size_t table_len, uint32_t tenant, uint32_t n);

/* A tenant gives back all of its own slots; `slots` is then 0. With none it is accepted too, and changes nothing.
   Order: RANGE (tenant), LENGTH (unless 64 octets). */
lampcoil_lease lampcoil_lease_return(uint8_t *table, size_t table_len, uint32_t tenant);

/* The house closes the gaps: the leased slots move down in their order and are then slots 0 to leased-1. `moves` gets
   for each of them, in that order, its old and its new position, two octets, also where they agree, and zeros after
   them. LENGTH unless 64 octets and 128 octets of moves. */
typedef struct { uint32_t number, place, leased; } lampcoil_lease_closed;
lampcoil_lease_closed lampcoil_lease_close(uint8_t *table, size_t table_len, uint8_t *moves, size_t moves_len);

/* Patches a frame between tenants. The lease table says whose slot k is, of the frame in and of the frame out; a free
   slot is the house's, which is a tenant like the others. Of its 64 octets the first `channels` are looked at. rows[k]
   names the input slot that goes to output slot k; a number at or above `active` names none. An output slot is carried
   only if both slots are active, below `active`, and of one tenant, and the input word's slots 4 to 31 hold an even
   number of ones: it then has the input word, bits 0 and 1 cleared. Every other output slot is 0. verdicts[k] says
   which of these it was, the first that applies of NONE, FOREIGN and PARITY. Output words and verdicts of a tenant
   depend, beside the lease table and `active`, only on that tenant's own rows and input slots. lampcoil_madi_write
   takes the first `active` words.
   Order: RANGE (channels 56 or 64, active 1 to channels), LENGTH (64 octets of leases; each of the other four as many
   elements as channels). */
#define LAMPCOIL_PATCH_CARRIED 0u
#define LAMPCOIL_PATCH_NONE 1u
#define LAMPCOIL_PATCH_FOREIGN 2u
#define LAMPCOIL_PATCH_PARITY 3u
lampcoil_verdict lampcoil_madi_patch(uint32_t channels, uint32_t active,
                                     const uint8_t *leases, size_t leases_len,
                                     const uint32_t *rows, size_t rows_len,
                                     const uint32_t *frame_in, size_t frame_in_len,
                                     uint32_t *frame_out, size_t frame_out_len,
                                     uint8_t *verdicts, size_t verdicts_len);

/* ---- HD audio data packet: 31 words of ten bits, four bodies. ---- */

/* Writes a packet of the group 1 to 4, with data block number, clock phase and ck12, and Z of the two pairs. There are
   always four bodies: a channel that is not active is body 0. A word of ten bits is in the low bits of an element.
   Order: LENGTH (both buffers), RANGE (group, dbn to 255, phase to 4,095, ck12, z1 and z2 to 1), PARITY over all
   bodies, STATE (a low four bit set) over all bodies. */
lampcoil_verdict lampcoil_hd_write(uint32_t group, uint32_t dbn, uint32_t phase, uint32_t ck12,
                                   uint32_t z1, uint32_t z2, const uint32_t *bodies, size_t bodies_len,
                                   uint16_t *words, size_t words_len);

/* Fills the four bodies and returns the rest.
   Order: LENGTH (both buffers), WORD (above 1,023), HEADER (words 0, 1, 2, 3, 5), WORD (b8 and b9 of words 3 to 29),
   CHECKSUM, LANE, STATE (words 7, 8, 12, 16, 20), PARITY (channel 0 to 3). */
typedef struct { uint32_t number, place, group, dbn, phase, ck12, z1, z2; } lampcoil_hd_read_answer;
lampcoil_hd_read_answer lampcoil_hd_read(const uint16_t *words, size_t words_len,
                                         uint32_t *bodies, size_t bodies_len);

/* Fills another 31 words with the packet whose lanes are the nearest that satisfy the code, each within one place; b8,
   b9, the last word and the ADF are built anew. `lanes` is the number of lanes in which the two differ. What comes out
   can still be refused by the reader, for what no lane covers.
   Order: LENGTH (both buffers), WORD (above 1,023), LANE, HEADER (repaired low octets of words 0 to 2). */
typedef struct { uint32_t number, place, lanes; } lampcoil_hd_repair_answer;
lampcoil_hd_repair_answer lampcoil_hd_repair(const uint16_t *words, size_t words_len,
                                             uint16_t *repaired, size_t repaired_len);

/* The satisfying lane within one place of this one. A lane is one bit of the low octets of words 0 to 29, word k at
   weight 2^k: 24 data places first, that of word 0 at weight 1, then six check places, of which the one at weight
   2^(24+n) is UDW(18+n), the coefficient of x^n. Order: RANGE (from 2^30 up), LANE. */
typedef struct { uint32_t number, place, lane; } lampcoil_lane;
lampcoil_lane lampcoil_lane_repair(uint32_t lane);

/* The data block number after this one: a sender that counts runs 1 to 255 and then 1 again. 0 says that it does not
   count, and the next after 0 is 0. lampcoil_hd_write and lampcoil_hd_read take any of 0 to 255. RANGE above 255. */
typedef struct { uint32_t number, place, dbn; } lampcoil_dbn;
lampcoil_dbn lampcoil_hd_next_dbn(uint32_t dbn);

/* ---- HD audio control packet: 18 words of ten bits, one packet for the four channels of a group. Repair does not take
   it. ---- */

/* Rate codes; 3 to 6 are reserved. */
#define LAMPCOIL_CONTROL_48_KHZ 0u
#define LAMPCOIL_CONTROL_44_1_KHZ 1u
#define LAMPCOIL_CONTROL_32_KHZ 2u
#define LAMPCOIL_CONTROL_FREE_RUNNING 7u

/* Writes the control packet of a group, 1 to 4: the number of the audio frame, 0 where there is none; the rate code;
   whether the use is asynchronous; the active channels, the first of the group at weight 1; and for channels 1 and 2,
   and for 3 and 4, a delay in sample intervals, positive where the picture leads, and whether it is valid. A delay that
   is not valid need not be 0.
   Order: LENGTH (18 words), RANGE (group, frame to 511, rate to 7, active to 15, the flags to 1, delays -33,554,432 to
   33,554,431), STATE at word 6 (a frame number in asynchronous use), STATE at word 7 (a reserved rate code). */
lampcoil_verdict lampcoil_hd_control_write(uint32_t group, uint32_t frame, uint32_t rate, uint32_t asynchronous,
                                           uint32_t active, uint32_t valid12, int32_t delay12,
                                           uint32_t valid34, int32_t delay34, uint16_t *words, size_t words_len);

/* The same back.
   Order: LENGTH (18 words), WORD (above 1,023), HEADER (words 0, 1, 2, 3, 5), WORD (b8 and b9 of words 3 to 16),
   CHECKSUM (word 17), STATE (word 4 not 200h; word 6, a frame number in asynchronous use; word 7, a bit of b4 to b7 or
   a reserved code; word 8, a bit of b4 to b7; words 15 and 16, a bit of b0 to b8). */
typedef struct {
    uint32_t number, place, group, frame, rate, asynchronous, active, valid12;
    int32_t delay12;
    uint32_t valid34;
    int32_t delay34;
} lampcoil_hd_control_answer;
lampcoil_hd_control_answer lampcoil_hd_control_read(const uint16_t *words, size_t words_len);

/* ---- Level sheet: figures on any number of blocks, for each channel. ---- */

/* A channel of a sheet; a sheet is two of them, A and then B: 20 numbers. `absent` is 1 with no samples, else 0;
   smallest, largest and magnitude are then 0. The magnitude of the lowest sample is 8,388,608; `ends` counts samples of
   8,388,607 and of -8,388,608, both together; the last three count frames with V set, frames with E set, and blocks
   whose CRCC of that channel is right. */
typedef struct {
    int64_t samples, absent, smallest, largest, magnitude, sum, ends, v_frames, e_frames, right_blocks;
} lampcoil_level_channel;

/* A sheet: pass `numbers` and LAMPCOIL_SHEET_NUMBERS, and read the figures from `channel`, 0 for A and 1 for B. (In
   C++, where one member of a union is live at a time, copy the numbers into channels.) */
typedef union {
    int64_t numbers[LAMPCOIL_SHEET_NUMBERS];
    lampcoil_level_channel channel[2];
} lampcoil_level_sheet;

/* Makes a sheet the one of no blocks. LENGTH unless 20 numbers. */
lampcoil_verdict lampcoil_level_start(int64_t *sheet, size_t sheet_len);

/* Adds a block to a sheet, in place. Of the block only the lengths and the samples are judged. A refusal leaves the
   sheet as it was.
   Order: LENGTH (each buffer), RANGE (the sheet is none: samples below 0 or above 2^32, another count below 0 or above
   them, a sum beyond 8,388,608 times them, smallest or largest beyond 24 bits, a magnitude below 0 or above 8,388,608,
   a mark that is not 1 exactly with no samples, or smallest, largest or magnitude not 0 then), SAMPLE, FULL (a channel
   would pass 2^32 samples). */
lampcoil_verdict lampcoil_level_add(int64_t *sheet, size_t sheet_len, const int32_t *samples, size_t samples_len,
                                    const uint8_t *side, size_t side_len);

/* Joins the sheet of a later stretch to that of an earlier one, in its place: the sheet of both stretches. Joining is
   associative. Order: LENGTH (both), RANGE (either, as above), FULL. */
lampcoil_verdict lampcoil_level_join(int64_t *sheet, size_t sheet_len, const int64_t *later, size_t later_len);

/* ---- Records: what the replay takes, and what the programs carrier_report and packet_replay read. ---- */

/* A record is a length of four octets, the highest first, which counts the octets after it; a version; a kind; and a
   payload. Offsets are from the first octet of the record. A length above the largest ends the reading of a file, since
   nothing after it can be trusted; a record of another version or kind, or of a length below 2, is no packet.

       kind      payload
       AES3      a block of LAMPCOIL_BLOCK_OCTETS octets
       HD        a data packet: 31 words, two octets each, the higher first: 62 octets
       MADI      channel count and level, an octet each; the bit length, two octets, the higher first; the line
       CONTROL   a control packet: 18 words as for HD: 36 octets */
#define LAMPCOIL_RECORD_AT_LENGTH 0u
#define LAMPCOIL_RECORD_AT_VERSION 4u
#define LAMPCOIL_RECORD_AT_KIND 5u
#define LAMPCOIL_RECORD_AT_PAYLOAD 6u
#define LAMPCOIL_RECORD_AT_MADI_CHANNELS 6u
#define LAMPCOIL_RECORD_AT_MADI_LEVEL 7u
#define LAMPCOIL_RECORD_AT_MADI_BITS 8u
#define LAMPCOIL_RECORD_AT_MADI_LINE 10u
#define LAMPCOIL_RECORD_HEADER_OCTETS 6u /* length, version and kind */
#define LAMPCOIL_RECORD_LENGTH_OCTETS 4u /* what the length itself takes, and does not count */
#define LAMPCOIL_RECORD_MOST_LENGTH 8192u
#define LAMPCOIL_RECORD_VERSION 1u
#define LAMPCOIL_RECORD_AES3 1u
#define LAMPCOIL_RECORD_HD 2u
#define LAMPCOIL_RECORD_MADI 3u
#define LAMPCOIL_RECORD_CONTROL 4u

/* ---- Replay of a night's packets: figures for each group over a file of records. ---- */

/* A group's line: packets read, data and control; lanes that repair mended, also in packets that the reader then
   refused; packets refused, refused[n] by number n; `seen` is 1 where a data packet was read, else 0, and last_dbn the
   DBN of the last one; breaks in the order of their DBNs. */
typedef struct {
    uint32_t read, lanes, refused[LAMPCOIL_REPLAY_REFUSALS], seen, last_dbn, breaks;
} lampcoil_replay_line;

/* A sheet: 110 numbers, groups 1 to 4 and then, by number, the refused packets of wrong length or without a DID that is
   listed for their kind. All 0 is the empty sheet. */
typedef struct {
    lampcoil_replay_line group[4];
    uint32_t unlisted[LAMPCOIL_REPLAY_REFUSALS];
} lampcoil_replay_sheet;

/* The same as numbers: pass `numbers` and LAMPCOIL_REPLAY_NUMBERS, and read the figures from `sheet`, where group 1 is
   group[0]. (In C++ copy them, as for a level sheet.) */
typedef union {
    uint32_t numbers[LAMPCOIL_REPLAY_NUMBERS];
    lampcoil_replay_sheet sheet;
} lampcoil_replay_figures;

/* How a replay stopped: the file ended at a record's boundary; a length above 8,192; a cut record. */
#define LAMPCOIL_STOP_END 0u
#define LAMPCOIL_STOP_LONG 1u
#define LAMPCOIL_STOP_CUT 2u

/* Replays a file of records from a sheet into it. HD records are repaired and then read; CONTROL records are read;
   other records are passed over. A packet's group is that of its DID word after repair, or as received where it is not
   repaired. A break is a data packet read whose DBN is not the next (lampcoil_hd_next_dbn) after the last one read of
   its group, where neither is 0.
   `taken` is the number of octets of the whole records before the stop, `figures` are the figures after them, which the
   sheet then holds too. So a file may be cut at any record's boundary, and the replay continued from the saved figures.
   An acceptance does not mean that the whole file was replayed: check `stop`, and that `taken` is records_len. After
   STOP_CUT, where the file is read in pieces, the octets from `taken` on go before the next piece; after STOP_LONG
   nothing after `taken` was replayed, and it cannot go on there.
   Order: LENGTH (sheet not 110 numbers; the file may have any length), RANGE (a seen above 1, a last_dbn above 255, or
   one that is not 0 where seen is 0), COUNT (a count would pass 2^32-1). A refusal leaves the sheet unchanged; COUNT
   returns, in `taken` and `figures`, the octets and the figures before the record that has no room. */
typedef struct {
    uint32_t number, place;
    uint64_t taken;
    uint32_t stop, figures[LAMPCOIL_REPLAY_NUMBERS];
} lampcoil_replay_answer;
lampcoil_replay_answer lampcoil_replay(const uint8_t *records, size_t records_len, uint32_t *sheet, size_t sheet_len);

#ifdef __cplusplus
}
#endif

#endif
