/* What the files of hub share: the plan, the desk, the scratch memory, the tenants, and the night that holds them. */
#ifndef HUB_H
#define HUB_H

#include "lampcoil.h"
#include <inttypes.h>
#include <stddef.h>
#include <stdint.h>
#include <stdio.h>

enum {
    FRAMES = LAMPCOIL_BLOCK_SAMPLES / 2,
    SLOTS = LAMPCOIL_LEASE_SLOTS,
    NO_SLOT = SLOTS,
    TENANTS = 4, /* tenant t has the HD group t, and the mark t in every sample */
    BLOCKS_A_SECOND = 250,
    MOST_EVENTS = 4096,
    MOST_HITS = 64,      /* damage in one block */
    MOST_REFUSALS = 32,  /* different ones in one block */
    CONTROL_EVERY = 8,   /* blocks: about a video frame */
    MOST_SYNCS = 5,      /* a link has 260 or 261 symbols for a frame, of which 64 channels take 256 */
    HD_RECORD = 6 + 2 * LAMPCOIL_PACKET_WORDS,
    CONTROL_RECORD = 6 + 2 * LAMPCOIL_CONTROL_WORDS
};

/* Kinds of records, as the report program numbers them. */
enum { RECORD_AES3 = 1, RECORD_HD, RECORD_MADI, RECORD_CONTROL };

/* What the program ends with. */
enum { AS_SENT, FOUND, STOPPED };

/* ---- The plan ---- */

typedef enum {
    ASK, GIVE_BACK, CLOSE, PATCH, TALK, PREAMP,
    /* damage */
    AES3_SYMBOL, AES3_ODD, PATCH_WORD, MADI_BIT, HD_PLACE, HD_OCTET, HD_LANE, HD_LOST, CONTROL_BIT,
    EVENT_KINDS
} event_kind;

/* a and b are the numbers after the word, in the plan's order. */
typedef struct { event_kind kind; uint32_t block, a, b; } event;

typedef struct {
    char title[80];
    uint32_t blocks, minute, record;   /* blocks of the night and of a minute; one MADI frame of so many is recorded */
    char voice[128];                   /* file of the house's voice; empty where it is a tone */
    struct { char name[32], sound[128]; } tenants[TENANTS + 1]; /* an empty name: no such tenant */
    event events[MOST_EVENTS];
    uint32_t count;
} plan;

/* The words of an event in the plan. */
extern const char *const event_words[EVENT_KINDS];

/* Reads a plan. Each wrong line is reported; the answer is how many there are. */
uint32_t read_plan(const char *path, plan *p);

/* ---- The desk ---- */

typedef struct {
    uint8_t table[SLOTS];           /* the lease table */
    uint8_t feed[SLOTS];            /* which channel of its tenant a slot carries */
    uint32_t rows[SLOTS];           /* the patch */
    uint32_t home[TENANTS + 1][2];  /* the slot from which a tenant's channel comes back, or NO_SLOT */
    uint32_t active;
} desk;

/* ---- What all tenants share, and nobody wipes ---- */

typedef struct {
    uint8_t line[LAMPCOIL_BLOCK_OCTETS];
    int32_t samples[LAMPCOIL_BLOCK_SAMPLES];
    uint8_t side[LAMPCOIL_SIDE_OCTETS];
    int32_t joined[LAMPCOIL_BLOCK_SAMPLES], program[LAMPCOIL_BLOCK_SAMPLES], voice[LAMPCOIL_VOICE_SAMPLES];
    uint32_t frame_in[SLOTS], frame_out[SLOTS], words[SLOTS];
    uint8_t verdicts[SLOTS], madi[LAMPCOIL_MADI_OCTETS(SLOTS, MOST_SYNCS)], commands[LAMPCOIL_MADI_MOST_COMMANDS];
    uint16_t packet[LAMPCOIL_PACKET_WORDS], repaired[LAMPCOIL_PACKET_WORDS], control[LAMPCOIL_CONTROL_WORDS];
    uint32_t bodies[LAMPCOIL_PACKET_BODIES];
} memory;

/* Who went through each part of it last; 0: nobody yet. */
typedef struct { uint32_t block, talk, packet; uint8_t slots[SLOTS]; } owners;

/* ---- A tenant ---- */

typedef struct {
    uint32_t on;                                     /* holds a slot, and so sends */
    FILE *sound, *records, *out, *out_hd;
    uint8_t status[LAMPCOIL_STATUS_OCTETS], status_talk[LAMPCOIL_STATUS_OCTETS], user[24];
    uint32_t level_in, level_out, dbn, talk;
    uint32_t own_blocks, came;                       /* blocks so far; frames of this block that the file had */
    int32_t sent[LAMPCOIL_BLOCK_SAMPLES], spoken[LAMPCOIL_VOICE_SAMPLES];
    uint32_t bodies[LAMPCOIL_BLOCK_SAMPLES];         /* what AES3 brought in */
    uint32_t back[LAMPCOIL_BLOCK_SAMPLES];           /* what MADI brought back */
    uint8_t hit_in[FRAMES], hit_back[FRAMES], hit_hd[FRAMES]; /* 1: damaged, so that the frame may be silent */
    int32_t out_samples[LAMPCOIL_BLOCK_SAMPLES], out_hd_samples[LAMPCOIL_BLOCK_SAMPLES];
    int32_t out_voice[LAMPCOIL_VOICE_SAMPLES];
    uint8_t out_side[LAMPCOIL_SIDE_OCTETS];
    int64_t minute[LAMPCOIL_SHEET_NUMBERS], whole[LAMPCOIL_SHEET_NUMBERS];
    uint32_t lost_blocks;                            /* AES3 blocks refused, this minute */
    uint32_t patched, patched_since;                 /* 1 while the patch brings something else than the two channels */
} tenant;

/* A call that was refused, as often as it was in one block. */
typedef struct { const char *step; uint32_t tenant, number, place, times; } refusal;

/* A row of the patch for as long as nothing of it changes. */
typedef struct { uint32_t since, row, tenant, verdict, odd; } stretch;

typedef struct {
    plan plan;
    desk desk;
    memory scratch;
    owners last;
    tenant tenants[TENANTS + 1];
    uint32_t block, madi_level, next_event, preamp; /* preamp: the command of this block and 1 more, or 0 */
    uint64_t frame;
    event hits[MOST_HITS];
    uint32_t hit_count;
    refusal refusals[MOST_REFUSALS];
    uint32_t refusal_count;
    stretch patch[SLOTS];
    FILE *records, *figures, *voice;
    int32_t voice_now[LAMPCOIL_VOICE_SAMPLES];
    uint8_t packets[TENANTS * (FRAMES * HD_RECORD + CONTROL_RECORD)]; /* this block's, as records */
    size_t packets_len;
    uint32_t replayed[LAMPCOIL_REPLAY_NUMBERS], replayed_before[LAMPCOIL_REPLAY_NUMBERS];
    uint32_t madi_damaged, madi_refused, madi_passed; /* frames of this minute; passed: damaged, and yet read */
    uint32_t draw;
    uint64_t lost_frames, mended, differing, commands;
    int found;
} night;

/* ---- Reports: standard error, and the figures where the page shows them ---- */

void say(const night *n, const char *format, ...);
#define STOP(n, ...) (say(n, __VA_ARGS__), exit(STOPPED))

/* Ends the program where the library refuses what hub itself has made: the mistake is then hub's own. */
void must(const night *n, const char *step, uint32_t number, uint32_t place);
#define MUST(n, step, answer) must(n, step, (answer).number, (answer).place)

/* Notes a refused call; they are reported at the block's end. 1 if it is one. */
int refused(night *n, const char *step, uint32_t tenant, uint32_t number, uint32_t place);
#define REFUSED(n, step, tenant, answer) refused(n, step, tenant, (answer).number, (answer).place)
void report_refusals(night *n);

/* Something did not come out as it went in. */
void differs(night *n, uint32_t tenant, const char *what, uint32_t place);

/* ---- The parts ---- */

int given(const night *n, uint32_t t); /* 1 if the plan has this tenant */
void open_night(night *n, const char *sound, const char *to);
void close_night(night *n);
void put(const night *n, FILE *to, const void *octets, size_t count);
void put_record(night *n, FILE *also, uint32_t kind, const uint8_t *payload, size_t count);
void take_sound(night *n, uint32_t t);
void take_voice(night *n);
void put_sound(night *n, uint32_t t);

void start_desk(night *n);
void run_events(night *n);

uint32_t hits_of(const night *n, event_kind kind, uint32_t a); /* how many frames, packets or subframes are damaged */
uint32_t draw(night *n, uint32_t below);
void turn_symbol(night *n, uint8_t *line);
void turn_parity(night *n, uint8_t *line, uint32_t subframe);
void turn_madi_bit(night *n, uint8_t *line, uint32_t active);
void damage_packet(night *n, event_kind kind, uint16_t *words);

int32_t marked(int32_t sample, uint32_t t);
void label_tenant(night *n, uint32_t t);
void aes3_in(night *n, uint32_t t);
void aes3_out(night *n, uint32_t t);
void madi_block(night *n);
void hd_block(night *n, uint32_t t);
void replay_block(night *n);

/* Each looks for material of any tenant but the one whose place it is; 1 if there is any, and it is then reported. */
int search_scratch(night *n);
int search_frame(night *n);
int search_outputs(night *n);

void judge(night *n, uint32_t t);
void start_figures(night *n);
void figures_of_leases(night *n);
void figures_of_patch(night *n, const uint8_t *verdicts, uint32_t f);
void figures_of_minute(night *n, uint32_t minute);
void figures_of_night(night *n);

#endif
