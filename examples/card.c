/* A card driver in small, as it would be written over the library: two tenants' audio goes out on an AES3 line, with
   talkback too, a MADI frame and an HD packet through one scratch memory, one tenant after the other, and comes back.
   Every answer is tested before anything else is done with what it left; at the end the scratch memory is searched for
   the first tenant. It ends with 0 if all went as it should. */
#include "lampcoil.h"
#include <stdio.h>
#include <string.h>

enum { CHANNELS = LAMPCOIL_MADI_MOST_CHANNELS, COMMANDS = 9, GROUP = 1, STRETCH = 8 };

/* What a tenant gives to be sent. */
typedef struct {
    const char *name;
    int32_t samples[LAMPCOIL_BLOCK_SAMPLES];
    uint8_t side[LAMPCOIL_SIDE_OCTETS];
} tenant;

/* What the tenants share: every buffer that the library fills. */
typedef struct {
    uint8_t line[LAMPCOIL_BLOCK_OCTETS];
    int32_t samples[LAMPCOIL_BLOCK_SAMPLES];
    uint8_t side[LAMPCOIL_SIDE_OCTETS];
    uint8_t madi[LAMPCOIL_MADI_OCTETS(CHANNELS, COMMANDS)];
    uint32_t words[CHANNELS];
    uint8_t commands[LAMPCOIL_MADI_MOST_COMMANDS];
    uint16_t packet[LAMPCOIL_PACKET_WORDS], repaired[LAMPCOIL_PACKET_WORDS];
    uint32_t bodies[LAMPCOIL_PACKET_BODIES];
    int32_t joined[LAMPCOIL_BLOCK_SAMPLES], program[LAMPCOIL_BLOCK_SAMPLES], voice[LAMPCOIL_VOICE_SAMPLES];
} memory;

/* 1 if an answer is no acceptance, and says so. The buffers are then as they were: what another tenant left there is
   still in them, so that nothing of them may be handed on. */
static int refused(const char *step, uint32_t number, uint32_t place)
{
    if (number == LAMPCOIL_ACCEPTED)
        return 0;
    printf("  %s: number %u at %u, %s\n", step, number, place, lampcoil_refusal_text(number));
    return 1;
}

#define REFUSED(step, answer) refused(step, (answer).number, (answer).place)

static int differ(const char *step)
{
    printf("  %s: not what was sent\n", step);
    return 1;
}

/* Professional use, linear PCM, 48 kHz, stereophonic, words of 24 bits; byte 6 on is the origin in letters. */
static int label(uint8_t *status, const char *origin)
{
    memset(status, 0, LAMPCOIL_STATUS_OCTETS);
    status[0] = 0x85;
    status[1] = 0x02;
    status[2] = 0x2C;
    memcpy(status + 6, origin, strlen(origin));
    lampcoil_verdict v = lampcoil_status_seal(status, LAMPCOIL_STATUS_OCTETS);
    if (REFUSED("status seal", v))
        return 1;
    lampcoil_status_meaning m = lampcoil_status_read(status, LAMPCOIL_STATUS_OCTETS);
    if (REFUSED("status read", m))
        return 1;
    int said = m.use == LAMPCOIL_USE_PROFESSIONAL && m.audio == LAMPCOIL_AUDIO_LINEAR_PCM &&
               m.rate == LAMPCOIL_RATE_48_KHZ && m.mode == LAMPCOIL_MODE_STEREOPHONIC &&
               m.auxiliary == LAMPCOIL_AUXILIARY_24_MAIN && m.length == 24;
    return said ? 0 : differ("status");
}

/* Samples that rise by a step of the tenant's own and start again below; a step of 0 is silence. */
static int play(tenant *t, const char *name, int32_t step)
{
    t->name = name;
    for (int32_t k = 0; k < (int32_t)LAMPCOIL_BLOCK_SAMPLES; k++)
        t->samples[k] = step == 0 ? 0 : (step * (k + 1)) % 16777216 - 8388608;
    memset(t->side, 0, sizeof t->side);
    return label(t->side + LAMPCOIL_SIDE_C_A, name) || label(t->side + LAMPCOIL_SIDE_C_B, name);
}

static int send_block(const tenant *t, memory *m)
{
    lampcoil_verdict v = lampcoil_aes3_write(t->samples, LAMPCOIL_BLOCK_SAMPLES, t->side, LAMPCOIL_SIDE_OCTETS, 0,
                                             m->line, LAMPCOIL_BLOCK_OCTETS);
    return REFUSED("aes3 write", v);
}

static int any_fault(const uint8_t *side)
{
    uint8_t any = 0;
    for (size_t k = 0; k < LAMPCOIL_STATUS_OCTETS; k++)
        any |= side[LAMPCOIL_SIDE_E_A + k] | side[LAMPCOIL_SIDE_E_B + k];
    return any != 0;
}

static int receive_block(const uint8_t *block, memory *m)
{
    lampcoil_aes3_read_answer r = lampcoil_aes3_read(block, LAMPCOIL_BLOCK_OCTETS, m->samples, LAMPCOIL_BLOCK_SAMPLES,
                                                     m->side, LAMPCOIL_SIDE_OCTETS);
    if (REFUSED("aes3 read", r))
        return 1;
    if (r.crcc_a != 1 || r.crcc_b != 1) /* never refused: what a wrong CRCC means is the driver's to say */
        printf("  aes3 read: a status block is damaged\n");
    if (any_fault(m->side)) /* nor are these: V is 1 there, and E says why */
        printf("  aes3 read: subframes came with an odd number of ones\n");
    return 0;
}

/* The card takes in symbols from anywhere: here 21 of them before the block, the last as the level before it. */
static int find_block(memory *m)
{
    static uint8_t taken[LAMPCOIL_BLOCK_OCTETS + 4], block[LAMPCOIL_BLOCK_OCTETS];
    const uint32_t before = 21;
    memset(taken, 0, sizeof taken);
    for (uint32_t k = 0; k < 8 * LAMPCOIL_BLOCK_OCTETS; k++)
        if ((m->line[k / 8] >> (7 - k % 8) & 1) != 0)
            taken[(before + k) / 8] |= (uint8_t)(0x80 >> (before + k) % 8);
    lampcoil_aes3_start s = lampcoil_aes3_find(taken, sizeof taken);
    if (REFUSED("aes3 find", s))
        return 1;
    lampcoil_verdict v = lampcoil_aes3_align(taken, sizeof taken, s.position, block, LAMPCOIL_BLOCK_OCTETS);
    if (REFUSED("aes3 align", v))
        return 1;
    printf("  aes3: the block starts at symbol %u, %u symbols compared\n", s.position, s.compared);
    return receive_block(block, m);
}

/* The body of a channel, 0 for A and 1 for B, in a frame. */
static int body_of(const tenant *t, uint32_t channel, uint32_t frame, uint32_t *body)
{
    const uint8_t *columns = t->side + (channel == 0 ? LAMPCOIL_SIDE_V_A : LAMPCOIL_SIDE_V_B) + frame / 8;
    uint32_t v = columns[LAMPCOIL_SIDE_V_A] >> frame % 8 & 1u, u = columns[LAMPCOIL_SIDE_U_A] >> frame % 8 & 1u;
    uint32_t c = columns[LAMPCOIL_SIDE_C_A] >> frame % 8 & 1u;
    lampcoil_body b = lampcoil_body_write(t->samples[2 * frame + channel], v, u, c);
    *body = b.body;
    return REFUSED("body", b);
}

/* What a card sends of a body by the table that it has loaded: eight slots to an entry, and slots 28 to 31 by the first
   eight symbols of one; an entry is inverted where the symbol before it is 1. */
static void by_table(const uint16_t *table, uint32_t body, uint32_t before, uint8_t symbols[7])
{
    for (uint32_t k = 0; k < 4; k++) {
        uint32_t entry = table[body >> (4 + 8 * k) & 0xFFu] ^ (before == 0 ? 0u : 0xFFFFu);
        symbols[2 * k] = (uint8_t)(entry >> 8);
        if (k < 3)
            symbols[2 * k + 1] = (uint8_t)entry;
        before = entry & 1u;
    }
}

/* The card's own symbols of every subframe are those of the line: behind the preamble, which ends with the level before
   it, 0 here. */
static int send_by_card(const tenant *t, const memory *m)
{
    uint16_t table[LAMPCOIL_BIPHASE_ENTRIES];
    uint8_t symbols[7];
    uint32_t body;
    lampcoil_verdict v = lampcoil_biphase_table(table, LAMPCOIL_BIPHASE_ENTRIES);
    if (REFUSED("biphase table", v))
        return 1;
    for (uint32_t k = 0; k < LAMPCOIL_BLOCK_SAMPLES; k++) {
        if (body_of(t, k % 2, k / 2, &body))
            return 1;
        by_table(table, body, 0, symbols);
        if (memcmp(m->line + 8 * k + 1, symbols, sizeof symbols) != 0)
            return differ("biphase table");
    }
    return 0;
}

/* A frame with the two channels first and all others inactive. */
static int over_madi(const tenant *t, uint32_t frame, memory *m)
{
    /* the default sync, and HDLC 0 to a preamp between two of them */
    static const uint8_t said[COMMANDS] = {0, 8, 0};
    uint32_t sent[2], start = frame == 0 ? LAMPCOIL_MADI_BLOCK_START : 0;
    if (body_of(t, 0, frame, &sent[0]) || body_of(t, 1, frame, &sent[1]))
        return 1;
    sent[0] |= start;
    sent[1] |= start | LAMPCOIL_MADI_B_SUBFRAME;
    lampcoil_verdict v = lampcoil_madi_write(CHANNELS, sent, 2, said, COMMANDS, 1, m->madi, sizeof m->madi);
    if (REFUSED("madi write", v))
        return 1;
    lampcoil_madi_read_answer r = lampcoil_madi_read(CHANNELS, 1, LAMPCOIL_MADI_BITS(CHANNELS, COMMANDS), m->madi,
                                                     sizeof m->madi, m->words, CHANNELS, m->commands,
                                                     sizeof m->commands);
    if (REFUSED("madi read", r))
        return 1;
    printf("  madi: %u channels active, %u commands\n", r.active, r.commands);
    return memcmp(m->words, sent, sizeof sent) != 0 || memcmp(m->commands, said, sizeof said) != 0 ? differ("madi") : 0;
}

/* A packet of two frames, hurt on the way in one word and mended. A channel that is not active would be body 0. */
static int over_hd(const tenant *t, uint32_t dbn, memory *m)
{
    uint32_t sent[LAMPCOIL_PACKET_BODIES];
    for (uint32_t k = 0; k < LAMPCOIL_PACKET_BODIES; k++)
        if (body_of(t, k % 2, k / 2, &sent[k]))
            return 1;
    lampcoil_verdict v = lampcoil_hd_write(GROUP, dbn, 1234, 0, 1, 0, sent, LAMPCOIL_PACKET_BODIES, m->packet,
                                           LAMPCOIL_PACKET_WORDS);
    if (REFUSED("hd write", v))
        return 1;
    m->packet[9] ^= 0xFF;
    lampcoil_hd_repair_answer q = lampcoil_hd_repair(m->packet, LAMPCOIL_PACKET_WORDS, m->repaired,
                                                     LAMPCOIL_PACKET_WORDS);
    if (REFUSED("hd repair", q))
        return 1;
    lampcoil_hd_read_answer r = lampcoil_hd_read(m->repaired, LAMPCOIL_PACKET_WORDS, m->bodies, LAMPCOIL_PACKET_BODIES);
    if (REFUSED("hd read", r))
        return 1;
    printf("  hd: group %u, data block %u, %u lanes mended\n", r.group, r.dbn, q.lanes);
    return r.group != GROUP || r.dbn != dbn || memcmp(m->bodies, sent, sizeof sent) != 0 ? differ("hd") : 0;
}

/* A label that declares a coordination signal in slots 4 to 7 and words of 20 bits. */
static int declare_talkback(uint8_t *status)
{
    lampcoil_verdict v = lampcoil_status_edit(status, LAMPCOIL_STATUS_OCTETS, 2, 0x2A);
    if (REFUSED("status edit", v))
        return 1;
    lampcoil_status_meaning m = lampcoil_status_read(status, LAMPCOIL_STATUS_OCTETS);
    if (REFUSED("status read", m))
        return 1;
    return m.auxiliary == LAMPCOIL_AUXILIARY_20_COORDINATION && m.length == 20 ? 0 : differ("status edit");
}

/* Twenty bits of the tenant's audio with the producer's voice in the four below, on the line and back. */
static int talk_back(const tenant *t, memory *m)
{
    static tenant sent;
    static int32_t said[LAMPCOIL_VOICE_SAMPLES];
    sent = *t;
    for (size_t k = 0; k < LAMPCOIL_BLOCK_SAMPLES; k++) /* the lowest four bits are the voice's */
        sent.samples[k] -= (sent.samples[k] + 8388608) % 16;
    for (size_t k = 0; k < LAMPCOIL_VOICE_SAMPLES; k++)
        said[k] = t->samples[k] == 0 ? 0 : (t->samples[k] + 8388608) % 4096 - 2048;
    if (declare_talkback(sent.side + LAMPCOIL_SIDE_C_A) || declare_talkback(sent.side + LAMPCOIL_SIDE_C_B))
        return 1;
    lampcoil_verdict v = lampcoil_talkback_join(sent.samples, LAMPCOIL_BLOCK_SAMPLES, said, LAMPCOIL_VOICE_SAMPLES,
                                                sent.side, LAMPCOIL_SIDE_OCTETS, m->joined, LAMPCOIL_BLOCK_SAMPLES);
    if (REFUSED("talkback join", v))
        return 1;
    v = lampcoil_aes3_write(m->joined, LAMPCOIL_BLOCK_SAMPLES, sent.side, LAMPCOIL_SIDE_OCTETS, 0, m->line,
                            LAMPCOIL_BLOCK_OCTETS);
    if (REFUSED("aes3 write", v) || receive_block(m->line, m))
        return 1;
    v = lampcoil_talkback_separate(m->samples, LAMPCOIL_BLOCK_SAMPLES, m->side, LAMPCOIL_SIDE_OCTETS, m->program,
                                   LAMPCOIL_BLOCK_SAMPLES, m->voice, LAMPCOIL_VOICE_SAMPLES);
    if (REFUSED("talkback separate", v))
        return 1;
    printf("  talkback: %u voice samples in one block\n", LAMPCOIL_VOICE_SAMPLES);
    int other = memcmp(m->program, sent.samples, sizeof m->program) != 0 || memcmp(m->voice, said, sizeof said) != 0;
    return other ? differ("talkback") : 0;
}

/* A tenant's audio over all three carriers. */
static int carry(const tenant *t, uint32_t dbn, memory *m)
{
    printf("tenant %s\n", t->name);
    if (send_block(t, m) || send_by_card(t, m) || find_block(m))
        return 1;
    if (memcmp(m->samples, t->samples, sizeof m->samples) != 0 || memcmp(m->side, t->side, sizeof m->side) != 0)
        return differ("aes3");
    return talk_back(t, m) || over_madi(t, 0, m) || over_hd(t, dbn, m);
}

/* 0 if the call was accepted and these are the tenant's slots. */
static int leased(const char *step, lampcoil_lease l, uint64_t slots)
{
    if (REFUSED(step, l))
        return 1;
    return l.slots == slots ? 0 : differ(step);
}

/* A company goes home, and the house closes the gap that it leaves: the rows follow the moves. */
static int go_home(uint8_t *table, uint32_t tenant, uint32_t *rows)
{
    uint8_t moves[LAMPCOIL_LEASE_MOVES];
    uint32_t moved[CHANNELS];
    if (leased("lease return", lampcoil_lease_return(table, LAMPCOIL_LEASE_SLOTS, tenant), 0))
        return 1;
    lampcoil_lease_closed c = lampcoil_lease_close(table, LAMPCOIL_LEASE_SLOTS, moves, sizeof moves);
    if (REFUSED("lease close", c))
        return 1;
    for (uint32_t k = 0; k < CHANNELS; k++)
        moved[k] = CHANNELS;
    for (uint32_t k = 0; k < c.leased; k++) {
        uint32_t from = moves[2 * k], to = moves[2 * k + 1];
        for (uint32_t j = 0; j < c.leased; j++)
            if (rows[from] == moves[2 * j])
                moved[to] = moves[2 * j + 1];
        printf("  slot %u is slot %u now, and takes from %u\n", from, to, moved[to]);
    }
    memcpy(rows, moved, sizeof moved);
    return 0;
}

/* One frame by the lease table, and out on MADI as it is. */
static int patch(const uint8_t *table, uint32_t active, const uint32_t *rows, const uint32_t *in, memory *m)
{
    static const uint8_t syncs[COMMANDS] = {0};
    uint32_t out[CHANNELS];
    uint8_t verdicts[CHANNELS];
    lampcoil_verdict v = lampcoil_madi_patch(CHANNELS, active, table, LAMPCOIL_LEASE_SLOTS, rows, CHANNELS, in,
                                             CHANNELS, out, CHANNELS, verdicts, CHANNELS);
    if (REFUSED("patch", v))
        return 1;
    for (uint32_t k = 0; k < active; k++)
        printf("  slot %u of tenant %u from slot %u: verdict %u\n", k, table[k], rows[k], verdicts[k]);
    v = lampcoil_madi_write(CHANNELS, out, active, syncs, COMMANDS, 0, m->madi, sizeof m->madi);
    if (REFUSED("madi write", v))
        return 1;
    lampcoil_madi_read_answer r = lampcoil_madi_read(CHANNELS, 0, LAMPCOIL_MADI_BITS(CHANNELS, COMMANDS), m->madi,
                                                     sizeof m->madi, m->words, CHANNELS, m->commands,
                                                     sizeof m->commands);
    if (REFUSED("madi read", r))
        return 1;
    return memcmp(m->words, out, sizeof out) != 0 ? differ("patched frame") : 0;
}

/* Both tenants lease two slots each. Each turns its two around, but the second asks for a slot of the first in its last
   one, and gets silence. Then the first goes home, and the second is patched where it stands now. */
static int lease(const tenant *one, const tenant *two, memory *m)
{
    uint8_t table[LAMPCOIL_LEASE_SLOTS] = {0};
    uint32_t rows[CHANNELS] = {1, 0, 3, 0}, in[CHANNELS] = {0};
    printf("leases\n");
    if (leased("lease ask", lampcoil_lease_ask(table, LAMPCOIL_LEASE_SLOTS, 1, 2), 0x3) ||
        leased("lease ask", lampcoil_lease_ask(table, LAMPCOIL_LEASE_SLOTS, 2, 2), 0xC))
        return 1;
    for (uint32_t k = 0; k < 4; k++)
        if (body_of(k < 2 ? one : two, k % 2, 0, &in[k]))
            return 1;
    if (patch(table, 4, rows, in, m) || m->words[2] != in[3] || m->words[3] != 0 || go_home(table, 1, rows))
        return differ("patch of two");
    in[0] = in[2];
    in[1] = in[3];
    return patch(table, 2, rows, in, m) || m->words[0] != in[1] ? differ("patch of one") : 0;
}

/* A block that the way has damaged: it is refused, and the buffers are as before it came. */
static int receive_damaged(const memory *first, memory *m)
{
    static uint8_t block[LAMPCOIL_BLOCK_OCTETS];
    memcpy(block, m->line, sizeof block);
    block[1000] ^= 0x10;
    printf("a damaged block\n");
    if (!receive_block(block, m))
        return differ("a damaged block");
    return memcmp(m, first, sizeof *m) != 0 ? differ("after a refusal") : 0;
}

static int stands(const uint8_t *stretch, const memory *m)
{
    const uint8_t *octets = (const uint8_t *)m;
    for (size_t k = 0; k + STRETCH <= sizeof *m; k++)
        if (octets[k] == stretch[0] && memcmp(octets + k, stretch, STRETCH) == 0)
            return 1;
    return 0;
}

/* Looks for every stretch of octets that one tenant left, and silence would not have left, in what stands there now. */
static int search(const memory *first, const memory *silence, const memory *now)
{
    const uint8_t *octets = (const uint8_t *)first;
    unsigned own = 0, left = 0;
    for (size_t k = 0; k + STRETCH <= sizeof *first; k++)
        if (!stands(octets + k, silence)) {
            own = own + 1;
            left = left + (unsigned)stands(octets + k, now);
        }
    printf("%u stretches of %d octets were the first tenant's own; %u of them are left\n", own, STRETCH, left);
    return own == 0 || left != 0;
}

int main(void)
{
    static tenant one, two, none;
    static memory scratch, after_one, silence, shared;
    lampcoil_version_answer version = lampcoil_version();
    if (REFUSED("version", version))
        return 1;
    if (version.version / 65536 != LAMPCOIL_VERSION_MAJOR || version.version < LAMPCOIL_VERSION_NUMBER) {
        printf("this program was compiled for another version of the library, " LAMPCOIL_VERSION "\n");
        return 1;
    }
    if (play(&one, "NORTH", 87381) || play(&two, "WEST", 4450003) || play(&none, "quiet", 0))
        return 1;
    if (carry(&none, 0, &silence) || carry(&one, 255, &scratch))
        return 1;
    after_one = scratch;
    if (receive_damaged(&after_one, &scratch))
        return 1;
    lampcoil_dbn next = lampcoil_hd_next_dbn(255);
    if (REFUSED("next data block", next) || carry(&two, next.dbn, &scratch))
        return 1;
    if (lease(&one, &two, &shared))
        return 1;
    return search(&after_one, &silence, &scratch);
}
