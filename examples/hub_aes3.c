/* hub: AES3 in and out, with talkback. */
#include "hub.h"
#include <stdlib.h>
#include <string.h>

/* The upper 16 bits are the sound; the tenant's mark is in the four below them, and the voice has the lowest four. */
int32_t marked(int32_t sample, uint32_t t)
{
    return sample + 16 * (int32_t)t;
}

/* Professional use, linear PCM, no emphasis, 48 kHz, stereophonic, words of 24 bits; the origin names the tenant. For
   the way out the label declares a coordination signal and words of 20 bits. Each octet of the user bits has a bit of
   the tenant's own. */
void label_tenant(night *n, uint32_t t)
{
    tenant *w = &n->tenants[t];
    memset(w->status, 0, sizeof w->status);
    w->status[0] = 0x85;
    w->status[1] = 0x02;
    w->status[2] = 0x2C;
    memcpy(w->status + 6, "HUB", 3);
    w->status[9] = (uint8_t)('0' + t);
    lampcoil_verdict v = lampcoil_status_seal(w->status, LAMPCOIL_STATUS_OCTETS);
    MUST(n, "status seal", v);
    memcpy(w->status_talk, w->status, sizeof w->status);
    v = lampcoil_status_edit(w->status_talk, LAMPCOIL_STATUS_OCTETS, 2, 0x2A);
    MUST(n, "status edit", v);
    for (uint32_t k = 0; k < sizeof w->user; k++)
        w->user[k] = (uint8_t)(8u << t | k % 16);
}

static void label_side(const tenant *w, const uint8_t *status, uint8_t *side)
{
    memset(side, 0, LAMPCOIL_SIDE_OCTETS);
    memcpy(side + LAMPCOIL_SIDE_U_A, w->user, sizeof w->user);
    memcpy(side + LAMPCOIL_SIDE_U_B, w->user, sizeof w->user);
    memcpy(side + LAMPCOIL_SIDE_C_A, status, LAMPCOIL_STATUS_OCTETS);
    memcpy(side + LAMPCOIL_SIDE_C_B, status, LAMPCOIL_STATUS_OCTETS);
}

static uint32_t bit_of(const uint8_t *side, uint32_t column, uint32_t k)
{
    uint32_t channel = k % 2 == 0 ? LAMPCOIL_SIDE_V_A : LAMPCOIL_SIDE_V_B, f = k / 2;
    return side[channel + column + f / 8] >> f % 8 & 1u;
}

static void send_line(night *n, const int32_t *samples, const uint8_t *side, uint32_t *level)
{
    lampcoil_verdict v = lampcoil_aes3_write(samples, LAMPCOIL_BLOCK_SAMPLES, side, LAMPCOIL_SIDE_OCTETS, *level,
                                             n->scratch.line, LAMPCOIL_BLOCK_OCTETS);
    MUST(n, "aes3 write", v);
    *level = n->scratch.line[LAMPCOIL_BLOCK_OCTETS - 1] & 1u;
}

static lampcoil_aes3_read_answer read_line(night *n)
{
    memory *m = &n->scratch;
    return lampcoil_aes3_read(m->line, LAMPCOIL_BLOCK_OCTETS, m->samples, LAMPCOIL_BLOCK_SAMPLES, m->side,
                              LAMPCOIL_SIDE_OCTETS);
}

/* A refusal changes no buffer, so that another tenant's block is still there. A silent block of this tenant goes the
   same way instead of the one that was lost. */
static void send_silence(night *n, uint32_t t)
{
    tenant *w = &n->tenants[t];
    int32_t silence[LAMPCOIL_BLOCK_SAMPLES];
    uint8_t side[LAMPCOIL_SIDE_OCTETS];
    for (uint32_t k = 0; k < LAMPCOIL_BLOCK_SAMPLES; k++)
        silence[k] = marked(0, t);
    label_side(w, w->status, side);
    send_line(n, silence, side, &w->level_in);
    lampcoil_aes3_read_answer a = read_line(n);
    MUST(n, "aes3 read", a);
    memset(w->hit_in, 1, sizeof w->hit_in);
    w->lost_blocks++;
}

/* Bodies of what came. A subframe that came with odd parity is silent: nobody can tell which of its bits is wrong. */
static void keep_bodies(night *n, uint32_t t)
{
    tenant *w = &n->tenants[t];
    memory *m = &n->scratch;
    for (uint32_t k = 0; k < LAMPCOIL_BLOCK_SAMPLES; k++) {
        uint32_t fault = bit_of(m->side, LAMPCOIL_SIDE_E_A, k);
        lampcoil_body b = lampcoil_body_write(fault != 0 ? marked(0, t) : m->samples[k],
                                              bit_of(m->side, LAMPCOIL_SIDE_V_A, k),
                                              bit_of(m->side, LAMPCOIL_SIDE_U_A, k),
                                              bit_of(m->side, LAMPCOIL_SIDE_C_A, k));
        MUST(n, "body write", b);
        w->bodies[k] = b.body;
        w->hit_in[k / 2] |= (uint8_t)fault;
    }
}

/* The tenant's card sends; the hub reads, and adds what it accepted to the level sheet of the minute. */
void aes3_in(night *n, uint32_t t)
{
    tenant *w = &n->tenants[t];
    memory *m = &n->scratch;
    uint8_t side[LAMPCOIL_SIDE_OCTETS];
    uint32_t odd = hits_of(n, AES3_ODD, t);
    label_side(w, w->status, side);
    send_line(n, w->sent, side, &w->level_in);
    uint32_t symbol = hits_of(n, AES3_SYMBOL, t);
    if (symbol != 0)
        turn_symbol(n, m->line);
    for (uint32_t k = 0; k < odd; k++)
        turn_parity(n, m->line, 2 * k + draw(n, 2));
    put_record(n, w->records, RECORD_AES3, m->line, LAMPCOIL_BLOCK_OCTETS);
    memset(w->hit_in, 0, sizeof w->hit_in);
    lampcoil_aes3_read_answer a = read_line(n);
    if (REFUSED(n, "aes3 read", t, a)) {
        send_silence(n, t);
        if (symbol == 0)
            differs(n, t, "a block that was refused undamaged", 0);
    } else {
        lampcoil_verdict v = lampcoil_level_add(w->minute, LAMPCOIL_SHEET_NUMBERS, m->samples, LAMPCOIL_BLOCK_SAMPLES,
                                                m->side, LAMPCOIL_SIDE_OCTETS);
        REFUSED(n, "level add", t, v);
    }
    n->last.block = t;
    keep_bodies(n, t);
}

/* What MADI brought back as program samples with V and U beside them, under the label of the way out. */
static void take_back(night *n, uint32_t t, int32_t *program, uint8_t *side)
{
    tenant *w = &n->tenants[t];
    label_side(w, w->status_talk, side);
    memset(side + LAMPCOIL_SIDE_U_A, 0, sizeof w->user);
    memset(side + LAMPCOIL_SIDE_U_B, 0, sizeof w->user);
    for (uint32_t k = 0; k < LAMPCOIL_BLOCK_SAMPLES; k++) {
        uint8_t *columns = side + (k % 2 == 0 ? LAMPCOIL_SIDE_V_A : LAMPCOIL_SIDE_V_B) + k / 16;
        lampcoil_body_meaning b = lampcoil_body_read(w->back[k] & ~0xFu);
        MUST(n, "body read", b);
        program[k] = b.sample;
        columns[LAMPCOIL_SIDE_V_A] |= (uint8_t)(b.v << k / 2 % 8);
        columns[LAMPCOIL_SIDE_U_A] |= (uint8_t)(b.u << k / 2 % 8);
    }
}

/* The voice joins the program, the block goes out, and the tenant's card separates the two. */
void aes3_out(night *n, uint32_t t)
{
    tenant *w = &n->tenants[t];
    memory *m = &n->scratch;
    int32_t program[LAMPCOIL_BLOCK_SAMPLES];
    uint8_t side[LAMPCOIL_SIDE_OCTETS];
    take_back(n, t, program, side);
    for (uint32_t k = 0; k < LAMPCOIL_VOICE_SAMPLES; k++)
        w->spoken[k] = (w->talk != 0 ? n->voice_now[k] : 0) + (int32_t)t;
    lampcoil_verdict v = lampcoil_talkback_join(program, LAMPCOIL_BLOCK_SAMPLES, w->spoken, LAMPCOIL_VOICE_SAMPLES,
                                                side, LAMPCOIL_SIDE_OCTETS, m->joined, LAMPCOIL_BLOCK_SAMPLES);
    MUST(n, "talkback join", v);
    send_line(n, m->joined, side, &w->level_out);
    put_record(n, NULL, RECORD_AES3, m->line, LAMPCOIL_BLOCK_OCTETS);
    lampcoil_aes3_read_answer a = read_line(n);
    MUST(n, "aes3 read", a);
    v = lampcoil_talkback_separate(m->samples, LAMPCOIL_BLOCK_SAMPLES, m->side, LAMPCOIL_SIDE_OCTETS, m->program,
                                   LAMPCOIL_BLOCK_SAMPLES, m->voice, LAMPCOIL_VOICE_SAMPLES);
    MUST(n, "talkback separate", v);
    n->last.block = n->last.talk = t;
    memcpy(w->out_samples, m->program, sizeof w->out_samples);
    memcpy(w->out_voice, m->voice, sizeof w->out_voice);
    memcpy(w->out_side, m->side, sizeof w->out_side);
    if (a.crcc_a != 1 || a.crcc_b != 1)
        differs(n, t, "the label of the block out", 0);
}
