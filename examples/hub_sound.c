/* hub: the files. Sound as S32_LE, two channels a tenant; records; and what is said on the way. */
#include "hub.h"
#include <errno.h>
#include <stdarg.h>
#include <stdlib.h>
#include <string.h>

void say(const night *n, const char *format, ...)
{
    va_list values;
    va_start(values, format);
    fprintf(stderr, "hub: %u.%03u s: ", n->block / BLOCKS_A_SECOND, n->block % BLOCKS_A_SECOND * 4);
    vfprintf(stderr, format, values);
    fputc('\n', stderr);
    va_end(values);
}

void must(const night *n, const char *step, uint32_t number, uint32_t place)
{
    if (number != LAMPCOIL_ACCEPTED)
        STOP(n, "%s: number %u at %u, %s", step, number, place, lampcoil_refusal_text(number));
}

int refused(night *n, const char *step, uint32_t t, uint32_t number, uint32_t place)
{
    if (number == LAMPCOIL_ACCEPTED)
        return 0;
    for (uint32_t k = 0; k < n->refusal_count; k++) {
        refusal *r = &n->refusals[k];
        if (r->tenant == t && r->number == number && strcmp(r->step, step) == 0) {
            r->times++;
            return 1;
        }
    }
    if (n->refusal_count == MOST_REFUSALS)
        report_refusals(n);
    n->refusals[n->refusal_count++] = (refusal){step, t, number, place, 1};
    return 1;
}

/* The same call with the same number is one line in a block, with its first place. */
void report_refusals(night *n)
{
    for (uint32_t k = 0; k < n->refusal_count; k++) {
        const refusal *r = &n->refusals[k];
        char whose[32] = "";
        if (r->tenant != 0)
            snprintf(whose, sizeof whose, "tenant %u: ", r->tenant);
        say(n, "%s%s: number %u at %u, %s%s", whose, r->step, r->number, r->place, lampcoil_refusal_text(r->number),
            r->times > 1 ? "; and so again in this block" : "");
        fprintf(n->figures, "refused %u %u %u %u %u %s: %s\n", n->block, r->tenant, r->number, r->place, r->times,
                r->step, lampcoil_refusal_text(r->number));
    }
    n->refusal_count = 0;
}

/* ---- Opening and closing ---- */

int given(const night *n, uint32_t t)
{
    return n->plan.tenants[t].name[0] != '\0';
}

static FILE *open_file(const night *n, const char *folder, const char *name, const char *mode)
{
    char path[512];
    int length = snprintf(path, sizeof path, "%s/%s", folder, name);
    if (length < 0 || (size_t)length >= sizeof path)
        STOP(n, "%s/%s: too long a name", folder, name);
    FILE *file = fopen(path, mode);
    if (file == NULL)
        STOP(n, "%s: %s", path, strerror(errno));
    return file;
}

static FILE *open_own(const night *n, const char *to, uint32_t t, const char *end)
{
    char name[64];
    snprintf(name, sizeof name, "tenant-%u%s", t, end);
    return open_file(n, to, name, "wb");
}

void open_night(night *n, const char *sound, const char *to)
{
    n->records = open_file(n, to, "night.rec", "wb");
    n->figures = open_file(n, to, "figures.txt", "w");
    if (n->plan.voice[0] != '\0')
        n->voice = open_file(n, sound, n->plan.voice, "rb");
    for (uint32_t t = 1; t <= TENANTS; t++) {
        tenant *w = &n->tenants[t];
        if (!given(n, t))
            continue;
        w->sound = open_file(n, sound, n->plan.tenants[t].sound, "rb");
        w->records = open_own(n, to, t, ".rec");
        w->out = open_own(n, to, t, ".s32");
        w->out_hd = open_own(n, to, t, "-hd.s32");
        w->dbn = 1;
        label_tenant(n, t);
        lampcoil_verdict v = lampcoil_level_start(w->minute, LAMPCOIL_SHEET_NUMBERS);
        MUST(n, "level start", v);
        v = lampcoil_level_start(w->whole, LAMPCOIL_SHEET_NUMBERS);
        MUST(n, "level start", v);
    }
}

static void close_file(const night *n, FILE *file)
{
    if (file != NULL && (ferror(file) || fclose(file) != 0))
        STOP(n, "writing failed: %s", strerror(errno));
}

void close_night(night *n)
{
    for (uint32_t t = 1; t <= TENANTS; t++) {
        tenant *w = &n->tenants[t];
        if (w->sound != NULL)
            fclose(w->sound);
        close_file(n, w->records);
        close_file(n, w->out);
        close_file(n, w->out_hd);
    }
    if (n->voice != NULL)
        fclose(n->voice);
    close_file(n, n->records);
    close_file(n, n->figures);
}

/* ---- Writing ---- */

void put(const night *n, FILE *to, const void *octets, size_t count)
{
    if (fwrite(octets, 1, count, to) != count)
        STOP(n, "writing failed: %s", strerror(errno));
}

void put_record(night *n, FILE *also, uint32_t kind, const uint8_t *payload, size_t count)
{
    size_t length = count + 2;
    const uint8_t head[6] = {0, 0, (uint8_t)(length >> 8), (uint8_t)length, 1, (uint8_t)kind};
    put(n, n->records, head, sizeof head);
    put(n, n->records, payload, count);
    if (also != NULL) {
        put(n, also, head, sizeof head);
        put(n, also, payload, count);
    }
}

/* A sample without its mark: the upper 16 bits. One without a mark is silence. */
static void put_samples(const night *n, FILE *to, const int32_t *samples, uint32_t count)
{
    uint8_t octets[4 * LAMPCOIL_BLOCK_SAMPLES];
    for (uint32_t k = 0; k < count; k++) {
        uint32_t bits = (uint32_t)samples[k];
        octets[4 * k] = 0;
        octets[4 * k + 1] = 0;
        octets[4 * k + 2] = (uint8_t)(bits >> 8);
        octets[4 * k + 3] = (uint8_t)(bits >> 16);
    }
    put(n, to, octets, 4 * (size_t)count);
}

/* As many frames as came in. */
void put_sound(night *n, uint32_t t)
{
    tenant *w = &n->tenants[t];
    put_samples(n, w->out, w->out_samples, 2 * w->came);
    put_samples(n, w->out_hd, w->out_hd_samples, 2 * w->came);
    w->own_blocks++;
}

/* ---- Reading ---- */

/* Fills the samples, with silence behind the end of the file; the answer is how many came. Of 32 bits the upper `bits`
   are taken, and the others must be 0. */
static uint32_t take_samples(const night *n, FILE *from, const char *name, uint32_t count, uint32_t bits,
                             int32_t *samples)
{
    uint8_t octets[4 * LAMPCOIL_BLOCK_SAMPLES];
    size_t got = fread(octets, 1, 4 * (size_t)count, from);
    if (ferror(from))
        STOP(n, "%s: reading failed: %s", name, strerror(errno));
    if (got % 8 != 0)
        STOP(n, "%s: the sound ends within a frame", name);
    for (uint32_t k = 0; k < count; k++) {
        const uint8_t *o = octets + 4 * k;
        uint32_t word = k < got / 4 ? (uint32_t)o[3] << 24 | (uint32_t)o[2] << 16 | (uint32_t)o[1] << 8 | o[0] : 0;
        if ((word & (0xFFFFFFFFu >> bits)) != 0)
            STOP(n, "%s: a sample has a 1 below its upper %u bits; those are the mark's and the voice's", name, bits);
        int32_t value = (int32_t)(word >> (32 - bits));
        samples[k] = word < 0x80000000u ? value : value - ((int32_t)1 << bits);
    }
    return (uint32_t)(got / 4);
}

/* A tenant sends for as long as it holds a slot; where its file has ended it sends silence. */
void take_sound(night *n, uint32_t t)
{
    tenant *w = &n->tenants[t];
    int32_t sound[LAMPCOIL_BLOCK_SAMPLES];
    w->came = take_samples(n, w->sound, n->plan.tenants[t].sound, LAMPCOIL_BLOCK_SAMPLES, 16, sound) / 2;
    for (uint32_t k = 0; k < LAMPCOIL_BLOCK_SAMPLES; k++)
        w->sent[k] = marked(256 * sound[k], t);
}

/* The house's voice at 16 kHz: eight bits of it, as the lowest four of a voice sample are the mark. Without a file it
   is a tone of 500 Hz. */
void take_voice(night *n)
{
    int32_t voice[LAMPCOIL_VOICE_SAMPLES];
    if (n->voice != NULL)
        take_samples(n, n->voice, n->plan.voice, LAMPCOIL_VOICE_SAMPLES, 8, voice);
    for (uint32_t k = 0; k < LAMPCOIL_VOICE_SAMPLES; k++) {
        uint32_t at = k / 2 % 32;
        n->voice_now[k] = 16 * (n->voice != NULL ? voice[k] : 8 * (int32_t)(at < 16 ? at : 31 - at) - 60);
    }
}
