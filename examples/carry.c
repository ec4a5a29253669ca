/* Sound through a carrier and back, as a filter between tools that have sound as raw samples:

     carry aes3              two channels; a record for each block of 192 frames
     carry madi [channels]   1 to 64 channels, 2 if not said; a record for each frame
     carry hd [group]        four channels in a packet of group 1 to 4, 1 if not said; a record for each frame
     carry back              such records to the samples again

   Samples are interleaved, 32 bits each, the lowest octet first, 24 bits left-justified: what sox calls s32 and ALSA
   S32_LE. Records are those of the report program. The sound is taken as of 48 kHz. Its end is padded to a whole block
   with samples that are marked not valid; on the way back, a frame of which no channel is valid is left out.
   It ends with 0 if everything was carried, with 1 if something was lost and the line for it stands on standard error,
   with 2 if it could not go on. */
#include "carry.h"
#include <errno.h>
#include <signal.h>
#include <stdarg.h>
#include <stdio.h>
#include <string.h>

const record_shape in_record[KINDS] = {{0, 0}, {FRAMES, 2}, {1, 4}, {1, 0}};
uint64_t record_number;

void tell(const char *format, ...)
{
    va_list words;
    va_start(words, format);
    fputs("carry: ", stderr);
    if (record_number != 0)
        fprintf(stderr, "record %" PRIu64 ": ", record_number);
    vfprintf(stderr, format, words);
    fputc('\n', stderr);
    va_end(words);
}

void put(const uint8_t *octets, size_t n)
{
    if (fwrite(octets, 1, n, stdout) != n)
        STOP("writing failed: %s", strerror(errno));
}

size_t take(uint8_t *octets, size_t n)
{
    size_t got = fread(octets, 1, n, stdin);
    if (ferror(stdin))
        STOP("reading failed: %s", strerror(errno));
    return got;
}

void accepted(const char *step, uint32_t number, uint32_t place)
{
    if (number != LAMPCOIL_ACCEPTED)
        STOP("%s: number %u at %u, %s", step, number, place, lampcoil_refusal_text(number));
}

/* ---- Sound to records ---- */

typedef struct {
    uint32_t kind, channels, group;
    uint8_t status[LAMPCOIL_STATUS_OCTETS];
    uint64_t frame;      /* of the sound, from its beginning */
    uint32_t level, dbn; /* what the next record goes on from */
    uint64_t shortened;  /* samples that had more than 24 bits */
} sender;

static void put_record(uint32_t kind, const uint8_t *payload, size_t n)
{
    size_t length = n + 2;
    const uint8_t head[6] = {0, 0, (uint8_t)(length >> 8), (uint8_t)length, VERSION, (uint8_t)kind};
    put(head, sizeof head);
    put(payload, n);
}

/* Professional use, linear PCM, no emphasis, 48 kHz, words of 24 bits; stereophonic where there are two channels. */
static void label(sender *s)
{
    memset(s->status, 0, sizeof s->status);
    s->status[0] = 0x85;
    s->status[1] = s->channels == 2 ? 0x02 : 0x00;
    s->status[2] = 0x2C;
    lampcoil_verdict v = lampcoil_status_seal(s->status, LAMPCOIL_STATUS_OCTETS);
    ACCEPTED("status seal", v);
}

static void send_aes3(sender *s, const int32_t *samples, uint32_t frames)
{
    uint8_t side[LAMPCOIL_SIDE_OCTETS] = {0}, line[LAMPCOIL_BLOCK_OCTETS];
    memcpy(side + LAMPCOIL_SIDE_C_A, s->status, LAMPCOIL_STATUS_OCTETS);
    memcpy(side + LAMPCOIL_SIDE_C_B, s->status, LAMPCOIL_STATUS_OCTETS);
    for (uint32_t f = frames; f < FRAMES; f++) {
        side[LAMPCOIL_SIDE_V_A + f / 8] |= (uint8_t)(1u << f % 8);
        side[LAMPCOIL_SIDE_V_B + f / 8] |= (uint8_t)(1u << f % 8);
    }
    lampcoil_verdict v = lampcoil_aes3_write(samples, LAMPCOIL_BLOCK_SAMPLES, side, LAMPCOIL_SIDE_OCTETS, s->level,
                                             line, LAMPCOIL_BLOCK_OCTETS);
    ACCEPTED("aes3 write", v);
    s->level = line[LAMPCOIL_BLOCK_OCTETS - 1] & 1u;
    put_record(AES3, line, sizeof line);
}

/* The bodies of one frame; the status goes out a bit in each frame of a block, the same in all channels. */
static void bodies_of(const sender *s, const int32_t *samples, uint32_t f, uint32_t v, uint32_t *bodies)
{
    uint32_t c = s->status[f / 8] >> f % 8 & 1u;
    for (uint32_t channel = 0; channel < s->channels; channel++) {
        lampcoil_body b = lampcoil_body_write(samples[channel], v, 0, c);
        ACCEPTED("body", b);
        bodies[channel] = b.body;
    }
}

/* Every command is the default sync, number 0. */
static void write_frame(uint32_t channels, const uint32_t *words, uint32_t active, uint32_t syncs, uint32_t level,
                        uint8_t *line)
{
    static const uint8_t commands[LAMPCOIL_MADI_MOST_COMMANDS] = {0};
    lampcoil_verdict v = lampcoil_madi_write(channels, words, active, commands, syncs, level, line,
                                             LAMPCOIL_MADI_OCTETS(channels, syncs));
    ACCEPTED("madi write", v);
}

/* A link of 125 Mbit/s has 3,125 symbols of ten bits for every 12 frames at 48 kHz. What the channels, four symbols
   each, leave of a frame's 260 or 261 is filled with sync symbols, as on a real link. */
static void send_madi(sender *s, uint32_t f, uint32_t *words)
{
    uint8_t payload[4 + LAMPCOIL_MADI_OCTETS(MOST_CHANNELS, LAMPCOIL_MADI_MOST_COMMANDS)];
    uint32_t channels = s->channels <= 56 ? 56 : 64;
    uint32_t syncs = (uint32_t)(3125 * (s->frame + 1) / 12 - 3125 * s->frame / 12) - 4 * channels;
    uint32_t bits = LAMPCOIL_MADI_BITS(channels, syncs), octets = LAMPCOIL_MADI_OCTETS(channels, syncs);
    for (uint32_t c = 0; c < s->channels; c++)
        words[c] |= (c % 2 == 0 ? 0 : LAMPCOIL_MADI_B_SUBFRAME) | (f == 0 ? LAMPCOIL_MADI_BLOCK_START : 0);
    payload[0] = (uint8_t)channels;
    payload[1] = (uint8_t)s->level;
    payload[2] = (uint8_t)(bits >> 8);
    payload[3] = (uint8_t)bits;
    write_frame(channels, words, s->channels, syncs, s->level, payload + 4);
    s->level = payload[4 + (bits - 1) / 8] >> (7 - (bits - 1) % 8) & 1u;
    put_record(MADI, payload, 4 + octets);
}

/* The clock phase is the sample's place on its video line, in video clocks: 74.25 MHz has 12,375 clocks for every eight
   frames at 48 kHz, and a line of 1,080 lines at 30 Hz has 2,200. */
static void send_hd(sender *s, uint32_t f, const uint32_t *bodies)
{
    uint16_t words[LAMPCOIL_PACKET_WORDS];
    uint8_t payload[2 * LAMPCOIL_PACKET_WORDS];
    uint32_t phase = (uint32_t)(12375 * s->frame / 8 % 2200), z = f == 0;
    lampcoil_dbn next = lampcoil_hd_next_dbn(s->dbn);
    lampcoil_verdict v = lampcoil_hd_write(s->group, s->dbn, phase, 0, z, z, bodies, LAMPCOIL_PACKET_BODIES, words,
                                           LAMPCOIL_PACKET_WORDS);
    ACCEPTED("hd write", v);
    ACCEPTED("next data block", next);
    s->dbn = next.dbn;
    for (uint32_t w = 0; w < LAMPCOIL_PACKET_WORDS; w++) {
        payload[2 * w] = (uint8_t)(words[w] >> 8);
        payload[2 * w + 1] = (uint8_t)words[w];
    }
    put_record(HD, payload, sizeof payload);
}

/* A block of which the first frames are the sound's and the others, silence here, are marked not valid. */
static void send_block(sender *s, const int32_t *samples, uint32_t frames)
{
    uint32_t bodies[MOST_CHANNELS];
    if (s->kind == AES3) {
        send_aes3(s, samples, frames);
        return;
    }
    for (uint32_t f = 0; f < FRAMES; f++) {
        bodies_of(s, samples + f * s->channels, f, f >= frames, bodies);
        if (s->kind == MADI)
            send_madi(s, f, bodies);
        else
            send_hd(s, f, bodies);
        s->frame++;
    }
}

/* The upper 24 bits. Where there is something below them, it is counted. */
static int32_t sample_of(sender *s, const uint8_t octets[4])
{
    int32_t sample = octets[1] | octets[2] << 8 | octets[3] << 16;
    s->shortened += octets[0] != 0;
    return sample < 0x800000 ? sample : sample - 0x1000000;
}

static int carry_out(sender *s)
{
    static uint8_t octets[4 * FRAMES * MOST_CHANNELS];
    static int32_t samples[FRAMES * MOST_CHANNELS];
    const size_t frame = 4 * (size_t)s->channels, block = FRAMES * frame;
    size_t got;
    label(s);
    do {
        got = take(octets, block);
        for (size_t k = 0; k < block / 4; k++)
            samples[k] = k < got / frame * s->channels ? sample_of(s, octets + 4 * k) : 0;
        if (got >= frame)
            send_block(s, samples, (uint32_t)(got / frame));
    } while (got == block);
    if (got % frame != 0)
        STOP("the sound ends within a frame: %zu octets of %zu; the frames before it were carried", got % frame, frame);
    if (s->shortened != 0)
        tell("%" PRIu64 " samples have a 1 below their upper 24 bits; these are lost", s->shortened);
    return s->shortened != 0 ? LOST : CARRIED;
}

/* ---- The command line ---- */

/* A decimal number in its range; what is not said is `otherwise`. */
static uint32_t number_in(const char *word, const char *name, uint32_t most, uint32_t otherwise)
{
    char *rest;
    if (word == NULL)
        return otherwise;
    unsigned long n = strtoul(word, &rest, 10);
    if (word[0] < '0' || word[0] > '9' || *rest != '\0' || n < 1 || n > most)
        STOP("%s: %s is 1 to %u", word, name, most);
    return (uint32_t)n;
}

int main(int words, char **word)
{
    static char in[1 << 16], out[1 << 16];
    sender s = {.group = 1, .dbn = 1};
    const char *what = words > 1 ? word[1] : "", *more = words > 2 ? word[2] : NULL;
    int status, back = strcmp(what, "back") == 0;
    if (strcmp(what, "aes3") == 0)
        s.kind = AES3;
    else if (strcmp(what, "madi") == 0)
        s.kind = MADI;
    else if (strcmp(what, "hd") == 0)
        s.kind = HD;
    if ((s.kind == NO_KIND && !back) || words > 3 || (more != NULL && s.kind != MADI && s.kind != HD))
        STOP("usage: carry aes3 | carry madi [channels] | carry hd [group] | carry back");
    s.channels = s.kind == MADI ? number_in(more, "channels", MOST_CHANNELS, 2) : in_record[s.kind].channels;
    if (s.kind == HD)
        s.group = number_in(more, "group", 4, 1);
#ifdef SIGPIPE
    signal(SIGPIPE, SIG_IGN); /* a reader that went away is then a write that failed, and is told */
#endif
    setvbuf(stdin, in, _IOFBF, sizeof in);
    setvbuf(stdout, out, _IOFBF, sizeof out);
    status = back ? carry_back() : carry_out(&s);
    if (fflush(stdout) != 0)
        STOP("writing failed: %s", strerror(errno));
    return status;
}
