/* What tests/night needs beside hub, written without the library:
     night_tool sound T FRAMES            two channels of 16 bits for tenant T, a tone and noise, left-justified in 32
     night_tool compare T PATH IN OUT     reads hub's figures: OUT is IN as far as it goes, but for frames of the blocks
                                          that are listed as lost or patched for tenant T on PATH, and no more frames
                                          of them than are listed */
#include <stdint.h>
#include <stdio.h>
#include <stdlib.h>
#include <string.h>

enum { FRAMES = 192, BLOCK = 8 * FRAMES, MOST = 1 << 20 };

static uint32_t state = 1873;

static uint32_t draw(void)
{
    state = state * 1664525u + 1013904223u;
    return state >> 16;
}

static int put_16(uint32_t sample)
{
    const uint8_t octets[4] = {0, 0, (uint8_t)sample, (uint8_t)(sample >> 8)};
    return fwrite(octets, 1, 4, stdout) == 4;
}

/* A tenant's tone is as many times 300 Hz high, and its noise is softer by a half for each tenant before it. */
static int sound(uint32_t t, unsigned long frames)
{
    uint32_t phase = 0;
    state += t;
    for (unsigned long f = 0; f < frames; f++) {
        uint32_t up = phase < 0x80000000u ? phase : ~phase;
        if (!put_16((up >> 16) - 0x4000u) || !put_16((draw() & 0xFFFFu >> t) - (0x8000u >> t)))
            return 0;
        phase += t * 26843546u;
    }
    return 1;
}

/* The frames that the figures list as lost, by the tenant's own blocks. */
static int listed(uint32_t t, const char *path, uint8_t *lost)
{
    static char line[1024];
    while (fgets(line, sizeof line, stdin) != NULL) {
        unsigned long block, own, tenant, count, until;
        char which[16];
        if (sscanf(line, "patched %lu %lu %lu", &tenant, &own, &until) == 3 && tenant == t && strcmp(path, "aes3") == 0)
            for (; own < until && own < MOST; own++)
                lost[own] = FRAMES;
        if (sscanf(line, "lost %lu %lu %lu %15s %lu", &block, &own, &tenant, which, &count) != 5)
            continue;
        if (own >= MOST || count > FRAMES)
            return 0;
        if (tenant == t && strcmp(which, path) == 0)
            lost[own] = (uint8_t)count;
    }
    return !ferror(stdin);
}

static int compare(uint32_t t, const char *path, FILE *in, FILE *out)
{
    static uint8_t lost[MOST], a[BLOCK], b[BLOCK];
    unsigned long blocks = 0, others = 0;
    if (!listed(t, path, lost))
        return 0;
    for (size_t got; (got = fread(b, 1, BLOCK, out)) != 0; blocks++) {
        unsigned differing = 0;
        if (got % 8 != 0 || blocks == MOST || fread(a, 1, got, in) != got)
            return 0;
        for (size_t k = 0; k < got; k += 8)
            differing += memcmp(a + k, b + k, 8) != 0;
        if (differing > lost[blocks]) {
            fprintf(stderr, "night_tool: tenant %u, %s, block %lu: %u frames differ, %u are listed\n", t, path, blocks,
                    differing, lost[blocks]);
            return 0;
        }
        others += differing;
    }
    printf("tenant %u, %s: %lu blocks as sent, but for %lu frames that are listed\n", t, path, blocks, others);
    return blocks > 0 && !ferror(in) && !ferror(out);
}

int main(int words, char **word)
{
    int well = 0;
    if (words == 4 && strcmp(word[1], "sound") == 0)
        well = sound((uint32_t)strtoul(word[2], NULL, 10), strtoul(word[3], NULL, 10));
    else if (words == 6 && strcmp(word[1], "compare") == 0) {
        FILE *in = fopen(word[4], "rb"), *out = fopen(word[5], "rb");
        well = in != NULL && out != NULL && compare((uint32_t)strtoul(word[2], NULL, 10), word[3], in, out);
        if (in != NULL)
            fclose(in);
        if (out != NULL)
            fclose(out);
    }
    return well && fflush(stdout) == 0 ? 0 : 1;
}
