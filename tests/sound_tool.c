/* What tests/sound needs beside sox and carry, written without the library:
     sound_tool tone FRAMES     two channels, a tone and noise, 24 bits left-justified in 32: where there is no sox
     sound_tool damage EVERY    copies records; of every EVERYth one it turns one symbol, MADI bit or packet place over
     sound_tool line            how many records there are, and how many bits they have on the line */
#include <stdint.h>
#include <stdio.h>
#include <stdlib.h>
#include <string.h>

enum { AES3 = 1, HD = 2, MADI = 3, MOST = 8192 };

static uint32_t state = 1873;

static uint32_t draw(void)
{
    state = state * 1664525u + 1013904223u;
    return state / 256u;
}

static int put_24(uint32_t sample)
{
    const uint8_t octets[4] = {0, (uint8_t)sample, (uint8_t)(sample >> 8), (uint8_t)(sample >> 16)};
    return fwrite(octets, 1, 4, stdout) == 4;
}

/* The tone goes up and down 997 times in 48,000 frames. */
static int tone(unsigned long frames)
{
    uint32_t phase = 0;
    for (unsigned long f = 0; f < frames; f++) {
        uint32_t up = phase < 0x80000000u ? phase : ~phase;
        if (!put_24((up >> 8) - 0x400000u) || !put_24((draw() & 0xFFFFFFu)))
            return 0;
        phase += 89209635u;
    }
    return 1;
}

/* One record: its length, version, kind and payload as they stand. 0 at the end. */
static size_t take_record(uint8_t record[4 + MOST])
{
    if (fread(record, 1, 4, stdin) != 4)
        return 0;
    size_t length = (size_t)record[2] << 8 | record[3];
    if (record[0] != 0 || record[1] != 0 || length < 2 || length > MOST)
        return 0;
    return fread(record + 4, 1, length, stdin) == length ? 4 + length : 0;
}

/* The bits of a record that are on the line: of a packet ten for each word. */
static uint32_t bits_of(const uint8_t *record, size_t n)
{
    uint32_t payload = (uint32_t)(n - 6);
    return record[5] == MADI ? (uint32_t)record[8] << 8 | record[9] : record[5] == HD ? 5 * payload : 8 * payload;
}

/* A symbol or a bit anywhere on the line; of a packet a place of a lane, that is, bits 0 to 7 of words 0 to 29. */
static void damage(uint8_t *record, size_t n)
{
    uint32_t at = draw() % (record[5] == HD ? 240 : bits_of(record, n));
    if (record[5] == HD)
        record[6 + 2 * (at / 8) + 1] ^= (uint8_t)(1u << at % 8);
    else
        record[(record[5] == MADI ? 10 : 6) + at / 8] ^= (uint8_t)(0x80u >> at % 8);
}

static int damage_each(unsigned long every)
{
    static uint8_t record[4 + MOST];
    unsigned long k = 0;
    for (size_t n; (n = take_record(record)) != 0;) {
        if (++k % every == 0)
            damage(record, n);
        if (fwrite(record, 1, n, stdout) != n)
            return 0;
    }
    return feof(stdin) != 0;
}

static int line(void)
{
    static uint8_t record[4 + MOST];
    unsigned long records = 0;
    unsigned long long bits = 0;
    for (size_t n; (n = take_record(record)) != 0; records++)
        bits += bits_of(record, n);
    return feof(stdin) != 0 && printf("%lu %llu\n", records, bits) > 0;
}

int main(int words, char **word)
{
    unsigned long n = words == 3 ? strtoul(word[2], NULL, 10) : 0;
    int well = 0;
    if (words == 3 && strcmp(word[1], "tone") == 0)
        well = tone(n);
    else if (words == 3 && strcmp(word[1], "damage") == 0 && n > 0)
        well = damage_each(n);
    else if (words == 2 && strcmp(word[1], "line") == 0)
        well = line();
    return well && fflush(stdout) == 0 ? 0 : 1;
}
