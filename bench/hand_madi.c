/* MADI by hand. A channel is 40 line bits, five whole octets; a command is ten. */
#include "hand.h"

static const uint16_t table_6[16] = {0x311, 0x3FF, 0x1AD, 0x1B9, 0x3E4, 0x1A7, 0x327, 0x339,
                                     0x084, 0x09F, 0x080, 0x0E7, 0x0F9, 0x004, 0x01F, 0x000};
static const uint8_t five[16] = {30, 9, 20, 21, 10, 11, 14, 15, 18, 19, 22, 23, 26, 27, 28, 29};

#ifdef FORMED
enum { DATA, HALF, NOTHING };
typedef struct { uint8_t kind, four; } symbol;
static uint8_t group[16];       /* the group of four bits as they stand in a word */
static symbol meant[32];        /* what five bits are */
#else
static uint16_t twelve[4096];   /* 15 symbols of three groups, after level 0; the lowest bits first */
static uint16_t eight[256];     /* 10 symbols of two groups */
static uint32_t ten[1024];      /* eight bits of two groups, or NO_GROUP */
static uint32_t back[32];       /* four bits of a group, or NO_GROUP */
#define NO_GROUP 0x80000000u
#endif
static uint16_t command[16];    /* ten symbols of a command, after level 0 */
static uint8_t commanded[1024]; /* the command that ten bits are, or 16 */

static uint32_t turned(uint32_t four)
{
    return (four & 1) << 3 | (four & 2) << 1 | (four & 4) >> 1 | (four & 8) >> 3;
}

/* NRZI over the low `count` bits, the highest first, after level 0. */
static uint32_t levels(uint32_t bits, int count)
{
    uint32_t out = 0, level = 0;
    for (int k = count - 1; k >= 0; k--) {
        level ^= bits >> k & 1;
        out = out << 1 | level;
    }
    return out;
}

void hand_init_madi(void)
{
#ifdef FORMED
    for (uint32_t x = 0; x < 32; x++)
        meant[x] = (symbol){NOTHING, 0};
    for (uint32_t x = 0; x < 16; x++) {
        group[x] = five[turned(x)];
        meant[five[x]] = (symbol){DATA, (uint8_t)turned(x)};
        meant[table_6[x] >> 5] = meant[table_6[x] & 31] = (symbol){HALF, 0};
    }
#else
    for (uint32_t x = 0; x < 32; x++)
        back[x] = NO_GROUP;
    for (uint32_t x = 0; x < 16; x++)
        back[five[x]] = turned(x);
    for (uint32_t x = 0; x < 4096; x++)
        twelve[x] = (uint16_t)levels((uint32_t)five[turned(x & 15)] << 10 | (uint32_t)five[turned(x >> 4 & 15)] << 5 |
                                     five[turned(x >> 8)], 15);
    for (uint32_t x = 0; x < 256; x++)
        eight[x] = (uint16_t)levels((uint32_t)five[turned(x & 15)] << 5 | five[turned(x >> 4)], 10);
    for (uint32_t x = 0; x < 1024; x++)
        ten[x] = (back[x >> 5] | back[x & 31]) & NO_GROUP ? NO_GROUP : back[x >> 5] | back[x & 31] << 4;
#endif
    for (uint32_t x = 0; x < 1024; x++)
        commanded[x] = 16;
    for (uint32_t x = 0; x < 16; x++) {
        command[x] = (uint16_t)levels(table_6[x], 10);
        commanded[table_6[x]] = (uint8_t)x;
    }
}

static inline lampcoil_verdict verdict(uint32_t number, uint32_t place)
{
    lampcoil_verdict v = {number, place};
    return v;
}

/* 9 and 12 over all words. */
static lampcoil_verdict judge(const uint32_t *words, size_t n)
{
    uint32_t low = 0, odds = 0;
    for (size_t c = 0; c < n; c++) {
        low |= words[c];
#ifdef FORMED
        odds |= odd(words[c]);
#else
        uint32_t x = words[c] & 0xFFFFFFF0u;
        x ^= x >> 16;
        x ^= x >> 8;
        x ^= x >> 4;
        x ^= x >> 2;
        odds |= x ^ x >> 1;
#endif
    }
    if (((low & 3) | (odds & 1)) == 0)
        return verdict(0, 0);
    for (uint32_t c = 0; c < n; c++)
        if (odd(words[c]))
            return verdict(9, c);
    for (uint32_t c = 0; c < n; c++)
        if ((words[c] & 3) != 0)
            return verdict(12, c);
    return verdict(0, 0);
}

/* The 40 symbols of a channel after a level that is 0 or all ones. */
#ifdef FORMED
static inline uint64_t channel(uint32_t word, uint64_t level)
{
    uint64_t x = 0;
    for (int k = 0; k < 32; k += 4)
        x |= (uint64_t)group[word >> k & 15] << (35 - 5 * k / 4);
    x ^= x >> 1;
    x ^= x >> 2;
    x ^= x >> 4;
    x ^= x >> 8;
    x ^= x >> 16;
    return (x ^ x >> 32 ^ level) & 0xFFFFFFFFFFu;
}
#else
static inline uint64_t channel(uint32_t word, uint64_t level)
{
    uint64_t a = twelve[word & 4095] ^ (level & 0x7FFF);
    uint64_t b = twelve[word >> 12 & 4095] ^ (-(a & 1) & 0x7FFF);
    uint64_t c = eight[word >> 24] ^ (-(b & 1) & 0x3FF);
    return a << 25 | b << 10 | c;
}
#endif

static inline void store_five(uint8_t *p, uint64_t x)
{
    for (int k = 0; k < 5; k++)
        p[k] = (uint8_t)(x >> (32 - 8 * k));
}

/* The 40 symbols of four commands, after a level. */
static inline uint64_t four_of(const uint8_t *commands, uint64_t now)
{
    uint64_t x = 0;
    for (int k = 0; k < 4; k++) {
        uint64_t one = command[commands[k]] ^ (now & 0x3FF);
        x = x << 10 | one;
        now = -(one & 1);
    }
    return x;
}

/* Commands, four to five octets; the last octet's spare bits are 0. */
static void put_commands(uint8_t *line, const uint8_t *commands, size_t n, uint64_t now)
{
    uint8_t rest[4] = {0};
    for (; n >= 4; n -= 4, commands += 4, line += 5) {
        uint64_t x = four_of(commands, now);
        store_five(line, x);
        now = -(x & 1);
    }
    memcpy(rest, commands, n);
    uint64_t x = n == 0 ? 0 : four_of(rest, now) & ~(uint64_t)0 << (40 - 10 * n);
    for (size_t k = 0; k < (10 * n + 7) / 8; k++)
        line[k] = (uint8_t)(x >> (32 - 8 * k));
}

static int is_list(const uint8_t *commands, size_t n)
{
    uint32_t high = 0, zero = 0;
    if (n - 1 > 254)
        return 0;
    for (size_t k = 0; k < n; k++) {
        high |= commands[k];
        zero |= commands[k] == 0;
    }
    return high < 16 && zero;
}

lampcoil_verdict hand_madi_write(uint32_t channels, const uint32_t *words, size_t words_len, const uint8_t *commands,
                                 size_t commands_len, uint32_t level, uint8_t *line, size_t line_len)
{
    if ((channels != 56 && channels != 64) || words_len - 1 >= channels || !is_list(commands, commands_len) || level > 1)
        return verdict(2, 0);
    if (line_len < (40 * channels + 10 * commands_len + 7) / 8)
        return verdict(1, 0);
    lampcoil_verdict v = judge(words, words_len);
    if (v.number != 0)
        return v;
    uint64_t now = 0 - (uint64_t)level, first = 3;
    uint32_t c = 0;
    /* eight octets at once: the next channel writes over the last three, so the last channel of all is written apart */
    for (; c < words_len && c < channels - 1; c++, line += 5) {
        uint64_t x = channel(words[c] | (uint32_t)first, now);
        store_be64(line, x << 24);
        now = -(x & 1);
        first = 2;
    }
    for (; c < channels; c++, line += 5) {
        uint64_t x = channel(c < words_len ? words[c] | (uint32_t)first : 0, now);
        store_five(line, x);
        now = -(x & 1);
    }
    put_commands(line, commands, commands_len, now);
    return v;
}

typedef struct { uint32_t words[64], read, active, came, synced; uint8_t commands[255]; } frame;

#ifdef FORMED
/* The symbol reader: data, half of a command symbol, or nothing. */
static inline symbol read_symbol(uint64_t five_bits)
{
    return meant[five_bits & 31];
}

/* The 40 bits at `at` as a word of the frame, its groups by the symbol reader: 11, 12, 9. */
static inline lampcoil_verdict take_channel(frame *f, uint64_t x, uint32_t at)
{
    uint32_t word = 0;
    for (uint32_t g = 0; g < 8; g++) {
        symbol s = read_symbol(x >> (35 - 5 * g));
        if (s.kind != DATA)
            return verdict(11, at + 5 * g);
        word |= (uint32_t)s.four << 4 * g;
    }
    if ((word & 1) != (f->read == 0))
        return verdict(12, f->read);
    if ((word & 2) != 0 ? f->active != f->read : word != 0)
        return verdict(12, f->read);
    if (odd(word))
        return verdict(9, f->read);
    f->active += (word & 2) >> 1;
    f->words[f->read++] = word & ~3u;
    return verdict(0, 0);
}

/* At each boundary the symbol reader says what comes: data a channel, half of a command symbol a command. */
static lampcoil_verdict take_frame(frame *f, const uint8_t *line, uint32_t channels, uint64_t level, uint32_t bits)
{
    uint32_t at = 0;
    while (at < bits) {
        uint64_t x = load_be64(line + at / 8) << at % 8 >> 24;   /* 40 symbols; level: the one before */
        uint64_t change = (x ^ (x >> 1 | level << 39)) & 0xFFFFFFFFFFu;
        symbol s = read_symbol(change >> 35);
        uint32_t c = s.kind == HALF ? commanded[change >> 30] : 16;
        if (c < 16 && bits - at >= 10) {
            if (f->came == 255)
                return verdict(10, at);
            f->commands[f->came++] = (uint8_t)c;
            f->synced |= c == 0;
            level = x >> 30 & 1;
            at += 10;
            continue;
        }
        if (bits - at < 40 || f->read == channels)
            return verdict(10, at);
        if (s.kind != DATA)
            return verdict(11, at);
        lampcoil_verdict v = take_channel(f, change, at);
        if (v.number != 0)
            return v;
        level = x & 1;
        at += 40;
    }
    return f->read < channels || !f->synced ? verdict(10, bits) : verdict(0, 0);
}
#else
/* 11, 12 and 9 of a channel that the quick test has turned away. */
static lampcoil_verdict broken(uint64_t x, uint32_t at, uint32_t c, uint32_t active)
{
    uint32_t word = 0;
    for (uint32_t g = 0; g < 8; g++) {
        uint32_t four = back[x >> (35 - 5 * g) & 31];
        if (four & NO_GROUP)
            return verdict(11, at + 5 * g);
        word |= four << 4 * g;
    }
    if ((word & 1) != (c == 0) || (c == 0 && (word & 2) == 0) || ((word & 2) != 0 && active < c) || ((word & 2) == 0 && word != 0))
        return verdict(12, c);
    return verdict(9, c);
}

/* The 40 bits at `at` as a word of the frame. */
static inline lampcoil_verdict take_channel(frame *f, uint64_t x, uint32_t at)
{
    uint32_t a = ten[x >> 30], b = ten[x >> 20 & 1023], c = ten[x >> 10 & 1023], d = ten[x & 1023];
    uint32_t word = a | b << 8 | c << 16 | d << 24, bad = (a | b | c | d) & NO_GROUP;
    if ((word & 2) != 0) {
        bad |= (word & 1) ^ (f->read == 0);
        bad |= (f->active ^ f->read) | odd(word);
        f->active++;
    } else
        bad |= word | (f->read == 0);
    if (bad != 0)
        return broken(x, at, f->read, f->active - ((word & 2) >> 1));
    f->words[f->read++] = word & ~3u;
    return verdict(0, 0);
}

static lampcoil_verdict take_frame(frame *f, const uint8_t *line, uint32_t channels, uint64_t level, uint32_t bits)
{
    uint32_t at = 0;
    while (at < bits) {
        uint64_t x = load_be64(line + at / 8) << at % 8 >> 24;   /* 40 symbols; level: the one before */
        uint64_t change = (x ^ (x >> 1 | level << 39)) & 0xFFFFFFFFFFu;
        uint32_t c = commanded[change >> 30];
        if (c < 16 && bits - at >= 10) {
            if (f->came == 255)
                return verdict(10, at);
            f->commands[f->came++] = (uint8_t)c;
            f->synced |= c == 0;
            level = x >> 30 & 1;
            at += 10;
        } else {
            if (bits - at < 40 || f->read == channels)
                return verdict(10, at);
            lampcoil_verdict v = take_channel(f, change, at);
            if (v.number != 0)
                return v;
            level = x & 1;
            at += 40;
        }
    }
    return f->read < channels || !f->synced ? verdict(10, bits) : verdict(0, 0);
}
#endif

lampcoil_madi_read_answer hand_madi_read(uint32_t channels, uint32_t level, uint32_t bits, const uint8_t *line, size_t line_len,
                                         uint32_t *words, size_t words_len, uint8_t *commands, size_t commands_len)
{
    lampcoil_madi_read_answer r = {0, 0, 0, 0};
    uint8_t room[648];
    frame f;
    if ((channels != 56 && channels != 64) || level > 1 || bits > 5110) {
        r.number = 2;
        return r;
    }
    if (line_len != (bits + 7) / 8 || words_len != channels || commands_len != 255) {
        r.number = 1;
        return r;
    }
    if (bits % 8 != 0 && (line[line_len - 1] & 0xFF >> bits % 8) != 0) {
        r.number = 2;
        return r;
    }
    if (line_len != 0)
        memcpy(room, line, line_len);
    memset(room + line_len, 0, 8);
    f.read = f.active = f.came = f.synced = 0;
    memset(f.commands, 0, sizeof f.commands);
    lampcoil_verdict v = take_frame(&f, room, channels, level, bits);
    r.number = v.number;
    r.place = v.place;
    if (v.number != 0)
        return r;
    memcpy(words, f.words, channels * sizeof words[0]);
    memcpy(commands, f.commands, sizeof f.commands);
    r.active = f.active;
    r.commands = f.came;
    return r;
}
