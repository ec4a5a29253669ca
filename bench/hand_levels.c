/* The level sheet by hand: a block's samples in one pass that the compiler makes vectors of, frames by words of 64 bits. */
#include "hand.h"

enum { SHEET = 20, SAMPLES = 384, SIDE = 192 };

static const int64_t most = (int64_t)1 << 32;

/* The octet that the CRCC's stages are sent as, after one more octet. */
#ifdef FORMED
void hand_init_levels(void)
{
}

static inline uint8_t next_of(uint8_t r, uint8_t octet)
{
    for (int k = 0; k < 8; k++)
        r = (uint8_t)(r >> 1 ^ ((r ^ octet >> k) & 1) * 0xB8);
    return r;
}
#else
static uint8_t next[256];

void hand_init_levels(void)
{
    for (int n = 0; n < 256; n++) {
        uint32_t r = (uint32_t)n;
        for (int k = 0; k < 8; k++)
            r = r & 1 ? r >> 1 ^ 0xB8 : r >> 1;
        next[n] = (uint8_t)r;
    }
}

static inline uint8_t next_of(uint8_t r, uint8_t octet)
{
    return next[r ^ octet];
}
#endif

static int within(int64_t n, int64_t low, int64_t high)
{
    return (uint64_t)(n - low) <= (uint64_t)(high - low);
}

/* What is judged of a channel of a sheet. */
static int sound(const int64_t *n)
{
    int64_t count = n[0];
    if (!within(count, 0, most))
        return 0;
    int counts = within(n[6], 0, count) & within(n[7], 0, count) & within(n[8], 0, count) & within(n[9], 0, count);
    if (count == 0)
        return counts & ((n[1] ^ 1) == 0) & ((n[2] | n[3] | n[4] | n[5]) == 0);
    return counts & (n[1] == 0) & within(n[2], -8388608, 8388607) & within(n[3], -8388608, 8388607) & within(n[4], 0, 8388608) &
           (n[5] >= -8388608 * count) & (n[5] <= 8388608 * count);
}

typedef struct { int32_t smallest, largest, sum, ends; } figures;

/* Of samples in range, of which 32 bits hold every sum; the sum of others wraps, and is not used. */
static figures gathered(const int32_t *samples)
{
    int32_t smallest = samples[0], largest = samples[0];
    uint32_t sum = 0, ends = 0;
    for (int k = 0; k < SAMPLES; k += 2) {
        int32_t x = samples[k];
        smallest = x < smallest ? x : smallest;
        largest = x > largest ? x : largest;
        sum += (uint32_t)x;
        ends += (x == 8388607) | (x == -8388608);
    }
    return (figures){smallest, largest, (int32_t)sum, (int32_t)ends};
}

static int64_t ones(const uint8_t *column)
{
    uint64_t w[3];
    memcpy(w, column, sizeof w);
    return __builtin_popcountll(w[0]) + __builtin_popcountll(w[1]) + __builtin_popcountll(w[2]);
}

static void add(int64_t *n, figures f, const uint8_t *columns, int64_t right)
{
    int64_t low = f.smallest, high = f.largest, magnitude = -low > high ? -low : high;
    if (n[0] == 0) {
        n[1] = 0;
        n[2] = low;
        n[3] = high;
    } else {
        n[2] = low < n[2] ? low : n[2];
        n[3] = high > n[3] ? high : n[3];
    }
    n[0] += 192;
    n[4] = magnitude > n[4] ? magnitude : n[4];
    n[5] += f.sum;
    n[6] += f.ends;
    n[7] += ones(columns);
    n[8] += ones(columns + 72);
    n[9] += right;
}

lampcoil_verdict hand_level_add(int64_t *sheet, size_t sheet_len, const int32_t *samples, size_t samples_len, const uint8_t *side,
                                size_t side_len)
{
    if (sheet_len != SHEET || samples_len != SAMPLES || side_len != SIDE)
        return (lampcoil_verdict){1, 0};
    if (!sound(sheet) || !sound(sheet + 10))
        return (lampcoil_verdict){2, 0};
    figures a = gathered(samples), b = gathered(samples + 1);
    if ((a.smallest < -8388608) | (a.largest > 8388607) | (b.smallest < -8388608) | (b.largest > 8388607))
        for (uint32_t k = 0; k < SAMPLES; k++)
            if (samples[k] < -8388608 || samples[k] > 8388607)
                return (lampcoil_verdict){3, k};
    if (sheet[0] > most - 192 || sheet[10] > most - 192)
        return (lampcoil_verdict){22, 0};
    const uint8_t *p = side + 48, *q = side + 144;
    uint8_t r = 0xFF, t = 0xFF;
    for (int k = 0; k < 23; k++) {
        r = next_of(r, p[k]);
        t = next_of(t, q[k]);
    }
    add(sheet, a, side, r == p[23]);
    add(sheet + 10, b, side + 96, t == q[23]);
    return (lampcoil_verdict){0, 0};
}

/* A channel of one sheet with that of another. */
static void join(int64_t *n, const int64_t *m)
{
    if (m[0] == 0)
        return;
    if (n[0] == 0) {
        memcpy(n, m, 10 * sizeof n[0]);
        return;
    }
    n[0] += m[0];
    n[2] = m[2] < n[2] ? m[2] : n[2];
    n[3] = m[3] > n[3] ? m[3] : n[3];
    n[4] = m[4] > n[4] ? m[4] : n[4];
    for (int k = 5; k < 10; k++)
        n[k] += m[k];
}

lampcoil_verdict hand_level_join(int64_t *sheet, size_t sheet_len, const int64_t *later, size_t later_len)
{
    if (sheet_len != SHEET || later_len != SHEET)
        return (lampcoil_verdict){1, 0};
    if (!sound(sheet) || !sound(sheet + 10) || !sound(later) || !sound(later + 10))
        return (lampcoil_verdict){2, 0};
    if (sheet[0] + later[0] > most || sheet[10] + later[10] > most)
        return (lampcoil_verdict){22, 0};
    join(sheet, later);
    join(sheet + 10, later + 10);
    return (lampcoil_verdict){0, 0};
}
