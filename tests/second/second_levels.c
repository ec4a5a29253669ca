/* The second program's level sheet: sheets of two channels, ten numbers each, in the order of the header. */
#include "second.h"

enum { LINES = 10, SHEET = 20, SAMPLES = 384, SIDE = 192, FRAMES = 192 };

static const int64_t MOST_SAMPLES = (int64_t)1 << 32;

/* A channel's numbers by name, in the order of the sheet. */
typedef struct { int64_t samples, absent, smallest, largest, magnitude, sum, ends, v_frames, e_frames, right_blocks; } channel;

static channel taken(const int64_t *sheet, int c)
{
    const int64_t *n = sheet + LINES * c;
    channel r = {n[0], n[1], n[2], n[3], n[4], n[5], n[6], n[7], n[8], n[9]};
    return r;
}

static void put(int64_t *sheet, int c, channel r)
{
    const int64_t n[LINES] = {r.samples, r.absent,   r.smallest, r.largest,  r.magnitude,
                              r.sum,     r.ends,     r.v_frames, r.e_frames, r.right_blocks};
    for (int k = 0; k < LINES; k++)
        sheet[LINES * c + k] = n[k];
}

static int between(int64_t low, int64_t n, int64_t high)
{
    return low <= n && n <= high;
}

/* What is judged of a sheet that is handed in. */
static int in_range(channel r)
{
    if (!between(0, r.samples, MOST_SAMPLES))
        return 0;
    if (!between(0, r.ends, r.samples) || !between(0, r.v_frames, r.samples) || !between(0, r.e_frames, r.samples) ||
        !between(0, r.right_blocks, r.samples))
        return 0;
    if (!between(-8388608 * r.samples, r.sum, 8388608 * r.samples))
        return 0;
    if (r.samples == 0)
        return r.absent == 1 && r.smallest == 0 && r.largest == 0 && r.magnitude == 0;
    return r.absent == 0 && between(-8388608, r.smallest, 8388607) && between(-8388608, r.largest, 8388607) &&
           between(0, r.magnitude, 8388608);
}

static int sheet_in_range(const int64_t *sheet)
{
    return in_range(taken(sheet, 0)) && in_range(taken(sheet, 1));
}

static channel empty(void)
{
    channel r = {0, 1, 0, 0, 0, 0, 0, 0, 0, 0};
    return r;
}

static int64_t smaller(int64_t a, int64_t b)
{
    return a < b ? a : b;
}

static int64_t larger(int64_t a, int64_t b)
{
    return a > b ? a : b;
}

/* The channel of both stretches. */
static channel joined(channel a, channel b)
{
    channel r;
    if (a.samples == 0)
        return b;
    if (b.samples == 0)
        return a;
    r.samples = a.samples + b.samples;
    r.absent = 0;
    r.smallest = smaller(a.smallest, b.smallest);
    r.largest = larger(a.largest, b.largest);
    r.magnitude = larger(a.magnitude, b.magnitude);
    r.sum = a.sum + b.sum;
    r.ends = a.ends + b.ends;
    r.v_frames = a.v_frames + b.v_frames;
    r.e_frames = a.e_frames + b.e_frames;
    r.right_blocks = a.right_blocks + b.right_blocks;
    return r;
}

/* The channel of one sample, without its frame's bits. */
static channel of_sample(int64_t sample)
{
    channel r = {1, 0, sample, sample, sample < 0 ? -sample : sample, sample, 0, 0, 0, 0};
    if (sample == 8388607 || sample == -8388608)
        r.ends = 1;
    return r;
}

/* How many of the 192 frames have their bit set in the column that begins at an octet. */
static int64_t frames_set(const uint8_t *column)
{
    int64_t n = 0;
    for (int frame = 0; frame < FRAMES; frame++)
        n += second_bit(column[frame / 8], frame % 8);
    return n;
}

/* The channel of one block: V, U, C and E of A begin at octets 0, 24, 48 and 72, those of B 96 octets after them. */
static channel of_block(const int32_t *samples, const uint8_t *side, int c)
{
    const uint8_t *columns = side + 96 * c;
    channel r = empty();
    for (int frame = 0; frame < FRAMES; frame++)
        r = joined(r, of_sample(samples[2 * frame + c]));
    r.v_frames = frames_set(columns);
    r.e_frames = frames_set(columns + 72);
    r.right_blocks = (int64_t)second_status_right(columns + 48, 24).right;
    return r;
}

second_verdict second_level_start(int64_t *sheet, size_t sheet_len)
{
    second_verdict r = {0, 0};
    if (sheet_len != SHEET)
        r.number = 1;
    else
        for (int c = 0; c < 2; c++)
            put(sheet, c, empty());
    return r;
}

second_verdict second_level_add(int64_t *sheet, size_t sheet_len, const int32_t *samples, size_t samples_len, const uint8_t *side,
                                size_t side_len)
{
    second_verdict r = {0, 0};
    if (sheet_len != SHEET || samples_len != SAMPLES || side_len != SIDE) {
        r.number = 1;
        return r;
    }
    if (!sheet_in_range(sheet)) {
        r.number = 2;
        return r;
    }
    for (uint32_t k = 0; k < SAMPLES; k++)
        if (!between(-8388608, samples[k], 8388607)) {
            r.number = 3;
            r.place = k;
            return r;
        }
    for (int c = 0; c < 2; c++)
        if (taken(sheet, c).samples + FRAMES > MOST_SAMPLES) {
            r.number = 22;
            return r;
        }
    for (int c = 0; c < 2; c++)
        put(sheet, c, joined(taken(sheet, c), of_block(samples, side, c)));
    return r;
}

second_verdict second_level_join(int64_t *sheet, size_t sheet_len, const int64_t *later, size_t later_len)
{
    second_verdict r = {0, 0};
    if (sheet_len != SHEET || later_len != SHEET) {
        r.number = 1;
        return r;
    }
    if (!sheet_in_range(sheet) || !sheet_in_range(later)) {
        r.number = 2;
        return r;
    }
    for (int c = 0; c < 2; c++)
        if (taken(sheet, c).samples + taken(later, c).samples > MOST_SAMPLES) {
            r.number = 22;
            return r;
        }
    for (int c = 0; c < 2; c++)
        put(sheet, c, joined(taken(sheet, c), taken(later, c)));
    return r;
}
