/* Comparing the level sheet: sheets of blocks and sheets at every limit, added to and joined, in every order. */
#include "compare.h"
#include <string.h>

enum { SHEET = 20, STRETCH = 5 };

static const int64_t most = (int64_t)1 << 32;

static int32_t samples[400];
static uint8_t side[200];
static int64_t sheet[SHEET + 4], later[SHEET + 4];

/* A block that is accepted: loud, quiet or at the ends, with few frames or many set. */
static void draw_block(void)
{
    uint32_t loud = once_in(3) ? 16777216 : once_in(2) ? 4 : 65536;
    for (int k = 0; k < 400; k++)
        samples[k] = once_in(50) ? (once_in(2) ? 8388607 : -8388608) : (int32_t)(below(loud)) - (int32_t)(loud / 2);
    if (once_in(16))
        for (int k = 0; k < 400; k++)
            samples[k] = once_in(2) ? 8388607 : 8388606;
    if (once_in(16))
        for (int k = 0; k < 400; k++)
            samples[k] = once_in(2) ? -8388608 : -8388607;
    random_octets(side, sizeof side);
    for (int k = 0; k < 2; k++)
        if (once_in(2))
            random_status(side + 96 * k + 48);
    if (once_in(4))
        memset(side + 96 * below(2) + 24 * below(4), once_in(2) ? 0xFF : 0, 24);
}

/* A channel of n samples, each number anywhere in its range or at one end of it. */
static int64_t drawn(int64_t low, int64_t high)
{
    if (once_in(4))
        return low;
    if (once_in(4))
        return high;
    return low + (int64_t)((((uint64_t)draw() << 32) + draw()) % ((uint64_t)(high - low) + 1));
}

static void draw_channel(int64_t *n, int64_t count)
{
    int64_t some = count > 0;
    n[0] = count;
    n[1] = 1 - some;
    n[2] = drawn(-8388608 * some, 8388607 * some);
    n[3] = drawn(-8388608 * some, 8388607 * some);
    n[4] = drawn(0, 8388608 * some);
    n[5] = drawn(-8388608 * count, 8388608 * count);
    for (int k = 6; k < 10; k++)
        n[k] = drawn(0, count);
}

static int64_t draw_count(void)
{
    switch (below(6)) {
    case 0:
        return 0;
    case 1:
        return most;
    case 2:
        return most - 192 + (int64_t)below(3) - 1;
    case 3:
        return most / 2 + (int64_t)below(3) - 1;
    case 4:
        return 192 * (int64_t)below(1000);
    default:
        return (int64_t)draw();
    }
}

static void draw_sheet(int64_t *s)
{
    for (int c = 0; c < 2; c++)
        draw_channel(s + 10 * c, draw_count());
    for (int k = SHEET; k < SHEET + 4; k++)
        s[k] = (int64_t)draw();
}

/* One number just beyond its limit, or anywhere. */
static void spoil_sheet(int64_t *s)
{
    int64_t *n = s + 10 * below(2);
    switch (below(8)) {
    case 0:
        n[0] = once_in(2) ? most + 1 : -1;
        break;
    case 1:
        n[1] = once_in(4) ? 2 : once_in(2) ? -1 : 1 - n[1];
        break;
    case 2:
        n[2 + below(2)] = once_in(2) ? 8388608 : -8388609;
        break;
    case 3:
        n[4] = once_in(2) ? 8388609 : -1;
        break;
    case 4:
        n[5] = once_in(2) ? 8388608 * n[0] + 1 : -8388608 * n[0] - 1;
        break;
    case 5:
        n[6 + below(4)] = once_in(2) ? n[0] + 1 : -1;
        break;
    case 6:
        n[below(10)] = once_in(2) ? INT64_MIN : INT64_MAX;
        break;
    default:
        n[below(10)] = (int64_t)(((uint64_t)draw() << 32) + draw());
        break;
    }
}

static void level_start(void)
{
    draw_sheet(sheet);
    begin("level_start");
    lent s = lend_both("sheet", sheet, any_length(SHEET), 8);
    lampcoil_verdict a = lampcoil_level_start(s.library, s.elements);
    second_verdict b = second_level_start(s.second, s.elements);
    END(a, b);
}

static void add_now(size_t n, size_t m, size_t t)
{
    begin("level_add");
    lent s = lend_both("sheet", sheet, n, 8);
    lent x = lend_in("samples", samples, m, 4);
    lent y = lend_in("side", side, t, 1);
    lampcoil_verdict a = lampcoil_level_add(s.library, s.elements, x.library, x.elements, y.library, y.elements);
    second_verdict b = second_level_add(s.second, s.elements, x.second, x.elements, y.second, y.elements);
    END(a, b);
}

static void level_add(void)
{
    static const int32_t outside[] = {8388608, -8388609, INT32_MAX, INT32_MIN, 16777215};
    draw_block();
    draw_sheet(sheet);
    if (once_in(4))
        spoil_sheet(sheet);
    for (uint32_t k = once_in(4) ? 1 + below(2) : 0; k > 0; k--)
        samples[below(384)] = outside[below(5)];
    add_now(any_length(SHEET), any_length(384), any_length(192));
}

static void join_now(size_t n, size_t m)
{
    begin("level_join");
    lent s = lend_both("sheet", sheet, n, 8);
    lent t = lend_in("later", later, m, 8);
    lampcoil_verdict a = lampcoil_level_join(s.library, s.elements, t.library, t.elements);
    second_verdict b = second_level_join(s.second, s.elements, t.second, t.elements);
    END(a, b);
}

static void level_join(void)
{
    draw_sheet(sheet);
    draw_sheet(later);
    if (once_in(4))
        spoil_sheet(sheet);
    if (once_in(4))
        spoil_sheet(later);
    join_now(any_length(SHEET), any_length(SHEET));
}

/* Each number of a sheet at both of its limits and one beyond, with the counts 0, 1, 192 and 2^32. */
static void all_limits(void)
{
    static const int64_t counts[] = {0, 1, 192, (int64_t)1 << 32};
    for (int c = 0; c < 2; c++)
        for (int w = 0; w < 4; w++)
            for (int k = 0; k < 10; k++)
                for (int beyond = -2; beyond <= 2; beyond++) {
                    int64_t n = counts[w], some = n > 0, low = 0, high = n;
                    draw_sheet(sheet);
                    draw_channel(sheet + 10 * c, n);
                    memset(later, 0, sizeof later);
                    later[1] = later[11] = 1;
                    if (k == 0)
                        high = most;
                    if (k == 1)
                        low = high = 1 - some;
                    if (k == 2 || k == 3) {
                        low = -8388608 * some;
                        high = 8388607 * some;
                    }
                    if (k == 4)
                        high = 8388608 * some;
                    if (k == 5) {
                        low = -8388608 * n;
                        high = 8388608 * n;
                    }
                    sheet[10 * c + k] = beyond < 0 ? low + beyond + 1 : beyond > 0 ? high + beyond - 1 : low;
                    join_now(SHEET, SHEET);
                    int64_t kept[SHEET + 4];
                    memcpy(kept, sheet, sizeof kept);
                    memcpy(sheet, later, sizeof kept);
                    memcpy(later, kept, sizeof kept);
                    join_now(SHEET, SHEET);
                }
}

/* Blocks added one by one, and cut at every place and joined: one sheet, by the library's own calls. */
static void stretches(void)
{
    int64_t whole[SHEET], parts[STRETCH + 1][2][SHEET];
    lampcoil_level_start(whole, SHEET);
    for (int cut = 0; cut <= STRETCH; cut++)
        for (int h = 0; h < 2; h++)
            lampcoil_level_start(parts[cut][h], SHEET);
    for (int k = 0; k < STRETCH; k++) {
        draw_block();
        memcpy(sheet, whole, sizeof whole);
        add_now(SHEET, 384, 192);
        lampcoil_level_add(whole, SHEET, samples, 384, side, 192);
        for (int cut = 0; cut <= STRETCH; cut++)
            lampcoil_level_add(parts[cut][k >= cut], SHEET, samples, 384, side, 192);
    }
    for (int cut = 0; cut <= STRETCH; cut++) {
        begin("level_join");
        lampcoil_verdict a = lampcoil_level_join(parts[cut][0], SHEET, parts[cut][1], SHEET);
        second_verdict b = {0, memcmp(parts[cut][0], whole, sizeof whole) == 0 ? 0 : 1};
        END(a, b);
    }
}

/* Three sheets joined in both ways: the same sheet, or 22 in both. */
static void three(void)
{
    int64_t s[3][SHEET], left[SHEET], right[SHEET];
    for (int k = 0; k < 3; k++)
        for (int c = 0; c < 2; c++)
            draw_channel(s[k] + 10 * c, (int64_t)below(3) * (most / 4));
    memcpy(left, s[0], sizeof left);
    memcpy(right, s[1], sizeof right);
    begin("level_join");
    lampcoil_verdict a = lampcoil_level_join(left, SHEET, s[1], SHEET);
    if (a.number == 0)
        a = lampcoil_level_join(left, SHEET, s[2], SHEET);
    lampcoil_verdict d = lampcoil_level_join(right, SHEET, s[2], SHEET);
    if (d.number == 0) {
        d = lampcoil_level_join(s[0], SHEET, right, SHEET);
        memcpy(right, s[0], sizeof right);
    }
    second_verdict b = {d.number, a.number == 0 && memcmp(left, right, sizeof left) != 0 ? 1 : 0};
    END(a, b);
}

void compare_levels(uint32_t cases)
{
    static const int of_start[] = {0, 1, -1}, of_add[] = {0, 1, 2, 3, 22, -1}, of_join[] = {0, 1, 2, 22, -1};
    for (uint32_t k = 0; k < cases / 4; k++) {
        level_add();
        level_join();
        if (k % 16 == 0) {
            level_start();
            stretches();
            three();
        }
    }
    all_limits();
    at_the_edges(level_start);
    at_the_edges(level_add);
    at_the_edges(level_join);
    must_have_seen("level_start", of_start);
    must_have_seen("level_add", of_add);
    must_have_seen("level_join", of_join);
}
