/* Comparing the replay: nights of packets with damage, other records, long lengths and cuts, from sheets that are empty,
   full to the last or none; and each night cut at every boundary and gone on with. */
#include "compare.h"
#include "spoil.h"
#include <stddef.h>
#include <string.h>

enum { FIGURES = 110, LINE = 23, UNLISTED = 92, NIGHT = 65536, LONG_NIGHT = 400000, MOST = 20000 };

static uint8_t night[LONG_NIGHT];
static size_t size, boundaries[MOST], records;
static uint32_t sheet[FIGURES + 4], dbns[4];

static void octets(const uint8_t *o, size_t n)
{
    memcpy(night + size, o, n);
    size = size + n;
}

static void length_of(uint32_t n)
{
    uint8_t o[4] = {(uint8_t)(n >> 24), (uint8_t)(n >> 16), (uint8_t)(n >> 8), (uint8_t)n};
    octets(o, 4);
}

static void record(uint32_t version, uint32_t kind, const uint8_t *payload, size_t n)
{
    uint8_t head[2] = {(uint8_t)version, (uint8_t)kind};
    length_of((uint32_t)n + 2);
    octets(head, 2);
    octets(payload, n);
    boundaries[records++] = size;
}

static void words_record(uint32_t version, uint32_t kind, const uint16_t *words, size_t n)
{
    uint8_t payload[80] = {0};
    for (size_t k = 0; k < n; k++) {
        payload[2 * k] = (uint8_t)(words[k] >> 8);
        payload[2 * k + 1] = (uint8_t)words[k];
    }
    if (once_in(24))
        record(version, kind, payload, 2 * n - 1);
    else
        record(version, kind, payload, 2 * n + (once_in(24) ? 2 : 0));
}

/* The block numbers of a group mostly count; now and then one is lost, sent again, 0, or anything. */
static uint32_t next_number(uint32_t g)
{
    uint32_t n = dbns[g];
    n = n == 0 ? 0 : n == 255 ? 1 : n + 1;
    if (once_in(12))
        n = once_in(3) ? 0 : once_in(2) ? below(256) : dbns[g];
    if (once_in(24))
        n = 254 + below(2);
    return dbns[g] = n;
}

/* Damage that repair mends, that it cannot mend, and that the reader refuses after repair; bits of the DID more often. */
static void damage(uint16_t *words, int n)
{
    switch (below(7)) {
    case 0:
        words[3] = (uint16_t)(words[3] ^ 1u << below(8));
        break;
    case 1:
        words[below((uint32_t)n)] ^= (uint16_t)(1u << below(10));
        break;
    case 2:
        for (uint32_t k = 2 + below(4); k > 0; k--)
            words[3 + below((uint32_t)n - 3)] ^= (uint16_t)(1u << below(8));
        break;
    case 3:
        words[below((uint32_t)n)] = (uint16_t)(1024 + below(64512));
        break;
    case 4:
        words[3] = (uint16_t)below(1024);
        break;
    case 5:
        words[below(6)] = (uint16_t)below(1024);
        break;
    default:
        for (uint32_t k = 1 + below(3), lane = below(8); k > 0; k--)
            words[below((uint32_t)n)] ^= (uint16_t)(1u << lane);
        break;
    }
}

static void data_packet(void)
{
    uint32_t g = below(4), bodies[4];
    uint16_t words[40] = {0};
    for (int k = 0; k < 4; k++)
        bodies[k] = even_body();
    second_hd_write(1 + g, next_number(g), below(4096), below(2), below(2), below(2), bodies, 4, words, 31);
    if (once_in(6)) { /* right lanes, and yet refused: a bit that must be 0, an odd body, a DID or DC that is not listed */
        static const uint16_t bit[4] = {0x02, 0x40, 0x01, 0x10};
        uint32_t way = below(4);
        words[way == 0 ? 8 + 4 * below(4) : way == 1 ? 9 + 4 * below(4) : way == 2 ? 3 : 5] ^= bit[way];
        spoil_close_lanes(words);
    }
    if (once_in(3))
        damage(words, 31);
    words_record(once_in(32) ? below(4) : 1, 2, words, 31);
}

static void control_packet(void)
{
    uint16_t words[40] = {0};
    second_hd_control_write(1 + below(4), below(512), below(3), 0, below(16), below(2), (int32_t)below(1000), below(2),
                            -(int32_t)below(1000), words, 18);
    if (once_in(3))
        damage(words, 18);
    words_record(once_in(32) ? below(4) : 1, 4, words, 18);
}

/* Records that are passed over: other kinds, other versions, lengths below 2. */
static void other_record(void)
{
    uint8_t some[64];
    random_octets(some, sizeof some);
    if (once_in(2)) {
        uint32_t n = below(2);
        length_of(n);
        octets(some, n);
        boundaries[records++] = size;
    } else
        record(once_in(2) ? 1 : below(256), once_in(2) ? below(6) : below(256), some, below(64));
}

static void draw_night(uint32_t packets)
{
    size = records = 0;
    for (int g = 0; g < 4; g++)
        dbns[g] = once_in(3) ? 0 : 1 + below(255);
    if (once_in(8)) { /* the longest record that there is */
        static const uint8_t zeros[8190];
        record(1, 3, zeros, sizeof zeros);
    }
    for (uint32_t k = 0; k < packets; k++)
        if (once_in(12))
            other_record();
        else if (once_in(5))
            control_packet();
        else
            data_packet();
    switch (below(5)) { /* the stop */
    case 0:
        length_of(8193 + (once_in(2) ? 0 : draw() >> 1));
        break;
    case 1:
        size = size - (size > 8 ? 1 + below(7) : 0);
        break;
    case 2:
        length_of(62);
        night[size++] = 1;
        break;
    default:
        break;
    }
}

static void draw_sheet(void)
{
    memset(sheet, 0, sizeof sheet);
    if (once_in(3))
        return;
    for (int k = 0; k < FIGURES; k++)
        sheet[k] = once_in(3) ? UINT32_MAX - below(once_in(2) ? 3 : 40) : draw();
    for (int g = 0; g < 4; g++) {
        uint32_t *line = sheet + LINE * g;
        line[20] = below(2);
        line[21] = line[20] == 0 ? 0 : once_in(4) ? 0 : below(256);
    }
    if (once_in(6)) {
        uint32_t *line = sheet + LINE * below(4);
        switch (below(3)) {
        case 0:
            line[20] = 2 + below(5);
            break;
        case 1:
            line[20] = 1;
            line[21] = 256 + below(3);
            break;
        default:
            line[20] = 0;
            line[21] = 1 + below(300);
            break;
        }
    }
}

static void replay_now(size_t n, size_t m)
{
    begin("replay");
    lent in = lend_in("records", night, n, 1);
    lent out = lend_both("sheet", sheet, m, 4);
    lampcoil_replay_answer a = lampcoil_replay(in.library, in.elements, out.library, out.elements);
    second_replay_answer b = second_replay(in.second, in.elements, out.second, out.elements);
    end(&a, &b, offsetof(lampcoil_replay_answer, figures) + sizeof a.figures, b.number);
}

/* A file has any length: one of 2^32 octets and more comes with a sheet that is refused before it is read. */
static void replay(void)
{
    draw_night(once_in(4) ? below(4) : below(60));
    draw_sheet();
    replay_now(size, edge_for(0) > NULL_EMPTY ? FIGURES - 1 : any_length(FIGURES));
}

/* Cut at every boundary and gone on with from the saved figures: the same figures, octets and stop. */
static void resumed(uint32_t packets)
{
    draw_night(packets);
    draw_sheet();
    uint32_t whole[FIGURES];
    memcpy(whole, sheet, sizeof whole);
    lampcoil_replay_answer all = lampcoil_replay(night, size, whole, FIGURES);
    if (all.number == 1 || all.number == 2)
        return;
    for (size_t k = 0; k < records && boundaries[k] <= all.taken; k++) {
        uint32_t saved[FIGURES];
        memcpy(saved, sheet, sizeof saved);
        begin("replay");
        lampcoil_replay_answer a = lampcoil_replay(night, boundaries[k], saved, FIGURES);
        int same = a.number == 0 && a.stop == 0 && a.taken == boundaries[k] && memcmp(a.figures, saved, sizeof saved) == 0;
        lampcoil_replay_answer c = lampcoil_replay(night + boundaries[k], size - boundaries[k], saved, FIGURES);
        same = same && c.number == all.number && c.stop == all.stop && boundaries[k] + c.taken == all.taken &&
               memcmp(c.figures, all.figures, sizeof saved) == 0 && memcmp(saved, all.number == 0 ? whole : a.figures, sizeof saved) == 0;
        second_replay_answer b = second_replay(night + boundaries[k], size - boundaries[k], a.figures, FIGURES);
        end(&c, &b, same ? offsetof(lampcoil_replay_answer, figures) + sizeof c.figures : 0, 0);
    }
}

/* How many of the records in so many octets are packets: version 1, kind 2 or 4. */
static uint64_t packets_in(uint64_t taken)
{
    uint64_t packets = 0;
    for (size_t at = 0; at < taken;) {
        size_t n = (size_t)night[at + 2] * 256 + night[at + 3];
        if (n >= 2 && night[at + 4] == 1 && (night[at + 5] == 2 || night[at + 5] == 4))
            packets = packets + 1;
        at = at + 4 + n;
    }
    return packets;
}

/* How many were read or refused, of all groups and of none. */
static uint64_t counted_in(const uint32_t figures[FIGURES])
{
    uint64_t packets = 0;
    for (int k = 0; k < FIGURES; k++)
        if (k >= UNLISTED || k % LINE == 0 || (k % LINE >= 2 && k % LINE < 20))
            packets = packets + figures[k];
    return packets;
}

/* Thousands of packets at once, from the empty sheet: both programs, and all packets of the file as read or refused. */
static void whole_nights(void)
{
    for (int k = 0; k < 3; k++) {
        uint32_t first[FIGURES] = {0}, other[FIGURES] = {0};
        draw_night(4000);
        begin("replay");
        lampcoil_replay_answer a = lampcoil_replay(night, size, first, FIGURES);
        second_replay_answer b = second_replay(night, size, other, FIGURES);
        int same = memcmp(first, other, sizeof first) == 0 && counted_in(first) == packets_in(a.taken);
        end(&a, &b, same ? offsetof(lampcoil_replay_answer, figures) + sizeof a.figures : 0, b.number);
    }
}

/* Each figure in turn has no room left: 23 at the packet that would raise it. */
static void full_figures(void)
{
    for (int k = 0; k < FIGURES; k++) {
        if (k < UNLISTED && (k % LINE == 20 || k % LINE == 21))
            continue;
        draw_night(300);
        memset(sheet, 0, sizeof sheet);
        sheet[k] = UINT32_MAX;
        replay_now(size < NIGHT ? size : NIGHT, FIGURES);
        sheet[k] = UINT32_MAX - 1;
        replay_now(size < NIGHT ? size : NIGHT, FIGURES);
    }
}

void compare_replay(uint32_t cases)
{
    static const int of_replay[] = {0, 1, 2, 23, -1};
    for (uint32_t k = 0; k < cases / 16; k++)
        replay();
    for (uint32_t k = 0; k < cases / 1000 + 1; k++)
        resumed(200);
    whole_nights();
    full_figures();
    at_the_edges(replay);
    must_have_seen("replay", of_replay);
}
