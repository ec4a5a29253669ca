/* The replay by hand: one pass over the records, with the readers by hand. */
#include "hand.h"

enum { NUMBERS = 110, MOST = 8192 };

/* The line of the group that a DID word names, `low` its lowest eight bits for group 4; null where it is none. */
static lampcoil_replay_line *line_of(lampcoil_replay_sheet *s, uint32_t word, uint32_t low)
{
    uint32_t upper = 2u - (uint32_t)__builtin_parity(word & 0xFF);
    return (word & 0xFC) == low && word >> 8 == upper ? &s->group[3 - (word & 3)] : NULL;
}

static int add(uint32_t *figure, uint32_t n)
{
    uint32_t sum = *figure + n;
    if (sum < n)
        return 0;
    *figure = sum;
    return 1;
}

static int refuse(lampcoil_replay_sheet *s, lampcoil_replay_line *line, uint32_t number)
{
    return add(line != NULL ? &line->refused[number] : &s->unlisted[number], 1);
}

static void load_words(uint16_t *words, const uint8_t *octets, int n)
{
    for (int k = 0; k < n; k++)
        words[k] = (uint16_t)(octets[2 * k] << 8 | octets[2 * k + 1]);
}

static int follows(uint32_t last, uint32_t dbn)
{
    return last == 0 || dbn == 0 || dbn == last % 255 + 1;
}

/* Whether the packet's figures have room; where lanes have and a later count has not, the lanes go back. */
static int data_packet(lampcoil_replay_sheet *s, const uint8_t *payload, size_t n)
{
    uint16_t words[31], repaired[31];
    uint32_t bodies[4];
    if (n != 62)
        return refuse(s, NULL, 1);
    load_words(words, payload, 31);
    lampcoil_hd_repair_answer r = hand_hd_repair(words, 31, repaired, 31);
    if (r.number != 0)
        return refuse(s, line_of(s, words[3], 0xE4), r.number);
    lampcoil_replay_line *line = line_of(s, repaired[3], 0xE4);
    lampcoil_hd_read_answer a = hand_hd_read(repaired, 31, bodies, 4);
    if (a.number != 0) {
        if (line == NULL)
            return refuse(s, line, a.number);
        if (line->refused[a.number] == UINT32_MAX || !add(&line->lanes, r.lanes))
            return 0;
        return add(&line->refused[a.number], 1);
    }
    uint32_t breaks = line->seen == 1 && !follows(line->last_dbn, a.dbn);
    if (line->read == UINT32_MAX || line->breaks > UINT32_MAX - breaks || !add(&line->lanes, r.lanes))
        return 0;
    line->read += 1;
    line->breaks += breaks;
    line->seen = 1;
    line->last_dbn = a.dbn;
    return 1;
}

static int control_packet(lampcoil_replay_sheet *s, const uint8_t *payload, size_t n)
{
    uint16_t words[18];
    if (n != 36)
        return refuse(s, NULL, 1);
    load_words(words, payload, 18);
    lampcoil_hd_control_answer a = hand_hd_control_read(words, 18);
    lampcoil_replay_line *line = line_of(s, words[3], 0xE0);
    return a.number != 0 ? refuse(s, line, a.number) : add(&line->read, 1);
}

static int one_record(lampcoil_replay_sheet *s, const uint8_t *record, size_t n)
{
    if (n < 2 || record[0] != 1)
        return 1;
    if (record[1] == 2)
        return data_packet(s, record + 2, n - 2);
    return record[1] != 4 || control_packet(s, record + 2, n - 2);
}

static int lawful(const lampcoil_replay_sheet *s)
{
    for (int g = 0; g < 4; g++)
        if (s->group[g].seen > 1 || s->group[g].last_dbn > (s->group[g].seen == 0 ? 0u : 255u))
            return 0;
    return 1;
}

lampcoil_replay_answer hand_replay(const uint8_t *records, size_t records_len, uint32_t *sheet, size_t sheet_len)
{
    lampcoil_replay_answer r;
    lampcoil_replay_sheet s;
    memset(&r, 0, sizeof r);
    r.number = sheet_len != NUMBERS ? 1 : 0;
    if (r.number != 0)
        return r;
    memcpy(&s, sheet, sizeof s);
    r.number = lawful(&s) ? 0 : 2;
    if (r.number != 0)
        return r;
    size_t at = 0;
    while (at < records_len) {
        size_t left = records_len - at;
        const uint8_t *o = records + at;
        uint32_t length = left < 4 ? 0 : (uint32_t)o[0] << 24 | (uint32_t)o[1] << 16 | (uint32_t)o[2] << 8 | o[3];
        if (length > MOST || left < 4 || left - 4 < length) {
            r.stop = length > MOST ? LAMPCOIL_STOP_LONG : LAMPCOIL_STOP_CUT;
            break;
        }
        if (!one_record(&s, o + 4, length)) {
            r.number = 23;
            break;
        }
        at += 4 + length;
    }
    r.taken = at;
    memcpy(&r.figures, &s, sizeof s);
    if (r.number == 0)
        memcpy(sheet, &s, sizeof s);
    return r;
}
