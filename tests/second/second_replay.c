/* The second program's replay: what is asked of a night's packets, record by record. */
#include "second.h"
#include <string.h>

enum { FIGURES = 110, LONGEST = 8192, DATA_KIND = 2, CONTROL_KIND = 4 };

static const uint16_t data_did[4] = {0x2E7, 0x1E6, 0x1E5, 0x2E4};
static const uint16_t control_did[4] = {0x1E3, 0x2E2, 0x2E1, 0x1E0};

/* The line of the group that a DID word names; null where it is none of those listed. */
static second_replay_line *line_of(second_replay_sheet *s, const uint16_t *dids, uint16_t word)
{
    for (int g = 0; g < 4; g++)
        if (word == dids[g])
            return &s->group[g];
    return NULL;
}

/* A count and n more; 0 comes back where it would pass 2^32 - 1. */
static int count(uint32_t *figure, uint32_t n)
{
    if (*figure > UINT32_MAX - n)
        return 0;
    *figure = *figure + n;
    return 1;
}

static void words_of(const uint8_t *octets, size_t n, uint16_t *words)
{
    for (size_t k = 0; k < n; k++)
        words[k] = (uint16_t)(octets[2 * k] * 256 + octets[2 * k + 1]);
}

static int refuse(second_replay_sheet *s, second_replay_line *line, uint32_t number)
{
    return count(line != NULL ? &line->refused[number] : &s->unlisted[number], 1);
}

static int breaks(const second_replay_line *line, uint32_t dbn)
{
    if (line->seen == 0)
        return 0;
    if (dbn == 0 || line->last_dbn == 0)
        return 0;
    uint32_t next = line->last_dbn == 255 ? 1 : line->last_dbn + 1;
    return dbn != next;
}

/* A data packet: repaired, and then read; its group is that of its DID after repair, or as received. */
static int count_data(second_replay_sheet *s, const uint8_t *payload, size_t n)
{
    uint16_t words[31], repaired[31];
    uint32_t bodies[4];
    if (n != 62)
        return refuse(s, NULL, 1);
    words_of(payload, 31, words);
    second_hd_repair_answer r = second_hd_repair(words, 31, repaired, 31);
    if (r.number != 0)
        return refuse(s, line_of(s, data_did, words[3]), r.number);
    second_replay_line *line = line_of(s, data_did, repaired[3]);
    second_hd_read_answer a = second_hd_read(repaired, 31, bodies, 4);
    if (line != NULL && !count(&line->lanes, r.lanes))
        return 0;
    if (a.number != 0)
        return refuse(s, line, a.number);
    if (!count(&line->read, 1) || !count(&line->breaks, (uint32_t)breaks(line, a.dbn)))
        return 0;
    line->seen = 1;
    line->last_dbn = a.dbn;
    return 1;
}

static int count_control(second_replay_sheet *s, const uint8_t *payload, size_t n)
{
    uint16_t words[18];
    if (n != 36)
        return refuse(s, NULL, 1);
    words_of(payload, 18, words);
    second_replay_line *line = line_of(s, control_did, words[3]);
    second_hd_control_answer a = second_hd_control_read(words, 18);
    if (a.number != 0)
        return refuse(s, line, a.number);
    return count(&line->read, 1);
}

/* One record without its length; 0 comes back where a count has no room. */
static int count_record(second_replay_sheet *s, const uint8_t *record, size_t n)
{
    if (n < 2 || record[0] != 1)
        return 1;
    if (record[1] == DATA_KIND)
        return count_data(s, record + 2, n - 2);
    if (record[1] == CONTROL_KIND)
        return count_control(s, record + 2, n - 2);
    return 1;
}

static int in_range(const second_replay_sheet *s)
{
    for (int g = 0; g < 4; g++) {
        const second_replay_line *line = &s->group[g];
        if (line->seen > 1 || line->last_dbn > 255 || (line->seen == 0 && line->last_dbn != 0))
            return 0;
    }
    return 1;
}

second_replay_answer second_replay(const uint8_t *records, size_t records_len, uint32_t *sheet, size_t sheet_len)
{
    second_replay_answer r;
    second_replay_sheet now, next;
    memset(&r, 0, sizeof r);
    if (sheet_len != FIGURES) {
        r.number = 1;
        return r;
    }
    memcpy(&now, sheet, sizeof now);
    if (!in_range(&now)) {
        r.number = 2;
        return r;
    }
    size_t at = 0;
    for (;;) {
        size_t left = records_len - at;
        if (left == 0)
            break;
        if (left < 4) {
            r.stop = 2;
            break;
        }
        const uint8_t *o = records + at;
        uint32_t length = ((uint32_t)o[0] << 24) + ((uint32_t)o[1] << 16) + ((uint32_t)o[2] << 8) + o[3];
        if (length > LONGEST) {
            r.stop = 1;
            break;
        }
        if (left - 4 < length) {
            r.stop = 2;
            break;
        }
        next = now;
        if (!count_record(&next, o + 4, length)) {
            r.number = 23;
            break;
        }
        now = next;
        at = at + 4 + length;
    }
    r.taken = at;
    memcpy(r.figures, &now, sizeof now);
    if (r.number == 0)
        memcpy(sheet, &now, sizeof now);
    return r;
}
