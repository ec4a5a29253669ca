/* hub: the figures that the page is made of, one fact to a line; and the verdict on each block.
   docs/NIGHT.md lists the lines. */
#include "hub.h"
#include <string.h>

static const char *const verdict_words[4] = {"carried", "none", "foreign", "parity"};

void differs(night *n, uint32_t t, const char *what, uint32_t place)
{
    if (n->differing < 20) {
        if (t == 0)
            say(n, "not as sent: %s, at %u", what, place);
        else
            say(n, "tenant %u: not as sent: %s, at %u", t, what, place);
    }
    n->differing++;
    fprintf(n->figures, "differs %u %u %u %s\n", n->block, t, place, what);
}

/* ---- The verdict ---- */

/* What tenant t gets back in a channel, by the rows of the desk: a sample, or 0 where the patch leaves it silent. */
static int32_t expected(const night *n, uint32_t t, uint32_t f, uint32_t c, int *hit)
{
    const desk *d = &n->desk;
    const tenant *w = &n->tenants[t];
    uint32_t out = d->home[t][c], in = out == NO_SLOT ? NO_SLOT : d->rows[out];
    *hit = w->hit_in[f] != 0 || w->hit_back[f] != 0;
    if (out >= d->active || in >= d->active || d->table[in] != t)
        return 0;
    *hit = *hit || f < hits_of(n, PATCH_WORD, in);
    return w->sent[2 * f + d->feed[in]];
}

static void list_lost(night *n, uint32_t t, const char *path, const uint8_t *lost)
{
    uint32_t count = 0, first = FRAMES, last = 0;
    for (uint32_t f = 0; f < FRAMES; f++)
        if (lost[f] != 0) {
            count++;
            first = first < f ? first : f;
            last = f;
        }
    if (count == 0)
        return;
    n->lost_frames += count;
    fprintf(n->figures, "lost %u %u %u %s %u %u %u\n", n->block, n->tenants[t].own_blocks, t, path, count, first, last);
}

/* A stretch of blocks in which the patch brings a tenant something else than its two channels, such as silence. */
static void list_patched(night *n, uint32_t t, uint32_t patched)
{
    tenant *w = &n->tenants[t];
    if (w->patched == patched)
        return;
    if (patched != 0)
        w->patched_since = w->own_blocks;
    else
        fprintf(n->figures, "patched %u %u %u\n", t, w->patched_since, w->own_blocks);
    w->patched = patched;
}

/* Every frame is as it was sent, by the rows of the patch, or was damaged and is listed. */
void judge(night *n, uint32_t t)
{
    const tenant *w = &n->tenants[t];
    uint8_t lost[FRAMES] = {0}, lost_hd[FRAMES] = {0};
    uint32_t patched = 0;
    for (uint32_t k = 0; k < LAMPCOIL_BLOCK_SAMPLES; k++) {
        int hit, hit_hd = w->hit_in[k / 2] != 0 || w->hit_hd[k / 2] != 0;
        int32_t due = expected(n, t, k / 2, k % 2, &hit);
        patched |= due != w->sent[k];
        if (w->out_samples[k] != due) {
            if (hit)
                lost[k / 2] = 1;
            else
                differs(n, t, "a sample from the AES3 line", k);
        }
        if (w->out_hd_samples[k] != w->sent[k]) {
            if (hit_hd)
                lost_hd[k / 2] = 1;
            else
                differs(n, t, "a sample from the packets", k);
        }
    }
    if (memcmp(w->out_voice, w->spoken, sizeof w->spoken) != 0)
        differs(n, t, "the voice", 0);
    list_patched(n, t, patched);
    list_lost(n, t, "aes3", lost);
    list_lost(n, t, "hd", lost_hd);
}

/* ---- Figures ---- */

void start_figures(night *n)
{
    fprintf(n->figures, "hub 1\ntitle %s\nblocks %u\nminute %u\n", n->plan.title, n->plan.blocks, n->plan.minute);
    for (uint32_t t = 1; t <= TENANTS; t++)
        if (given(n, t))
            fprintf(n->figures, "tenant %u %s\n", t, n->plan.tenants[t].name);
    figures_of_leases(n);
}

void figures_of_leases(night *n)
{
    fprintf(n->figures, "leases %u", n->block);
    for (uint32_t k = 0; k < SLOTS; k++)
        fprintf(n->figures, " %u", n->desk.table[k]);
    fputc('\n', n->figures);
}

static void end_stretch(night *n, uint32_t slot)
{
    const stretch *s = &n->patch[slot];
    if (s->since < n->block && (s->tenant != 0 || s->row != NO_SLOT))
        fprintf(n->figures, "row %u %u %u %s %u %u %u\n", slot, s->row, s->tenant, verdict_words[s->verdict], s->since,
                n->block, s->odd);
}

/* A word with odd parity silences its row for a frame; the row goes on, and such frames are counted. */
void figures_of_patch(night *n, const uint8_t *verdicts, uint32_t f)
{
    for (uint32_t k = 0; k < SLOTS; k++) {
        stretch *s = &n->patch[k];
        uint32_t odd = verdicts[k] == LAMPCOIL_PATCH_PARITY, base = odd ? LAMPCOIL_PATCH_CARRIED : verdicts[k] & 3u;
        stretch now = {n->block, n->desk.rows[k], n->desk.table[k], base, 0};
        if (f == 0 && (s->row != now.row || s->tenant != now.tenant || s->verdict != base)) {
            end_stretch(n, k);
            *s = now;
        }
        s->odd += odd;
    }
}

static void figures_of_sheet(night *n, const char *word, uint32_t t, const int64_t *sheet)
{
    fprintf(n->figures, "%s %u", word, t);
    for (uint32_t k = 0; k < LAMPCOIL_SHEET_NUMBERS; k++)
        fprintf(n->figures, " %" PRId64, sheet[k]);
    fputc('\n', n->figures);
}

static uint32_t sum_of(const uint32_t *refused, const uint32_t *before)
{
    uint32_t sum = 0;
    for (uint32_t k = 0; k < 18; k++)
        sum += refused[k] - before[k];
    return sum;
}

/* What the replay counted since the minute before, for each group. */
static void figures_of_groups(night *n, uint32_t minute)
{
    lampcoil_replay_sheet now, before;
    memcpy(&now, n->replayed, sizeof now);
    memcpy(&before, n->replayed_before, sizeof before);
    for (uint32_t g = 0; g < 4; g++) {
        const lampcoil_replay_line *a = &now.group[g], *b = &before.group[g];
        fprintf(n->figures, "hd %u %u %u %u %u %u\n", minute, g + 1, a->read - b->read, a->lanes - b->lanes,
                sum_of(a->refused, b->refused), a->breaks - b->breaks);
    }
    memcpy(n->replayed_before, n->replayed, sizeof n->replayed);
}

/* The sheet of each tenant's minute joins the sheet of its night. */
void figures_of_minute(night *n, uint32_t minute)
{
    for (uint32_t t = 1; t <= TENANTS; t++) {
        tenant *w = &n->tenants[t];
        char word[32];
        if (!given(n, t))
            continue;
        snprintf(word, sizeof word, "sheet %u", minute);
        figures_of_sheet(n, word, t, w->minute);
        fprintf(n->figures, "aes3 %u %u %u\n", minute, t, w->lost_blocks);
        w->lost_blocks = 0;
        lampcoil_verdict v = lampcoil_level_join(w->whole, LAMPCOIL_SHEET_NUMBERS, w->minute, LAMPCOIL_SHEET_NUMBERS);
        REFUSED(n, "level join", t, v);
        v = lampcoil_level_start(w->minute, LAMPCOIL_SHEET_NUMBERS);
        MUST(n, "level start", v);
    }
    fprintf(n->figures, "madi %u %u %u %u\n", minute, n->madi_damaged, n->madi_refused, n->madi_passed);
    n->madi_damaged = n->madi_refused = n->madi_passed = 0;
    figures_of_groups(n, minute);
}

/* The replay's figures as packet_replay writes them, so that the two can be compared. */
static void figures_of_replay(night *n)
{
    lampcoil_replay_sheet s;
    memcpy(&s, n->replayed, sizeof s);
    for (uint32_t g = 0; g < 4; g++) {
        const lampcoil_replay_line *l = &s.group[g];
        fprintf(n->figures, "replay group %u read %u lanes %u last ", g + 1, l->read, l->lanes);
        fprintf(n->figures, l->seen != 0 ? "%u" : "none", l->last_dbn);
        fprintf(n->figures, " breaks %u\n", l->breaks);
        for (uint32_t k = 0; k < 18; k++)
            if (l->refused[k] != 0)
                fprintf(n->figures, "replay group %u refused %u %u\n", g + 1, k, l->refused[k]);
    }
    for (uint32_t k = 0; k < 18; k++)
        if (s.unlisted[k] != 0)
            fprintf(n->figures, "replay unlisted refused %u %u\n", k, s.unlisted[k]);
}

void figures_of_night(night *n)
{
    for (uint32_t k = 0; k < SLOTS; k++)
        end_stretch(n, k);
    for (uint32_t t = 1; t <= TENANTS; t++)
        if (given(n, t)) {
            list_patched(n, t, 0);
            figures_of_sheet(n, "night", t, n->tenants[t].whole);
        }
    figures_of_replay(n);
    fprintf(n->figures, "lost-frames %" PRIu64 "\nmended %" PRIu64 "\ncommands %" PRIu64 "\n", n->lost_frames,
            n->mended, n->commands);
    fprintf(n->figures, "verdict %s\n", n->found ? "found" : n->differing != 0 ? "differs" : "as-sent");
}
