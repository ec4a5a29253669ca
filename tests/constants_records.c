/* The layout of a record by the header's macros alone: examples/desk.rec is read record by record, and what the readers
   make of each is the line of examples/desk.expected. Then what lampcoil_replay makes of records that are built so, and
   the types of the two sheets. */
#include "constants.h"
#include <inttypes.h>
#include <stdio.h>
#include <string.h>

/* The line of a record of which the header and n octets of payload are there. */
static void line_of(const uint8_t *record, size_t n, char *text, size_t size)
{
    static int32_t samples[LAMPCOIL_BLOCK_SAMPLES];
    static uint8_t side[LAMPCOIL_SIDE_OCTETS], commands[LAMPCOIL_MADI_MOST_COMMANDS];
    static uint32_t words[256], bodies[LAMPCOIL_PACKET_BODIES];
    static uint16_t packet[LAMPCOIL_RECORD_MOST_LENGTH];
    const uint8_t *payload = record + LAMPCOIL_RECORD_AT_PAYLOAD;
    const size_t whole = n % 2 == 0 ? n / 2 : 0; /* an odd number of octets is no packet */
    uint32_t number = LAMPCOIL_REFUSED_RANGE, place = 0;
    for (size_t k = 0; k < n / 2; k++)
        packet[k] = (uint16_t)(payload[2 * k] << 8 | payload[2 * k + 1]);
    *text = '\0';
    if (record[LAMPCOIL_RECORD_AT_VERSION] != LAMPCOIL_RECORD_VERSION) {
        /* another version: RANGE */
    } else if (record[LAMPCOIL_RECORD_AT_KIND] == LAMPCOIL_RECORD_AES3) {
        lampcoil_aes3_read_answer a = lampcoil_aes3_read(payload, n, samples, LAMPCOIL_BLOCK_SAMPLES, side,
                                                         sizeof side);
        number = a.number, place = a.place;
        snprintf(text, size, "aes3 ok %" PRIu32 " %" PRIu32, a.crcc_a, a.crcc_b);
    } else if (record[LAMPCOIL_RECORD_AT_KIND] == LAMPCOIL_RECORD_HD) {
        lampcoil_hd_read_answer a = lampcoil_hd_read(packet, whole, bodies, LAMPCOIL_PACKET_BODIES);
        number = a.number, place = a.place;
        snprintf(text, size, "hd ok %" PRIu32 " %" PRIu32, a.group, a.dbn);
    } else if (record[LAMPCOIL_RECORD_AT_KIND] == LAMPCOIL_RECORD_CONTROL) {
        lampcoil_hd_control_answer a = lampcoil_hd_control_read(packet, whole);
        number = a.number, place = a.place;
        snprintf(text, size, "ctl ok %" PRIu32, a.group);
    } else if (record[LAMPCOIL_RECORD_AT_KIND] == LAMPCOIL_RECORD_MADI) {
        const size_t head = LAMPCOIL_RECORD_AT_MADI_LINE - LAMPCOIL_RECORD_AT_PAYLOAD;
        const uint8_t *bits = record + LAMPCOIL_RECORD_AT_MADI_BITS;
        uint32_t channels = record[LAMPCOIL_RECORD_AT_MADI_CHANNELS], level = record[LAMPCOIL_RECORD_AT_MADI_LEVEL];
        lampcoil_madi_read_answer a = {LAMPCOIL_REFUSED_LENGTH, 0, 0, 0};
        if (n >= head)
            a = lampcoil_madi_read(channels, level, (uint32_t)bits[0] << 8 | bits[1], payload + head, n - head, words,
                                   channels, commands, sizeof commands);
        number = a.number, place = a.place;
        snprintf(text, size, "madi ok %" PRIu32 " %" PRIu32, a.active, a.commands);
    }
    if (number != LAMPCOIL_ACCEPTED)
        snprintf(text, size, "refused %" PRIu32 " %" PRIu32, number, place);
}

static uint32_t length_at(const uint8_t *record)
{
    const uint8_t *at = record + LAMPCOIL_RECORD_AT_LENGTH;
    return (uint32_t)at[0] << 24 | (uint32_t)at[1] << 16 | (uint32_t)at[2] << 8 | at[3];
}

/* The desk's records, each held to its line; the last is cut. */
static void test_desk(void)
{
    static uint8_t record[LAMPCOIL_RECORD_LENGTH_OCTETS + LAMPCOIL_RECORD_MOST_LENGTH];
    const size_t least = LAMPCOIL_RECORD_HEADER_OCTETS - LAMPCOIL_RECORD_LENGTH_OCTETS;
    FILE *desk = fopen("examples/desk.rec", "rb"), *lines = fopen("examples/desk.expected", "r");
    char text[64], made[80], line[80];
    unsigned n = 0;
    if (desk == NULL || lines == NULL) {
        expect(0, "examples/desk.rec and examples/desk.expected can be read");
        return;
    }
    EXPECT(fgets(line, sizeof line, lines) != NULL);
    while (fread(record, 1, LAMPCOIL_RECORD_LENGTH_OCTETS, desk) == LAMPCOIL_RECORD_LENGTH_OCTETS) {
        uint32_t length = length_at(record);
        if (length > LAMPCOIL_RECORD_MOST_LENGTH ||
            fread(record + LAMPCOIL_RECORD_LENGTH_OCTETS, 1, length, desk) != length)
            break;
        snprintf(text, sizeof text, "refused %u 0", LAMPCOIL_REFUSED_RANGE);
        if (length >= least)
            line_of(record, length - least, text, sizeof text);
        n = n + 1;
        snprintf(made, sizeof made, "%u %s\n", n, text);
        EXPECT(fgets(line, sizeof line, lines) != NULL);
        expect(strcmp(line, made) == 0, made);
    }
    EXPECT(fgets(line, sizeof line, lines) != NULL && strcmp(line, "cut\n") == 0 && n > 50);
    fclose(desk);
    fclose(lines);
}

/* A record with this payload; its octets. */
static size_t put_record(uint8_t *record, uint32_t version, uint32_t kind, const uint16_t *words, size_t n)
{
    uint32_t length = (uint32_t)(LAMPCOIL_RECORD_HEADER_OCTETS - LAMPCOIL_RECORD_LENGTH_OCTETS + 2 * n);
    for (int k = 0; k < 4; k++)
        record[LAMPCOIL_RECORD_AT_LENGTH + k] = (uint8_t)(length >> (24 - 8 * k));
    record[LAMPCOIL_RECORD_AT_VERSION] = (uint8_t)version;
    record[LAMPCOIL_RECORD_AT_KIND] = (uint8_t)kind;
    for (size_t k = 0; k < n; k++) {
        record[LAMPCOIL_RECORD_AT_PAYLOAD + 2 * k] = (uint8_t)(words[k] >> 8);
        record[LAMPCOIL_RECORD_AT_PAYLOAD + 2 * k + 1] = (uint8_t)words[k];
    }
    return LAMPCOIL_RECORD_LENGTH_OCTETS + length;
}

/* Of a data packet, a control packet, a packet of another version and a MADI record, two are packets that are read. */
static void test_replayed(void)
{
    static const uint32_t bodies[LAMPCOIL_PACKET_BODIES];
    uint16_t data[LAMPCOIL_PACKET_WORDS], control[LAMPCOIL_CONTROL_WORDS];
    uint8_t file[512];
    lampcoil_replay_figures figures = {{0}};
    size_t n = 0;
    GIVES(lampcoil_hd_write(3, 7, 0, 0, 0, 0, bodies, LAMPCOIL_PACKET_BODIES, data, LAMPCOIL_PACKET_WORDS),
          LAMPCOIL_ACCEPTED);
    GIVES(lampcoil_hd_control_write(3, 0, LAMPCOIL_CONTROL_48_KHZ, 0, 15, 0, 0, 0, 0, control, LAMPCOIL_CONTROL_WORDS),
          LAMPCOIL_ACCEPTED);
    n += put_record(file + n, LAMPCOIL_RECORD_VERSION, LAMPCOIL_RECORD_HD, data, LAMPCOIL_PACKET_WORDS);
    n += put_record(file + n, LAMPCOIL_RECORD_VERSION, LAMPCOIL_RECORD_CONTROL, control, LAMPCOIL_CONTROL_WORDS);
    n += put_record(file + n, LAMPCOIL_RECORD_VERSION + 1, LAMPCOIL_RECORD_HD, data, LAMPCOIL_PACKET_WORDS);
    n += put_record(file + n, LAMPCOIL_RECORD_VERSION, LAMPCOIL_RECORD_MADI, data, LAMPCOIL_PACKET_WORDS);
    lampcoil_replay_answer a = lampcoil_replay(file, n, figures.numbers, LAMPCOIL_REPLAY_NUMBERS);
    GIVES(a, LAMPCOIL_ACCEPTED);
    EXPECT(a.stop == LAMPCOIL_STOP_END && a.taken == n);
    EXPECT(memcmp(a.figures, figures.numbers, sizeof figures) == 0);
    const lampcoil_replay_line *third = &figures.sheet.group[2];
    EXPECT(third->read == 2 && third->seen == 1 && third->last_dbn == 7 && third->breaks == 0);
    a = lampcoil_replay(file, n - 1, figures.numbers, LAMPCOIL_REPLAY_NUMBERS);
    EXPECT(a.stop == LAMPCOIL_STOP_CUT && a.taken == n - LAMPCOIL_RECORD_HEADER_OCTETS - 2 * LAMPCOIL_PACKET_WORDS);
}

/* The longest record, and one octet more. */
static void test_longest(void)
{
    static uint8_t longest[LAMPCOIL_RECORD_LENGTH_OCTETS + LAMPCOIL_RECORD_MOST_LENGTH];
    lampcoil_replay_figures figures = {{0}};
    longest[2] = (uint8_t)(LAMPCOIL_RECORD_MOST_LENGTH >> 8);
    lampcoil_replay_answer a = lampcoil_replay(longest, sizeof longest, figures.numbers, LAMPCOIL_REPLAY_NUMBERS);
    EXPECT(a.stop == LAMPCOIL_STOP_END && a.taken == sizeof longest);
    longest[3] = 1;
    a = lampcoil_replay(longest, sizeof longest, figures.numbers, LAMPCOIL_REPLAY_NUMBERS);
    EXPECT(a.stop == LAMPCOIL_STOP_LONG && a.taken == 0);
}

void constants_records(void)
{
    test_desk();
    test_replayed();
    test_longest();
}

/* A silent block but for one sample of B, in the sheet as a type. */
void constants_sheets(void)
{
    static int32_t samples[LAMPCOIL_BLOCK_SAMPLES];
    static uint8_t side[LAMPCOIL_SIDE_OCTETS];
    lampcoil_level_sheet sheet;
    lampcoil_replay_figures figures;
    EXPECT(sizeof sheet == sizeof sheet.numbers && sizeof sheet == sizeof sheet.channel);
    EXPECT(sizeof figures == sizeof figures.numbers && sizeof figures == sizeof figures.sheet);
    EXPECT(sizeof figures.sheet.unlisted == LAMPCOIL_REPLAY_REFUSALS * sizeof figures.numbers[0]);
    EXPECT(sizeof((lampcoil_replay_answer *)0)->figures == sizeof figures);
    EXPECT(LAMPCOIL_REPLAY_REFUSALS == LAMPCOIL_REFUSED_NO_START + 1);
    samples[5] = LAMPCOIL_SAMPLE_LEAST;
    side[LAMPCOIL_SIDE_V_A] = 3;
    side[LAMPCOIL_SIDE_E_B] = 1;
    GIVES(lampcoil_level_start(sheet.numbers, LAMPCOIL_SHEET_NUMBERS), LAMPCOIL_ACCEPTED);
    EXPECT(sheet.channel[0].absent == 1 && sheet.channel[1].absent == 1);
    GIVES(lampcoil_level_add(sheet.numbers, LAMPCOIL_SHEET_NUMBERS, samples, LAMPCOIL_BLOCK_SAMPLES, side, sizeof side),
          LAMPCOIL_ACCEPTED);
    const lampcoil_level_channel *a = &sheet.channel[0], *b = &sheet.channel[1];
    EXPECT(a->samples == 192 && a->absent == 0 && a->magnitude == 0 && a->v_frames == 2 && a->e_frames == 0);
    EXPECT(b->samples == 192 && b->smallest == LAMPCOIL_SAMPLE_LEAST && b->largest == 0 && b->magnitude == 8388608);
    EXPECT(b->sum == LAMPCOIL_SAMPLE_LEAST && b->ends == 1 && b->v_frames == 0 && b->e_frames == 1);
    EXPECT(a->right_blocks == 0 && b->right_blocks == 0);
}
