/* The second program: the meaning of status bytes 0 to 2. Each table is written as the Recommendation prints it, the
   highest bit at the left, row by row; a state is the number of its row. */
#include "second.h"
#include <string.h>

static const char *const emphasis_rows[] = {"000", "001", "011", "111", 0};
static const char *const rate_rows[] = {"00", "10", "01", "11", 0};
static const char *const mode_rows[] = {"0000", "1000", "0100", "1100", "0010", "1010", "0110", "1110", "0001", "1001", "1111", 0};
static const char *const user_rows[] = {"0000", "1000", "0100", "1100", "0010", "1010", "0110", 0};
static const char *const auxiliary_rows[] = {"000", "100", "010", "110", 0};
static const char *const length_rows[] = {"000", "100", "010", "110", "001", "101", 0};
static const char *const alignment_rows[] = {"00", "10", "01", 0};

static const uint32_t lengths_of_24[] = {0, 23, 22, 21, 20, 24};
static const uint32_t lengths_of_20[] = {0, 19, 18, 17, 16, 20};

/* The bits from `lowest` on as the tables print them, the highest first. */
static void print_bits(char *text, uint8_t octet, int lowest, int count)
{
    for (int k = 0; k < count; k++)
        text[k] = second_bit(octet, lowest + count - 1 - k) == 1 ? '1' : '0';
    text[count] = '\0';
}

/* The number of the row; SECOND_RESERVED if the bits are in none. */
static uint32_t row_of(const char *const *rows, const char *text)
{
    for (uint32_t row = 0; rows[row] != 0; row++)
        if (strcmp(rows[row], text) == 0)
            return row;
    return SECOND_RESERVED;
}

static uint32_t value_of(const char *text)
{
    uint32_t value = 0;
    for (int k = 0; text[k] != '\0'; k++)
        value = 2 * value + (text[k] == '1');
    return value;
}

static void look_up(const char *const *rows, uint8_t octet, int lowest, int count, uint32_t *state, uint32_t *bits)
{
    char text[8];
    print_bits(text, octet, lowest, count);
    *state = row_of(rows, text);
    *bits = *state == SECOND_RESERVED ? value_of(text) : 0;
}

/* The length goes by the auxiliary use: row 1 has 24 bits, rows 0 and 2 have 20, and the others tell no length. */
static void look_up_length(uint8_t octet, uint32_t auxiliary, uint32_t *length, uint32_t *bits)
{
    char text[8];
    print_bits(text, octet, 3, 3);
    uint32_t row = row_of(length_rows, text);
    if (auxiliary > 2 || row == SECOND_RESERVED) {
        *length = SECOND_RESERVED;
        *bits = value_of(text);
    } else {
        *length = auxiliary == 1 ? lengths_of_24[row] : lengths_of_20[row];
        *bits = 0;
    }
}

second_status_meaning second_status_read(const uint8_t *status, size_t status_len)
{
    second_status_meaning r;
    uint32_t none;
    memset(&r, 0, sizeof r);
    if (status_len != 24) {
        r.number = 1;
        return r;
    }
    r.use = (uint32_t)second_bit(status[0], 0);
    if (r.use == 0)
        return r;
    r.audio = (uint32_t)second_bit(status[0], 1);
    look_up(emphasis_rows, status[0], 2, 3, &r.emphasis, &r.emphasis_bits);
    r.lock = (uint32_t)second_bit(status[0], 5);
    look_up(rate_rows, status[0], 6, 2, &r.rate, &none);
    look_up(mode_rows, status[1], 0, 4, &r.mode, &r.mode_bits);
    look_up(user_rows, status[1], 4, 4, &r.user, &r.user_bits);
    look_up(auxiliary_rows, status[2], 0, 3, &r.auxiliary, &r.auxiliary_bits);
    look_up_length(status[2], r.auxiliary, &r.length, &r.length_bits);
    look_up(alignment_rows, status[2], 6, 2, &r.alignment, &r.alignment_bits);
    return r;
}
