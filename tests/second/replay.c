/* The second program's replay of a night: takes standard input for one file and prints what packet_replay must print. */
#include "second.h"
#include <stdio.h>
#include <stdlib.h>
#include <string.h>

enum { FIGURES = 110, FULL = 23 };

/* All of standard input; null where there is no memory for it. */
static uint8_t *whole_input(size_t *size)
{
    size_t room = 65536, n = 0;
    uint8_t *octets = malloc(room);
    while (octets != NULL) {
        n = n + fread(octets + n, 1, room - n, stdin);
        if (n < room)
            break;
        room = 2 * room;
        uint8_t *larger = realloc(octets, room);
        if (larger == NULL)
            free(octets);
        octets = larger;
    }
    *size = n;
    return octets;
}

static void print_refused(const char *whose, const uint32_t refused[18])
{
    for (int n = 0; n < 18; n++)
        if (refused[n] > 0)
            printf("%s refused %d %lu\n", whose, n, (unsigned long)refused[n]);
}

static void print_group(int group, const second_replay_line *line)
{
    char whose[16], last[16] = "none";
    snprintf(whose, sizeof whose, "group %d", group);
    if (line->seen != 0)
        snprintf(last, sizeof last, "%lu", (unsigned long)line->last_dbn);
    printf("%s read %lu lanes %lu last %s breaks %lu\n", whose, (unsigned long)line->read, (unsigned long)line->lanes, last,
           (unsigned long)line->breaks);
    print_refused(whose, line->refused);
}

int main(void)
{
    static const char *const stops[3] = {"end", "long", "cut"};
    uint32_t sheet[FIGURES] = {0};
    second_replay_sheet figures;
    size_t size;
    uint8_t *records = whole_input(&size);
    if (records == NULL)
        return 1;
    second_replay_answer r = second_replay(records, size, sheet, FIGURES);
    free(records);
    memcpy(&figures, r.figures, sizeof figures);
    printf("packet replay 1\n");
    for (int g = 0; g < 4; g++)
        print_group(g + 1, &figures.group[g]);
    print_refused("unlisted", figures.unlisted);
    printf("%s\n", r.number == FULL ? "full" : stops[r.stop]);
    return ferror(stdout) || fflush(stdout) != 0;
}
