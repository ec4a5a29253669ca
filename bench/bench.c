/* Measures the library against the same work in C, in one process and one run: medians of interleaved rounds, by the
   time of the process, as a table. Nothing here fails by the clock; it fails only if two programs do not agree, in the
   whole answer and in every buffer that they fill. */
#define _POSIX_C_SOURCE 200809L
#include "bench.h"
#include <stdio.h>
#include <stdlib.h>
#include <string.h>
#include <time.h>

enum { ROUNDS = 41, PROGRAMS = 3 };

static volatile uint32_t sink;

static double now(void)
{
    struct timespec t;
    clock_gettime(CLOCK_PROCESS_CPUTIME_ID, &t);
    return (double)t.tv_sec * 1e9 + (double)t.tv_nsec;
}

static int by_size(const void *a, const void *b)
{
    double x = *(const double *)a, y = *(const double *)b;
    return (x > y) - (x < y);
}

static double median(double *t)
{
    qsort(t, ROUNDS, sizeof t[0], by_size);
    return t[ROUNDS / 2];
}

/* Calls one program over buffers that hold nothing of the other, and keeps its answer and what it filled. */
static size_t call_whole(const operation *o, const program *p, uint8_t answer[MOST_ANSWER], uint8_t kept[2][MOST_FILLED])
{
    for (int k = 0; k < 2 && o->filled[k].octets != 0; k++)
        memset(o->filled[k].at, 0xA5, o->filled[k].octets);
    size_t n = p->whole(answer);
    for (int k = 0; k < 2 && o->filled[k].octets != 0; k++)
        memcpy(kept[k], o->filled[k].at, o->filled[k].octets);
    return n;
}

static int agree(const operation *o, const program *c)
{
    static uint8_t answers[2][MOST_ANSWER], kept[2][2][MOST_FILLED];
    size_t n = call_whole(o, o->library, answers[0], kept[0]), m = call_whole(o, c, answers[1], kept[1]);
    int same = n == m && memcmp(answers[0], answers[1], n) == 0;
    for (int k = 0; k < 2; k++)
        same = same && memcmp(kept[0][k], kept[1][k], o->filled[k].octets) == 0;
    return same;
}

static double time_call(uint32_t (*call)(void), int times)
{
    double from = now();
    for (int k = 0; k < times; k++)
        sink = sink + call();
    return (now() - from) / times;
}

/* Every round takes the programs in turn, so that what else the machine does falls on all of them. */
static void measure(const operation *o)
{
    const program *programs[PROGRAMS] = {o->library, o->hand, o->formed};
    double taken[PROGRAMS][ROUNDS], middle[PROGRAMS] = {0};
    int times = (int)(300000 / (time_call(o->hand->timed, 20) + 1)) + 4;
    for (int k = 0; k < ROUNDS; k++)
        for (int p = 0; p < PROGRAMS; p++)
            if (programs[p] != NULL)
                taken[p][k] = time_call(programs[p]->timed, times);
    for (int p = 0; p < PROGRAMS; p++)
        if (programs[p] != NULL)
            middle[p] = median(taken[p]);
    printf("| %s | %.0f | %.0f | %.2f |", o->name, middle[0], middle[1], middle[0] / middle[1]);
    if (o->formed != NULL)
        printf(" %.0f | %.2f |\n", middle[2], middle[0] / middle[2]);
    else
        printf(" | |\n");
}

/* Calls one program so many times and no more, so that the instructions of a call can be counted. */
static int call_only(size_t row, const char *which, int times)
{
    if (row >= row_count)
        return 2;
    const operation *o = &all_rows[row];
    const program *p = which[0] == 'l' ? o->library : which[0] == 'h' ? o->hand : o->formed;
    if (p == NULL)
        return 2;
    o->prepare();
    for (int k = 0; k < times; k++)
        sink = sink + p->timed();
    return 0;
}

/* The rows in their order: the name, and after a bar whether there is C with the named forms. */
static void list_rows(void)
{
    for (size_t k = 0; k < row_count; k++)
        printf("%s|%s\n", all_rows[k].name, all_rows[k].formed != NULL ? "formed" : "");
}

/* With no arguments the table; with `rows` their names; with a row's number, `library`, `hand` or `formed` and a count, so
   many calls. */
int main(int argc, char **argv)
{
    if (argc == 2 && strcmp(argv[1], "rows") == 0) {
        list_rows();
        return ferror(stdout) || fflush(stdout) != 0;
    }
    prepare_rows();
    if (argc == 4)
        return call_only((size_t)strtoul(argv[1], NULL, 10), argv[2], atoi(argv[3]));
    printf("| operation | library, ns | C by hand, ns | ratio | C with the named forms, ns | ratio |\n|---|---|---|---|---|---|\n");
    for (size_t k = 0; k < row_count; k++) {
        const operation *o = &all_rows[k];
        o->prepare();
        if (!agree(o, o->hand) || (o->formed != NULL && !agree(o, o->formed))) {
            fprintf(stderr, "bench: %s: the library and the C do not agree\n", o->name);
            return 1;
        }
        measure(o);
    }
    return ferror(stdout) || fflush(stdout) != 0;
}
