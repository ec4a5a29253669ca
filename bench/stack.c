/* The stack that a call of each entry takes, of those that bench.c measures: the call runs on a stack of its own that
   was painted before, and what it painted over is counted. A call that does nothing is taken off. */
#define _XOPEN_SOURCE 700
#include "bench.h"
#include <stdio.h>
#include <string.h>
#include <ucontext.h>

enum { OCTETS = 1 << 18, PAINT = 0xA5 };

static uint8_t stack[OCTETS] __attribute__((aligned(64)));
static ucontext_t here, there;
static uint32_t (*volatile called)(void);
static volatile uint32_t sink;

static void run(void)
{
    sink = called();
}

static uint32_t nothing(void)
{
    return 0;
}

static size_t taken(uint32_t (*call)(void))
{
    called = call;
    run(); /* once before, so that no call of the C library is linked while it is measured */
    memset(stack, PAINT, sizeof stack);
    getcontext(&there);
    there.uc_stack.ss_sp = stack;
    there.uc_stack.ss_size = sizeof stack;
    there.uc_link = &here;
    makecontext(&there, run, 0);
    swapcontext(&here, &there);
    size_t untouched = 0;
    while (untouched < sizeof stack && stack[untouched] == PAINT)
        untouched++;
    return sizeof stack - untouched;
}

int main(void)
{
    prepare_rows();
    size_t none = taken(nothing), most = 0;
    printf("| operation | octets of stack |\n|---|---|\n");
    for (size_t k = 0; k < row_count; k++) {
        all_rows[k].prepare();
        size_t octets = taken(all_rows[k].library->timed) - none;
        printf("| %s | %zu |\n", all_rows[k].name, octets);
        most = octets > most ? octets : most;
    }
    printf("| the most | %zu |\n", most);
    return ferror(stdout) || fflush(stdout) != 0;
}
