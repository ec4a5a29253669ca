/* A night at the hub: tenants lease slots, are patched, talked to, measured and replayed, on sound, over the library.

     hub PLAN SOUND OUT

   PLAN is the plan of the night (docs/NIGHT.md), SOUND the folder of the files that it names, OUT a folder for the
   records, the figures and each tenant's sound as it came out. Every tenant's block goes through one scratch memory
   that is never wiped; after each of them the memory and all outputs are searched for other tenants' material.
   It ends with 0 if each tenant's sound came out as it went in, but for what the figures list as damaged; with 1 if
   something did not, or if material was found where it must not be, and the place stands on standard error; with 2 if
   it could not go on. */
#include "hub.h"
#include <stdlib.h>
#include <time.h>

/* One block of every tenant that holds a slot: 4 ms. 0 where the night cannot go on. */
static int run_block(night *n)
{
    run_events(n);
    take_voice(n);
    for (uint32_t t = 1; t <= TENANTS; t++)
        if (n->tenants[t].on && !n->found) {
            take_sound(n, t);
            aes3_in(n, t);
            n->found = search_scratch(n);
        }
    if (!n->found)
        madi_block(n);
    for (uint32_t t = 1; t <= TENANTS; t++)
        if (n->tenants[t].on && !n->found) {
            aes3_out(n, t);
            n->found = search_scratch(n);
        }
    for (uint32_t t = 1; t <= TENANTS; t++)
        if (n->tenants[t].on && !n->found) {
            hd_block(n, t);
            n->found = n->found || search_scratch(n);
        }
    n->found = n->found || search_outputs(n);
    for (uint32_t t = 1; t <= TENANTS && !n->found; t++)
        if (n->tenants[t].on) {
            judge(n, t);
            put_sound(n, t);
        }
    replay_block(n);
    report_refusals(n);
    return !n->found;
}

static void run_night(night *n)
{
    uint32_t going = 1;
    start_desk(n);
    start_figures(n);
    while (going && n->block < n->plan.blocks) {
        going = (uint32_t)run_block(n);
        n->block++;
        if (n->block % n->plan.minute == 0 || n->block == n->plan.blocks || !going)
            figures_of_minute(n, (n->block - 1) / n->plan.minute);
    }
    figures_of_night(n);
}

static double seconds(void)
{
    struct timespec now;
    return timespec_get(&now, TIME_UTC) == 0 ? 0 : (double)now.tv_sec + 1e-9 * (double)now.tv_nsec;
}

int main(int words, char **word)
{
    static night n;
    double before = seconds();
    if (words != 4) {
        fprintf(stderr, "hub: usage: hub PLAN SOUND OUT\n");
        return STOPPED;
    }
    if (read_plan(word[1], &n.plan) != 0)
        return STOPPED;
    n.draw = 1873;
    open_night(&n, word[2], word[3]);
    run_night(&n);
    close_night(&n);
    double night = (double)n.block / BLOCKS_A_SECOND, took = seconds() - before;
    double own = (double)clock() / CLOCKS_PER_SEC;
    printf("hub: %.3f s of sound in %.2f s, %.1f times as fast as real time; in %.2f s of processor time, %.1f times\n",
           night, took, took > 0 ? night / took : 0, own, own > 0 ? night / own : 0);
    printf("hub: frames lost to damage %" PRIu64 ", lanes mended %" PRIu64 ", preamp commands %" PRIu64 "\n",
           n.lost_frames, n.mended, n.commands);
    if (n.found)
        printf("hub: material of a tenant was found where it must not be; the night ended there\n");
    else if (n.differing != 0)
        printf("hub: not as sent: %" PRIu64 " times\n", n.differing);
    else
        printf("hub: each tenant's sound came out as it went in, but for the blocks listed; nothing of it was found "
               "elsewhere\n");
    if (fflush(stdout) != 0)
        return STOPPED;
    return n.found || n.differing != 0 ? FOUND : AS_SENT;
}
