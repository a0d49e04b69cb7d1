/* Calls with 20 KB of stack and a page that may not be touched below it; how much of it each uses. */
#include "boundary.h"

#include <alloca.h>
#include <inttypes.h>
#include <stdio.h>
#include <stdlib.h>
#include <string.h>
#include <ucontext.h>

enum { ROOM = 20 * 1024, ABOVE = 1 << 16, PAINT = 0x5B };

/* The small stack, and the call that is made on it. */
static struct {
    uint8_t *lowest;
    ucontext_t caller, callee;
    const struct job *job;
    const struct desk *desk;
    uint32_t number;
} small;

/* Makes the call from the very place where ROOM bytes are left: what lies above them is given away first. What it takes to pass the
   call's arguments counts with the call. */
static void call_on_small_stack(void) {
    uint8_t *here = __builtin_frame_address(0);
    volatile uint8_t *given_away = alloca((size_t)(here - small.lowest) - ROOM);
    *given_away = PAINT;
    small.number = make_call(small.job, small.desk);
}

/* How many of the ROOM bytes a job's call uses. */
static size_t stack_used(const struct job *job, const struct desk *desk) {
    memset(small.lowest, PAINT, ROOM);
    small.job = job;
    small.desk = desk;
    if (getcontext(&small.callee)) exit(2);
    small.callee.uc_stack.ss_sp = small.lowest;
    small.callee.uc_stack.ss_size = ROOM + ABOVE;
    small.callee.uc_link = &small.caller;
    makecontext(&small.callee, call_on_small_stack, 0);
    if (swapcontext(&small.caller, &small.callee)) exit(2);
    size_t left = 0;
    while (left < ROOM && small.lowest[left] == PAINT) ++left;
    return ROOM - left;
}

int run_stack(uint64_t seed, uint64_t count) {
    static struct desk desk;
    static struct job job;
    size_t most[CALLS] = {0}, deepest = 0;
    make_desk(&desk, BACK);
    small.lowest = make_arena(ROOM + ABOVE).start;
    for (uint64_t index = 0; index < count; ++index) {
        make_job(&job, seed, index);
        lay(&desk, &job);
        current_job = &job;
        size_t used = stack_used(&job, &desk);
        const char *wrong = wrong_after(&job, &desk, small.number);
        if (wrong) {
            printf("WRONG: %s\n", wrong);
            print_job(&job);
            return 1;
        }
        if (used > most[job.call]) most[job.call] = used;
    }
    for (int call = 0; call < CALLS; ++call) {
        printf("%s: %zu bytes\n", kinds[call].name, most[call]);
        if (most[call] > deepest) deepest = most[call];
    }
    printf("%zu bytes at most\n", deepest);
    return 0;
}
