/* Runs of many jobs: each at the front and at the back of its arenas, with what failed printed so that it can be made again. */
#include "boundary.h"

#include <inttypes.h>
#include <stdio.h>

_Thread_local const struct job *current_job;
_Thread_local const struct desk *current_desk;

/* A job's call with its numbers, and how to make it again. */
void print_job(const struct job *j) {
    printf("trufolmesca_%s: width %" PRIu32 ", height %" PRIu32 ", stride %" PRIu32 ", dim %" PRIu32 ", border %" PRIu32 ", constant %d,"
           " window %" PRIu32 ", floats %a %a %a %a %a, bools %d %d, lens %" PRIu32 "; lengths:",
           kinds[j->call].name, j->width, j->height, j->stride, j->dim, j->border, j->constant, j->window, j->x[0], j->x[1], j->x[2],
           j->x[3], j->x[4], j->flag[0], j->flag[1], j->lens);
    for (int list = 0; list < LISTS; ++list)
        if (lends(j, (enum list)list)) printf(" %s %zu", list_names[list], j->len[list]);
    printf("\nagain: boundary again %" PRIu64 " %" PRIu64 "\n", j->seed, j->index);
}

/* Makes a job's call on one desk and checks it. */
static const char *done_on(const struct job *job, struct desk *desk, uint32_t *number) {
    lay(desk, job);
    current_desk = desk;
    *number = make_call(job, desk);
    current_desk = NULL;
    return wrong_after(job, desk, *number);
}

/* Makes a job's call on both desks; false, and the job printed, where something is wrong. */
bool run_job(const struct job *job, struct desk desks[2], uint32_t *number) {
    uint32_t again = 0;
    current_job = job;
    const char *wrong = done_on(job, &desks[0], number);
    if (!wrong) wrong = done_on(job, &desks[1], &again);
    if (!wrong && *number != again) wrong = "the number depends on where the lists lie";
    if (!wrong) wrong = wrong_between(job, &desks[0], &desks[1]);
    if (!wrong) return true;
    printf("WRONG: %s (number %" PRIu32 ")\n", wrong, *number);
    print_job(job);
    return false;
}

/* Prints how often each call returned each number; how many that are demanded were not reached. */
static int print_tally(uint64_t tally[CALLS][NUMBERS]) {
    int missing = 0;
    for (int call = 0; call < CALLS; ++call) {
        printf("%s:", kinds[call].name);
        for (int number = 0; number < NUMBERS; ++number) {
            if (tally[call][number]) printf(" %d=%" PRIu64, number, tally[call][number]);
            if (!tally[call][number] && demanded((enum call)call) >> number & 1) printf(" %d=NOT REACHED", number), ++missing;
        }
        printf("\n");
    }
    return missing;
}

/* As many jobs, each made twice: all must be right, and all numbers reached. */
int run_calls(uint64_t seed, uint64_t count) {
    static struct desk desks[2];
    static struct job job;
    static uint64_t tally[CALLS][NUMBERS];
    make_desk(&desks[0], FRONT);
    make_desk(&desks[1], BACK);
    for (uint64_t index = 0; index < count; ++index) {
        uint32_t number;
        make_job(&job, seed, index);
        if (!run_job(&job, desks, &number)) return 1;
        tally[job.call][number] += 2;
    }
    int missing = print_tally(tally);
    printf("%" PRIu64 " calls, %d numbers not reached\n", 2 * count, missing);
    return missing ? 1 : 0;
}

/* One job by itself, printed. */
int run_again(uint64_t seed, uint64_t index) {
    static struct desk desks[2];
    static struct job job;
    uint32_t number;
    make_desk(&desks[0], FRONT);
    make_desk(&desks[1], BACK);
    make_job(&job, seed, index);
    if (!run_job(&job, desks, &number)) return 1;
    print_job(&job);
    printf("number %" PRIu32 "\n", number);
    return 0;
}
