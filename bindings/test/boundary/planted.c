/* Faults put between the harness and the library, to show that it finds them: linked with -Wl,--wrap=make_call, and not otherwise.
   PLANTED says which, and IN in which list. */
#include "boundary.h"

#include <alloca.h>
#include <sched.h>
#include <string.h>

uint32_t __real_make_call(const struct job *job, const struct desk *desk);
uint32_t __wrap_make_call(const struct job *job, const struct desk *desk);

enum {
    READS_BEHIND, READS_BEFORE, WRITES_BEHIND_VALUES, WRITES_A_LIST, MARKS_A_REFUSAL, LEAVES_OUT, GOES_BY_ADDRESS, NEEDS_STACK, KEEPS_STATE
};

static void touch(const uint8_t *at) { (void)*(const volatile uint8_t *)at; }

/* Turns over a byte of the list, where it has that one. */
static void turn_over(const struct job *job, const struct desk *desk, size_t at) {
    if (at < job->len[IN] * element_sizes[IN]) desk->at[IN][at] ^= 0xFF;
}

/* What a fault does behind a call that gave a number. */
static void plant(const struct job *job, const struct desk *desk, uint32_t number) {
    size_t size = job->len[IN] * element_sizes[IN], values = kinds[job->call].values * sizeof(double);
    if (PLANTED == READS_BEHIND) touch(desk->at[IN] + size);
    if (PLANTED == READS_BEFORE) touch(desk->at[IN] - 1);
    if (PLANTED == WRITES_BEHIND_VALUES) turn_over(job, desk, values);
    if (PLANTED == WRITES_A_LIST) turn_over(job, desk, 0);
    if (PLANTED == MARKS_A_REFUSAL && number >= 1 && number <= 7) turn_over(job, desk, 0);
    if (PLANTED == LEAVES_OUT && size) memset(desk->at[IN], CANARY, element_sizes[IN]);
    if (PLANTED == GOES_BY_ADDRESS && number == 0 && (uintptr_t)desk->at[IN] % 4096) turn_over(job, desk, 0);
}

/* State that outlives a call shows where another thread calls meanwhile. */
static void keep_state(const struct job *job, const struct desk *desk) {
    static volatile uint64_t kept;
    kept = job->index;
    sched_yield();
    if (kept != job->index) turn_over(job, desk, 0);
}

uint32_t __wrap_make_call(const struct job *job, const struct desk *desk) {
    if (PLANTED == NEEDS_STACK) *(volatile uint8_t *)alloca(4096) = 0;
    uint32_t number = __real_make_call(job, desk);
    if (lends(job, IN)) plant(job, desk, number);
    if (PLANTED == KEEPS_STATE) keep_state(job, desk);
    return number;
}
