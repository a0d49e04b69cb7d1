/* Threads at once on buffers of their own, which must give what one thread gives. */
#include "boundary.h"

#include <inttypes.h>
#include <pthread.h>
#include <stdio.h>
#include <stdlib.h>

enum { THREADS = 4 };

/* A thread's share: all jobs, from one of its own on, and a sum of what they gave. */
struct share {
    uint64_t seed, count, first, sum;
    bool right;
};

static void *run_share(void *argument) {
    struct share *share = argument;
    struct desk desks[2];
    struct job *job = malloc(sizeof *job);
    if (!job) exit(2);
    make_desk(&desks[0], FRONT);
    make_desk(&desks[1], BACK);
    share->right = true;
    for (uint64_t i = 0; i < share->count && share->right; ++i) {
        uint32_t number;
        make_job(job, share->seed, (share->first + i) % share->count);
        share->right = run_job(job, desks, &number);
        share->sum += digest_of(job, &desks[0], number) * (2 * job->index + 1);
    }
    current_job = NULL;
    free(job);
    return NULL;
}

int run_threads(uint64_t seed, uint64_t count) {
    struct share alone = {.seed = seed, .count = count}, shares[THREADS];
    pthread_t threads[THREADS];
    run_share(&alone);
    for (int i = 0; i < THREADS; ++i) {
        shares[i] = (struct share){.seed = seed, .count = count, .first = count / THREADS * (uint64_t)i};
        if (pthread_create(&threads[i], NULL, run_share, &shares[i])) exit(2);
    }
    int wrong = !alone.right;
    for (int i = 0; i < THREADS; ++i) {
        pthread_join(threads[i], NULL);
        if (shares[i].right && shares[i].sum == alone.sum) continue;
        printf("WRONG: thread %d gives %016" PRIx64 ", one alone %016" PRIx64 "\n", i, shares[i].sum, alone.sum);
        wrong = 1;
    }
    if (!wrong) printf("%d threads of %" PRIu64 " calls give what one gives\n", THREADS, 2 * count);
    return wrong;
}
