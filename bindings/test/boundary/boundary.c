/* The boundary to C, tested: every call with each list abutting a page that may not be touched, at either end.

       boundary calls SEED JOBS     JOBS jobs, each made at both ends; prints how often each call returned each number
       boundary again SEED INDEX    one of these jobs by itself
       boundary threads SEED JOBS   the jobs in four threads at once, which must give what one gives
       boundary stack SEED JOBS     the jobs with 20 KB of stack; prints what each call needs

   A fault or a wrong answer is printed with the call, and how to make it again. The status is 0, 1 where something is wrong, 2 where it
   could not be run, and 3 after a fault. */
#include "boundary.h"

#include <signal.h>
#include <stdio.h>
#include <stdlib.h>
#include <string.h>
#include <unistd.h>

/* Says which list a fault lies beside, by its address. */
static void print_place(const struct job *job, const struct desk *desk, const uint8_t *address) {
    for (int list = 0; list < LISTS; ++list) {
        const struct arena arena = desk->arenas[list];
        if (!lends(job, (enum list)list) || address + 4096 < arena.start || address > arena.start + arena.size + 4096) continue;
        printf(", at byte %td of %s, which has %zu", address - desk->at[list], list_names[list], job->len[list] * element_sizes[list]);
    }
}

/* Tells of a fault. The library was running, which calls nothing of stdio, so that this may. */
static void fault(int signal, siginfo_t *info, void *context) {
    (void)signal, (void)context;
    printf("FAULT");
    if (current_job) {
        if (current_desk) print_place(current_job, current_desk, info->si_addr);
        printf("\n");
        print_job(current_job);
    }
    fflush(stdout);
    _exit(3);
}

/* Faults are told of on a stack of their own, since the call's may be what ended. */
static void watch_faults(void) {
    static uint8_t stack[1 << 16];
    stack_t other = {.ss_sp = stack, .ss_size = sizeof stack};
    struct sigaction action = {.sa_sigaction = fault, .sa_flags = SA_SIGINFO | SA_ONSTACK};
    if (sigaltstack(&other, NULL) || sigaction(SIGSEGV, &action, NULL) || sigaction(SIGBUS, &action, NULL)) exit(2);
}

int main(int argc, char **argv) {
    static const struct {
        const char *name;
        int (*run)(uint64_t, uint64_t);
    } modes[] = {{"calls", run_calls}, {"again", run_again}, {"threads", run_threads}, {"stack", run_stack}};
    watch_faults();
    draw_scenes();
    for (size_t i = 0; argc == 4 && i < sizeof modes / sizeof *modes; ++i)
        if (!strcmp(argv[1], modes[i].name)) return modes[i].run(strtoull(argv[2], NULL, 10), strtoull(argv[3], NULL, 10));
    fprintf(stderr, "usage: boundary calls|again|threads|stack SEED JOBS\n");
    return 2;
}
