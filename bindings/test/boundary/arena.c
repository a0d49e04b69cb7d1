/* Lists that abut a page that may not be touched. */
#include "boundary.h"

#include <stdio.h>
#include <stdlib.h>
#include <string.h>
#include <sys/mman.h>
#include <unistd.h>

static const size_t most[LISTS] = {MOST_BYTES, MOST_MODULES, MOST_FLOATS, MOST_FLOATS, MOST_FLOATS, MOST_HEIGHTS,
                                   MOST_CARD, MOST_FLOATS, MOST_COUNTS, MOST_BYTES, MOST_BYTES, MOST_HEIGHTS, MOST_RESULT};

/* Room for so many bytes and a rim, in whole pages, with a page that may not be touched at either end. */
struct arena make_arena(size_t size) {
    size_t page = (size_t)sysconf(_SC_PAGESIZE);
    size_t whole = (size + RIM + page - 1) / page * page;
    uint8_t *all = mmap(NULL, whole + 2 * page, PROT_NONE, MAP_PRIVATE | MAP_ANONYMOUS, -1, 0);
    if (all == MAP_FAILED || mprotect(all + page, whole, PROT_READ | PROT_WRITE)) {
        perror("boundary: no memory");
        exit(2);
    }
    struct arena arena = {all + page, whole};
    return arena;
}

void make_desk(struct desk *desk, enum end end) {
    desk->end = end;
    for (int list = 0; list < LISTS; ++list) desk->arenas[list] = make_arena(most[list] * element_sizes[list]);
}

/* Puts a list into its arena: its contents, or canaries into a buffer that has none, and canaries
   into the rim beside it. */
static void lay_list(struct desk *desk, const struct job *job, enum list list) {
    const struct arena arena = desk->arenas[list];
    size_t size = job->len[list] * element_sizes[list];
    uint8_t *at = desk->end == FRONT ? arena.start : arena.start + arena.size - size;
    if (is_buffer(list) && !job->contents[list])
        memset(at, CANARY, size);
    else if (size)
        memcpy(at, job->contents[list], size);
    memset(desk->end == FRONT ? at + size : at - RIM, CANARY, RIM);
    desk->at[list] = at;
}

/* Puts all lists of a job in place for a call. */
void lay(struct desk *desk, const struct job *job) {
    for (int list = 0; list < LISTS; ++list)
        if (lends(job, (enum list)list)) lay_list(desk, job, (enum list)list);
}
