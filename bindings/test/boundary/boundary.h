/* What the parts of the boundary test share: a job is all of a call but where its lists lie, a desk is where they lie. */
#ifndef BOUNDARY_H
#define BOUNDARY_H

#include <stdbool.h>
#include <stddef.h>
#include <stdint.h>

enum {
    MOST_BYTES = 1 << 16,      /* bytes of a photograph, a sheet or a copy that is lent */
    MOST_MODULES = 178 * 178,  /* one row and column more than a label can have */
    MOST_FLOATS = 64,
    MOST_COUNTS = 64,
    MOST_HEIGHTS = 256,
    MOST_CARD = 1 << 16,       /* bytes of a job card that is lent, one more than it may have */
    MOST_RESULT = 160,         /* bytes of a result card that is lent, and of a buffer for one */
    NEWER = 105, OLDER = 93,   /* bytes of a result card in either form */
    CANARY = 0xA7,             /* each byte of a buffer before a call */
    RIM = 64,                  /* bytes watched beside a list, on the side that has no guard */
    SETTINGS = 9,              /* numbers of a list of settings */
    NUMBERS = 26
};

/* ---- the calls */

enum call {
    REFINE, REFINE_MAPPED, REFINE_MARKING, REFINE_MAPPED_MARKING, SAMPLE, TO_SOURCE, SQUARE_TO_QUAD, QUAD_TO_QUAD, MAP, SCALED,
    INVERSE, THEN, FIT_LINE, INTERSECT, LOCALIZE, LOCALIZE_MAPPED, SQRT, SMOOTH_TO, SMOOTH_OVER, RUN_CARD,
    WIDEN, NARROW, REFINE_WITH, REFINE_MARKING_WITH, LOCALIZE_WITH, CALLS
};

/* The lists and buffers that a call can be lent. FIRST is its corners, map, xs or line, SECOND the quad, map, ys or line beside it, or
   its settings, THIRD the weights or the camera. HEIGHTS is where a scan is smoothed to, and holds the scan before the call over itself. CARD is
   a card that is read, and RESULT where a result card is written. */
enum list { BYTES, MODULES, FIRST, SECOND, THIRD, SCAN, CARD, VALUES, COUNTS, SHEET, COPY, HEIGHTS, RESULT, LISTS };

struct kind {
    const char *name;
    unsigned lists;    /* a bit for each list that it is lent */
    unsigned numbers;  /* a bit for each number that it can return */
    size_t values;     /* how many values an answer has */
    size_t floats[3];  /* how many floats it wants of FIRST, SECOND and THIRD */
};

extern const struct kind kinds[CALLS];
unsigned demanded(enum call call); /* the numbers that a long run must reach */
extern const char *const list_names[LISTS];
extern const size_t element_sizes[LISTS];

struct job {
    uint64_t seed, index;
    enum call call;
    uint32_t width, height, stride, dim, border, window;
    uint8_t constant;
    double x[5];        /* the call's floats, in its order */
    bool flag[2];       /* its bools, in its order */
    uint32_t lens;      /* the kind of the camera's lens */
    bool mapped, whole; /* of a job card: whether it has a camera, and whether it asks for the job's own request */
    size_t len[LISTS];
    const void *contents[LISTS]; /* of what is read: a scene's, or those below; null of a buffer that is only written */
    uint8_t bytes[MOST_BYTES], modules[MOST_MODULES];
    double floats[3][MOST_FLOATS];
    uint16_t scan[MOST_HEIGHTS];
    uint8_t card[MOST_CARD];
};

static inline bool lends(const struct job *job, enum list list) { return kinds[job->call].lists >> list & 1; }
static inline bool is_buffer(enum list list) { return list >= VALUES; }
static inline bool takes_settings(const struct job *job) { return job->call >= REFINE_WITH; }

/* The settings: their defaults, and which numbers each may be. */
struct range {
    double least, most;
    bool whole;
};

extern const double defaults[SETTINGS];
extern const struct range ranges[SETTINGS];

/* ---- where lists lie (arena.c) */

enum end { FRONT, BACK };

/* Pages that may be touched, between two that may not. */
struct arena {
    uint8_t *start;
    size_t size;
};

/* An arena for each list, and where the lists of the present job lie: all at the front of their arenas, or all at the back. */
struct desk {
    enum end end;
    struct arena arenas[LISTS];
    uint8_t *at[LISTS];
};

struct arena make_arena(size_t size);
void make_desk(struct desk *desk, enum end end);
void lay(struct desk *desk, const struct job *job);

/* ---- making a call, and checking it (calls.c, check.c) */

uint32_t make_call(const struct job *job, const struct desk *desk);
uint32_t refined(const struct job *job, double places[8], uint32_t counts[20]);

/* Buffers for a call beside a job's own. */
struct written {
    double values[MOST_FLOATS];
    uint32_t counts[MOST_COUNTS];
    uint8_t sheet[MOST_BYTES], copy[MOST_BYTES];
};

uint32_t call_without_settings(const struct job *job, const struct desk *desk, struct written *to);

/* What is wrong after a call, or null. */
const char *wrong_after(const struct job *job, const struct desk *desk, uint32_t number);
const char *wrong_between(const struct job *job, const struct desk *one, const struct desk *other);
uint64_t digest_of(const struct job *job, const struct desk *desk, uint32_t number);

/* ---- jobs (random.c, scenes.c, jobs.c) */

struct random {
    uint64_t state;
};

struct random random_of(uint64_t seed, uint64_t index);
uint64_t any_bits(struct random *r);
uint32_t below(struct random *r, uint32_t n);
double between(struct random *r, double least, double most);
bool chance(struct random *r, uint32_t percent);
double any_float(struct random *r);
uint32_t any_size(struct random *r);
size_t any_length(struct random *r, size_t wanted, size_t most);

/* A drawn label: its photograph, its modules and its true corners. */
struct scene {
    uint32_t width, height, stride, dim;
    size_t bytes_len;
    uint8_t bytes[MOST_BYTES / 4], modules[32 * 32];
    double corners[8];
    bool inverted;
};

enum { SCENES = 4, BLOCK = 3 }; /* the last is one dark block, every module dark */
extern struct scene scenes[SCENES];

void draw_scenes(void);
void make_job(struct job *job, uint64_t seed, uint64_t index);

/* ---- runs (runs.c, threads.c, stack.c) */

/* The call that a thread is making: a fault is told by it. */
extern _Thread_local const struct job *current_job;
extern _Thread_local const struct desk *current_desk;

void print_job(const struct job *job);
bool run_job(const struct job *job, struct desk desks[2], uint32_t *number);
int run_calls(uint64_t seed, uint64_t count);
int run_again(uint64_t seed, uint64_t index);
int run_threads(uint64_t seed, uint64_t count);
int run_stack(uint64_t seed, uint64_t count);

#endif
