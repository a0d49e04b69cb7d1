/* Jobs: calls that are answered, and the same with faults of every kind put in. */
#include "boundary.h"

#include <math.h>
#include <string.h>

enum { CORNERS = 8 };

/* ---- pieces */

static void lend_floats(struct job *j, enum list list, size_t n) {
    j->contents[list] = j->floats[list - FIRST];
    j->len[list] = n;
}

/* Floats as a call wants them, from a range. */
static void fill(struct job *j, enum list list, size_t n, struct random *r, double least, double most) {
    for (size_t i = 0; i < MOST_FLOATS; ++i) j->floats[list - FIRST][i] = between(r, least, most);
    lend_floats(j, list, n);
}

/* One float of a list becomes one of any class. */
static void spoil_float(struct job *j, enum list list, size_t n, struct random *r) {
    j->floats[list - FIRST][below(r, (uint32_t)n)] = any_float(r);
}

/* The job's own copy of the scene's bytes, to be changed. */
static uint8_t *own_bytes(struct job *j) {
    if (j->contents[BYTES] != j->bytes) memcpy(j->bytes, j->contents[BYTES], j->len[BYTES]);
    j->contents[BYTES] = j->bytes;
    return j->bytes;
}

static void lend_photograph(struct job *j, const struct scene *s) {
    j->width = s->width;
    j->height = s->height;
    j->stride = s->stride;
    j->contents[BYTES] = s->bytes;
    j->len[BYTES] = s->bytes_len;
}

/* How many bytes the photograph of a job needs; 0 where they do not fit. */
static size_t bytes_wanted(const struct job *j) {
    uint64_t n = j->height ? (uint64_t)j->stride * (j->height - 1) + j->width : 0;
    return n <= MOST_BYTES ? (size_t)n : 0;
}

/* A photograph of any size that fits, so that sizes up to the limit are also passed by. */
static void lend_other_size(struct job *j, struct random *r) {
    static const uint32_t sides[] = {1, 2, 3, 17, 100, 16383, 16384};
    j->width = sides[below(r, 7)];
    j->height = sides[below(r, 7)];
    j->stride = j->width + (chance(r, 50) ? 0 : below(r, 3));
    if (chance(r, 20)) j->stride = 65535 + below(r, 2);
    j->len[BYTES] = bytes_wanted(j);
    for (size_t i = 0; i < j->len[BYTES]; ++i) j->bytes[i] = (uint8_t)(i * 37 >> 2);
    j->contents[BYTES] = j->bytes;
}

static void spoil_photograph(struct job *j, struct random *r) {
    switch (below(r, 6)) {
    case 0: j->width = any_size(r); break;
    case 1: j->height = any_size(r); break;
    case 2: j->stride = any_size(r); break;
    case 3: j->len[BYTES] = any_length(r, j->len[BYTES], j->len[BYTES]); break;
    case 4: lend_other_size(j, r); break;
    default: own_bytes(j)[j->len[BYTES] ? below(r, (uint32_t)j->len[BYTES]) : 0] ^= (uint8_t)any_bits(r); break;
    }
}

/* ---- cameras */

/* A camera whose rectified picture is the photograph moved and scaled; its lens moves less than a pixel, but for a fisheye's rim. */
static void lend_camera(struct job *j, struct random *r, double side) {
    double scale = chance(r, 50) ? 1.0 : between(r, 0.5, 2.0), shift = chance(r, 50) ? 0.0 : between(r, -20.0, 20.0);
    double f = side * between(r, 1.0, 2.0), c = side / 2;
    const double camera[13] = {f, f, c, c, f * scale, f * scale, c * scale + shift, c * scale - shift, 0, 0, 0, 0, 0};
    memcpy(j->floats[2], camera, sizeof camera);
    j->lens = below(r, 3);
    /* Those of a fisheye that bends nothing, since tan a is a + a * a * a / 3 + .. */
    const double straight[5] = {1.0 / 3, 2.0 / 15, 17.0 / 315, 62.0 / 2835, 0};
    for (int i = 0; i < 5; ++i) j->floats[2][8 + i] = between(r, -1e-3, 1e-3) + (j->lens == 2 ? straight[i] : 0);
    lend_floats(j, THIRD, 13);
}

/* A place of the photograph in the rectified picture, but for the lens. */
static void rectify(const struct job *j, double *x, double *y) {
    const double *camera = j->floats[2];
    *x = (*x - camera[2]) / camera[0] * camera[4] + camera[6];
    *y = (*y - camera[3]) / camera[1] * camera[5] + camera[7];
}

/* The camera of a call that is lent one; none, its list empty and the kind of its lens any, of some that also take settings. */
static void lend_view(struct job *j, struct random *r, double side) {
    if (!lends(j, THIRD)) return;
    if (!takes_settings(j) || chance(r, 60)) {
        lend_camera(j, r, side);
        return;
    }
    memset(j->floats[2], 0, sizeof j->floats[2]);
    lend_floats(j, THIRD, 0);
    j->lens = any_size(r);
}

static bool has_camera(const struct job *j) { return j->len[THIRD] > 0; }

static void spoil_camera(struct job *j, struct random *r) {
    if (chance(r, 50))
        spoil_float(j, THIRD, 13, r);
    else if (chance(r, 20))
        j->lens = any_size(r);
    else
        j->len[THIRD] = any_length(r, chance(r, 50) ? 8 : 13, MOST_FLOATS);
}

/* ---- settings */

/* A setting that is taken: at an end of its range, the default, or between. */
static double any_setting(struct random *r, int at) {
    const struct range range = ranges[at];
    switch (below(r, 4)) {
    case 0: return range.least == 0 && chance(r, 50) ? -0.0 : range.least;
    case 1: return range.most;
    case 2: return defaults[at];
    default: return range.whole ? range.least + below(r, (uint32_t)(range.most - range.least) + 1) : between(r, range.least, range.most);
    }
}

/* One beside an end of its range, or a whole number and something, or such that 32 bits make a good one of it, or a float of any
   class; or a list too short. */
static void spoil_settings(struct job *j, struct random *r) {
    uint32_t at = below(r, SETTINGS);
    double *x = &j->floats[SECOND - FIRST][at], end = chance(r, 50) ? ranges[at].least : ranges[at].most;
    switch (below(r, 7)) {
    case 0: *x = nextafter(end, -INFINITY); break;
    case 1: *x = nextafter(end, INFINITY); break;
    case 2: *x = end + (chance(r, 50) ? 1 : -1); break;
    case 3: *x = end + (chance(r, 50) ? 0.5 : -0.5); break;
    case 4: *x = end + 0x1p32; break;
    case 5: *x = any_float(r); break;
    default: j->len[SECOND] = below(r, SETTINGS);
    }
}

/* The defaults or others, mostly such that are taken, and now and then with something behind them, which is not read. */
static void lend_settings(struct job *j, struct random *r) {
    double *settings = j->floats[SECOND - FIRST];
    bool others = chance(r, 60);
    for (int i = 0; i < MOST_FLOATS; ++i) settings[i] = i >= SETTINGS ? any_float(r) : others ? any_setting(r, i) : defaults[i];
    lend_floats(j, SECOND, SETTINGS + (chance(r, 20) ? below(r, 4) : 0));
    if (chance(r, 20)) spoil_settings(j, r);
}

/* ---- refinements */

/* A label so thin that the points of its short edges lie in one place: 10. */
static void make_thin(struct job *j, const struct scene *s, struct random *r) {
    double *q = j->floats[0];
    double t = between(r, 0.3, 0.7), right[2] = {s->corners[2] - s->corners[0], s->corners[3] - s->corners[1]};
    double half = 5.5e-10 / hypot(right[0], right[1]);
    for (int i = 0; i < CORNERS; ++i) {
        int axis = i % 2, bottom = i >= 4;
        double along = t + (i / 2 == 1 || i / 2 == 2 ? half : -half);
        q[i] = s->corners[axis] + along * right[axis] + bottom * (s->corners[6 + axis] - s->corners[axis]);
    }
}

/* Corners that span nothing, or lie elsewhere, or are in another order. */
static void spoil_corners(struct job *j, struct random *r) {
    double *q = j->floats[0];
    switch (below(r, 5)) {
    case 0: spoil_float(j, FIRST, CORNERS, r); break;
    case 1: for (int i = 2; i < CORNERS; ++i) q[i] = q[i % 2]; break;
    case 2: for (int i = 0; i < CORNERS; i += 2) q[i] = q[i + 1] = i; break;
    case 3: for (int i = 0; i < CORNERS; ++i) q[i] = between(r, -20.0, 120.0); break;
    default: j->len[FIRST] = any_length(r, CORNERS, MOST_FLOATS); break;
    }
}

/* A grid of any side, with modules for it where they fit. */
static void spoil_grid(struct job *j, struct random *r) {
    static const uint32_t sides[] = {2, 3, 176, 177, 178};
    if (j->contents[MODULES] != j->modules) memcpy(j->modules, j->contents[MODULES], j->len[MODULES]);
    j->contents[MODULES] = j->modules;
    switch (below(r, 4)) {
    case 0: j->dim = any_size(r); break;
    case 1: j->len[MODULES] = any_length(r, j->len[MODULES], j->len[MODULES]); break;
    case 2: j->modules[below(r, (uint32_t)j->len[MODULES])] = (uint8_t)any_bits(r); break;
    default:
        j->dim = sides[below(r, 5)];
        j->len[MODULES] = any_length(r, (size_t)j->dim * j->dim, MOST_MODULES);
        for (size_t i = 0; i < j->len[MODULES]; ++i) j->modules[i] = i % 3 != 0;
    }
}

static void spoil_refinement(struct job *j, struct random *r) {
    switch (below(r, 6)) {
    case 0: spoil_photograph(j, r); break;
    case 1: spoil_grid(j, r); break;
    case 2: j->x[below(r, 2)] = any_float(r); break;
    case 3: spoil_corners(j, r); break;
    case 4: if (lends(j, THIRD)) spoil_camera(j, r); break;
    default: j->flag[0] = !j->flag[0]; break;
    }
}

/* The rough corners of a scene, up to half a pixel off, in working pixels. */
static void lend_corners(struct job *j, const struct scene *s, struct random *r) {
    double *q = j->floats[0];
    for (int i = 0; i < CORNERS; ++i) q[i] = s->corners[i] + between(r, -0.5, 0.5);
    if (s == &scenes[BLOCK] && chance(r, 40)) make_thin(j, s, r);
    for (int i = 0; i < CORNERS; i += 2) {
        if (has_camera(j)) rectify(j, &q[i], &q[i + 1]);
        q[i] *= j->x[0];
        q[i + 1] *= j->x[1];
    }
    lend_floats(j, FIRST, CORNERS);
}

/* Sheet and copy about the size of the photograph, mostly enough. */
static void lend_marks(struct job *j, struct random *r) {
    uint64_t area = (uint64_t)j->width * j->height;
    size_t wanted = area <= MOST_BYTES ? (size_t)area : 100;
    j->len[SHEET] = chance(r, 70) ? wanted : any_length(r, wanted, MOST_BYTES);
    j->len[COPY] = chance(r, 70) ? wanted : any_length(r, wanted, MOST_BYTES);
}

static void make_refinement(struct job *j, struct random *r) {
    const struct scene *s = &scenes[below(r, SCENES)];
    lend_photograph(j, s);
    j->contents[MODULES] = s->modules;
    j->len[MODULES] = (size_t)s->dim * s->dim;
    j->dim = s->dim;
    j->x[0] = chance(r, 50) ? 1.0 : between(r, 0.2, 3.0);
    j->x[1] = chance(r, 50) ? j->x[0] : between(r, 0.2, 3.0);
    j->flag[0] = s->inverted;
    lend_view(j, r, s->width);
    lend_corners(j, s, r);
    if (takes_settings(j)) lend_settings(j, r);
    for (uint32_t faults = below(r, 10); faults > 6; --faults) spoil_refinement(j, r);
    j->len[COUNTS] = any_length(r, 20, MOST_COUNTS);
    if (lends(j, SHEET)) lend_marks(j, r);
}

/* ---- places and profiles of a photograph */

static void make_sample(struct job *j, struct random *r) {
    const struct scene *s = &scenes[below(r, SCENES)];
    lend_photograph(j, s);
    for (int i = 0; i < 2; ++i) j->x[i] = chance(r, 70) ? between(r, -4.0, s->width + 4.0) : any_float(r);
    j->border = chance(r, 70) ? below(r, 3) : (uint32_t)any_bits(r);
    j->constant = (uint8_t)any_bits(r);
    if (chance(r, 40)) spoil_photograph(j, r);
}

/* A ray across an edge of a scene's label. */
static void make_ray(struct job *j, struct random *r) {
    const struct scene *s = &scenes[below(r, SCENES)];
    uint32_t from = 2 * below(r, 4), to = (from + 2) % CORNERS;
    double t = between(r, 0.1, 0.9), dx = s->corners[to] - s->corners[from], dy = s->corners[to + 1] - s->corners[from + 1];
    double side = hypot(dx, dy), scale = 1.0;
    lend_photograph(j, s);
    j->x[0] = s->corners[from] + t * dx;
    j->x[1] = s->corners[from + 1] + t * dy;
    lend_view(j, r, s->width);
    if (has_camera(j)) {
        rectify(j, &j->x[0], &j->x[1]);
        scale = j->floats[2][4] / j->floats[2][0];
    }
    j->x[2] = dy / side;
    j->x[3] = -dx / side;
    j->x[4] = 0.5 * scale * side / s->dim;
    j->flag[0] = s->inverted;
    j->flag[1] = chance(r, 50);
    if (takes_settings(j)) lend_settings(j, r);
    for (uint32_t faults = below(r, 6); faults > 3; --faults) {
        if (chance(r, 40)) spoil_photograph(j, r);
        else if (lends(j, THIRD) && chance(r, 50)) spoil_camera(j, r);
        else j->x[below(r, 5)] = any_float(r);
    }
}

static void make_place(struct job *j, struct random *r) {
    lend_camera(j, r, 100.0);
    for (int i = 0; i < 2; ++i) j->x[i] = chance(r, 60) ? between(r, -10.0, 110.0) : any_float(r);
    if (chance(r, 50)) spoil_camera(j, r);
}

/* ---- maps and lines */

/* Lists of any length of a call's own, of floats from a range and of any class. */
static void make_lists(struct job *j, struct random *r) {
    for (int list = FIRST; list <= THIRD; ++list) {
        if (!lends(j, (enum list)list)) continue;
        size_t wanted = kinds[j->call].floats[list - FIRST];
        fill(j, (enum list)list, any_length(r, wanted, MOST_FLOATS), r, -50.0, 200.0);
        for (uint32_t wild = below(r, 8); wild > 4; --wild) spoil_float(j, (enum list)list, wanted, r);
        if (wanted == CORNERS && chance(r, 20)) /* corners in one place, or in a line */
            for (size_t i = 2, step = 1 + below(r, 2); i < CORNERS; i += step) j->floats[list - FIRST][i] = j->floats[list - FIRST][i % 2];
    }
    for (int i = 0; i < 2; ++i) j->x[i] = chance(r, 50) ? between(r, -2.0, 2.0) : any_float(r);
}

/* Two lines, of which the second may be the first again. */
static void make_lines(struct job *j, struct random *r) {
    make_lists(j, r);
    if (chance(r, 20)) memcpy(j->floats[1], j->floats[0], sizeof j->floats[0]);
}

/* Weighted points, mostly as many xs as ys and weights, and now and then all in one place, huge, or without weight. */
static void make_points(struct job *j, struct random *r) {
    size_t n = chance(r, 10) ? below(r, 3) : 2 + below(r, MOST_FLOATS - 2);
    for (int list = FIRST; list <= THIRD; ++list)
        fill(j, (enum list)list, chance(r, 95) ? n : any_length(r, n, MOST_FLOATS), r, list == THIRD ? 0.0 : -50.0, 200.0);
    uint32_t kind = below(r, 10);
    for (size_t i = 0; i < MOST_FLOATS; ++i) {
        if (kind == 0) j->floats[0][i] = j->floats[1][i] = 7.0;
        if (kind == 1) j->floats[below(r, 2)][i] *= 1e160;
        if (kind == 2) j->floats[2][i] = chance(r, 50) ? 0.0 : -0.0;
    }
    for (uint32_t wild = below(r, 10); wild > 7 && n; --wild) spoil_float(j, (enum list)(FIRST + below(r, 3)), n, r);
}

/* ---- scans */

/* A scan of any length, ragged or at the largest height, mostly with a good window and room. */
static void make_scan(struct job *j, struct random *r) {
    size_t n = chance(r, 70) ? below(r, 48) : below(r, MOST_HEIGHTS + 1);
    uint32_t kind = below(r, 4);
    for (size_t i = 0; i < MOST_HEIGHTS; ++i) j->scan[i] = kind == 0 ? 65535 : (uint16_t)(any_bits(r) >> (kind == 1 ? 60 : 48));
    j->window = chance(r, 85) ? 3 + 2 * below(r, 15) : chance(r, 80) ? below(r, 40) : (uint32_t)any_bits(r);
    enum list read = j->call == SMOOTH_TO ? SCAN : HEIGHTS;
    j->len[HEIGHTS] = chance(r, 85) ? n + below(r, (uint32_t)(MOST_HEIGHTS - n) + 1) : any_length(r, n, MOST_HEIGHTS);
    j->len[read] = n;
    j->contents[read] = j->scan;
}

/* ---- cards */

/* Puts a field behind those that a card has; one that is too long for its length makes a card that asks for something else. */
static void put_field(struct job *j, uint8_t tag, const void *first, size_t first_len, const void *rest, size_t rest_len) {
    size_t n = first_len + rest_len, at = j->len[CARD];
    if (n > 65535 || at + 3 + n > MOST_CARD) {
        j->whole = false;
        return;
    }
    uint8_t *to = j->card + at;
    to[0] = tag;
    to[1] = (uint8_t)n;
    to[2] = (uint8_t)(n >> 8);
    if (first_len) memcpy(to + 3, first, first_len);
    if (rest_len) memcpy(to + 3 + first_len, rest, rest_len);
    j->len[CARD] = at + 3 + n;
}

/* The fields of a job's request, as far as a card can hold it. */
static void put_request(struct job *j, bool mapped) {
    const uint32_t sides[3] = {j->width, j->height, j->stride};
    uint8_t bytes[6], dim = (uint8_t)j->dim, polarity = j->flag[0], lens = (uint8_t)j->lens;
    for (int i = 0; i < 6; ++i) bytes[i] = (uint8_t)(sides[i / 2] >> 8 * (i % 2));
    j->whole = (sides[0] | sides[1] | sides[2]) < 65536 && j->dim < 256 && j->len[FIRST] == CORNERS && j->len[MODULES] > 0
               && (!mapped || (j->lens < 3 && j->len[THIRD] == 13));
    put_field(j, 1, bytes, sizeof bytes, NULL, 0);
    put_field(j, 2, j->contents[BYTES], j->len[BYTES], NULL, 0);
    put_field(j, 3, &dim, 1, j->contents[MODULES], j->len[MODULES]);
    put_field(j, 4, j->x, 2 * sizeof(double), NULL, 0);
    put_field(j, 5, j->floats[0], CORNERS * sizeof(double), NULL, 0);
    put_field(j, 6, &polarity, 1, NULL, 0);
    if (!mapped) return;
    put_field(j, 7, j->floats[2], 8 * sizeof(double), NULL, 0);
    put_field(j, 8, &lens, 1, j->floats[2] + 8, (j->lens == 0 ? 0 : j->lens == 1 ? 5 : 4) * sizeof(double));
}

/* A card with a byte changed, or cut, or with a byte more. */
static void spoil_card(struct job *j, struct random *r, size_t most) {
    size_t n = j->len[CARD];
    j->whole = false;
    switch (below(r, 3)) {
    case 0: if (n) j->card[below(r, (uint32_t)n)] = (uint8_t)any_bits(r); break;
    case 1: j->len[CARD] = n ? below(r, (uint32_t)n) : 0; break;
    default: j->len[CARD] = n < most ? n + 1 : n; break;
    }
}

/* A job card of a refinement, and mostly room for its result card. */
static void make_job_card(struct job *j, struct random *r) {
    j->mapped = chance(r, 50);
    j->call = j->mapped ? REFINE_MAPPED : REFINE;
    make_refinement(j, r);
    j->call = RUN_CARD;
    put_request(j, j->mapped);
    j->contents[CARD] = j->card;
    if (chance(r, 20)) spoil_card(j, r, MOST_CARD);
    j->len[RESULT] = chance(r, 85) ? NEWER + below(r, MOST_RESULT - NEWER + 1) : any_length(r, NEWER, MOST_RESULT);
}

/* A result card of either form, of any corners, mostly of the form that is asked for, with small counts and in order. */
static void make_result_card(struct job *j, struct random *r) {
    bool newer = (j->call == NARROW) != chance(r, 10);
    size_t wide = newer ? 2 : 1, room = j->call == WIDEN ? NEWER : OLDER;
    uint8_t bytes[64], stats[28], flags[4];
    for (int i = 0; i < 64; ++i) bytes[i] = (uint8_t)any_bits(r);
    for (size_t i = 0; i < sizeof stats; ++i) stats[i] = (uint8_t)any_bits(r);
    for (size_t e = 0; e < 4; ++e) {
        for (size_t k = 0; wide == 2 && k < 3; ++k)
            if (chance(r, 97)) stats[e * 7 + 2 * k + 1] = 0;
        stats[e * (3 * wide + 1) + 3 * wide] = chance(r, 98) ? (uint8_t)below(r, 2) : (uint8_t)any_bits(r);
        flags[e] = chance(r, 98) ? (uint8_t)below(r, 2) : (uint8_t)any_bits(r);
    }
    put_field(j, 16, bytes, sizeof bytes, NULL, 0);
    put_field(j, newer ? 19 : 17, stats, 4 * (3 * wide + 1), NULL, 0);
    put_field(j, 18, flags, sizeof flags, NULL, 0);
    j->contents[CARD] = j->card;
    if (chance(r, 20)) spoil_card(j, r, MOST_RESULT);
    j->len[RESULT] = chance(r, 85) ? room + below(r, (uint32_t)(MOST_RESULT - room) + 1) : any_length(r, room, MOST_RESULT);
}

/* ---- all */

/* The job of this index: the calls come in turn. */
void make_job(struct job *j, uint64_t seed, uint64_t index) {
    struct random r = random_of(seed, index);
    memset(j, 0, offsetof(struct job, bytes));
    j->seed = seed;
    j->index = index;
    j->call = (enum call)(index % CALLS);
    switch (j->call) {
    case REFINE: case REFINE_MAPPED: case REFINE_MARKING: case REFINE_MAPPED_MARKING: case REFINE_WITH: case REFINE_MARKING_WITH:
        make_refinement(j, &r);
        break;
    case SAMPLE: make_sample(j, &r); break;
    case TO_SOURCE: make_place(j, &r); break;
    case LOCALIZE: case LOCALIZE_MAPPED: case LOCALIZE_WITH: make_ray(j, &r); break;
    case FIT_LINE: make_points(j, &r); break;
    case INTERSECT: make_lines(j, &r); break;
    case SQRT: j->x[0] = any_float(&r); break;
    case SMOOTH_TO: case SMOOTH_OVER: make_scan(j, &r); break;
    case RUN_CARD: make_job_card(j, &r); break;
    case WIDEN: case NARROW: make_result_card(j, &r); break;
    default: make_lists(j, &r); break;
    }
    j->len[VALUES] = j->call == SQRT ? 1 : any_length(&r, kinds[j->call].values, MOST_FLOATS);
}
