/* Refines the corners of a label on a picture, and writes what the answer rests on.

       label [--scale SX SY] [--inverted]
             [--source FX FY CX CY --rectified FX FY CX CY [--lens K1 K2 P1 P2 K3 | --fisheye K1 K2 K3 K4]]
             PICTURE GRID X0 Y0 X1 Y1 X2 Y2 X3 Y3 SHEET COPY

   PICTURE is a grey PGM of one byte a pixel, GRID a text file with a row of 0 and 1 for each row of modules, 1 dark; then the rough
   corners, in working pixels, of which there are SX and SY for each pixel of the picture. Through a camera, source and rectified, the
   corners are of the rectified picture. It writes the mark sheet and the blanked copy as PGM, and then prints the answer's lines. Only
   words that are no numbers, and files, are checked here: what is wrong with a value comes back as a number. The status is 0 for an
   answer, 1 where a number refuses, and 2 where the program could not be run or what it has could not be written. */
#define _POSIX_C_SOURCE 200809L
#include <ctype.h>
#include <inttypes.h>
#include <stdio.h>
#include <stdlib.h>
#include <string.h>
#include <strings.h>
#include <sys/stat.h>

#include "trufolmesca.h"

#define USAGE "usage: label [--scale SX SY] [--inverted] " \
    "[--source FX FY CX CY --rectified FX FY CX CY [--lens K1 K2 P1 P2 K3 | --fisheye K1 K2 K3 K4]] " \
    "PICTURE GRID X0 Y0 X1 Y1 X2 Y2 X3 Y3 SHEET COPY"

struct bytes {
    uint8_t *at;
    size_t n;
};

/* What the words ask for. */
struct job {
    double scale[2], source[4], rectified[4], lens[5], fisheye[4], corners[8];
    bool scaled, inverted, has_source, has_rectified, has_lens, has_fisheye;
    const char *picture, *grid, *sheet, *copy;
};

/* ---- failures */

static void fail(const char *who, const char *why) {
    fprintf(stderr, "%s: %s\n", who, why);
    exit(2);
}

static void fail_word(const char *word, const char *why) {
    fprintf(stderr, "label: '%s' %s\n", word, why);
    exit(2);
}

/* One byte more is asked for, so that the empty list has a pointer too. */
static uint8_t *room(size_t n) {
    uint8_t *at = malloc(n + 1);
    if (!at) fail("label", "no memory");
    return at;
}

/* ---- words */

static const char *past_digits(const char *at) {
    while (*at >= '0' && *at <= '9') ++at;
    return at;
}

static const char *past_sign(const char *at) { return *at == '+' || *at == '-' ? at + 1 : at; }

/* Whether all of a word is a decimal number, with a point and no comma; infinity and NaN are numbers too. */
static bool is_number(const char *word) {
    const char *whole = past_sign(word);
    if (!strcasecmp(whole, "inf") || !strcasecmp(whole, "infinity") || !strcasecmp(whole, "nan")) return true;
    const char *point = past_digits(whole);
    const char *end = *point == '.' ? past_digits(point + 1) : point;
    if (end - whole == (*point == '.')) return false; /* not one digit */
    if (*end == 'e' || *end == 'E') {
        const char *exponent = past_sign(end + 1);
        end = past_digits(exponent);
        if (end == exponent) return false;
    }
    return !*end;
}

/* The next n words as numbers; the program stays in the locale "C", whose numbers strtod reads. */
static void take_numbers(char **words, int n, double *out) {
    for (int k = 0; k < n; ++k) {
        if (!is_number(words[k])) fail_word(words[k], "is not a number");
        out[k] = strtod(words[k], NULL);
    }
}

/* The options in front of PICTURE; the words behind them. */
static char **take_options(char **words, char **end, struct job *job) {
    const struct {
        const char *name;
        int n;
        double *at;
        bool *given;
    } options[] = {
        {"--scale", 2, job->scale, &job->scaled},
        {"--inverted", 0, NULL, &job->inverted},
        {"--source", 4, job->source, &job->has_source},
        {"--rectified", 4, job->rectified, &job->has_rectified},
        {"--lens", 5, job->lens, &job->has_lens},
        {"--fisheye", 4, job->fisheye, &job->has_fisheye},
    };
    while (words < end && !strncmp(*words, "--", 2)) {
        size_t k = 0;
        while (k < sizeof options / sizeof *options && strcmp(*words, options[k].name)) ++k;
        if (k == sizeof options / sizeof *options) fail_word(*words, "is not an option");
        ++words;
        if (end - words < options[k].n) fail("label", USAGE);
        take_numbers(words, options[k].n, options[k].at);
        *options[k].given = true;
        words += options[k].n;
    }
    return words;
}

static struct job job_of(int argc, char **argv) {
    struct job job = {.scale = {1.0, 1.0}};
    char **end = argv + argc;
    char **words = take_options(argv + (argc > 0), end, &job);
    if (end - words != 12) fail("label", USAGE);
    take_numbers(words + 2, 8, job.corners);
    if (job.has_source != job.has_rectified || job.has_lens + job.has_fisheye > job.has_source)
        fail("label", "a camera has --source and --rectified, and then may have a --lens or a --fisheye");
    job.picture = words[0];
    job.grid = words[1];
    job.sheet = words[10];
    job.copy = words[11];
    return job;
}

/* ---- files */

static struct bytes read_file(const char *path) {
    FILE *f = fopen(path, "rb");
    if (!f) fail(path, "cannot be read");
    struct bytes b = {room(0), 0};
    for (size_t size = 1 << 16, n = 1; n; size *= 2) {
        uint8_t *more = realloc(b.at, size + 1);
        if (!more) fail("label", "no memory");
        b.at = more;
        n = fread(b.at + b.n, 1, size - b.n, f);
        b.n += n;
    }
    if (ferror(f)) fail(path, "cannot be read");
    fclose(f);
    return b;
}

static bool is_space(uint8_t c) { return c == ' ' || c == '\t' || c == '\n' || c == '\f' || c == '\r'; }

/* A number of a PGM's head, behind white space and comments. */
static uint32_t head_number(const char *path, const struct bytes *b, size_t *i) {
    while (*i < b->n && (is_space(b->at[*i]) || b->at[*i] == '#')) {
        if (b->at[*i] == '#')
            while (*i < b->n && b->at[*i] != '\n') ++*i;
        else
            ++*i;
    }
    uint32_t n = 0;
    int digits = 0;
    for (; *i < b->n && isdigit(b->at[*i]); ++*i)
        if (++digits <= 9) n = 10 * n + (b->at[*i] - (uint32_t)'0');
    if (digits < 1 || digits > 9) fail(path, "not a grey PGM (P5)");
    return n;
}

/* A grey PGM as a photograph, whose pixels lie in the bytes that were read. */
static struct trufolmesca_photograph photograph_of(const char *path, const struct bytes *b) {
    if (b->n < 2 || memcmp(b->at, "P5", 2)) fail(path, "not a grey PGM (P5)");
    size_t i = 2;
    uint32_t width = head_number(path, b, &i);
    uint32_t height = head_number(path, b, &i);
    uint32_t white = head_number(path, b, &i);
    if (white < 1 || white > 255) fail(path, "not one byte a pixel");
    if (i < b->n) ++i;
    struct trufolmesca_photograph photograph = {b->at + i, b->n - i, width, height, width};
    return photograph;
}

/* The grid's characters become modules in place. The first row says how many a row has: where the rows are too few it is 3. */
static struct trufolmesca_label label_of(const struct bytes *b) {
    struct trufolmesca_label label = {b->at, 0, 0};
    while (label.dim < b->n && !is_space(b->at[label.dim])) ++label.dim;
    for (size_t k = 0; k < b->n; ++k)
        if (!is_space(b->at[k])) b->at[label.modules_len++] = (uint8_t)(b->at[k] - '0');
    return label;
}

/* Whether a path is there and no regular file: a device or a pipe is written straight to, and never replaced. */
static bool is_special(const char *path) {
    struct stat s;
    return !stat(path, &s) && !S_ISREG(s.st_mode);
}

static bool write_pixels(const char *path, const uint8_t *at, const struct trufolmesca_photograph *p, int white) {
    FILE *f = fopen(path, "wb");
    if (!f) return false;
    size_t n = (size_t)p->width * p->height;
    bool written = fprintf(f, "P5\n%" PRIu32 " %" PRIu32 "\n%d\n", p->width, p->height, white) > 0 && fwrite(at, 1, n, f) == n;
    return !fclose(f) && written;
}

/* A PGM, which gets its name once all of it is written, so that no part of one is taken for the whole. */
static void write_pgm(const char *path, const uint8_t *at, const struct trufolmesca_photograph *p, int white) {
    if (is_special(path)) {
        if (!write_pixels(path, at, p, white)) fail(path, "cannot be written");
        return;
    }
    char *unfinished = (char *)room(strlen(path) + 4);
    sprintf(unfinished, "%s.new", path);
    if (!write_pixels(unfinished, at, p, white) || rename(unfinished, path)) {
        remove(unfinished);
        fail(path, "cannot be written");
    }
    free(unfinished);
}

/* ---- the answer */

static uint64_t bits(double x) {
    uint64_t n;
    memcpy(&n, &x, sizeof n);
    return n;
}

/* Prints the lines of an answer or of a refusal, and demands that they arrive. */
static void print_lines(uint32_t number, const struct trufolmesca_answer *a) {
    printf("result %" PRIu32 "\n", number);
    for (int k = 0; k < 4 && number == TRUFOLMESCA_ANSWER; ++k)
        printf("corner %d %016" PRIx64 " %016" PRIx64 " %d\n", k, bits(a->places[k].x), bits(a->places[k].y), a->refined[k]);
    for (int k = 0; k < 4 && number == TRUFOLMESCA_ANSWER; ++k) {
        const struct trufolmesca_edge e = a->edges[k];
        printf("edge %d %" PRIu32 " %" PRIu32 " %" PRIu32 " %d\n", k, e.probed, e.fit, e.dropped, e.valid);
    }
    bool failed = ferror(stdout);
    if (fclose(stdout) || failed) fail("label", "the answer could not be written");
}

static struct trufolmesca_intrinsics intrinsics_of(const double n[4]) {
    struct trufolmesca_intrinsics i = {n[0], n[1], n[2], n[3]};
    return i;
}

static struct trufolmesca_camera camera_of(const struct job *j) {
    const struct trufolmesca_intrinsics source = intrinsics_of(j->source), rectified = intrinsics_of(j->rectified);
    const double *l = j->lens, *f = j->fisheye;
    const struct trufolmesca_camera none = {.source = source, .rectified = rectified, .lens = TRUFOLMESCA_NO_LENS};
    const struct trufolmesca_camera lens = {.source = source, .rectified = rectified, .lens = TRUFOLMESCA_BROWN_CONRADY,
                                            .k1 = l[0], .k2 = l[1], .p1 = l[2], .p2 = l[3], .k3 = l[4]};
    const struct trufolmesca_camera fisheye = {.source = source, .rectified = rectified, .lens = TRUFOLMESCA_FISHEYE,
                                               .k1 = f[0], .k2 = f[1], .k3 = f[2], .k4 = f[3]};
    return j->has_fisheye ? fisheye : j->has_lens ? lens : none;
}

int main(int argc, char **argv) {
    const struct job job = job_of(argc, argv);
    const struct trufolmesca_camera camera = camera_of(&job);
    struct bytes picture = read_file(job.picture);
    const struct trufolmesca_photograph photograph = photograph_of(job.picture, &picture);
    struct bytes grid = read_file(job.grid);
    struct trufolmesca_request request = {
        .photograph = photograph, .label = label_of(&grid), .sx = job.scale[0], .sy = job.scale[1],
        .inverted = job.inverted, .camera = job.has_source ? &camera : NULL};
    for (int k = 0; k < 4; ++k) {
        request.corners[k].x = job.corners[2 * k];
        request.corners[k].y = job.corners[2 * k + 1];
    }

    /* As long as the picture: where that is too short for its width and height the call refuses by 2, and writes on neither. */
    size_t n = photograph.bytes_len;
    uint8_t *sheet = room(n), *copy = room(n);
    struct trufolmesca_answer answer;
    uint32_t number = trufolmesca_refine_marking(&request, &answer, sheet, n, copy, n);
    /* A run that got as far as reading has marked what it read, also where it was refused then. */
    if (number == TRUFOLMESCA_ANSWER || number > TRUFOLMESCA_SHEET) {
        write_pgm(job.sheet, sheet, &photograph, 1);
        write_pgm(job.copy, copy, &photograph, 255);
    }
    free(sheet);
    free(copy);
    free(grid.at);
    free(picture.at);
    print_lines(number, &answer);
    if (number == TRUFOLMESCA_ANSWER) return 0;
    fprintf(stderr, "label: refused by %" PRIu32 ": %s\n", number, trufolmesca_word(number));
    return 1;
}
