// Times an edge's fit against that of an older archive, in one program, by turns over the same points. Answers must be equal bit for
// bit. A ratio is the median over the turns of the time of the one to that of the other.
#include <stdint.h>
#include <stdio.h>
#include <stdlib.h>
#include <string.h>
#include <time.h>

typedef uint32_t fit(const double *, size_t, const double *, size_t, const double *, size_t, uint32_t, double, double *, size_t,
                     uint32_t *, size_t);
fit port_fit_edge, before_fit_edge;

enum { MOST = 354, EDGES = 64, TURNS = 101, TIMES = 20 };
static double xs[EDGES][MOST], ys[EDGES][MOST], ws[EDGES][MOST];

static double uniform(void) {
    static uint64_t s = 88172645463325252u;
    s ^= s << 13, s ^= s >> 7, s ^= s << 17;
    return (double)(s >> 11) / 9007199254740992.0;
}

static double now(void) {
    struct timespec t;
    clock_gettime(CLOCK_THREAD_CPUTIME_ID, &t);
    return t.tv_sec * 1e9 + t.tv_nsec;
}

// points along a line, 1 apart, with so much noise; a twentieth of them are outliers
static void draw(double noise) {
    for (int e = 0; e < EDGES; e++) {
        double slope = 2 * uniform() - 1;
        for (int i = 0; i < MOST; i++) {
            xs[e][i] = 100 + i;
            ys[e][i] = 50 + slope * i + noise * (2 * uniform() - 1) + (uniform() < 0.05 ? 3 : 0);
            ws[e][i] = 16 + 200 * uniform();
        }
    }
}

static uint32_t call(fit *f, int e, size_t n, double *line, uint32_t *counts) {
    return f(xs[e], n, ys[e], n, ws[e], n, (uint32_t)n, 4.0, line, 4, counts, 4);
}

static double turn(fit *f, size_t n) {
    double line[4], start = now();
    uint32_t counts[4];
    for (int k = 0; k < TIMES; k++)
        for (int e = 0; e < EDGES; e++) call(f, e, n, line, counts);
    return now() - start;
}

static void compare(size_t n) {
    for (int e = 0; e < EDGES; e++) {
        double a[4] = {0}, b[4] = {0};
        uint32_t c[4] = {0}, d[4] = {0};
        if (call(port_fit_edge, e, n, a, c) != call(before_fit_edge, e, n, b, d) || memcmp(a, b, sizeof a) || memcmp(c, d, sizeof c)) {
            printf("%zu points: the answers differ\n", n);
            exit(1);
        }
    }
}

static int rising(const void *a, const void *b) {
    double x = *(const double *)a, y = *(const double *)b;
    return (x > y) - (x < y);
}

int main(void) {
    static const size_t sizes[] = {8, 16, 28, 64, 128, 354};
    static const struct { const char *name; double noise; } kinds[] = {{"noisy", 0.2}, {"exact", 0}};
    printf("points  residuals  ratio\n");
    for (size_t k = 0; k < 2; k++) {
        draw(kinds[k].noise);
        for (size_t s = 0; s < sizeof sizes / sizeof *sizes; s++) {
            double ratios[TURNS];
            compare(sizes[s]);
            for (int t = 0; t < TURNS; t++) {
                double before = turn(before_fit_edge, sizes[s]);
                ratios[t] = turn(port_fit_edge, sizes[s]) / before;
            }
            qsort(ratios, TURNS, sizeof *ratios, rising);
            printf("%6zu  %-9s  %5.2f\n", sizes[s], kinds[k].name, ratios[TURNS / 2]);
        }
    }
}
