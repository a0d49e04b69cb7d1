// Times the two calls that smooth a scan against the obvious C loop over the window, in one
// program, by turns over the same scan. The smoothed scans must be equal. A ratio is the median
// over the turns of the port's time to that of the loop; the last column is that of the port's
// time, to a second buffer, to its own at a window of 3.
#include <stdint.h>
#include <stdio.h>
#include <stdlib.h>
#include <string.h>
#include <time.h>

#include "trufolmesca.h"

enum { MOST = 1000000, TURNS = 101, RECORDS = 400000 };
static uint16_t scan[MOST], lent[MOST], copy[MOST];

static double now(void) {
    struct timespec t;
    clock_gettime(CLOCK_THREAD_CPUTIME_ID, &t);
    return t.tv_sec * 1e9 + t.tv_nsec;
}

// a rim that rises and falls, with noise
static void draw(void) {
    uint64_t s = 88172645463325252u;
    for (int i = 0; i < MOST; i++) {
        s ^= s << 13, s ^= s >> 7, s ^= s << 17;
        scan[i] = (uint16_t)(30000 + (i % 4000 < 2000 ? i % 2000 : 2000 - i % 2000) * 10 + s % 500);
    }
}

// ---- what is compared: both forms of the loop, and both calls, each over `lent`

static void loop(const uint16_t *from, size_t n, uint32_t window, uint16_t *to) {
    size_t reach = window / 2;
    for (size_t i = 0; i < n; i++) {
        size_t first = i < reach ? 0 : i - reach, end = i + reach + 1 < n ? i + reach + 1 : n;
        uint32_t sum = 0;
        for (size_t k = first; k < end; k++) sum += from[k];
        to[i] = (uint16_t)(sum / (uint32_t)(end - first));
    }
}

__attribute__((noinline)) static uint32_t loop_to(size_t n, uint32_t window) {
    loop(scan, n, window, lent);
    return 0;
}

// over itself the loop needs the scan as it was, so it is copied first
__attribute__((noinline)) static uint32_t loop_over(size_t n, uint32_t window) {
    memcpy(copy, lent, n * sizeof *copy);
    loop(copy, n, window, lent);
    return 0;
}

static uint32_t port_to(size_t n, uint32_t window) { return trufolmesca_smooth_to(scan, n, window, lent, n); }
static uint32_t port_over(size_t n, uint32_t window) { return trufolmesca_smooth_over(lent, n, window); }

typedef uint32_t smoothing(size_t n, uint32_t window);

// ---- by turns

static double turn(smoothing *f, size_t n, uint32_t window) {
    double spent = 0;
    for (size_t k = 0; k < RECORDS / n + 1; k++) {
        memcpy(lent, scan, n * sizeof *lent);
        double start = now();
        for (int again = 0; again < (n < 1000 ? 16 : 1); again++) f(n, window);
        spent += now() - start;
    }
    return spent;
}

static void compare(smoothing *port, smoothing *other, size_t n, uint32_t window) {
    static uint16_t found[MOST];
    memcpy(lent, scan, n * sizeof *lent);
    uint32_t number = port(n, window);
    memcpy(found, lent, n * sizeof *found);
    memcpy(lent, scan, n * sizeof *lent);
    if (number != other(n, window) || memcmp(found, lent, n * sizeof *found)) {
        printf("%zu heights, window %u: the scans differ\n", n, (unsigned)window);
        exit(1);
    }
}

static int rising(const void *a, const void *b) {
    double x = *(const double *)a, y = *(const double *)b;
    return (x > y) - (x < y);
}

static double ratio(smoothing *port, uint32_t window, smoothing *other, uint32_t other_window, size_t n) {
    double ratios[TURNS];
    if (window == other_window) compare(port, other, n, window);
    for (int t = 0; t < TURNS; t++) {
        double before = turn(other, n, other_window);
        ratios[t] = turn(port, n, window) / before;
    }
    qsort(ratios, TURNS, sizeof *ratios, rising);
    return ratios[TURNS / 2];
}

int main(void) {
    static const size_t lengths[] = {50, 200, 1000, 10000, 100000, MOST};
    static const uint32_t windows[] = {3, 7, 15, 31};
    draw();
    printf("heights  window  to a buffer  over itself  to window 3\n");
    for (size_t i = 0; i < sizeof windows / sizeof *windows; i++)
        for (size_t l = 0; l < sizeof lengths / sizeof *lengths; l++) {
            size_t n = lengths[l];
            uint32_t w = windows[i];
            printf("%7zu  %6u  %11.2f  %11.2f  %11.2f\n", n, (unsigned)w, ratio(port_to, w, loop_to, w, n),
                   ratio(port_over, w, loop_over, w, n), ratio(port_to, w, port_to, 3, n));
        }
}
