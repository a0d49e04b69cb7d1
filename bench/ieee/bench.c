// Times the functions of `ieee` against the processor's and the C library's, in one program and on the same random
// numbers. Throughput: the calls do not wait for each other. Chain: each call waits for the one before.
// Every function stands behind one call that is not inlined. A time is the best of many rounds, which take turns.
// It fails where an answer differs, or where a root takes more than 40 ns in the chain, the slower of the two.
#include <math.h>
#include <stdbool.h>
#include <stdint.h>
#include <stdio.h>
#include <string.h>
#include <time.h>

double ieee_sqrt(double), ieee_floor(double), ieee_ceil(double), ieee_abs(double), ieee_max(double, double);
bool ieee_is_finite(double);
uint32_t ieee_whole_part(double);

enum { COUNT = 1 << 14, ROUNDS = 400 };
static double roots[COUNT], mixed[COUNT], places[COUNT], answers[COUNT];
static volatile uint64_t zero = 0;
static volatile double sink;

static double value(uint64_t b) {
    double x;
    memcpy(&x, &b, 8);
    return x;
}

static uint64_t bits(double x) {
    uint64_t b;
    memcpy(&b, &x, 8);
    return b;
}

static uint64_t draw(void) {
    static uint64_t s = 88172645463325252u;
    s ^= s << 13, s ^= s >> 7, s ^= s << 17;
    return s;
}

static double now(void) {
    struct timespec t;
    clock_gettime(CLOCK_MONOTONIC, &t);
    return t.tv_sec * 1e9 + t.tv_nsec;
}

#define CALL __attribute__((noinline)) static double
CALL c_sqrt(double x) { return sqrt(x); }
CALL c_floor(double x) { return floor(x); }
CALL c_ceil(double x) { return ceil(x); }
CALL c_abs(double x) { return fabs(x); }
CALL c_is_finite(double x) { return isfinite(x) ? 1 : 0; }
CALL c_whole_part(double x) { return x > 4294967295.0 ? 4294967295.0 : x > 0 ? (double)(uint32_t)x : 0; }
CALL c_max(double x) { return fmax(x, 1.0); }
CALL p_is_finite(double x) { return ieee_is_finite(x); }
CALL p_whole_part(double x) { return ieee_whole_part(x); }
CALL p_max(double x) { return ieee_max(x, 1.0); }
CALL nothing(double x) { return x; }

typedef double call(double);

__attribute__((noinline)) static double throughput(call *f, const double *xs) {
    double start = now();
    for (int i = 0; i < COUNT; i++)
        answers[i] = f(xs[i]);
    return (now() - start) / COUNT;
}

__attribute__((noinline)) static double chain(call *f, const double *xs) {
    uint64_t none = zero, last = 0;
    double start = now();
    for (int i = 0; i < COUNT; i++)
        last = bits(f(value(bits(xs[i]) ^ (last & none))));
    double took = now() - start;
    sink = value(last);
    return took / COUNT;
}

static double least(double a, double b) { return a < b ? a : b; }

static double compare(const char *name, call *proved, call *other, const double *xs) {
    double a = 1e9, b = 1e9, c = 1e9, d = 1e9;
    for (int i = 0; i < ROUNDS; i++) {
        a = least(a, throughput(proved, xs)), b = least(b, throughput(other, xs));
        c = least(c, chain(proved, xs)), d = least(d, chain(other, xs));
    }
    printf("%-11s %6.2f %6.2f  %5.2f    %6.2f %6.2f  %5.2f\n", name, a, b, a / b, c, d, c / d);
    return c;
}

static bool same(double a, double b) { return (isnan(a) && isnan(b)) || bits(a) == bits(b); }

// a coordinate of a picture, at times a whole number
static double place(void) {
    double x = (double)(draw() >> 11) * 0x1p-39;
    return draw() % 16 ? x : floor(x);
}

// whether the two agree on random patterns, and on the whole part of places
static bool agree(int count) {
    for (int i = 0; i < count; i++) {
        double x = value(draw()), y = place();
        if (!same(ieee_sqrt(x), c_sqrt(x)) || !same(ieee_floor(x), c_floor(x)) || !same(ieee_ceil(x), c_ceil(x)) || !same(ieee_abs(x), c_abs(x))
            || p_whole_part(x) != c_whole_part(x) || p_whole_part(y) != c_whole_part(y)) {
            printf("they differ at %016llx or at %016llx\n", (unsigned long long)bits(x), (unsigned long long)bits(y));
            return false;
        }
    }
    return true;
}

int main(void) {
    for (int i = 0; i < COUNT; i++) {
        // any normal value above zero; for the rest either sign, 2^-10 to 2^60; and what the sampler asks about
        roots[i] = value(draw() >> 12 | (draw() % 2046 + 1) << 52);
        mixed[i] = value(draw() >> 12 | (draw() % 70 + 1013) << 52 | (draw() & UINT64_C(1) << 63));
        places[i] = place();
    }
    printf("            throughput, ns   ratio    chain, ns        ratio\n");
    printf("            ieee   other              ieee   other\n");
    double root = compare("sqrt", ieee_sqrt, c_sqrt, roots);
    compare("floor", ieee_floor, c_floor, mixed);
    compare("ceil", ieee_ceil, c_ceil, mixed);
    compare("abs", ieee_abs, c_abs, mixed);
    compare("max", p_max, c_max, mixed);
    compare("is_finite", p_is_finite, c_is_finite, mixed);
    compare("whole_part", p_whole_part, c_whole_part, mixed);
    compare("  of places", p_whole_part, c_whole_part, places);
    compare("(no call)", nothing, nothing, mixed);
    bool agreed = agree(20000000);
    printf("20,000,000 random patterns and places: %s\n", agreed ? "no answer differs" : "see above");
    printf("a root takes at most 40 ns: %s\n", root <= 40 ? "yes" : "NO");
    return agreed && root <= 40 ? 0 : 1;
}
