/* A deterministic source of numbers, and what is drawn from it: floats, sizes and lengths of every class. */
#include "boundary.h"

#include <math.h>
#include <string.h>

/* The source of one job: by seed and index alone, so that a job can be made again without those before it. */
struct random random_of(uint64_t seed, uint64_t index) {
    struct random r = {seed * 0x9E3779B97F4A7C15u ^ index * 0xD1B54A32D192ED03u};
    any_bits(&r);
    return r;
}

/* Splitmix64. */
uint64_t any_bits(struct random *r) {
    uint64_t z = r->state += 0x9E3779B97F4A7C15u;
    z = (z ^ z >> 30) * 0xBF58476D1CE4E5B9u;
    z = (z ^ z >> 27) * 0x94D049BB133111EBu;
    return z ^ z >> 31;
}

uint32_t below(struct random *r, uint32_t n) { return (uint32_t)((any_bits(r) >> 32) * n >> 32); }

double between(struct random *r, double least, double most) {
    return least + (most - least) * ((double)(any_bits(r) >> 11) * 0x1p-53);
}

bool chance(struct random *r, uint32_t percent) { return below(r, 100) < percent; }

static double of_bits(uint64_t bits) {
    double x;
    memcpy(&x, &bits, sizeof x);
    return x;
}

/* A float with this exponent and any fraction. */
static double of_exponent(struct random *r, uint32_t exponent) {
    return of_bits((uint64_t)exponent << 52 | any_bits(r) >> 12);
}

/* A float at a limit of the calls, or beside it. */
static double limit(struct random *r) {
    static const double limits[] = {0x1p20, 16384.0, 16383.0, 65535.0, 0.5, 1.0, 1e-9, 1e-6, 0x1p-52, 0x1p32, 0x1p53, 0x1p63, 0x1p64};
    double x = limits[below(r, sizeof limits / sizeof *limits)];
    uint32_t side = below(r, 3);
    return side == 0 ? x : nextafter(x, side == 1 ? INFINITY : -INFINITY);
}

/* A float of any class, all as often: NaN, quiet and signalling, infinity, zero, subnormal, least, tiny, at a limit, small, as of a
   picture, whole, large, huge, greatest, any bits; each of either sign. */
double any_float(struct random *r) {
    double x = 0.0;
    switch (below(r, 15)) {
    case 0: x = of_bits(0x7FF8000000000000u | any_bits(r) >> 13); break;
    case 1: x = of_bits(0x7FF0000000000001u | any_bits(r) >> 13); break;
    case 2: x = INFINITY; break;
    case 3: x = 0.0; break;
    case 4: x = of_exponent(r, 0); break;
    case 5: x = 0x1p-1022; break;
    case 6: x = of_exponent(r, 1 + below(r, 500)); break;
    case 7: x = limit(r); break;
    case 8: x = between(r, 0.0, 1.0); break;
    case 9: x = between(r, 0.0, 100.0); break;
    case 10: x = below(r, 100); break;
    case 11: x = between(r, 0.0, 4e6); break;
    case 12: x = of_exponent(r, 1500 + below(r, 547)); break;
    case 13: x = 0x1.fffffffffffffp1023; break;
    default: x = of_bits(any_bits(r)); break;
    }
    return chance(r, 50) ? x : copysign(x, -1.0);
}

/* A size of any class: none, few, those of a picture, at and beside the limits, and such that a product of two overflows 32 bits. */
uint32_t any_size(struct random *r) {
    static const uint32_t limits[] = {0, 1, 2, 177, 178, 16383, 16384, 16385, 65535, 65536, 0x7FFFFFFF, 0x80000000, 0xFFFFFFFE, 0xFFFFFFFF};
    switch (below(r, 4)) {
    case 0: return below(r, 8);
    case 1: return below(r, 100);
    case 2: return (uint32_t)any_bits(r);
    default: return limits[below(r, sizeof limits / sizeof *limits)];
    }
}

/* A length about the one that is wanted, from none to past it, and mostly enough. */
size_t any_length(struct random *r, size_t wanted, size_t most) {
    size_t n = wanted;
    switch (below(r, 10)) {
    case 0: n = 0; break;
    case 1: n = below(r, (uint32_t)wanted + 1); break;
    case 2: n = wanted ? wanted - 1 : 0; break;
    case 3: n = wanted + 1; break;
    case 4: n = wanted + below(r, 24); break;
    default: break;
    }
    return n < most ? n : most;
}
