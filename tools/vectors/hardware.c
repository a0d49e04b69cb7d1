// Reads the list of tools/vectors/make and prints what the processor and the C library make of each line, in the
// layout of test_ieee_vectors. Every NaN is printed as 7ff8000000000000.
#include <inttypes.h>
#include <math.h>
#include <stdio.h>
#include <string.h>

static double value(uint64_t b) {
    double x;
    memcpy(&x, &b, 8);
    return x;
}

static uint64_t bits(double x) {
    uint64_t b;
    memcpy(&b, &x, 8);
    return isnan(x) ? UINT64_C(0x7ff8000000000000) : b;
}

static double larger(double a, double b) {
    return isnan(a) ? b : isnan(b) ? a : a < b ? b : a;
}

static uint32_t whole_part(double x) {
    return x > 4294967295.0 ? UINT32_MAX : x > 0 ? (uint32_t)x : 0;
}

int main(void) {
    uint64_t b;
    volatile double before = 0, x;
    while (scanf("%" SCNx64, &b) == 1) {
        x = value(b);
        uint64_t words[] = {b, bits(x), bits(sqrt(x)), bits(floor(x)), bits(ceil(x)), bits(fabs(x)), bits(larger(before, x))};
        for (int i = 0; i < 7; i++)
            printf("%016" PRIx64 " ", words[i]);
        printf("%d %" PRIu32 "\n", isfinite(x) != 0, whole_part(x));
        before = x;
    }
    return 0;
}
