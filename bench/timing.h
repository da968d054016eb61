/* What the C programs of the benchmark share: numbers to draw inputs from, and the order of times for a median. */
#include <stdint.h>

static uint64_t state;

/* SplitMix64 */
static uint64_t drawn(void) {
    uint64_t z = state += 0x9E3779B97F4A7C15;
    z = (z ^ z >> 30) * 0xBF58476D1CE4E5B9;
    z = (z ^ z >> 27) * 0x94D049BB133111EB;
    return z ^ z >> 31;
}

static int by_size(const void *a, const void *b) {
    double x = *(const double *)a, y = *(const double *)b;
    return (x > y) - (x < y);
}
