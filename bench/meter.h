/* What a meter under comparison offers to the driver in common.c. Each program brings its own
 * struct meter. */
#ifndef METER_H
#define METER_H

#include <stddef.h>
#include <stdint.h>

/* A meter holds a list of at most PLACES thresholds. All are opened with the built-in list, BUILT_IN of
 * them. */
enum { PLACES = 24, BUILT_IN = 15, CHUNK = 4096 };

struct rate {
    double samples_per_second;
    uint64_t k; /* smoothing: g = 1 - k / 2^20 */
    uint64_t i; /* hangover: 0.2 s rounded up to samples */
};

struct meter;

/* The fresh meter at a rate and an offset. */
struct meter *meter_open(const struct rate *rate, int16_t offset);

/* Measures one chunk, of at most CHUNK samples. Called, never inlined, as a host would. */
__attribute__((noinline)) void meter_take(struct meter *m, const int16_t *samples, size_t count);

/* Prints the meter as one line. */
void meter_print(const struct meter *m);

#endif
