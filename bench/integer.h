/* The meter in whole numbers, and the parts of a sample that plain.c and runs.c share. */
#ifndef INTEGER_H
#define INTEGER_H

#include "meter.h"

#include <stdlib.h>

enum { SMOOTHING_BITS = 20, UNIT_BITS = 24 };

/* P and the envelope Q are in units of 2^-24 quantizing interval. */
struct meter {
    struct rate rate;
    int16_t offset;
    int count;          /* how many thresholds there are */
    uint64_t c[PLACES]; /* the thresholds, in the units of the envelope */
    uint64_t n;
    int64_t s;
    uint64_t sq_high; /* the sum of squares, which a long measurement takes past 64 bits */
    uint64_t sq_low;
    uint64_t p;
    uint64_t q;
    uint64_t a[PLACES]; /* activity counts */
    uint64_t h[PLACES]; /* hangover counts */
};

/* One exponential average: moves old towards new by k / 2^20 of the way, rounding down. */
static inline uint64_t smooth(uint64_t k, uint64_t old, uint64_t new)
{
    return (old * (((uint64_t)1 << SMOOTHING_BITS) - k) + new * k) >> SMOOTHING_BITS;
}

/* |x - offset|, in int: it reaches 65535. */
static inline uint64_t rectified(int16_t offset, int16_t x)
{
    return (uint64_t)abs(x - offset);
}

/* Adds to the sum of squares. */
static inline void add_squares(struct meter *m, uint64_t y)
{
    m->sq_low += y;
    m->sq_high += m->sq_low < y; /* the carry */
}

#endif
