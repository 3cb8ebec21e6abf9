/* Method B in double precision, as speech level meters are commonly written. Its results differ
 * from the definitions by rounding. */
#include "meter.h"

#include <math.h>
#include <stdio.h>

static const double full_scale = 32768.0;
static const double time_constant = 0.03; /* seconds */
static const double hangover_time = 0.2;  /* seconds */

/* Samples, averages and thresholds are fractions of full scale. */
struct meter {
    double g; /* smoothing */
    double offset;
    int hangover;
    long n;
    double sum;
    double squares;
    double p;
    double q; /* envelope */
    int count;        /* how many thresholds there are */
    double c[PLACES]; /* the thresholds */
    int a[PLACES];    /* activity counts */
    int h[PLACES];    /* hangover counts */
};

struct meter *meter_open(const struct rate *rate, int16_t offset)
{
    static struct meter m;
    m = (struct meter){
        .g = exp(-1.0 / (rate->samples_per_second * time_constant)),
        .offset = offset / full_scale,
        .hangover = (int)ceil(rate->samples_per_second * hangover_time),
        .count = BUILT_IN,
    };
    for (int j = 0; j < m.count; j++) {
        m.c[j] = ldexp(1.0, j) / full_scale;
        m.h[j] = m.hangover;
    }
    return &m;
}

static inline void count_sample(struct meter *m)
{
    for (int j = 0; j < m->count; j++) {
        if (m->q >= m->c[j]) {
            m->a[j] += 1;
            m->h[j] = 0;
        } else if (m->h[j] < m->hangover) {
            m->a[j] += 1;
            m->h[j] += 1;
        }
    }
}

void meter_take(struct meter *m, const int16_t *samples, size_t count)
{
    for (size_t i = 0; i < count; i++) {
        double x = samples[i] / full_scale;
        m->n += 1;
        double distance = x - m->offset;
        m->sum += x;
        m->squares += distance * distance;
        m->p = m->g * m->p + (1.0 - m->g) * fabs(distance);
        m->q = m->g * m->q + (1.0 - m->g) * m->p;
        count_sample(m);
    }
}

void meter_print(const struct meter *m)
{
    printf("%ld %.6f %.6f", m->n, m->sum, m->squares);
    for (int j = 0; j < m->count; j++)
        printf(" %d", m->a[j]);
    putchar('\n');
}
