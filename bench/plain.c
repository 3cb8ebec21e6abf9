/* The definitions to the letter: every sample is counted at every threshold. */
#include "integer.h"

/* Everything a sample changes except the counts. */
static inline void step_sums(struct meter *m, int16_t x)
{
    uint64_t size = rectified(m->offset, x);
    m->n += 1;
    m->s += x;
    add_squares(m, size * size);
    m->p = smooth(m->rate.k, m->p, size << UNIT_BITS);
    m->q = smooth(m->rate.k, m->q, m->p);
}

static inline void count_sample(struct meter *m)
{
    for (int j = 0; j < m->count; j++) {
        if (m->q >= m->c[j]) {
            m->a[j] += 1;
            m->h[j] = 0;
        } else if (m->h[j] < m->rate.i) {
            m->a[j] += 1;
            m->h[j] += 1;
        }
    }
}

void meter_take(struct meter *m, const int16_t *samples, size_t count)
{
    for (size_t i = 0; i < count; i++) {
        step_sums(m, samples[i]);
        count_sample(m);
    }
}
