/* The same results, counted by runs. While the envelope stays between two neighbouring thresholds
 * no comparison changes its answer, so only the sums are stepped. Where it crosses a threshold the
 * counters of that threshold are brought up to date in closed form; the others go on standing as
 * they were, and all are brought up to date when the chunk ends. So are n and the sum of squares. */
#include "integer.h"

/* From low up to, not including, high. No threshold lies between them; those below place j are at
 * or below low. */
struct band {
    uint64_t low;
    uint64_t high;
    int below;
};

/* The index up to which each counter is up to date. */
struct indices {
    size_t since[PLACES];
};

/* The band around an envelope, from the band that it was in, up or down the list one threshold at a
 * time. */
static struct band around(const struct meter *m, struct band band, uint64_t q)
{
    while (band.high <= q) {
        band.low = band.high;
        band.below++;
        band.high = band.below < m->count ? m->c[band.below] : UINT64_MAX;
    }
    while (q < band.low) {
        band.high = band.low;
        band.below--;
        band.low = band.below > 0 ? m->c[band.below - 1] : 0;
    }
    return band;
}

/* Brings the counters from one place up to another up to date at an index. The envelope was at or
 * above their thresholds, or below them. */
static void settle(struct meter *m, struct indices *c, int from, int to, int on, size_t at)
{
    for (int j = from; j < to; j++) {
        uint64_t run = at - c->since[j];
        if (on) {
            m->a[j] += run;
            m->h[j] = run == 0 ? m->h[j] : 0;
        } else {
            uint64_t left = m->rate.i - m->h[j];
            uint64_t grow = run < left ? run : left;
            m->a[j] += grow;
            m->h[j] += grow;
        }
        c->since[j] = at;
    }
}

/* What moves at each sample of a chunk: s, P and Q, and the squares of the chunk, in one word. */
struct moving {
    int64_t s;
    uint64_t sq;
    uint64_t p;
    uint64_t q;
};

static inline void step(struct moving *v, uint64_t k, int16_t offset, int16_t x)
{
    uint64_t size = rectified(offset, x);
    v->s += x;
    v->sq += size * size;
    v->p = smooth(k, v->p, size << UNIT_BITS);
    v->q = smooth(k, v->q, v->p);
}

/* Steps over samples from index i on until one takes the envelope out of the band. Gives the index
 * of that sample, or the number of samples. */
static size_t step_inside(struct moving *v, uint64_t k, int16_t offset, struct band band,
                          const int16_t *samples, size_t i, size_t count)
{
    for (; i < count; i++) {
        step(v, k, offset, samples[i]);
        if (v->q < band.low || band.high <= v->q)
            break;
    }
    return i;
}

/* The sample that ends a run begins the next one. */
void meter_take(struct meter *m, const int16_t *samples, size_t count)
{
    if (count == 0)
        return;
    struct indices c = {{0}};
    struct moving v = {m->s, 0, m->p, m->q};
    step(&v, m->rate.k, m->offset, samples[0]);
    struct band band = around(m, (struct band){0, m->c[0], 0}, v.q);
    size_t at = 0;
    while (at < count) {
        at = step_inside(&v, m->rate.k, m->offset, band, samples, at + 1, count);
        struct band next = around(m, band, v.q);
        if (band.below < next.below)
            settle(m, &c, band.below, next.below, 0, at);
        else
            settle(m, &c, next.below, band.below, 1, at);
        band = next;
    }
    settle(m, &c, 0, band.below, 1, at);
    settle(m, &c, band.below, m->count, 0, at);
    m->n += count;
    m->s = v.s;
    add_squares(m, v.sq);
    m->p = v.p;
    m->q = v.q;
}
