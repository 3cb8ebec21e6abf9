/* Opening and printing of the meter in whole numbers. */
#include "integer.h"

#include <inttypes.h>
#include <stdio.h>

struct meter *meter_open(const struct rate *rate, int16_t offset)
{
    static struct meter m;
    m = (struct meter){.rate = *rate, .offset = offset, .count = BUILT_IN};
    for (int j = 0; j < m.count; j++) {
        m.c[j] = (uint64_t)1 << (j + UNIT_BITS);
        /* Used up at first, or the meter would count 0.2 s of speech before any came. */
        m.h[j] = rate->i;
    }
    return &m;
}

static void print_places(const uint64_t numbers[PLACES])
{
    for (int j = 0; j < PLACES; j++)
        printf(" %" PRIu64, numbers[j]);
}

void meter_print(const struct meter *m)
{
    printf("%d", m->count);
    print_places(m->c);
    printf(" %" PRIu64 " %" PRId64 " %" PRIu64 " %" PRIu64 " %" PRIu64 " %" PRIu64, m->n, m->s,
           m->sq_high, m->sq_low, m->p, m->q);
    print_places(m->a);
    print_places(m->h);
    putchar('\n');
}
