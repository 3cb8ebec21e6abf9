/* A small program for the test that looks for the thresholds 2^(j + FIRST) in programs. It stores them in a table of the type NUMBER, in rising or
 * in falling order, those that do not fit the type as 0; or compares with each, so that they are constants of its code; or doubles them out. It
 * prints how many of them the number of its words reaches. */
#include <stdint.h>
#include <stdio.h>

enum { THRESHOLDS = 15 };

#define C(j) (UINT64_C(1) << ((j) + FIRST))

#if defined(rising) || defined(falling)
#ifdef rising
#define ENTRY(j) (NUMBER)C(j)
#else
#define ENTRY(j) (NUMBER)C(THRESHOLDS - 1 - (j))
#endif
static const NUMBER table[THRESHOLDS] = {
    ENTRY(0), ENTRY(1), ENTRY(2),  ENTRY(3),  ENTRY(4),  ENTRY(5),  ENTRY(6), ENTRY(7),
    ENTRY(8), ENTRY(9), ENTRY(10), ENTRY(11), ENTRY(12), ENTRY(13), ENTRY(14),
};

static int reached(uint64_t q)
{
    int count = 0;
    for (int j = 0; j < THRESHOLDS; j++)
        count += table[j] <= q;
    return count;
}
#elif defined(compared)
#define COUNT(j) c = C(j), count += c <= q
static int reached(uint64_t q)
{
    volatile uint64_t c;
    int count = 0;
    COUNT(0), COUNT(1), COUNT(2), COUNT(3), COUNT(4), COUNT(5), COUNT(6), COUNT(7);
    COUNT(8), COUNT(9), COUNT(10), COUNT(11), COUNT(12), COUNT(13), COUNT(14);
    return count;
}
#else
static int reached(uint64_t q)
{
    int count = 0;
    for (uint64_t c = C(0); c <= q; c *= 2)
        count++;
    return count < THRESHOLDS ? count : THRESHOLDS;
}
#endif

int main(int words, char **arguments)
{
    (void)arguments;
    printf("%d\n", reached((uint64_t)words << 30));
    return 0;
}
