/* The driver of every program: reads a rate code (1 byte), the number of rounds (2 bytes), the
 * length of a chunk (2 bytes, 0 for 4096), an offset (2 bytes) and samples (2 bytes each, at most
 * 32768) from standard input, numbers little-endian, feeds the samples that many rounds over to a
 * fresh meter of that offset, in chunks of that length, and prints it. */
#include "meter.h"

#include <stdio.h>

enum { HEADER = 7, MOST_SAMPLES = 32768, CODES = 5 };

static const struct rate rates[CODES] = {
    {694, 49174, 139},
    {8000, 4360, 1600},
    {16000, 2182, 3200},
    {32000, 1092, 6400},
    {48000, 728, 9600},
};

static unsigned number_at(const uint8_t *bytes)
{
    return bytes[0] | (unsigned)bytes[1] << 8;
}

/* Feeds all samples once, in chunks. */
static void feed(struct meter *m, const int16_t *samples, size_t count, size_t chunk)
{
    for (size_t at = 0; at < count; at += chunk)
        meter_take(m, samples + at, count - at < chunk ? count - at : chunk);
}

int main(void)
{
    static uint8_t input[HEADER + 2 * MOST_SAMPLES];
    static int16_t samples[MOST_SAMPLES];
    size_t length = fread(input, 1, sizeof input, stdin);
    size_t chunk = number_at(input + 3) ? number_at(input + 3) : CHUNK;
    if (length < HEADER || input[0] < 1 || input[0] > CODES || chunk > CHUNK || getchar() != EOF) {
        fputs("wanted: a rate code, the rounds, a chunk's length, an offset and at most 32768 samples\n", stderr);
        return 1;
    }
    size_t count = (length - HEADER) / 2;
    for (size_t i = 0; i < count; i++)
        samples[i] = (int16_t)number_at(input + HEADER + 2 * i);

    struct meter *m = meter_open(&rates[input[0] - 1], (int16_t)number_at(input + 5));
    for (unsigned rounds = number_at(input + 1); rounds > 0; rounds--)
        feed(m, samples, count, chunk);
    meter_print(m);
    return 0;
}
