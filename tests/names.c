/* Every name that include/hoggetwhirl.h has: makes and checks blocks so that each answer is given,
 * at each rate code and past the last, and ends with the number of the first that is not the one
 * named. */
#include "hoggetwhirl.h"

#ifndef HOGGETWHIRL_VERSION
#error "the header names no version"
#endif

#define LAST_BYTE (HOGGETWHIRL_BLOCK_BYTES - 5) /* the last that may be unused */
#define LAST_CODE 5 /* the last that names a rate */

static uint8_t block[HOGGETWHIRL_BLOCK_BYTES + 1];
static int16_t samples[HOGGETWHIRL_BLOCK_SAMPLES + 1];

static enum hoggetwhirl_answer made(uint32_t code, size_t count, size_t length) {
    return (enum hoggetwhirl_answer)hoggetwhirl_write_block(code, 0, samples, count, block, length);
}

static enum hoggetwhirl_answer checked(uint32_t code, size_t length) {
    return (enum hoggetwhirl_answer)hoggetwhirl_check_block(block, length, code);
}

/* Fills the check words in for whatever stands before them. */
static void summed(void) {
    uint32_t first = 0, second = 0, i;
    for (i = 0; i < 254; i++) {
        first += block[2 * i] + 256u * block[2 * i + 1];
        second += (254 - i) * ((block[2 * i] + 256u * block[2 * i + 1]) % 65535) % 65535;
    }
    first %= 65535;
    second %= 65535;
    block[508] = first & 255;
    block[509] = (uint8_t)(first >> 8);
    block[510] = second & 255;
    block[511] = (uint8_t)(second >> 8);
}

/* A block of one sample with one byte another, its check words right. */
static enum hoggetwhirl_answer damaged(size_t at, uint8_t byte) {
    if (made(2, 1, HOGGETWHIRL_BLOCK_BYTES) != HOGGETWHIRL_ACCEPTED)
        return HOGGETWHIRL_ACCEPTED;
    block[at] = byte;
    summed();
    return checked(2, HOGGETWHIRL_BLOCK_BYTES);
}

static int makes(void) {
    if (made(2, HOGGETWHIRL_BLOCK_SAMPLES, HOGGETWHIRL_BLOCK_BYTES) != HOGGETWHIRL_ACCEPTED)
        return 1;
    if (checked(2, HOGGETWHIRL_BLOCK_BYTES) != HOGGETWHIRL_ACCEPTED) return 2;
    if (made(0, 1, HOGGETWHIRL_BLOCK_BYTES) != HOGGETWHIRL_UNNAMED_RATE) return 3;
    if (made(2, 1, HOGGETWHIRL_BLOCK_BYTES + 1) != HOGGETWHIRL_BLOCK_LENGTH) return 4;
    if (made(2, HOGGETWHIRL_BLOCK_SAMPLES + 1, HOGGETWHIRL_BLOCK_BYTES) !=
        HOGGETWHIRL_UNWRITABLE_SAMPLES)
        return 5;
    return 0;
}

static int checks(void) {
    if (checked(0, HOGGETWHIRL_BLOCK_BYTES) != HOGGETWHIRL_UNNAMED_RATE) return 6;
    if (checked(2, HOGGETWHIRL_BLOCK_BYTES - 1) != HOGGETWHIRL_BLOCK_LENGTH) return 7;
    if (damaged(0, 2) != HOGGETWHIRL_BLOCK_KIND) return 8;
    if (damaged(1, 3) != HOGGETWHIRL_BLOCK_RATE) return 9;
    if (damaged(2, 0) != HOGGETWHIRL_BLOCK_COUNT) return 10;
    if (damaged(LAST_BYTE, 1) != HOGGETWHIRL_BLOCK_UNUSED) return 11;
    block[LAST_BYTE] = 0;
    return checked(2, HOGGETWHIRL_BLOCK_BYTES) == HOGGETWHIRL_BLOCK_CHECK ? 0 : 12;
}

static int codes(void) {
    uint32_t code;
    for (code = 1; code <= LAST_CODE; code++)
        if (made(code, 1, HOGGETWHIRL_BLOCK_BYTES) != HOGGETWHIRL_ACCEPTED ||
            checked(code, HOGGETWHIRL_BLOCK_BYTES) != HOGGETWHIRL_ACCEPTED)
            return 13;
    if (made(code, 1, HOGGETWHIRL_BLOCK_BYTES) != HOGGETWHIRL_UNNAMED_RATE) return 14;
    return checked(code, HOGGETWHIRL_BLOCK_BYTES) == HOGGETWHIRL_UNNAMED_RATE ? 0 : 15;
}

int main(void) {
    int wrong = makes();
    if (!wrong) wrong = checks();
    return wrong ? wrong : codes();
}
