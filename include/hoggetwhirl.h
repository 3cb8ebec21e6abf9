/* Hoggetwhirl: sample blocks checked and made, for a host in C. Link with libblock.a. */
#ifndef HOGGETWHIRL_H
#define HOGGETWHIRL_H

#include <stddef.h>
#include <stdint.h>

#ifdef __cplusplus
extern "C" {
#endif

/* Grows by 1 where something that this header declares or promises is added or changed. From 3 on
 * the codes 4 and 5 name rates. */
#define HOGGETWHIRL_VERSION 3

/* How many bytes a sample block has, and how many samples it holds at most. */
#define HOGGETWHIRL_BLOCK_BYTES 512
#define HOGGETWHIRL_BLOCK_SAMPLES 248

/* What the functions below return. Each says which of these it gives, and in which order. */
enum hoggetwhirl_answer {
    HOGGETWHIRL_ACCEPTED = 0,
    HOGGETWHIRL_UNNAMED_RATE = 1,
    HOGGETWHIRL_BLOCK_LENGTH = 4,
    HOGGETWHIRL_BLOCK_CHECK = 5,
    HOGGETWHIRL_BLOCK_KIND = 6,
    HOGGETWHIRL_BLOCK_RATE = 7,
    HOGGETWHIRL_BLOCK_COUNT = 8,
    HOGGETWHIRL_BLOCK_UNUSED = 9,
    HOGGETWHIRL_UNWRITABLE_SAMPLES = 18
};

/*
 * A sample block is HOGGETWHIRL_BLOCK_BYTES long, numbers little-endian:
 *
 *   bytes        field
 *   0            kind: 1
 *   1            rate code: 1 (694 samples a second), 2 (8000), 3 (16000), 4 (32000) or 5 (48000)
 *   2, 3         count: how many samples the block holds, 1 to 248
 *   4 to 11      samples before: how many samples were measured before this block
 *   12 to 507    samples: two bytes each, two's complement; zeros after the last one
 *   508, 509     first check word: w0 + w1 + .. + w253, modulo 65535
 *   510, 511     second check word: 254 w0 + 253 w1 + .. + 1 w253, modulo 65535
 *
 * wi is the two-byte number at bytes 2i and 2i + 1. A check word is 0 to 65534. docs/METHOD.md,
 * "Sample blocks", works one block out and has the C code that fills the check words in.
 *
 * Neither function below keeps a state, allocates anything or makes a system call, so any number
 * of threads may call them at once. Every call returns.
 */

/*
 * Checks a sample block before it is passed on.
 *
 * block   the bytes of the block, as many as length says. They are read and never written, and
 *         nothing may write to them until the call returns. Where length is 0 there is nothing
 *         to read, and any pointer will do, NULL among them.
 * length  how many bytes were received; any number is allowed.
 * code    the rate code of the line.
 *
 * Returns HOGGETWHIRL_ACCEPTED, 0, where the block is sound and of that rate, else the number of
 * the first of these that applies:
 *
 *   1  HOGGETWHIRL_UNNAMED_RATE  code names no rate: it is not 1 to 5
 *   4  HOGGETWHIRL_BLOCK_LENGTH  the block is not 512 bytes long
 *   5  HOGGETWHIRL_BLOCK_CHECK   a check word is wrong
 *   6  HOGGETWHIRL_BLOCK_KIND    the kind is not 1
 *   7  HOGGETWHIRL_BLOCK_RATE    the block's rate code is not code
 *   8  HOGGETWHIRL_BLOCK_COUNT   the count is not 1 to 248
 *   9  HOGGETWHIRL_BLOCK_UNUSED  an unused byte, after the samples and up to 507, is not zero
 *
 * The number of samples before the block is not looked at: only the meter knows the right one.
 */
uint32_t hoggetwhirl_check_block(const uint8_t *block, size_t length, uint32_t code);

/*
 * Makes a sample block in a buffer.
 *
 * code     the rate code of the line.
 * before   how many samples were measured before this block; any number is allowed.
 * samples  the samples, as many as count says. They are read and never written, and nothing may
 *          write to them until the call returns. Where count is 0 there is nothing to read, and
 *          any pointer will do, NULL among them.
 * count    how many samples; any number is allowed.
 * buffer   the bytes that become the block, as many as length says, whatever they hold. Nothing
 *          else may read or write them until the call returns, and the samples must not overlap
 *          them. Where length is 0 any pointer will do, NULL among them.
 * length   how long the buffer is; any number is allowed.
 *
 * Returns HOGGETWHIRL_ACCEPTED, 0, where all 512 bytes of the buffer are now the block's, else the
 * number of the first of these that applies, and then the buffer is as it was:
 *
 *   1   HOGGETWHIRL_UNNAMED_RATE        code names no rate: it is not 1 to 5
 *   4   HOGGETWHIRL_BLOCK_LENGTH        the buffer is not 512 bytes long
 *   18  HOGGETWHIRL_UNWRITABLE_SAMPLES  count is not 1 to 248, or before and count together are
 *                                       more than 2^48
 *
 * The check of a block so made, with the same code, gives 0; and a meter of that rate that has
 * measured as many samples as before says takes it.
 */
uint32_t hoggetwhirl_write_block(uint32_t code, uint64_t before, const int16_t *samples,
                                 size_t count, uint8_t *buffer, size_t length);

#ifdef __cplusplus
}
#endif

#endif
