/* A line host: plays records from standard input, to its end, and prints a line for each. A record
 * is a byte for its kind and then its fields, numbers little-endian:
 *
 *   8 check   rate code (4 bytes), length (2), bytes
 *   9 write   rate code (4), samples before (8), count (2), samples (2 each), length (2)
 *
 * The line of a check is `check N`, N being what the function returned; that of a write is
 * `write N` and, where the buffer has a byte, a space and the buffer in hexadecimal. The buffer is
 * as long as the record's last field says, and holds bytes of 165 before the call. */
#define _DEFAULT_SOURCE
#include "hoggetwhirl.h"
#include "lent.h"

#include <inttypes.h>

static void cut_short(void)
{
    fputs("a record is cut short, or of another kind\n", stderr);
    exit(1);
}

static uint64_t read_number(int size)
{
    uint64_t number = 0;
    for (int i = 0; i < size; i++) {
        int byte = getchar();
        if (byte == EOF)
            cut_short();
        number |= (uint64_t)byte << (8 * i);
    }
    return number;
}

static struct lent read_bytes(size_t length)
{
    struct lent lent = lend(length);
    if (fread(lent.bytes, 1, length, stdin) != length)
        cut_short();
    return lent;
}

static struct lent read_samples(size_t count)
{
    struct lent lent = lend(count * sizeof(int16_t));
    int16_t *samples = (int16_t *)lent.bytes;
    for (size_t i = 0; i < count; i++)
        samples[i] = (int16_t)read_number(2);
    return lent;
}

static void check(void)
{
    uint32_t code = (uint32_t)read_number(4);
    struct lent block = read_bytes(read_number(2));
    read_only(&block);
    printf("check %" PRIu32 "\n", hoggetwhirl_check_block(block.bytes, block.length, code));
    give_back(&block);
}

static void show(struct lent *buffer)
{
    if (buffer->length)
        putchar(' ');
    for (size_t i = 0; i < buffer->length; i++)
        printf("%02x", buffer->bytes[i]);
    putchar('\n');
}

static void write_block(void)
{
    uint32_t code = (uint32_t)read_number(4);
    uint64_t before = read_number(8);
    size_t count = read_number(2);
    struct lent samples = read_samples(count);
    struct lent buffer = lend(read_number(2));
    for (size_t i = 0; i < buffer.length; i++)
        buffer.bytes[i] = 165;
    read_only(&samples);
    printf("write %" PRIu32, hoggetwhirl_write_block(code, before, (const int16_t *)samples.bytes,
                                                     count, buffer.bytes, buffer.length));
    show(&buffer);
    give_back(&samples);
    give_back(&buffer);
}

int main(void)
{
    for (int kind = getchar(); kind != EOF; kind = getchar()) {
        if (kind == 8)
            check();
        else if (kind == 9)
            write_block();
        else
            cut_short();
    }
    return 0;
}
