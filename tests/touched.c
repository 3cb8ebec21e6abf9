/* In place of the library, for a host that is to be ended: making a block is the access TOUCHED to
 * what is lent for it. */
#include "hoggetwhirl.h"

static volatile int seen;

uint32_t hoggetwhirl_check_block(const uint8_t *block, size_t length, uint32_t code)
{
    (void)block, (void)length;
    return code;
}

uint32_t hoggetwhirl_write_block(uint32_t code, uint64_t before, const int16_t *samples,
                                 size_t count, uint8_t *buffer, size_t length)
{
    (void)code, (void)before;
    seen = samples[count - 1] + buffer[length - 1];
    TOUCHED;
    return 0;
}
