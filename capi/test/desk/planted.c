/* A fault for a fuzzer: behind two magic words and a checksum, a long message divides by zero. */
#include "uv.h"

static uint8_t message[UV_MAX_BYTES];
static volatile int32_t zero;

static uint32_t word(int32_t at)
{
    return message[at] | message[at + 1] << 8 | message[at + 2] << 16 | (uint32_t)message[at + 3] << 24;
}

UV_WORK(op)
{
    int32_t length = uv_in_len(), sum = 0;
    uv_in_copy(message, 0, (uint32_t)length);
    if (length < 12 || word(0) != 0x4d534157)
        return -1;
    if (word(4) != 0x1badb002)
        return -2;
    for (int32_t k = 8; k < length - 1; k++)
        sum += message[k];
    if ((uint8_t)sum != message[length - 1])
        return -3;
    return sum > 300 ? 1000 / zero : 0;
}
