/* The request's bytes, and the reply. */
#include "guest.h"
#include <stdlib.h>
#include <string.h>

static uint8_t reply[UV_MAX_BYTES];
static size_t filled;                   /* may be more than there is room for: then the reply is not handed over */

uint8_t *guest_input(size_t *length)
{
    int32_t n = uv_in_len();
    uint8_t *bytes = n < 0 ? NULL : malloc((size_t)n + 1);
    if (!bytes)
        __builtin_trap();
    uv_in_copy(bytes, 0, (uint32_t)n);
    bytes[n] = 0;
    if (length)
        *length = (size_t)n;
    return bytes;
}

void guest_put(const void *bytes, size_t length)
{
    if (filled <= sizeof reply && length <= sizeof reply - filled)
        memcpy(reply + filled, bytes, length);
    filled = length > (size_t)-1 - filled ? (size_t)-1 : filled + length;
}

void guest_byte(uint8_t byte)
{
    if (filled < sizeof reply)
        reply[filled] = byte;
    if (filled < (size_t)-1)
        filled++;
}

int32_t guest_end(int32_t result)
{
    int32_t answer = uv_out_set(reply, filled > 0xffffffffu ? 0xffffffffu : (uint32_t)filled);
    return answer < 0 ? answer : result;
}
