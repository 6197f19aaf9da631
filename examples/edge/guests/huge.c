/* Hostile by its replies: each has as many bytes as there may be. */
#include "uv.h"

static uint8_t text[UV_MAX_BYTES];

UV_WORK(operation)
{
    (void)operation;
    return uv_out_set(text, UV_MAX_BYTES);
}
