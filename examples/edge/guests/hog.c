/* Hostile: copies as much as it can at once, so that a unit of its fuel takes some hundred times as long as one of spin's. */
#include "uv.h"

static char bytes[65536];

UV_WORK(operation)
{
    (void)operation;
    for (;;)
        uv_in_copy(bytes, 0, sizeof bytes);
}
