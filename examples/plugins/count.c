/* A plug-in: how often the letter OPERATION stands in the bytes. */
#include "uv.h"

static char text[UV_MAX_BYTES];

UV_WORK(letter)
{
    int32_t length = uv_in_len(), count = 0;
    uv_in_copy(text, 0, length);
    for (int32_t i = 0; i < length; i++)
        count += text[i] == letter;
    return count;
}
