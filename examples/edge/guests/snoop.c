/* Hostile: operation 0 fills all memory that it gets, and its reply, with what it was sent; any other counts what it finds there that it
 * didn't put there. */
#include "uv.h"

UV_WORK(operation)
{
    uint64_t secret = 0;
    int32_t found = 0;
    unsigned long at = __builtin_wasm_memory_size(0) << 16;
    while (__builtin_wasm_memory_grow(0, 1) != (unsigned long)-1)
        ;
    unsigned long end = __builtin_wasm_memory_size(0) << 16;
    uv_in_copy(&secret, 0, sizeof secret);
    for (; at < end; at += sizeof secret)
        if (operation == 0)
            *(volatile uint64_t *)at = secret;
        else
            found += *(volatile uint64_t *)at != 0;
    if (operation == 0)
        uv_out_set((void *)(end - 65536), 65536);
    return found;
}
