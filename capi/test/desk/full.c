/* Fills so many pages with bytes that are not zero: more than a module can hold. */
#include "uv.h"

__attribute__((export_name("init"))) int32_t init(void)
{
    int32_t page = (int32_t)__builtin_wasm_memory_grow(0, 17);
    uint8_t *at = (uint8_t *)(page * 65536);
    for (int32_t k = 0; k < 17 * 65536; k++)
        at[k] = (uint8_t)(k | 1);
    return page;
}

UV_WORK(op)
{
    return op;
}
