/* A guest that is slow to begin: `init` fills a table by a prelude, if it has one; work then looks things up. */
#include "uv.h"

static uint32_t table[4096], sum, begun;
static uint8_t room[4096], in[UV_MAX_BYTES];
static uint64_t seed = 88172645463325252u;

static uint32_t next(void)
{
    seed ^= seed << 13, seed ^= seed >> 7, seed ^= seed << 17;
    return (uint32_t)seed;
}

__attribute__((export_name("init"))) int32_t init(void)
{
    if (begun++) return (int32_t)sum;
    for (int k = 0; k < 4096; k++)
        if (k % 3) sum += table[k] = next() % (k + 1);
    return (int32_t)sum;
}

__attribute__((export_name("init_with_room"))) uint8_t *init_with_room(uint32_t size)
{
    return size <= sizeof room ? room : 0;
}

__attribute__((export_name("init_with"))) int32_t init_with(const uint8_t *prelude, uint32_t size)
{
    for (uint32_t k = 0; k < size; k++) seed = seed * 31 + prelude[k];
    return init();
}

UV_WORK(operation)
{
    static const uint8_t prelude[] = "a prelude of some bytes";
    int32_t n = uv_in_len();
    uint32_t found = 0;
    if (!begun && operation) init_with(prelude, sizeof prelude - 1);
    if (!begun) init();
    uv_in_copy(in, 0, n);
    for (int32_t k = 0; k < n; k++) {
        found = found * 31 + table[(found ^ in[k]) & 4095];
        in[k] ^= (uint8_t)found;
    }
    uv_out_set(in, n);
    return (int32_t)found;
}
