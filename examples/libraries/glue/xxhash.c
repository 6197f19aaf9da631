/* XXH3 of 128 bits, and XXH64 and XXH32, which is the result, with the operation as their seed. */
#include "guest.h"
#include <xxhash.h>

GUEST(operation)
{
    size_t length;
    uint8_t *in = guest_input(&length);
    XXH128_hash_t wide = XXH3_128bits(in, length);
    XXH64_hash_t hash = XXH64(in, length, (XXH64_hash_t)operation);
    guest_put(&wide, sizeof wide);
    guest_put(&hash, sizeof hash);
    return guest_end((int32_t)XXH32(in, length, (XXH32_hash_t)operation));
}
