/* Operation 100: decompress. Otherwise: compress at that quality. */
#include "guest.h"
#include <brotli/decode.h>
#include <brotli/encode.h>
#include <stdlib.h>

GUEST(operation)
{
    size_t length, n = 65536;
    uint8_t *in = guest_input(&length), *out = malloc(n);
    if (operation == 100) {
        int answer = BrotliDecoderDecompress(length, in, &n, out);
        if (answer != BROTLI_DECODER_RESULT_SUCCESS)
            return -answer - 10;
    } else if (!BrotliEncoderCompress(operation, 16, BROTLI_MODE_GENERIC, length, in, &n, out)) {
        return -1;
    }
    guest_put(out, n);
    return guest_end((int32_t)n);
}
