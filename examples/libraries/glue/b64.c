/* Encodes in base 64, and decodes that again: the reply is the text, the result how many bytes came back, or 0. */
#include "guest.h"
#include <b64/cdecode.h>
#include <b64/cencode.h>
#include <stdlib.h>

GUEST(operation)
{
    size_t length;
    uint8_t *in = guest_input(&length);
    char *text = malloc(length * 2 + 100), *back = malloc(length + 10);
    base64_encodestate encoding;
    base64_decodestate decoding;
    base64_init_encodestate(&encoding);
    int n = base64_encode_block((char *)in, (int)length, text, &encoding);
    n += base64_encode_blockend(text + n, &encoding);
    guest_put(text, (size_t)n);
    base64_init_decodestate(&decoding);
    size_t there = (size_t)base64_decode_block(text, n, back, &decoding);
    return guest_end(there == length ? (int32_t)there : 0);
}
