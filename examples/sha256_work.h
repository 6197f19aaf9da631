/* The SHA-256 digest of a request's bytes, as a work function. The operation is of no matter. The result is the number
   of bytes, and the reply is the digest. */
#ifndef SHA256_WORK_H
#define SHA256_WORK_H

#include "sha256.h"
#include "uv.h"

/* The request's bytes, and room for the padding. */
static uint8_t message[UV_MAX_BYTES + 72];

UV_WORK(operation)
{
    (void)operation;
    uint8_t digest[32];
    int32_t length = uv_in_len();
    uv_in_copy(message, 0, (uint32_t)length);
    sha256(message, (uint32_t)length, digest);
    uv_out_set(digest, sizeof digest);
    return length;
}

#endif
