/* Encrypts the request with AES-128-GCM (0) or ChaCha20-Poly1305 (1), the tag behind it; or its SHA3-256 (2) or its HMAC with SHA-256 (3). */
#include "guest.h"
#include <stdlib.h>
#include <tomcrypt.h>

static const unsigned char key[32] = "a key of just thirty-two bytes..", nonce[12] = "twelve bytes";

static int encrypted(int32_t operation, const uint8_t *in, unsigned long length)
{
    unsigned char *out = malloc(length + 16);
    unsigned long tag = 16;
    int status;
    if (operation)
        status = chacha20poly1305_memory(key, 32, nonce, 12, NULL, 0, in, length, out, out + length, &tag, CHACHA20POLY1305_ENCRYPT);
    else
        status = gcm_memory(register_cipher(&aes_desc), key, 16, nonce, 12, NULL, 0, (unsigned char *)in, length, out, out + length, &tag, GCM_ENCRYPT);
    guest_put(out, length + tag);
    return status;
}

static int digested(const uint8_t *in, unsigned long length)
{
    unsigned char digest[32];
    hash_state state;
    sha3_256_init(&state);
    sha3_process(&state, in, length);
    int status = sha3_done(&state, digest);
    guest_put(digest, sizeof digest);
    return status;
}

static int authenticated(const uint8_t *in, unsigned long length)
{
    unsigned char code[32];
    unsigned long size = sizeof code;
    int status = hmac_memory(register_hash(&sha256_desc), key, sizeof key, in, length, code, &size);
    guest_put(code, size);
    return status;
}

GUEST(operation)
{
    size_t length;
    const uint8_t *in = guest_input(&length);
    switch (operation) {
    case 0:
    case 1: return guest_end(encrypted(operation, in, length));
    case 2: return guest_end(digested(in, length));
    default: return guest_end(authenticated(in, length));
    }
}
