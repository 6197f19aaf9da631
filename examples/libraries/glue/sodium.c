/* BLAKE2b (0), Ed25519 by a key of the first 32 bytes (1), XChaCha20-Poly1305 by the first bytes (2), X25519 (3), Argon2id (4). */
#include "guest.h"
#include <sodium.h>
#include <string.h>

static uint8_t out[65536];

static int32_t sign(const uint8_t *in, size_t length)
{
    uint8_t public_key[crypto_sign_PUBLICKEYBYTES], key[crypto_sign_SECRETKEYBYTES];
    crypto_sign_seed_keypair(public_key, key, in);
    crypto_sign_detached(out, NULL, in, length, key);
    guest_put(out, crypto_sign_BYTES);
    return guest_end(crypto_sign_verify_detached(out, in, length, public_key));
}

static int32_t put(size_t length, int32_t result)
{
    guest_put(out, length);
    return guest_end(result);
}

GUEST(operation)
{
    size_t length;
    unsigned long long sealed;
    uint8_t *in = guest_input(&length);
    switch (operation) {
    case 0: return put(64, crypto_generichash(out, 64, in, length, NULL, 0));
    case 1: return sign(in, length);
    case 2:
        crypto_aead_xchacha20poly1305_ietf_encrypt(out, &sealed, in, length, NULL, 0, NULL, in, in);
        return put((size_t)sealed, 0);
    case 3: return put(32, crypto_scalarmult_base(out, in));
    default: return put(32, crypto_pwhash(out, 32, (char *)in, length, in, 1, 65536, crypto_pwhash_ALG_ARGON2ID13));
    }
}
