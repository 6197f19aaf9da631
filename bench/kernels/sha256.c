/* Rotations and many locals: the compression function of SHA-256 (FIPS 180-4), over and over. */
#include "../../examples/sha256_rounds.h"

#define BLOCKS 12000

static uint32_t w[64];

uint32_t run(void)
{
    uint32_t state[8] = {
        0x6a09e667, 0xbb67ae85, 0x3c6ef372, 0xa54ff53a, 0x510e527f, 0x9b05688c, 0x1f83d9ab, 0x5be0cd19,
    };
    for (uint32_t block = 0; block < BLOCKS; block++) {
        for (uint32_t i = 0; i < 16; i++)
            w[i] = block * 16 + i;
        do_rounds(state, w);
    }
    uint32_t all = 0;
    for (int i = 0; i < 8; i++)
        all ^= state[i];
    return all;
}
