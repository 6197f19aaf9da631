/* Shifts and branches: CRC-32 of bytes, bit by bit. */
#include <stdint.h>

#define LENGTH 400000

uint32_t run(void)
{
    uint32_t crc = 0xffffffff;
    for (uint32_t i = 0; i < LENGTH; i++) {
        crc ^= i * 2654435761u >> 24;
        for (int bit = 0; bit < 8; bit++)
            crc = crc >> 1 ^ (crc & 1 ? 0xedb88320 : 0);
    }
    return ~crc;
}
