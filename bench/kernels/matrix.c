/* Loops in loops: a product of two matrices of 32-bit integers. */
#include <stdint.h>

#define SIDE 160

static uint32_t a[SIDE][SIDE], b[SIDE][SIDE];

uint32_t run(void)
{
    for (uint32_t i = 0; i < SIDE; i++)
        for (uint32_t j = 0; j < SIDE; j++) {
            a[i][j] = i * 31 + j;
            b[i][j] = i ^ j * 7;
        }
    uint32_t total = 0;
    for (uint32_t i = 0; i < SIDE; i++)
        for (uint32_t j = 0; j < SIDE; j++) {
            uint32_t sum = 0;
            for (uint32_t k = 0; k < SIDE; k++)
                sum += a[i][k] * b[k][j];
            total = total * 33 + sum;
        }
    return total;
}
