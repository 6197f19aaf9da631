/* Backtracking: how many ways N queens stand on a board of N by N, for N from 4 to 12. */
#include <stdint.h>

static uint32_t ways(uint32_t all, uint32_t columns, uint32_t left, uint32_t right)
{
    uint32_t found = 0;
    if (columns == all)
        return 1;
    for (uint32_t free = all & ~(columns | left | right); free; free &= free - 1) {
        uint32_t queen = free & -free;
        found += ways(all, columns | queen, (left | queen) << 1, (right | queen) >> 1);
    }
    return found;
}

uint32_t run(void)
{
    uint32_t sum = 0;
    for (uint32_t size = 4; size <= 12; size++)
        sum = sum * 31 + ways((1u << size) - 1, 0, 0, 0);
    return sum;
}
