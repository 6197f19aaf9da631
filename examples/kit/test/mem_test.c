/* ../../mem.c beside the C library: each function at all places within eight bytes, all lengths to 40, and overlaps. */
#include <stdio.h>
#include <string.h>
#define memcpy guest_memcpy
#define memmove guest_memmove
#define memset guest_memset
#define memcmp guest_memcmp
#include "../../mem.c"
#undef memcpy
#undef memmove
#undef memset
#undef memcmp

enum { ROOM = 64, PLACES = 12, LENGTHS = 40 };

static int tried, wrong;

static void fill(unsigned char *at, int seed)
{
    for (int i = 0; i < ROOM; i++)
        at[i] = (unsigned char)(i * 37 + seed);
}

static void same(const unsigned char *got, const unsigned char *want)
{
    tried++;
    wrong += memcmp(got, want, ROOM) != 0;
}

static void sign(int got, int want)
{
    tried++;
    wrong += (got > 0) - (got < 0) != (want > 0) - (want < 0);
}

static void one(int to, int from, int length)
{
    unsigned char a[ROOM], b[ROOM], other[ROOM];
    fill(other, 5);
    fill(a, 1), fill(b, 1);
    guest_memcpy(a + to, other + from, (size_t)length), memcpy(b + to, other + from, (size_t)length);
    same(a, b);
    fill(a, 2), fill(b, 2);
    guest_memmove(a + to, a + from, (size_t)length), memmove(b + to, b + from, (size_t)length);
    same(a, b);
    fill(a, 3), fill(b, 3);
    guest_memset(a + to, from + 250, (size_t)length), memset(b + to, from + 250, (size_t)length);
    same(a, b);
    memcpy(b + to, a + from, (size_t)length);
    memmove(a + to, a + from, (size_t)length);
    sign(guest_memcmp(a + to, b + to, (size_t)length), memcmp(a + to, b + to, (size_t)length));
    if (length > 0) {
        b[to + from % length] ^= 129;
        sign(guest_memcmp(a + to, b + to, (size_t)length), memcmp(a + to, b + to, (size_t)length));
    }
}

int main(void)
{
    for (int to = 0; to < PLACES; to++)
        for (int from = 0; from < PLACES; from++)
            for (int length = 0; length <= LENGTHS; length++)
                one(to, from, length);
    printf("mem: %d tried, %d wrong\n", tried, wrong);
    return wrong != 0;
}
