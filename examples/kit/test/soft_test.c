/* soft.c beside the processor's own floating point: on bits of all kinds, most of them near the ends of a range. */
#include "../soft.c"
#include <math.h>
#include <stdio.h>
#include <stdlib.h>
#include <string.h>

static u64 state = 88172645463325252u;
static long wrong;

static u64 next(void)
{
    state ^= state << 13;
    state ^= state >> 7;
    return state ^= state << 17;
}

static u64 with_exponent(u64 bits, u64 kept, u64 exponent) { return (bits & kept) | exponent << 52; }

static u64 some(void)
{
    static const u64 edges[] = {0, 1, FRACTION, HIDDEN, INF, INF - 1, NAN64, ONE, ONE - 1, ONE + 1,
        (u64)1022 << 52, ((u64)1022 << 52) - 1, (u64)1054 << 52, (u64)1055 << 52, (u64)1075 << 52, ((u64)1075 << 52) - 1,
        (u64)1085 << 52, (u64)1086 << 52, (u64)1087 << 52, ((u64)1087 << 52) - 1};
    u64 bits = next(), some_fraction = FRACTION & ~(((u64)1 << (next() % 52)) - 1);
    u64 two_bits = (bits & SIGN) | (u64)1 << next() % 52 | (u64)1 << next() % 52;
    switch (next() % 10) {
    case 0: return bits;
    case 1: return (bits & SIGN) | edges[next() % (sizeof edges / sizeof *edges)];
    case 2: return with_exponent(bits, SIGN | FRACTION, 1023 - 30 + next() % 100);
    case 3: return with_exponent(bits, SIGN | some_fraction, 1023 - 5 + next() % 60);
    case 4: return with_exponent(bits, SIGN | FRACTION, 0);
    case 5: return with_exponent(bits, SIGN | FRACTION, next() % 60);
    case 6: return with_exponent(bits, SIGN | FRACTION >> 29 << 29, 870 + next() % 300);
    case 7: return with_exponent(two_bits, ~(u64)0, 870 + next() % 300);
    case 8: return with_exponent(two_bits, ~(u64)0, next() % 60);
    default: return with_exponent(bits, SIGN | FRACTION, 870 + next() % 300);
    }
}

/* Of all widths, and of three bits, which lie between two floats. */
static u64 some_integer(void)
{
    u64 bits = next() >> next() % 64;
    return next() % 2 ? bits : (u64)1 << next() % 64 | (u64)1 << next() % 64 | (u64)1 << next() % 64;
}

static double of64(u64 bits) { double d; memcpy(&d, &bits, 8); return d; }
static float of32(u32 bits) { float f; memcpy(&f, &bits, 4); return f; }
static u64 as_is64(double d) { u64 bits; memcpy(&bits, &d, 8); return bits; }
static u32 as_is32(float f) { u32 bits; memcpy(&bits, &f, 4); return bits; }
static u64 bits64(double d) { return d != d ? NAN64 : as_is64(d); }
static u32 bits32(float f) { return f != f ? 0x7fc00000 : as_is32(f); }
static double least(double x, double y) { return x != x || y != y ? NAN : x == y ? signbit(x) ? x : y : x < y ? x : y; }
static double most(double x, double y) { return x != x || y != y ? NAN : x == y ? signbit(x) ? y : x : x > y ? x : y; }

static void same(const char *what, u64 got, u64 wanted, u64 a, u64 b)
{
    if (got != wanted && wrong++ < 20)
        printf("%s: %#llx, not %#llx, of %#llx %#llx\n", what, (long long)got, (long long)wanted, (long long)a, (long long)b);
}
#define SAME(got, wanted) same(#got, (u64)(got), (u64)(wanted), a, b)

static void computing64(u64 a, u64 b)
{
    volatile double x = of64(a), y = of64(b);
    SAME(soft_add(a, b), bits64(x + y));
    SAME(soft_sub(a, b), bits64(x - y));
    SAME(soft_mul(a, b), bits64(x * y));
    SAME(soft_div(a, b), bits64(x / y));
    SAME(soft_sqrt(a), bits64(sqrt(x)));
    SAME(soft_min(a, b), bits64(least(x, y)));
    SAME(soft_max(a, b), bits64(most(x, y)));
    SAME(soft_copysign(a, b), as_is64(copysign(x, y)));
    SAME(soft_trunc(a), bits64(trunc(x)));
    SAME(soft_floor(a), bits64(floor(x)));
    SAME(soft_ceil(a), bits64(ceil(x)));
    SAME(soft_nearest(a), bits64(nearbyint(x)));
}

static void comparing64(u64 a, u64 b)
{
    volatile double x = of64(a), y = of64(b);
    SAME(soft_eq(a, b), x == y);
    SAME(soft_ne(a, b), x != y);
    SAME(soft_lt(a, b), x < y);
    SAME(soft_gt(a, b), x > y);
    SAME(soft_le(a, b), x <= y);
    SAME(soft_ge(a, b), x >= y);
}

/* Conversions of numbers that the other type has. */
static void converting64(u64 a, u64 b)
{
    volatile double x = of64(a);
    SAME(soft_of_u64(b), bits64((double)b));
    SAME(soft_of_s64((int64_t)b), bits64((double)(int64_t)b));
    SAME(soft_of_s32((int)b), bits64((int)b));
    SAME(soft_of_u32((u32)b), bits64((u32)b));
    SAME(soft_narrow(a), bits32((float)x));
    if (x > -0x1.0000000000001p63 && x < 0x1p63)
        SAME(soft_to_s64(a), (int64_t)x);
    if (x > -1 && x < 0x1p64)
        SAME(soft_to_u64(a), x < 0 ? 0 : (u64)x);
    if (x > -0x1p31 - 1 && x < 0x1p31)
        SAME((u32)soft_to_s32(a), (u32)(int)x);
    if (x > -1 && x < 0x1p32)
        SAME(soft_to_u32(a), x < 0 ? 0 : (u32)x);
}

static int64_t s64_of(double x) { return x != x ? 0 : x < -0x1p63 ? INT64_MIN : x >= 0x1p63 ? INT64_MAX : (int64_t)x; }
static u64 u64_of(double x) { return x != x || x <= -1 ? 0 : x >= 0x1p64 ? UINT64_MAX : x < 0 ? 0 : (u64)x; }
static int32_t s32_of(double x) { return x != x ? 0 : x < -0x1p31 ? INT32_MIN : x >= 0x1p31 ? INT32_MAX : (int32_t)x; }
static u32 u32_of(double x) { return x != x || x <= -1 ? 0 : x >= 0x1p32 ? UINT32_MAX : x < 0 ? 0 : (u32)x; }

static void saturating(u64 a, u32 b)
{
    volatile double x = of64(a), y = of32(b);
    SAME(soft_sat_s64(a), s64_of(x));
    SAME(soft_sat_u64(a), u64_of(x));
    SAME((u32)soft_sat_s32(a), (u32)s32_of(x));
    SAME(soft_sat_u32(a), u32_of(x));
    SAME(softf_sat_s64(b), s64_of(y));
    SAME(softf_sat_u64(b), u64_of(y));
    SAME((u32)softf_sat_s32(b), (u32)s32_of(y));
    SAME(softf_sat_u32(b), u32_of(y));
}

static void computing32(u32 a, u32 b)
{
    volatile float x = of32(a), y = of32(b);
    SAME(soft_addf(a, b), bits32(x + y));
    SAME(soft_subf(a, b), bits32(x - y));
    SAME(soft_mulf(a, b), bits32(x * y));
    SAME(soft_divf(a, b), bits32(x / y));
    SAME(soft_sqrtf(a), bits32(sqrtf(x)));
    SAME(soft_minf(a, b), bits32((float)least(x, y)));
    SAME(soft_maxf(a, b), bits32((float)most(x, y)));
    SAME(soft_copysignf(a, b), as_is32(copysignf(x, y)));
    SAME(soft_truncf(a), bits32(truncf(x)));
    SAME(soft_floorf(a), bits32(floorf(x)));
    SAME(soft_ceilf(a), bits32(ceilf(x)));
    SAME(soft_nearestf(a), bits32(nearbyintf(x)));
}

static void comparing32(u32 a, u32 b)
{
    volatile float x = of32(a), y = of32(b);
    SAME(soft_eqf(a, b), x == y);
    SAME(soft_nef(a, b), x != y);
    SAME(soft_ltf(a, b), x < y);
    SAME(soft_gtf(a, b), x > y);
    SAME(soft_lef(a, b), x <= y);
    SAME(soft_gef(a, b), x >= y);
}

static void converting32(u32 a, u64 b)
{
    volatile float x = of32(a);
    SAME(soft_wide(a), bits64(x));
    SAME(softf_of_u64(b), bits32((float)b));
    SAME(softf_of_s64((int64_t)b), bits32((float)(int64_t)b));
    SAME(softf_of_s32((int)b), bits32((float)(int)b));
    SAME(softf_of_u32((u32)b), bits32((float)(u32)b));
    if (x >= -0x1p63f && x < 0x1p63f)
        SAME(softf_to_s64(a), (int64_t)x);
    if (x > -1 && x < 0x1p64f)
        SAME(softf_to_u64(a), x < 0 ? 0 : (u64)x);
    if (x >= -0x1p31f && x < 0x1p31f)
        SAME((u32)softf_to_s32(a), (u32)(int)x);
    if (x > -1 && x < 0x1p32f)
        SAME(softf_to_u32(a), x < 0 ? 0 : (u32)x);
}

int main(int count, char **words)
{
    long turns = count > 1 ? atol(words[1]) : 1000000;
    for (long i = 0; i < turns; i++) {
        u64 a = some(), b = next() % 16 ? some() : a ^ (next() % 3);
        u32 c = next() % 4 ? soft_narrow(a) : (u32)a, d = next() % 4 ? soft_narrow(b) : (u32)b;
        computing64(a, b);
        comparing64(a, b);
        converting64(a, some_integer());
        saturating(a, c);
        computing32(c, d);
        comparing32(c, d);
        converting32(c, some_integer());
    }
    printf("soft: %ld turns, %ld wrong\n", turns, wrong);
    return wrong != 0;
}
