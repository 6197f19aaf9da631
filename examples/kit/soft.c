/* Floating point by integers, for lower.py: what each floating-point instruction of WebAssembly 1.0 does, on the bits.
   To the nearest, ties to even; a NaN that comes of it is the canonical one. Operations on f32 go by f64, which is exact
   enough to be the same (a double has more than twice a float's digits and two). */
#include <stdint.h>

typedef uint64_t u64;
typedef uint32_t u32;
#ifdef __wasm__
#define SOFT(name, result, c, parameters) __attribute__((export_name("soft." name))) result c parameters; result c parameters
#else
#define SOFT(name, result, c, parameters) result c parameters
#endif

static const u64 SIGN = (u64)1 << 63, INF = (u64)2047 << 52, NAN64 = (u64)4095 << 51, ONE = (u64)1023 << 52;
static const u64 HIDDEN = (u64)1 << 52, FRACTION = ((u64)1 << 52) - 1;

static u64 jam(u64 n, int by)                          /* n >> by, the lowest bit set where a bit was lost */
{
    return by == 0 ? n : by < 64 ? n >> by | (n << (64 - by) != 0) : n != 0;
}

/* The number sign * m * 2^(e - 1084), m below 2^63 with bit 62 set (or any m where e is 0): e + 1 is the exponent's field. */
static u64 rounded(u64 sign, int e, u64 m)
{
    if (e < 0)
        m = jam(m, -e), e = 0;
    else if (e > 2045 || (e == 2045 && m + 512 >= SIGN))
        return sign | INF;
    u64 rest = m & 1023;
    m = (m + 512) >> 10;
    if (rest == 512)
        m &= ~(u64)1;
    return sign + ((u64)e << 52) + m;
}

static u64 high_of_product(u64 a, u64 b)               /* the upper 64 bits, the lowest set where the lower are not zero */
{
    u64 al = (u32)a, ah = a >> 32, bl = (u32)b, bh = b >> 32;
    u64 low = al * bl, m = ah * bl + (low >> 32), n = al * bh + (u32)m;
    return (ah * bh + (m >> 32) + (n >> 32)) | ((n << 32 | (u32)low) != 0);
}

SOFT("f64.add", u64, soft_add, (u64 a, u64 b))
{
    u64 x = a & ~SIGN, y = b & ~SIGN;
    if (x < y) {
        u64 t = a; a = b; b = t;
        t = x; x = y; y = t;
    }
    if (x >= INF)
        return x > INF || y > INF || (y == INF && (a ^ b) >> 63) ? NAN64 : a;
    int e = (int)(x >> 52), f = (int)(y >> 52);
    u64 m = (x & FRACTION) << 10, n = (y & FRACTION) << 10, sign = a & SIGN;
    if (e) m |= HIDDEN << 10; else e = 1;
    if (f) n |= HIDDEN << 10; else f = 1;
    n = jam(n, e - f);
    if (!((a ^ b) >> 63)) {
        m += n;
        if (m >> 63)
            m = m >> 1 | (m & 1), e++;
        return rounded(sign, e - 1, m);
    }
    m -= n;
    if (!m)
        return 0;
    int by = __builtin_clzll(m) - 1;
    if (by > e - 1)
        by = e - 1;
    return rounded(sign, e - 1 - by, m << by);
}

SOFT("f64.sub", u64, soft_sub, (u64 a, u64 b)) { return soft_add(a, b ^ SIGN); }

/* The fraction with its highest bit at 52, and the exponent that goes with it; of a number that isn't zero. */
static u64 normal(u64 x, int *e)
{
    *e = (int)(x >> 52);
    u64 m = x & FRACTION;
    if (*e)
        return m | HIDDEN;
    int by = __builtin_clzll(m) - 11;
    *e = 1 - by;
    return m << by;
}

SOFT("f64.mul", u64, soft_mul, (u64 a, u64 b))
{
    u64 x = a & ~SIGN, y = b & ~SIGN, sign = (a ^ b) & SIGN;
    if (x >= INF || y >= INF)
        return x > INF || y > INF || !x || !y ? NAN64 : sign | INF;
    if (!x || !y)
        return sign;
    int e, f;
    u64 m = normal(x, &e) << 10, n = normal(y, &f) << 11, p = high_of_product(m, n);
    e += f - 1023;
    if (!(p >> 62))
        p <<= 1, e--;
    return rounded(sign, e, p);
}

SOFT("f64.div", u64, soft_div, (u64 a, u64 b))
{
    u64 x = a & ~SIGN, y = b & ~SIGN, sign = (a ^ b) & SIGN;
    if (x > INF || y > INF || (x == INF && y == INF) || (!x && !y))
        return NAN64;
    if (x == INF || !y)
        return sign | INF;
    if (!x || y == INF)
        return sign;
    int e, f;
    u64 m = normal(x, &e), n = normal(y, &f), q = 1;
    e += 1022 - f;
    if (m < n)
        m <<= 1, e--;
    m -= n;
    for (int i = 0; i < 5; i++) {                      /* eleven bits at a time: m is below 2^53 */
        m <<= 11;
        q = q << 11 | m / n;
        m %= n;
    }
    return rounded(sign, e, q << 7 | (m != 0));
}

/* The root of m as a whole number, m at least 2^62: Newton's way from above. */
static u64 whole_root(u64 m)
{
    u64 s = (m >> 33) + ((u64)1 << 31);
    for (int i = 0; i < 5; i++)
        s = (s + m / s) >> 1;
    if (s >> 32)
        s = 0xffffffff;
    return s * s > m ? s - 1 : s;
}

SOFT("f64.sqrt", u64, soft_sqrt, (u64 a))
{
    if (!(a & ~SIGN) || a == INF)
        return a;
    if (a > INF)
        return NAN64;
    int e;
    u64 m = normal(a, &e);
    e -= 1023;
    m <<= e & 1 ? 11 : 10;
    e = (e - (e & 1)) / 2;
    u64 s = whole_root(m), rest = m - s * s;           /* 32 bits of the root, and 24 more: m * 2^48 = root^2 + rest */
    u64 q = (rest << 24) / (2 * s);
    int64_t left = (int64_t)(((rest << 24) - q * 2 * s) << 24) - (int64_t)(q * q);
    u64 root = (s << 24) + q;
    if (left < 0)
        root--, left += 2 * (int64_t)root + 1;
    return rounded(0, e + 1022, root << 7 | (left != 0));
}

static int ordered(u64 a, u64 b) { return (a & ~SIGN) <= INF && (b & ~SIGN) <= INF; }
static int64_t rank(u64 a) { return a >> 63 ? -(int64_t)(a & ~SIGN) : (int64_t)a; }
SOFT("f64.eq", int, soft_eq, (u64 a, u64 b)) { return ordered(a, b) && rank(a) == rank(b); }
SOFT("f64.ne", int, soft_ne, (u64 a, u64 b)) { return !soft_eq(a, b); }
SOFT("f64.lt", int, soft_lt, (u64 a, u64 b)) { return ordered(a, b) && rank(a) < rank(b); }
SOFT("f64.gt", int, soft_gt, (u64 a, u64 b)) { return ordered(a, b) && rank(a) > rank(b); }
SOFT("f64.le", int, soft_le, (u64 a, u64 b)) { return ordered(a, b) && rank(a) <= rank(b); }
SOFT("f64.ge", int, soft_ge, (u64 a, u64 b)) { return ordered(a, b) && rank(a) >= rank(b); }
SOFT("f64.min", u64, soft_min, (u64 a, u64 b))
{
    return !ordered(a, b) ? NAN64 : rank(a) == rank(b) ? a | b : rank(a) < rank(b) ? a : b;
}
SOFT("f64.max", u64, soft_max, (u64 a, u64 b))
{
    return !ordered(a, b) ? NAN64 : rank(a) == rank(b) ? a & b : rank(a) > rank(b) ? a : b;
}
SOFT("f64.copysign", u64, soft_copysign, (u64 a, u64 b)) { return (a & ~SIGN) | (b & SIGN); }

SOFT("f64.trunc", u64, soft_trunc, (u64 a))
{
    int e = (int)(a >> 52 & 2047) - 1023;
    if ((a & ~SIGN) > INF)
        return NAN64;
    return e < 0 ? a & SIGN : e >= 52 ? a : a & ~(FRACTION >> e);
}
SOFT("f64.floor", u64, soft_floor, (u64 a))
{
    u64 t = soft_trunc(a);
    return t == a || !(a >> 63) || t == NAN64 ? t : soft_sub(t, ONE);
}
SOFT("f64.ceil", u64, soft_ceil, (u64 a))
{
    u64 t = soft_trunc(a);
    return t == a || a >> 63 || t == NAN64 ? t : soft_add(t, ONE);
}
SOFT("f64.nearest", u64, soft_nearest, (u64 a))
{
    u64 large = (u64)1075 << 52, x = a & ~SIGN;        /* 2^52 */
    if (x >= large)
        return x > INF ? NAN64 : a;
    return soft_sub(soft_add(x, large), large) | (a & SIGN);
}

SOFT("f64.convert_i64_u", u64, soft_of_u64, (u64 n))
{
    if (!n)
        return 0;
    int by = __builtin_clzll(n);
    return rounded(0, 1085 - by, by ? n << (by - 1) : jam(n, 1));
}
SOFT("f64.convert_i64_s", u64, soft_of_s64, (int64_t n))
{
    return n < 0 ? soft_of_u64(-(u64)n) | SIGN : soft_of_u64((u64)n);
}
SOFT("f64.convert_i32_u", u64, soft_of_u32, (u32 n)) { return soft_of_u64(n); }
SOFT("f64.convert_i32_s", u64, soft_of_s32, (int32_t n)) { return soft_of_s64(n); }

/* The whole part without its sign; a trap where it is above `most`. */
static u64 whole(u64 a, u64 most)
{
    int e = (int)(a >> 52 & 2047) - 1023;
    if (e < 0)
        return 0;
    if (e > 63)
        __builtin_trap();
    u64 m = (a & FRACTION) | HIDDEN;
    m = e >= 52 ? m << (e - 52) : m >> (52 - e);
    if (m > most)
        __builtin_trap();
    return m;
}
SOFT("i64.trunc_f64_u", u64, soft_to_u64, (u64 a)) { return whole(a, a >> 63 ? 0 : ~(u64)0); }
SOFT("i32.trunc_f64_u", u32, soft_to_u32, (u64 a)) { return (u32)whole(a, a >> 63 ? 0 : 0xffffffffu); }
SOFT("i64.trunc_f64_s", int64_t, soft_to_s64, (u64 a))
{
    u64 n = whole(a, a >> 63 ? SIGN : ~SIGN);
    return (int64_t)(a >> 63 ? -n : n);
}
SOFT("i32.trunc_f64_s", int32_t, soft_to_s32, (u64 a))
{
    u64 n = whole(a, a >> 63 ? 0x80000000u : 0x7fffffffu);
    return (int32_t)(a >> 63 ? -n : n);
}

SOFT("f64.promote_f32", u64, soft_wide, (u32 a))
{
    u64 sign = (u64)(a >> 31) << 63, m = a & 0x7fffff;
    int e = (int)(a >> 23 & 255);
    if (e == 255)
        return m ? NAN64 : sign | INF;
    if (!e) {
        if (!m)
            return sign;
        int by = __builtin_clz((u32)m) - 8;
        m = m << by & 0x7fffff;
        e = 1 - by;
    }
    return sign | (u64)(e + 896) << 52 | m << 29;
}
SOFT("f32.demote_f64", u32, soft_narrow, (u64 a))
{
    u32 sign = (u32)(a >> 63) << 31;
    u64 x = a & ~SIGN;
    if (x > INF)
        return 0x7fc00000;
    int e = (int)(x >> 52) - 897;                      /* one below the exponent's field */
    u64 m = (x & FRACTION) | HIDDEN;
    if (x == INF || e > 253)
        return sign | 0x7f800000;
    if (e < 0)
        m = jam(m, -e < 63 ? -e : 63), e = 0;
    u64 rest = m & 0x1fffffff;
    m = (m + 0x10000000) >> 29;
    if (rest == 0x10000000)
        m &= ~(u64)1;
    return sign + (u32)(((u64)e << 23) + m);           /* a carry makes it infinite, which is right */
}

#define BOTH(op) SOFT("f32." #op, u32, soft_##op##f, (u32 a, u32 b)) { return soft_narrow(soft_##op(soft_wide(a), soft_wide(b))); }
#define ASK(op) SOFT("f32." #op, int, soft_##op##f, (u32 a, u32 b)) { return soft_##op(soft_wide(a), soft_wide(b)); }
#define ONE_OF(op) SOFT("f32." #op, u32, soft_##op##f, (u32 a)) { return soft_narrow(soft_##op(soft_wide(a))); }
BOTH(add) BOTH(sub) BOTH(mul) BOTH(div) BOTH(min) BOTH(max)
ASK(eq) ASK(ne) ASK(lt) ASK(gt) ASK(le) ASK(ge)
ONE_OF(sqrt) ONE_OF(ceil) ONE_OF(floor) ONE_OF(trunc) ONE_OF(nearest)
SOFT("f32.copysign", u32, soft_copysignf, (u32 a, u32 b)) { return (a & 0x7fffffff) | (b & 0x80000000); }
SOFT("f32.convert_i32_s", u32, softf_of_s32, (int32_t n)) { return soft_narrow(soft_of_s64(n)); }
SOFT("f32.convert_i32_u", u32, softf_of_u32, (u32 n)) { return soft_narrow(soft_of_u64(n)); }
/* Of 64 bits, those that a double would lose are kept as one, so that it isn't rounded twice. */
SOFT("f32.convert_i64_u", u32, softf_of_u64, (u64 n)) { return soft_narrow(soft_of_u64(n >> 53 ? jam(n, 11) << 11 : n)); }
SOFT("f32.convert_i64_s", u32, softf_of_s64, (int64_t n))
{
    return n < 0 ? softf_of_u64(-(u64)n) | 0x80000000u : softf_of_u64((u64)n);
}
SOFT("i32.trunc_f32_s", int32_t, softf_to_s32, (u32 a)) { return soft_to_s32(soft_wide(a)); }
SOFT("i32.trunc_f32_u", u32, softf_to_u32, (u32 a)) { return soft_to_u32(soft_wide(a)); }
SOFT("i64.trunc_f32_s", int64_t, softf_to_s64, (u32 a)) { return soft_to_s64(soft_wide(a)); }
SOFT("i64.trunc_f32_u", u64, softf_to_u64, (u32 a)) { return soft_to_u64(soft_wide(a)); }

/* The saturating conversions: 0 of a NaN, and the nearest end of what there is. */
static u64 saturated(u64 a, u64 most)
{
    int e = (int)(a >> 52 & 2047) - 1023;
    if ((a & ~SIGN) > INF || e < 0)
        return 0;
    if (e > 63)
        return most;
    u64 m = (a & FRACTION) | HIDDEN;
    m = e >= 52 ? m << (e - 52) : m >> (52 - e);
    return m > most ? most : m;
}
SOFT("i64.trunc_sat_f64_u", u64, soft_sat_u64, (u64 a)) { return saturated(a, a >> 63 ? 0 : ~(u64)0); }
SOFT("i32.trunc_sat_f64_u", u32, soft_sat_u32, (u64 a)) { return (u32)saturated(a, a >> 63 ? 0 : 0xffffffffu); }
SOFT("i64.trunc_sat_f64_s", int64_t, soft_sat_s64, (u64 a))
{
    u64 n = saturated(a, a >> 63 ? SIGN : ~SIGN);
    return (int64_t)(a >> 63 ? -n : n);
}
SOFT("i32.trunc_sat_f64_s", int32_t, soft_sat_s32, (u64 a))
{
    u64 n = saturated(a, a >> 63 ? 0x80000000u : 0x7fffffffu);
    return (int32_t)(a >> 63 ? -n : n);
}
SOFT("i32.trunc_sat_f32_s", int32_t, softf_sat_s32, (u32 a)) { return soft_sat_s32(soft_wide(a)); }
SOFT("i32.trunc_sat_f32_u", u32, softf_sat_u32, (u32 a)) { return soft_sat_u32(soft_wide(a)); }
SOFT("i64.trunc_sat_f32_s", int64_t, softf_sat_s64, (u32 a)) { return soft_sat_s64(soft_wide(a)); }
SOFT("i64.trunc_sat_f32_u", u64, softf_sat_u64, (u32 a)) { return soft_sat_u64(soft_wide(a)); }
