/*
 * The filters as plain C over typed arrays, one level, forward and inverse: a loop a step. Built by bench/run, by more than
 * one compiler, each with its own PLAIN, the name of the table at the end. Needs no header. n is even and at least 4.
 * The inverse works in two lent areas of n/2 samples.
 */
typedef __INT8_TYPE__ i8;
typedef __INT16_TYPE__ i16;
typedef __INT32_TYPE__ i32;
typedef __INT64_TYPE__ i64;
typedef __SIZE_TYPE__ size;
typedef float f32;
typedef double f64;

/* What a filter's functions and its entries of the table look like. */
#define FORWARD(name, T) static void name(const T *restrict x, size n, T *restrict a, T *restrict d)
#define INVERSE(name, T)                                                                                               \
    static void name(const T *restrict a, const T *restrict d, size n, T *restrict x, T *restrict e, T *restrict o)
#define LOOPS(T)                                                                                                       \
    struct {                                                                                                           \
        void (*forward)(const T *, size, T *, T *);                                                                    \
        void (*inverse)(const T *, const T *, size, T *, T *, T *);                                                    \
    }

/* The last loop of every inverse. */
#define JOIN(x, e, o)                                                                                                  \
    for (size i = 0; i < n / 2; i++) {                                                                                 \
        x[2 * i] = e[i];                                                                                               \
        x[2 * i + 1] = o[i];                                                                                           \
    }

/* ---- integer 5/3: floor((p + q) / 2) and floor((p + q + 2) / 4), in two ways */

#define HALF_WIDE(T, W, p, q) (((W)(p) + (W)(q)) >> 1)
#define QUARTER_WIDE(T, W, p, q) (((W)(p) + (W)(q) + 2) >> 2)

/* with no sum wider than a sample */
#define HALF_NARROW(T, W, p, q) (T)(((p) & (q)) + (T)((T)((p) ^ (q)) >> 1))
#define QUARTER_NARROW(T, W, p, q) (T)((HALF_NARROW(T, W, p, q) >> 1) + (HALF_NARROW(T, W, p, q) & 1))

#define INTEGER(way, T, W)                                                                                             \
    FORWARD(forward53_##way##_##T, T)                                                                                  \
    {                                                                                                                  \
        size h = n / 2;                                                                                                \
        for (size i = 0; i < h - 1; i++)                                                                               \
            d[i] = (T)(x[2 * i + 1] - HALF_##way(T, W, x[2 * i], x[2 * i + 2]));                                       \
        d[h - 1] = (T)(x[n - 1] - x[n - 2]);                                                                           \
        a[0] = (T)(x[0] + QUARTER_##way(T, W, d[0], d[0]));                                                            \
        for (size i = 1; i < h; i++)                                                                                   \
            a[i] = (T)(x[2 * i] + QUARTER_##way(T, W, d[i - 1], d[i]));                                                \
    }                                                                                                                  \
    INVERSE(inverse53_##way##_##T, T)                                                                                  \
    {                                                                                                                  \
        size h = n / 2;                                                                                                \
        e[0] = (T)(a[0] - QUARTER_##way(T, W, d[0], d[0]));                                                            \
        for (size i = 1; i < h; i++)                                                                                   \
            e[i] = (T)(a[i] - QUARTER_##way(T, W, d[i - 1], d[i]));                                                    \
        for (size i = 0; i < h - 1; i++)                                                                               \
            o[i] = (T)(d[i] + HALF_##way(T, W, e[i], e[i + 1]));                                                       \
        o[h - 1] = (T)(d[h - 1] + e[h - 1]);                                                                           \
        JOIN(x, e, o)                                                                                                  \
    }

INTEGER(WIDE, i8, int)
INTEGER(NARROW, i8, int)
INTEGER(WIDE, i16, int)
INTEGER(NARROW, i16, int)
INTEGER(WIDE, i32, i64)
INTEGER(NARROW, i32, i64)

/* ---- floats */

/* each odd and its two evens, each even and its two odds */
#define LIFT_ODDS(T, o, e, c)                                                                                          \
    for (size i = 0; i < n / 2 - 1; i++)                                                                               \
        o[i] = (e[i] + e[i + 1]) * (T)(c) + o[i];                                                                      \
    o[n / 2 - 1] = (e[n / 2 - 1] + e[n / 2 - 1]) * (T)(c) + o[n / 2 - 1];
#define LIFT_EVENS(T, e, o, c)                                                                                         \
    e[0] = (o[0] + o[0]) * (T)(c) + e[0];                                                                              \
    for (size i = 1; i < n / 2; i++)                                                                                   \
        e[i] = (o[i - 1] + o[i]) * (T)(c) + e[i];

/* the first two steps, out of the samples */
#define SPLIT(T, predict, update)                                                                                      \
    for (size i = 0; i < n / 2 - 1; i++)                                                                               \
        d[i] = (x[2 * i] + x[2 * i + 2]) * (T)(predict) + x[2 * i + 1];                                                \
    d[n / 2 - 1] = (x[n - 2] + x[n - 2]) * (T)(predict) + x[n - 1];                                                    \
    a[0] = (d[0] + d[0]) * (T)(update) + x[0];                                                                         \
    for (size i = 1; i < n / 2; i++)                                                                                   \
        a[i] = (d[i - 1] + d[i]) * (T)(update) + x[2 * i];

#define ALPHA -1.5861343420693648
#define BETA -0.0529801185718856
#define GAMMA 0.8829110755411875
#define DELTA 0.4435068520511142
#define K 1.1496043988602418
#define INV_K 0.86986445162478079

#define FLOAT(T)                                                                                                       \
    FORWARD(forward53_##T, T) { SPLIT(T, -0.5, 0.25) }                                                                 \
    INVERSE(inverse53_##T, T)                                                                                          \
    {                                                                                                                  \
        e[0] = (d[0] + d[0]) * (T)-0.25 + a[0];                                                                        \
        for (size i = 1; i < n / 2; i++)                                                                               \
            e[i] = (d[i - 1] + d[i]) * (T)-0.25 + a[i];                                                                \
        for (size i = 0; i < n / 2 - 1; i++)                                                                           \
            o[i] = (e[i] + e[i + 1]) * (T)0.5 + d[i];                                                                  \
        o[n / 2 - 1] = (e[n / 2 - 1] + e[n / 2 - 1]) * (T)0.5 + d[n / 2 - 1];                                          \
        JOIN(x, e, o)                                                                                                  \
    }                                                                                                                  \
    FORWARD(forward97_##T, T)                                                                                          \
    {                                                                                                                  \
        SPLIT(T, ALPHA, BETA)                                                                                          \
        LIFT_ODDS(T, d, a, GAMMA)                                                                                      \
        LIFT_EVENS(T, a, d, DELTA)                                                                                     \
        for (size i = 0; i < n / 2; i++) {                                                                             \
            a[i] *= (T)K;                                                                                              \
            d[i] *= (T)INV_K;                                                                                          \
        }                                                                                                              \
    }                                                                                                                  \
    INVERSE(inverse97_##T, T)                                                                                          \
    {                                                                                                                  \
        for (size i = 0; i < n / 2; i++) {                                                                             \
            e[i] = a[i] * (T)INV_K;                                                                                    \
            o[i] = d[i] * (T)K;                                                                                        \
        }                                                                                                              \
        LIFT_EVENS(T, e, o, -DELTA)                                                                                    \
        LIFT_ODDS(T, o, e, -GAMMA)                                                                                     \
        LIFT_EVENS(T, e, o, -BETA)                                                                                     \
        LIFT_ODDS(T, o, e, -ALPHA)                                                                                     \
        JOIN(x, e, o)                                                                                                  \
    }

FLOAT(f32)
FLOAT(f64)

/* ---- the table: struct Plain of bench/plain.rs */

#define INTEGERS(T) {{forward53_WIDE_##T, inverse53_WIDE_##T}, {forward53_NARROW_##T, inverse53_NARROW_##T}}
#define FLOATS(filter, T) {{forward##filter##_##T, inverse##filter##_##T}}

const struct {
    LOOPS(i8) cdf53_i8[2];
    LOOPS(i16) cdf53_i16[2];
    LOOPS(i32) cdf53_i32[2];
    LOOPS(f32) cdf53_f32[1];
    LOOPS(f64) cdf53_f64[1];
    LOOPS(f32) cdf97_f32[1];
    LOOPS(f64) cdf97_f64[1];
} PLAIN = {
    INTEGERS(i8),   INTEGERS(i16),  INTEGERS(i32),  FLOATS(53, f32),
    FLOATS(53, f64), FLOATS(97, f32), FLOATS(97, f64),
};
