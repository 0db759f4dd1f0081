// Which band is wrong, beside documents 01 and 02: forward, inverse, dwt and multi_idwt of all seven filters, most often with
// several wrong lengths at once. Input and bands, and the inverse's output, have every choice of short lengths; multi_idwt's output
// and the work areas have a few. The answer is what a plain model says from the lengths alone: document 01's checks in its order,
// with document 02's 17 for the details, and without 6 and the 9 of byte lengths, which are not asked. After a refusal every lent
// byte is as it was; what is only read, and what stands beside a slice, always is. Every filter and call must have said 2 and 17.
// Says how many were refused with each number, or the first that differs.
// Call: tests/desk/program bands
#include "beksanour.h"
#include "drawn.h"
#include <stdio.h>
#include <string.h>

typedef bk_answer forward_call(const uint8_t *, size_t, uint8_t *, size_t, uint8_t *, size_t);
typedef bk_answer inverse_call(const uint8_t *, size_t, const uint8_t *, size_t, uint8_t *, size_t);
typedef bk_answer dwt_call(const uint8_t *, size_t, uint32_t, uint8_t *, size_t, uint8_t *, size_t, uint8_t *, size_t, uint8_t *,
                           size_t);
typedef bk_answer multi_idwt_call(const uint8_t *, size_t, const uint8_t *, size_t, const uint8_t *, size_t, uint8_t *, size_t,
                                  uint8_t *, size_t, uint8_t *, size_t);

static const struct filter {
    const char *name;
    size_t width, smallest;
    forward_call *forward;
    inverse_call *inverse;
    dwt_call *dwt;
    multi_idwt_call *multi_idwt;
} filters[] = {
    {"5/3 i8", 1, 3, bk_cdf53_forward_i8, bk_cdf53_inverse_i8, bk_cdf53_dwt_i8, bk_cdf53_multi_idwt_i8},
    {"5/3 i16", 2, 3, bk_cdf53_forward_i16, bk_cdf53_inverse_i16, bk_cdf53_dwt_i16, bk_cdf53_multi_idwt_i16},
    {"5/3 i32", 4, 3, bk_cdf53_forward_i32, bk_cdf53_inverse_i32, bk_cdf53_dwt_i32, bk_cdf53_multi_idwt_i32},
    {"5/3 f32", 4, 3, bk_cdf53_forward_f32, bk_cdf53_inverse_f32, bk_cdf53_dwt_f32, bk_cdf53_multi_idwt_f32},
    {"5/3 f64", 8, 3, bk_cdf53_forward_f64, bk_cdf53_inverse_f64, bk_cdf53_dwt_f64, bk_cdf53_multi_idwt_f64},
    {"9/7 f32", 4, 4, bk_cdf97_forward_f32, bk_cdf97_inverse_f32, bk_cdf97_dwt_f32, bk_cdf97_multi_idwt_f32},
    {"9/7 f64", 8, 4, bk_cdf97_forward_f64, bk_cdf97_inverse_f64, bk_cdf97_dwt_f64, bk_cdf97_multi_idwt_f64},
};
enum { FILTERS = sizeof filters / sizeof *filters };

static const struct filter *filter; // the one at hand
static uint32_t asked_levels;       // of the dwt at hand

// ---- the model, of lengths in samples

static bk_answer say(uint32_t number, uint64_t first, uint64_t second) { return (bk_answer){number, first, second}; }

static size_t larger(size_t a, size_t b) { return a > b ? a : b; }

static size_t half_up(size_t n) { return n - n / 2; }

static bk_answer bands_of(size_t n, size_t approx, size_t details) {
    if (approx != half_up(n)) return say(BK_APPROX_SIZE_NOT_MATCHES, approx, n);
    if (details != n / 2) return say(BK_DETAILS_SIZE_NOT_MATCHES, details, n);
    return say(BK_DONE, 0, 0);
}

// At least 2 approximations, and 1 detail (5/3) or 2 (9/7), are expected.
static bk_answer bands_back(size_t approx, size_t details) {
    size_t n = approx + details, first = larger(2, half_up(n)), second = larger(filter->smallest - 2, n / 2);
    if (approx != first) return say(BK_APPROX_SIZE_NOT_MATCHES, first, approx);
    if (details != second) return say(BK_DETAILS_SIZE_NOT_MATCHES, second, details);
    return say(BK_DONE, 0, 0);
}

static bk_answer works(size_t work1, size_t work2, size_t n) {
    if (work1 < n) return say(BK_NO_ROOM, work1, n);
    if (work2 < n) return say(BK_NO_ROOM, work2, n);
    return say(BK_DONE, 0, 0);
}

static bk_answer say_forward(size_t n, size_t approx, size_t details) {
    return n < filter->smallest ? say(BK_MIN_FILTER_SIZE, n, filter->smallest) : bands_of(n, approx, details);
}

static bk_answer say_inverse(size_t approx, size_t details, size_t output) {
    if (output != approx + details) return say(BK_OUTPUT_SIZE_IS_NOT_VALID, output, approx + details);
    return bands_back(approx, details);
}

static bk_answer say_dwt(size_t n, size_t levels, size_t approx, size_t details, size_t work1, size_t work2) {
    size_t last = n;
    for (size_t level = 1; level < levels && last >= filter->smallest; level++) last = half_up(last);
    if (last < filter->smallest) return say(BK_BUFFER_WAS_TOO_SMALL_FOR_LEVEL, 0, 0);
    bk_answer said = bands_of(last, approx, details);
    return said.number ? said : works(work1, work2, n);
}

static bk_answer say_multi_idwt(size_t approx, size_t details, const size_t *lengths, size_t count, size_t output, size_t work1,
                                size_t work2) {
    size_t sum = 0, n = approx;
    if (count == 0 || approx == 0) return say(BK_ZEROED_BASE_SIZE, 0, 0);
    for (size_t i = 0; i < count; i++) sum += lengths[i];
    if (sum != details) return say(BK_BAD_COUNT, 0, sum);
    for (size_t i = 0; i < count; i++) {
        bk_answer said = bands_back(n, lengths[i]);
        if (said.number) return said;
        n += lengths[i];
    }
    return output != n ? say(BK_OUTPUT_SIZE_IS_NOT_VALID, output, n) : works(work1, work2, n);
}

// ---- the slices of a call, each between two guards; what a done call left is what the next one finds

enum { MOST = 40, GUARD = 16, SLICES = 6 };

static struct slice {
    uint8_t now[2 * GUARD + 8 * MOST], was[2 * GUARD + 8 * MOST];
    size_t bytes;
} slices[SLICES];

static uint8_t *at(int i) { return slices[i].now + GUARD; }

static size_t lend(int i, size_t samples) { return slices[i].bytes = samples * filter->width; }

// ---- asking

enum { FORWARD, INVERSE, DWT, MULTI_IDWT, CALLS };

static const char *const names[CALLS] = {"forward", "inverse", "dwt", "multi_idwt"};
static unsigned long counts[FILTERS][CALLS][BK_DETAILS_SIZE_NOT_MATCHES + 1];

// The slices before `lent` are read, those from it to `count` may be written by a done call.
static int compare(int call, bk_answer said, bk_answer wanted, int lent, int count) {
    int same = said.number == wanted.number && said.first == wanted.first && said.second == wanted.second;
    for (int i = 0; i < count; i++) {
        struct slice *s = &slices[i];
        size_t written = i < lent || said.number ? 0 : s->bytes;
        same &= memcmp(s->now, s->was, GUARD) == 0;
        same &= memcmp(at(i) + written, s->was + GUARD + written, sizeof s->now - GUARD - written) == 0;
        memcpy(s->was + GUARD, at(i), written);
    }
    if (same) {
        counts[filter - filters][call][said.number]++;
        return 1;
    }
    printf("%s of %s, slices of", names[call], filter->name);
    for (int i = 0; i < count; i++) printf(" %lu", (unsigned long)slices[i].bytes);
    printf(" bytes");
    if (call == DWT) printf(", levels %lu", (unsigned long)asked_levels);
    for (size_t i = 0; call == MULTI_IDWT && i < slices[2].bytes; i += 4) printf(", length %d", slices[2].was[GUARD + i]);
    printf(": %u (%lu, %lu), wanted %u (%lu, %lu), or bytes that must not change\n", (unsigned)said.number,
           (unsigned long)said.first, (unsigned long)said.second, (unsigned)wanted.number, (unsigned long)wanted.first,
           (unsigned long)wanted.second);
    return 0;
}

static int ask_forward(size_t n, size_t approx, size_t details) {
    size_t x = lend(0, n), a = lend(1, approx), d = lend(2, details);
    bk_answer said = filter->forward(at(0), x, at(1), a, at(2), d);
    return compare(FORWARD, said, say_forward(n, approx, details), 1, 3);
}

static int ask_inverse(size_t approx, size_t details, size_t output) {
    size_t a = lend(0, approx), d = lend(1, details), x = lend(2, output);
    bk_answer said = filter->inverse(at(0), a, at(1), d, at(2), x);
    return compare(INVERSE, said, say_inverse(approx, details, output), 2, 3);
}

static int ask_dwt(size_t n, uint32_t levels, size_t approx, size_t details, size_t work1, size_t work2) {
    size_t x = lend(0, n), a = lend(1, approx), d = lend(2, details), v = lend(3, work1), w = lend(4, work2);
    asked_levels = levels;
    bk_answer said = filter->dwt(at(0), x, levels, at(1), a, at(2), d, at(3), v, at(4), w);
    return compare(DWT, said, say_dwt(n, levels, approx, details, work1, work2), 1, 5);
}

static int ask_multi_idwt(size_t approx, size_t details, const size_t *lengths, size_t count, size_t output, size_t work1,
                          size_t work2) {
    size_t a = lend(0, approx), d = lend(1, details), x = lend(3, output), v = lend(4, work1), w = lend(5, work2);
    slices[2].bytes = 4 * count;
    for (size_t i = 0; i < 4 * count; i++) at(2)[i] = slices[2].was[GUARD + i] = (uint8_t)(lengths[i / 4] >> 8 * (i % 4));
    bk_answer said = filter->multi_idwt(at(0), a, at(1), d, at(2), 4 * count, at(3), x, at(4), v, at(5), w);
    return compare(MULTI_IDWT, said, say_multi_idwt(approx, details, lengths, count, output, work1, work2), 3, 6);
}

static int one_level(void) {
    for (size_t n = 0; n <= 12; n++)
        for (size_t a = 0; a <= 8; a++)
            for (size_t d = 0; d <= 8; d++)
                if (!ask_forward(n, a, d)) return 0;
    for (size_t a = 0; a <= 8; a++)
        for (size_t d = 0; d <= 8; d++)
            for (size_t n = 0; n <= 17; n++)
                if (!ask_inverse(a, d, n)) return 0;
    return 1;
}

// With work areas that are long enough, then both empty, then, where there are samples, the second one short.
static int last_of_levels(void) {
    for (size_t n = 0; n <= 17; n++)
        for (uint32_t levels = 0; levels <= 5; levels++)
            for (size_t a = 0; a <= 10; a++)
                for (size_t d = 0; d <= 10; d++) {
                    if (!ask_dwt(n, levels, a, d, n, n + 1) || !ask_dwt(n, levels, a, d, 0, 0)) return 0;
                    if (n > 0 && !ask_dwt(n, levels, a, d, n, n - 1)) return 0;
                }
    return 1;
}

// Up to three lengths, whether they fit or not. First all else is right; then the second work area is empty; then the output is one
// long and both work areas are empty; then there is one detail more than the lengths say.
static int all_levels(void) {
    for (size_t count = 0, lists = 1; count <= 3; count++, lists *= 7)
        for (size_t list = 0; list < lists; list++)
            for (size_t a = 0; a <= 5; a++) {
                size_t lengths[3] = {list % 7, list / 7 % 7, list / 49}, sum = lengths[0] + lengths[1] + lengths[2], n = a + sum;
                if (!ask_multi_idwt(a, sum, lengths, count, n, n, n + 1)) return 0;
                if (!ask_multi_idwt(a, sum, lengths, count, n, n, 0)) return 0;
                if (!ask_multi_idwt(a, sum, lengths, count, n + 1, 0, 0)) return 0;
                if (!ask_multi_idwt(a, sum + 1, lengths, count, n, n, n)) return 0;
            }
    return 1;
}

int main(void) {
    unsigned long all[BK_DETAILS_SIZE_NOT_MATCHES + 1] = {0}, asked = 0;
    seed = 16;
    for (int i = 0; i < SLICES; i++)
        for (size_t b = 0; b < sizeof slices[i].now; b++) slices[i].now[b] = slices[i].was[b] = (uint8_t)drawn();
    for (int f = 0; f < FILTERS; f++) {
        filter = &filters[f];
        if (!one_level() || !last_of_levels() || !all_levels()) return 1;
        for (int call = 0; call < CALLS; call++) {
            if (!counts[f][call][BK_APPROX_SIZE_NOT_MATCHES] || !counts[f][call][BK_DETAILS_SIZE_NOT_MATCHES]) {
                printf("%s of %s never said 2, or never 17\n", names[call], filter->name);
                return 1;
            }
            for (int number = 0; number <= BK_DETAILS_SIZE_NOT_MATCHES; number++) all[number] += counts[f][call][number];
        }
    }
    for (int number = 0; number <= BK_DETAILS_SIZE_NOT_MATCHES; number++) asked += all[number];
    printf("ok bands: %lu calls, %lu done", asked, all[BK_DONE]);
    for (int number = 1; number <= BK_DETAILS_SIZE_NOT_MATCHES; number++)
        if (all[number]) printf(", %lu refused with %d", all[number], number);
    printf("\n");
    return 0;
}
