// Document 02, C-13, by transforming: no sample outside a span changes its coefficient, and each sample of a span can, its ends
// too. Of every length from 3 to 40 at 8 bits, every level, both bands and every place: in drawn recordings all samples outside the
// span are drawn anew, so that none is too narrow; and a recording is looked for in which one sample of the span alone, changed,
// changes the coefficient, so that none is too wide. Then drawn places of long recordings, of 16 and 32 bits. Says how many it
// asked, or the first that differs.
// Call: tests/desk/program spans
#include "beksanour.h"
#include "drawn.h"
#include <stdio.h>
#include <string.h>

enum { MOST = 40, LONG = 100003, DRAWS = 30, TRIES = 1000000 };

typedef bk_answer transform(const uint8_t *, size_t, uint32_t, uint8_t *, size_t, uint8_t *, size_t, uint8_t *, size_t);

// Coefficient `place` of a band of a level of n samples, its span, and the word of multi_dwt's output that it is.
typedef struct {
    uint32_t band, level;
    uint64_t n, place, word;
    bk_answer span;
} coefficient;

static unsigned long spans, changed, most_tries;

static uint64_t approximations(uint64_t n, uint32_t level) {
    while (level--) n -= n / 2;
    return n;
}

static coefficient at(uint32_t band, uint64_t n, uint32_t level, uint64_t place) {
    coefficient c = {band, level, n, place, 0, {0, 0, 0}};
    c.word = band == BK_DETAILS ? approximations(n, level) + place : place;
    c.span = band == BK_DETAILS ? bk_note_detail_span(n, level, place) : bk_note_span(n, level, place);
    return c;
}

static int failed(const char *what, coefficient c, uint64_t sample) {
    printf("%s: n %lu, level %u, %s %lu, span %u (%lu, %lu), sample %lu\n", what, (unsigned long)c.n, (unsigned)c.level,
           c.band == BK_DETAILS ? "detail" : "approximation", (unsigned long)c.place, (unsigned)c.span.number,
           (unsigned long)c.span.first, (unsigned long)c.span.second, (unsigned long)sample);
    return 1;
}

static void draw(uint8_t *x, uint64_t bytes) {
    for (uint64_t i = 0; i < bytes; i++) x[i] = (uint8_t)drawn();
}

// The coefficient's bytes in what multi_dwt makes of x.
static const uint8_t *of(transform *multi_dwt, uint32_t width, coefficient c, const uint8_t *x, uint8_t *out) {
    static uint8_t work1[4 * LONG], work2[4 * LONG];
    size_t bytes = width * c.n;
    bk_answer r = multi_dwt(x, bytes, c.level, out, bytes, work1, bytes, work2, bytes);
    return r.number == 0 ? out + width * c.word : NULL;
}

static int same(const uint8_t *one, const uint8_t *two, uint32_t width) {
    while (width-- > 0)
        if (one[width] != two[width]) return 0;
    return 1;
}

// A recording, and the same with all that is outside the span drawn anew.
static int kept(transform *multi_dwt, uint32_t width, coefficient c) {
    static uint8_t x[4 * LONG], y[4 * LONG], out[4 * LONG], other[4 * LONG];
    draw(x, width * c.n);
    memcpy(y, x, width * c.n);
    draw(y, width * c.span.first);
    draw(y + width * (c.span.second + 1), width * (c.n - 1 - c.span.second));
    const uint8_t *one = of(multi_dwt, width, c, x, out), *two = of(multi_dwt, width, c, y, other);
    if (!one || !two) return failed("a transform was refused", c, 0);
    return same(one, two, width) ? 0 : failed("changed from outside", c, 0);
}

// Is there a recording of 8 bits whose coefficient changes with this sample alone?
static int changes(coefficient c, uint64_t sample) {
    uint8_t x[MOST], out[MOST], other[MOST];
    for (unsigned long tries = 1; tries <= TRIES; tries++) {
        draw(x, c.n);
        const uint8_t *one = of(bk_cdf53_multi_dwt_i8, 1, c, x, out);
        x[sample] = (uint8_t)(x[sample] + 1 + drawn() % 255);
        const uint8_t *two = of(bk_cdf53_multi_dwt_i8, 1, c, x, other);
        if (!one || !two) return failed("a transform was refused", c, sample);
        if (*one == *two) continue;
        changed++;
        if (most_tries < tries) most_tries = tries;
        return 0;
    }
    return failed("a sample that changes nothing", c, sample);
}

// Nothing outside its span changes the coefficient, in so many recordings.
static int alone(transform *multi_dwt, uint32_t width, coefficient c, int draws) {
    if (c.span.number != 0 || c.span.first > c.span.second || c.span.second >= c.n) return failed("no span of it", c, 0);
    while (draws-- > 0)
        if (kept(multi_dwt, width, c)) return 1;
    spans++;
    return 0;
}

static int compare(uint32_t band, uint64_t n, uint32_t level, uint64_t place) {
    coefficient c = at(band, n, level, place);
    if (alone(bk_cdf53_multi_dwt_i8, 1, c, DRAWS)) return 1;
    for (uint64_t sample = c.span.first; sample <= c.span.second; sample++)
        if (changes(c, sample)) return 1;
    return 0;
}

static int compare_level(uint64_t n, uint32_t level) {
    uint64_t input = approximations(n, level - 1);
    for (uint64_t p = 0; p < input - input / 2; p++)
        if (compare(BK_APPROXIMATIONS, n, level, p)) return 1;
    for (uint64_t p = 0; p < input / 2; p++)
        if (compare(BK_DETAILS, n, level, p)) return 1;
    return 0;
}

// A drawn coefficient of a long recording.
static int compare_long(transform *multi_dwt, uint32_t width) {
    uint64_t n = LONG - drawn() % 1000;
    uint32_t level = 1 + drawn() % (uint32_t)bk_cdf53_depth(n).first;
    uint64_t input = approximations(n, level - 1);
    uint32_t band = drawn() % 2 ? BK_DETAILS : BK_APPROXIMATIONS;
    uint64_t place = drawn() % (band == BK_DETAILS ? input / 2 : input - input / 2);
    return alone(multi_dwt, width, at(band, n, level, place), 1);
}

int main(void) {
    seed = 13;
    for (uint64_t n = 3; n <= MOST; n++)
        for (uint32_t level = 1; level <= bk_cdf53_depth(n).first; level++)
            if (compare_level(n, level)) return 1;
    for (int i = 0; i < 100; i++)
        if (compare_long(bk_cdf53_multi_dwt_i16, 2) || compare_long(bk_cdf53_multi_dwt_i32, 4)) return 1;
    printf("ok spans: %lu coefficients that nothing outside their spans changes, %lu samples within that do, in %lu tries at most\n",
           spans, changed, most_tries);
    return 0;
}
