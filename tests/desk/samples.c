// bk_pyramid_sample beside bk_pyramid_open: every place that opening gives back, and some past it, of every front of four files for
// each width, each length of 3 to 40 samples and each number of levels, one of bytes 0 and 255 and one of any bytes, each as a new
// file and as an old one; and of the same files with each byte changed once, and with a rate of 0. Then drawn places of files of the
// most samples and the most levels, which would not end in a reader whose work doubles at each level. Says how many it asked, or the
// first that differs.
// Call: tests/desk/program samples
#include "beksanour.h"
#include "drawn.h"
#include "files.h"
#include <stdio.h>

enum { SIZE = 18 + 4 * 7 + 4 * MOST, POINT = 14 };

static unsigned long done, refused, without_rate;

static int64_t number_at(const uint8_t *x, uint32_t width, uint64_t i) {
    uint64_t u = 0;
    for (uint32_t b = 0; b < width; b++) u |= (uint64_t)x[i * width + b] << 8 * b;
    return (int64_t)(u << (64 - 8 * width)) >> (64 - 8 * width);
}

static int differs(const char *what, uint32_t width, size_t bytes, uint64_t place, bk_sample s) {
    printf("%s: width %u, %lu bytes, place %lu: %u (%lu, %lu) %ld\n", what, (unsigned)width, (unsigned long)bytes,
           (unsigned long)place, (unsigned)s.answer.number, (unsigned long)s.answer.first,
           (unsigned long)s.answer.second, (long)s.sample);
    return 1;
}

// The front of a file, opened with more room than it can need, beside each place of it.
static int compare(const uint8_t *file, size_t bytes, uint32_t width, uint32_t point) {
    static uint8_t out[SIZE * 4], work1[SIZE * 4], work2[SIZE * 4];
    bk_opened opened = bk_pyramid_open(file, bytes, width, point, out, sizeof out, work1, sizeof work1, work2, sizeof work2);
    bk_answer r = opened.answer;
    uint64_t count = r.number == 0 ? r.second : 0;
    uint32_t rate = r.number == 0 ? rate_in(file) : 0;
    if (opened.rate != rate) return differs("another rate", width, bytes, 0, (bk_sample){r, opened.rate});
    without_rate += r.number == BK_NO_RATE;
    const uint64_t past[] = {count, count + 1, UINT32_MAX, (uint64_t)UINT32_MAX + 1, UINT64_MAX};
    for (uint64_t i = 0; i < count + sizeof past / sizeof *past; i++) {
        uint64_t place = i < count ? i : past[i - count];
        bk_sample s = bk_pyramid_sample(file, bytes, width, point, place);
        bk_answer wanted = r;
        if (r.number == 0) wanted = i < count ? (bk_answer){0, 0, 0} : (bk_answer){BK_NO_SUCH_PLACE, place, count};
        if (!same(s.answer, wanted)) return differs("another answer", width, bytes, place, s);
        if (s.sample != (i < count ? number_at(out, width, i) : 0)) return differs("another sample", width, bytes, place, s);
        if (s.answer.number == 0) done++; else refused++;
    }
    return 0;
}

// A file cut everywhere, with a byte changed, asked for another width or point, and with a byte more.
static int compare_kind(uint8_t *file, size_t bytes, uint32_t width) {
    for (size_t cut = 0; cut <= bytes; cut++)
        if (compare(file, cut, width, POINT)) return 1;
    for (size_t place = 0; place < bytes; place++) {
        uint8_t was = file[place];
        file[place] = (uint8_t)(was + 1 + drawn() % 255);
        if (compare(file, bytes, width, POINT) || compare(file, bytes - drawn() % 8, width, POINT)) return 1;
        file[place] = was;
    }
    if (compare(file, bytes, width, POINT + 1) || compare(file, bytes, width ^ 3, POINT)) return 1;
    file[bytes] = 0;
    return compare(file, bytes + 1, width, POINT);
}

// A recording of n samples, of few or of all values, as a file of either kind, and as a new one whose rate is 0.
static int compare_file(uint32_t width, uint32_t n, uint32_t levels, int wild) {
    uint8_t x[4 * MOST], file[SIZE + 1], work1[4 * MOST], work2[4 * MOST];
    for (uint32_t i = 0; i < n * width; i++) x[i] = (uint8_t)(wild ? drawn() : drawn() % 2 * 255);
    if (write_file(width, x, (size_t)n * width, levels, POINT, any_rate(), file, SIZE, work1, work2).number) return 1;
    size_t bytes = (size_t)bk_pyramid_size(width, n, levels).first;
    if (compare_kind(file, bytes, width)) return 1;
    uint32_t rate = u32_at(file + 14);
    put_u32(file + 14, 0);
    if (compare(file, bytes, width, POINT) || compare(file, bytes - drawn() % 8, width, POINT)) return 1;
    put_u32(file + 14, rate);
    return compare_kind(file, make_old(file, bytes), width);
}

// The longest recording of 8 bits at its depth, 23 levels: its first and last places, and drawn ones, of a file of either kind.
static int compare_longest(void) {
    static uint8_t x[BK_MOST_SAMPLES], file[BK_MOST_SAMPLES + 114], work1[BK_MOST_SAMPLES], work2[BK_MOST_SAMPLES];
    for (size_t i = 0; i < sizeof x; i++) x[i] = (uint8_t)drawn();
    if (write_file(1, x, sizeof x, 23, POINT, any_rate(), file, sizeof file, work1, work2).number) return 1;
    for (size_t bytes = sizeof file;; bytes = make_old(file, bytes)) {
        for (int i = 0; i < 4000; i++) {
            uint64_t place = i < 10 ? (uint64_t)i : i < 20 ? sizeof x - 20 + (uint64_t)i : drawn() % sizeof x;
            bk_sample s = bk_pyramid_sample(file, bytes, 1, POINT, place);
            if (s.answer.number || s.sample != number_at(x, 1, place)) return differs("another sample", 1, bytes, place, s);
            done++;
        }
        if (u32_at(file) == OLD) return 0;
    }
}

int main(void) {
    seed = 11;
    for (uint32_t width = 1; width <= 4; width *= 2)
        for (uint32_t n = 3; n <= MOST; n++)
            for (uint32_t levels = 1; levels <= bk_cdf53_depth(n).first; levels++)
                for (int wild = 0; wild < 2; wild++)
                    if (compare_file(width, n, levels, wild)) return 1;
    if (compare_longest()) return 1;
    if (without_rate == 0) return differs("no file was refused for its rate", 0, 0, 0, (bk_sample){{0, 0, 0}, 0});
    printf("ok samples: %lu equal what opening gives, %lu refused as they must be\n", done, refused);
    return 0;
}
