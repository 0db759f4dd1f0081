// Files of the most bytes, of both kinds, in every call that takes a file, and the calls that write one: a table of what each says. A
// file is 16,777,216 samples of 32 bits at 23 levels, by its section 0 and its counts alone; its samples are zeros, and no area is
// lent for them, so that opening says 7 (0, count) where it would be done. Says how many it asked, or the first that differs.
// Call: tests/desk/program limits
#include "beksanour.h"
#include "drawn.h"
#include "files.h"
#include <stdio.h>

enum { LEVELS = 23, POINT = 14, OLD_BYTES = 67108974, NEW_BYTES = 67108978 };
static const uint32_t N = 16777216;

typedef char most_is_new[BK_MOST_BYTES == NEW_BYTES ? 1 : -1];

// A file: the count and the rate of section 0, and how many bytes are lent. What opening says of it, looking section 1 up, adding
// it to an empty book, which has no room for a whole one, and asking why.
static const struct {
    uint32_t count, rate;
    size_t bytes;
    bk_answer open, section, add;
    bk_reason why;
} rows[] = {
    {OLD, 0, OLD_BYTES - 1, {7, 0, 8388608}, {0, 18, 8}, {10, OLD_BYTES - 1, 0}, {0, 24, OLD_BYTES - 1, 1, 0}},
    {OLD, 0, OLD_BYTES, {7, 0, 16777216}, {0, 18, 8}, {14, 0, 0}, {0, 0, 0, 0, 0}},
    {OLD, 0, OLD_BYTES + 1, {12, 1, 0}, {0, 18, 8}, {12, 1, 0}, {12, 24, OLD_BYTES, OLD_BYTES, OLD_BYTES + 1}},
    {OLD, 0, OLD_BYTES + 4, {12, 4, 0}, {0, 18, 8}, {12, 4, 0}, {12, 24, OLD_BYTES, OLD_BYTES, OLD_BYTES + 4}},
    {OLD, 0, OLD_BYTES + 5, {6, 0, 0}, {6, 0, 0}, {6, 0, 0}, {6, 0, 0, NEW_BYTES, OLD_BYTES + 5}},
    {NEW, 1000, OLD_BYTES, {7, 0, 8388608}, {0, 22, 8}, {10, OLD_BYTES, 0}, {0, 24, OLD_BYTES, 4, 0}},
    {NEW, 1000, NEW_BYTES - 1, {7, 0, 8388608}, {0, 22, 8}, {10, NEW_BYTES - 1, 0}, {0, 24, NEW_BYTES - 1, 1, 0}},
    {NEW, 1000, NEW_BYTES, {7, 0, 16777216}, {0, 22, 8}, {14, 0, 0}, {0, 0, 0, 0, 0}},
    {NEW, 1000, NEW_BYTES + 1, {6, 0, 0}, {6, 0, 0}, {6, 0, 0}, {6, 0, 0, NEW_BYTES, NEW_BYTES + 1}},
    {NEW, 0, NEW_BYTES, {18, 0, 0}, {18, 0, 0}, {18, 0, 0}, {18, 0, 14, 1, 0}},
    {NEW, 0, NEW_BYTES + 1, {6, 0, 0}, {6, 0, 0}, {6, 0, 0}, {6, 0, 0, NEW_BYTES, NEW_BYTES + 1}},
    {11, 0, NEW_BYTES, {9, 0, 11}, {9, 0, 11}, {9, 0, 11}, {9, 0, 0, 14, 11}},
    {11, 0, NEW_BYTES + 1, {6, 0, 0}, {6, 0, 0}, {6, 0, 0}, {6, 0, 0, NEW_BYTES, NEW_BYTES + 1}},
};

// Writing 16,777,216 samples of 8 bits and one more, with no area lent: the samples, the rate, and what is said.
static const struct {
    uint32_t n, rate;
    bk_answer said;
} writes[] = {
    {16777216, 0, {18, 0, 0}},
    {16777216, 1, {7, 0, 16777216 + 18 + 4 * (LEVELS + 1)}},
    {16777217, 0, {18, 0, 0}},
    {16777217, 1, {6, 0, 0}},
};

static uint8_t file[NEW_BYTES + 2], none[1];
static unsigned long asked;

static int differs(const char *what, size_t row, bk_answer r, bk_answer wanted) {
    asked++;
    if (same(r, wanted)) return 0;
    printf("%s, row %lu: %u (%lu, %lu), wanted %u (%lu, %lu)\n", what, (unsigned long)row, (unsigned)r.number,
           (unsigned long)r.first, (unsigned long)r.second, (unsigned)wanted.number, (unsigned long)wanted.first,
           (unsigned long)wanted.second);
    return 1;
}

// Puts section 0 and the counts of either kind at the front of `file`; of any other count as if the kind were new.
static void make_file(uint32_t count, uint32_t rate) {
    size_t at = count == OLD ? 14 : 18;
    for (size_t i = 0; i < sizeof file; i++) file[i] = 0;
    put_u32(file, count);
    file[4] = 4;
    file[5] = LEVELS;
    put_u32(file + 6, N);
    put_u32(file + 10, POINT);
    if (count != OLD) put_u32(file + 14, rate);
    for (uint32_t section = 1; section <= LEVELS + 1; section++) {
        uint32_t samples = section == 1 ? 2 : (uint32_t)1 << (section - 1); // of 2^24 every level has half as many
        put_u32(file + at, samples);
        at += 4 + (size_t)4 * samples;
    }
}

static int reason_differs(size_t i, bk_reason r, bk_reason wanted) {
    return differs("why", i, (bk_answer){(uint32_t)r.number, r.section, r.place},
                   (bk_answer){(uint32_t)wanted.number, wanted.section, wanted.place}) ||
           differs("what is wanted and found", i, (bk_answer){0, r.wanted, r.found}, (bk_answer){0, wanted.wanted, wanted.found});
}

static int row_differs(size_t i) {
    static uint8_t area[BK_BOOK_EMPTY + 1000];
    const bk_answer done = {0, 0, 0}, open = rows[i].open, past = {BK_NO_SUCH_PLACE, N, open.second};
    size_t bytes = rows[i].bytes;
    int has_head = open.number != BK_TOO_LONG && open.number != BK_BAD_COUNT;
    make_file(rows[i].count, rows[i].rate);
    bk_opened opened = bk_pyramid_open(file, bytes, 4, POINT, none, 0, none, 0, none, 0);
    bk_sample sample = bk_pyramid_sample(file, bytes, 4, POINT, N);
    bk_head head = bk_pyramid_head(file, bytes);
    return differs("open", i, opened.answer, open) || differs("the rate of a refusal", i, (bk_answer){0, opened.rate, 0}, done) ||
           differs("sample", i, sample.answer, open.number == BK_NO_ROOM ? past : open) ||
           differs("section", i, bk_pyramid_section(file, bytes, 4, POINT, 1), rows[i].section) ||
           differs("head", i, head.answer, has_head ? done : open) ||
           differs("the rate of a head", i, (bk_answer){0, head.rate, 0}, (bk_answer){0, has_head ? rows[i].rate : 0, 0}) ||
           reason_differs(i, bk_pyramid_why(file, bytes, 4, POINT), rows[i].why) ||
           differs("fresh", i, bk_book_fresh(area, sizeof area), done) ||
           differs("add", i, bk_book_add(area, sizeof area, file, bytes, POINT), rows[i].add);
}

static int write_differs(size_t i) {
    uint32_t n = writes[i].n, rate = writes[i].rate;
    return differs("write", i, bk_pyramid_write_i8(file, n, LEVELS, POINT, rate, none, 0, none, 0, none, 0), writes[i].said);
}

int main(void) {
    for (size_t i = 0; i < sizeof rows / sizeof *rows; i++)
        if (row_differs(i)) return 1;
    for (size_t i = 0; i < sizeof writes / sizeof *writes; i++)
        if (write_differs(i)) return 1;
    if (differs("size", 0, bk_pyramid_size(4, N, LEVELS), (bk_answer){0, NEW_BYTES, 0})) return 1;
    printf("ok limits: %lu answers about files of the most bytes\n", asked);
    return 0;
}
