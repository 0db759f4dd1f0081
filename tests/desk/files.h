// Pyramid files of both kinds, for the programs that ask about them: a new one has a rate behind its point, an old one none. The
// library writes new ones alone. To be included after beksanour.h and drawn.h.
#include <stdio.h>
#include <stdlib.h>

enum { OLD = 10, NEW = 14 };         // the count of section 0
enum { MOST = 40, MOST_FILE = 256 }; // the samples and the bytes of a small file

static inline uint32_t u32_at(const uint8_t *p) { return p[0] | (uint32_t)p[1] << 8 | (uint32_t)p[2] << 16 | (uint32_t)p[3] << 24; }

static inline void put_u32(uint8_t *p, uint32_t v) {
    for (int i = 0; i < 4; i++) p[i] = (uint8_t)(v >> 8 * i);
}

static inline int same(bk_answer a, bk_answer b) { return a.number == b.number && a.first == b.first && a.second == b.second; }

// From 1 on, often with one byte alone that is not 0.
static inline uint32_t any_rate(void) { return drawn() % 4 ? (uint32_t)1 << drawn() % 32 : drawn() | 1; }

// What opening gives as the rate of a file that opens.
static inline uint32_t rate_in(const uint8_t *file) { return u32_at(file) == NEW ? u32_at(file + 14) : 0; }

// A new file of samples of so many bytes; the work areas are as long as these.
static inline bk_answer write_file(uint32_t width, const uint8_t *x, size_t bytes, uint32_t levels, uint32_t point, uint32_t rate,
                                   uint8_t *file, size_t room, uint8_t *work1, uint8_t *work2) {
    return width == 1   ? bk_pyramid_write_i8(x, bytes, levels, point, rate, file, room, work1, bytes, work2, bytes)
           : width == 2 ? bk_pyramid_write_i16(x, bytes, levels, point, rate, file, room, work1, bytes, work2, bytes)
                        : bk_pyramid_write_i32(x, bytes, levels, point, rate, file, room, work1, bytes, work2, bytes);
}

// Makes an old file of a new one: the same but for the rate and the count of section 0. How many bytes it has.
static inline size_t make_old(uint8_t *file, size_t bytes) {
    put_u32(file, OLD);
    for (size_t i = 14; i + 4 < bytes; i++) file[i] = file[i + 4];
    return bytes - 4;
}

static inline uint32_t any_width(void) { return (uint32_t)1 << drawn() % 3; }

static inline uint32_t any_kind(void) { return drawn() % 2 ? OLD : NEW; }

static inline int is_kind(uint32_t count) { return count == OLD || count == NEW; }

// Approximations of so many levels of n samples.
static inline uint64_t approximations(uint64_t n, uint32_t level) {
    while (level--) n -= n / 2;
    return n;
}

static inline uint32_t depth_of(uint64_t n) {
    uint32_t depth = 0;
    for (; n >= 3; n -= n / 2) depth++;
    return depth;
}

// What the count of a section must be, from section 1 on.
static inline uint64_t count_of(uint64_t n, uint32_t levels, uint32_t section) {
    return section == 1 ? approximations(n, levels) : approximations(n, levels + 1 - section) / 2;
}

// A small file, and behind it bytes that are none of it.
typedef struct {
    uint8_t bytes[MOST_FILE];
    size_t length;
    uint32_t point;
} pyramid;

static inline pyramid file_of(uint32_t kind, uint32_t width, uint32_t n, uint32_t levels, uint32_t point) {
    uint8_t x[4 * MOST], work1[4 * MOST], work2[4 * MOST];
    pyramid f = {{0}, (size_t)bk_pyramid_size(width, n, levels).first, point};
    size_t bytes = (size_t)n * width;
    for (size_t i = 0; i < bytes; i++) x[i] = (uint8_t)drawn();
    bk_answer r = write_file(width, x, bytes, levels, point, any_rate(), f.bytes, MOST_FILE, work1, work2);
    if (r.number) {
        printf("a file was not written: %u\n", (unsigned)r.number);
        exit(1);
    }
    if (kind == OLD) f.length = make_old(f.bytes, f.length);
    return f;
}

// Of at most so many samples.
static inline pyramid any_file(uint32_t most, uint32_t point) {
    uint32_t width = any_width(), n = between(3, most), levels = between(1, (uint32_t)bk_cdf53_depth(n).first);
    return file_of(any_kind(), width, n, levels, point);
}

// Makes a file by its head and its counts alone, as far as there is room; its samples are the bytes that stand there. How many bytes
// it has whole.
static inline size_t make_whole(uint8_t *file, size_t room, uint32_t kind, uint32_t width, uint32_t n, uint32_t levels,
                                uint32_t point) {
    size_t at = 4 + kind;
    put_u32(file, kind);
    file[4] = (uint8_t)width;
    file[5] = (uint8_t)levels;
    put_u32(file + 6, n);
    put_u32(file + 10, point);
    if (kind == NEW) put_u32(file + 14, 1000);
    for (uint32_t section = 1; section <= levels + 1; section++) {
        if (at + 4 <= room) put_u32(file + at, (uint32_t)count_of(n, levels, section));
        at += 4 + (size_t)(width * count_of(n, levels, section));
    }
    return at;
}
