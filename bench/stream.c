// A recording in pieces beside one call on the whole of it. Times bk_stream_piece_T of pieces of 4,096 samples, with
// bk_stream_finish_T at the end, and bk_cdf53_forward_T of the same random samples, and compares the bands that both leave. What is
// lent to a piece is the free end of the two bands, so that nothing is copied. Each side has samples and bands of its own, filled
// with other bytes before each round, and the sides go first in turn. Then an empty piece.
// Call: bench/calls stream
#include "calls.h"
#include <stdlib.h>
#include <string.h>

enum { PIECE = 4096, EMPTY = 100000, EMPTY_ROUNDS = 7 };

typedef bk_answer send_piece(uint8_t *state, const uint8_t *piece, size_t piece_bytes, uint8_t *a, uint8_t *d, size_t room);
typedef bk_answer send_end(uint8_t *state, uint8_t *a, uint8_t *d, size_t room);
typedef bk_answer whole(const uint8_t *x, size_t bytes, uint8_t *a, size_t a_bytes, uint8_t *d, size_t d_bytes);

// The calls of a width.
#define CALLS(T)                                                                                                               \
    TIMED(bk_answer, stream_piece_##T, uint8_t *, size_t, const uint8_t *, size_t, uint8_t *, size_t, uint8_t *, size_t);      \
    TIMED(bk_answer, stream_finish_##T, uint8_t *, size_t, uint8_t *, size_t, uint8_t *, size_t);                              \
    TIMED(bk_answer, cdf53_forward_##T, const uint8_t *, size_t, uint8_t *, size_t, uint8_t *, size_t);                        \
    static bk_answer piece_##T(uint8_t *state, const uint8_t *piece, size_t bytes, uint8_t *a, uint8_t *d, size_t room) {      \
        return CALL(bk_answer, stream_piece_##T, state, BK_STREAM_BYTES, piece, bytes, a, room, d, room);                      \
    }                                                                                                                          \
    static bk_answer end_##T(uint8_t *state, uint8_t *a, uint8_t *d, size_t room) {                                            \
        return CALL(bk_answer, stream_finish_##T, state, BK_STREAM_BYTES, a, room, d, room);                                   \
    }                                                                                                                          \
    static bk_answer whole_##T(const uint8_t *x, size_t bytes, uint8_t *a, size_t a_bytes, uint8_t *d, size_t d_bytes) {       \
        return CALL(bk_answer, cdf53_forward_##T, x, bytes, a, a_bytes, d, d_bytes);                                           \
    }

CALLS(i8)
CALLS(i16)
CALLS(i32)

static const struct kind {
    size_t width;
    send_piece *piece;
    send_end *end;
    whole *forward;
} kinds[] = {{1, piece_i8, end_i8, whole_i8}, {2, piece_i16, end_i16, whole_i16}, {4, piece_i32, end_i32, whole_i32}};

static void must(bk_answer r) {
    if (r.number) exit(2);
}

static void least(double *best, double from) {
    double took = now() - from;
    if (took < *best) *best = took;
}

// One side: its samples and its bands, of half as many each, and its best time.
typedef struct {
    uint8_t *x, *a, *d;
    double best;
} side;

static side new_side(size_t bytes) {
    side s = {malloc(bytes), malloc(bytes / 2), malloc(bytes / 2), 1e300};
    if (!s.x || !s.a || !s.d) exit(2);
    return s;
}

static void free_side(side *s) {
    free(s->x);
    free(s->a);
    free(s->d);
}

static void fill_bands(side *s, size_t bytes, int with) {
    memset(s->a, with, bytes / 2);
    memset(s->d, with, bytes / 2);
}

static void in_pieces(const struct kind *k, side *s, size_t n) {
    uint8_t state[BK_STREAM_BYTES] = {0};
    uint32_t refused = 0;
    size_t at = 0;
    double from = now();
    for (size_t t = 0; t < n; t += PIECE) {
        at = k->width * (size_t)bk_stream_written(t);
        refused |= k->piece(state, s->x + k->width * t, k->width * PIECE, s->a + at, s->d + at, k->width * PIECE / 2).number;
    }
    at = k->width * (size_t)bk_stream_written(n);
    refused |= k->end(state, s->a + at, s->d + at, k->width).number;
    least(&s->best, from);
    if (refused) exit(2);
}

static void in_one(const struct kind *k, side *s, size_t n) {
    size_t half = k->width * n / 2;
    double from = now();
    bk_answer r = k->forward(s->x, 2 * half, s->a, half, s->d, half);
    least(&s->best, from);
    must(r);
}

// The best of so many rounds, of n samples, a multiple of a piece. In odd rounds the call on the whole goes first, and its bands
// are filled first.
static void print_sides(const struct kind *k, size_t n, int rounds) {
    size_t bytes = k->width * n;
    side stream = new_side(bytes), one = new_side(bytes);
    for (size_t i = 0; i < bytes; i++) stream.x[i] = one.x[i] = (uint8_t)drawn();
    for (int round = 0; round < rounds; round++) {
        fill_bands(round % 2 ? &one : &stream, bytes, round);
        fill_bands(round % 2 ? &stream : &one, bytes, ~round);
        if (round % 2) in_one(k, &one, n);
        in_pieces(k, &stream, n);
        if (round % 2 == 0) in_one(k, &one, n);
        if (memcmp(stream.a, one.a, bytes / 2) || memcmp(stream.d, one.d, bytes / 2)) exit(101);
    }
    printf("| %lu | %lu | %.2f | %.2f | %.2f |\n", (unsigned long)(8 * k->width), (unsigned long)n, stream.best / (double)n,
           one.best / (double)n, stream.best / one.best);
    free_side(&stream);
    free_side(&one);
}

// An empty piece after five samples, in nanoseconds.
static double time_empty(const struct kind *k) {
    uint8_t state[BK_STREAM_BYTES] = {0}, x[5 * 4] = {0}, a[2 * 4], d[2 * 4];
    double best = 1e300;
    must(k->piece(state, x, k->width * 5, a, d, k->width * 2));
    for (int round = 0; round < EMPTY_ROUNDS; round++) {
        uint32_t refused = 0;
        double from = now();
        for (int i = 0; i < EMPTY; i++) refused |= k->piece(state, x, 0, a, d, 0).number;
        least(&best, from);
        if (refused) exit(2);
    }
    return best / EMPTY;
}

int main(void) {
    seed = 15;
    printf("| bits | samples | in pieces of 4,096, ns a sample | one call, ns a sample | in pieces / one call |\n");
    printf("|---|---|---|---|---|\n");
    for (const struct kind *k = kinds; k < kinds + 3; k++) {
        print_sides(k, 65536, 400);
        print_sides(k, 1048576, 50);
    }
    printf("\n| bits | an empty piece, ns |\n|---|---|\n");
    for (const struct kind *k = kinds; k < kinds + 3; k++) printf("| %lu | %.1f |\n", (unsigned long)(8 * k->width), time_empty(k));
    return 0;
}
