// A recording in pieces beside a plain model: all samples that were sent, and one level of them, made anew after each piece by
// the lines of the header. After every call, but for those without the model, the answer and every byte of the state, of the piece
// and of the two areas are what the model says, and what is beside them is as it was. Every cut of recordings of up to 10 samples,
// with empty pieces between; pieces of longer ones, the longest of 66,000 samples; the bands, joined, beside those of one forward
// call. States taken as they stand, with any number of samples up to the limit, which must go on as a short recording does that
// leaves the same; each number of a state at its borders, drawn bytes and other lengths, beside the rule for a state that no calls
// could have left; every order of the refusals, and the same piece again. Without the model: lengths that 32 bits do not hold, the
// answers and the fronts of what is lent; and as many samples as there may be in one piece, beside one forward call. Says how many
// it asked, or the first that differs.
// Call: tests/desk/program stream
#include "beksanour.h"
#include "drawn.h"
#include "huge.h"
#include <stdio.h>
#include <stdlib.h>
#include <string.h>

enum { STATE = 16, LIMIT = 16777216, GUARD = 16, MOST = 66000, LONG = 6000, SMALL = 10, FRONT = 16, BLANK = 0x5a };

// The header's number is the one that this test writes out.
typedef char state_is_16[BK_STREAM_BYTES == STATE ? 1 : -1];

typedef bk_answer piece_call(uint8_t *, size_t, const uint8_t *, size_t, uint8_t *, size_t, uint8_t *, size_t);
typedef bk_answer finish_call(uint8_t *, size_t, uint8_t *, size_t, uint8_t *, size_t);
typedef bk_answer forward_call(const uint8_t *, size_t, uint8_t *, size_t, uint8_t *, size_t);

static const struct kind {
    uint32_t width;
    piece_call *piece;
    finish_call *finish;
    forward_call *forward;
} kinds[] = {
    {1, bk_stream_piece_i8, bk_stream_finish_i8, bk_cdf53_forward_i8},
    {2, bk_stream_piece_i16, bk_stream_finish_i16, bk_cdf53_forward_i16},
    {4, bk_stream_piece_i32, bk_stream_finish_i32, bk_cdf53_forward_i32},
};

// The calls at hand, and the width of their samples.
static const struct kind *calls;
static uint32_t width;

static unsigned long pieces[BK_BAD_COUNT + 1], ends[BK_BAD_COUNT + 1], recordings;

static uint32_t u32_at(const uint8_t *p) { return p[0] | (uint32_t)p[1] << 8 | (uint32_t)p[2] << 16 | (uint32_t)p[3] << 24; }

static void put_u32(uint8_t *p, uint32_t v) {
    for (int i = 0; i < 4; i++) p[i] = (uint8_t)(v >> 8 * i);
}

static bk_answer say(uint32_t number, uint64_t first, uint64_t second) { return (bk_answer){number, first, second}; }

// ---- numbers of a width

// The number that is stored for v: modulo two to the width in bits, signed.
static int64_t wrapped(int64_t v) {
    int64_t all = (int64_t)1 << 8 * width, rest = (v % all + all) % all;
    return rest < all / 2 ? rest : rest - all;
}

static int64_t floor_of(int64_t v, int64_t by) { return v >= 0 ? v / by : -((by - 1 - v) / by); }

static uint32_t word_of(int64_t v) { return (uint32_t)(v < 0 ? v + ((int64_t)1 << 8 * width) : v); }

static void put_sample(uint8_t *p, int64_t v) {
    for (uint32_t i = 0; i < width; i++) p[i] = (uint8_t)(word_of(v) >> 8 * i);
}

static int64_t sample_at(const uint8_t *p) {
    int64_t v = 0;
    for (uint32_t i = 0; i < width; i++) v += (int64_t)p[i] << 8 * i;
    return wrapped(v);
}

static int64_t any_number(void) { return wrapped((int64_t)drawn() << 16 ^ drawn()); }

// Numbers over the whole range, or its two ends, beside which all wrap, or small ones.
static int64_t any_sample(int how) {
    int64_t half = (int64_t)1 << (8 * width - 1);
    return how == 0 ? any_number() : how == 1 ? (drawn() % 2 ? half - 1 : -half) : (int64_t)between(0, 8) - 4;
}

// ---- what is lent

// A slice at any alignment between two guards, and what it must be after the call.
typedef struct {
    uint8_t room[4 * MOST + 2 * GUARD + 8], wanted[4 * MOST], *bytes;
    size_t length;
} slice;

static slice state, piece, approx, details;

static uint8_t guard_byte(int i) { return (uint8_t)(0xa5 + 29 * i); }

static void lend(slice *s, size_t length) {
    s->bytes = s->room + GUARD + drawn() % 8;
    s->length = length;
    for (int i = 0; i < GUARD; i++) s->bytes[i - GUARD] = s->bytes[length + (size_t)i] = guard_byte(i);
    for (size_t i = 0; i < length; i++) s->bytes[i] = s->wanted[i] = (uint8_t)drawn();
}

static void put_at(slice *s, size_t place, int64_t v) {
    put_sample(s->bytes + place * width, v);
    put_sample(s->wanted + place * width, v);
}

// ---- the model

static struct {
    int could_be;  // whether some calls could have left the state
    int whole;     // x has every sample that was sent; else x is a short recording that leaves the same state, but for its total
    uint32_t total;
    size_t count; // of x: the total, or as even as it
    int64_t x[MOST], low[MOST], high[MOST];
} model;

// The bands that were written, joined, of a recording whose samples are all known.
static uint8_t joined_low[4 * MOST], joined_high[4 * MOST];
static size_t lows, highs;

// "After t samples, t at least 1, floor((t-1)/2) of each band have been written in total, and none at t = 0."
static size_t written(size_t t) { return t == 0 ? 0 : (t - 1) / 2; }

// One level of x, of two samples or more.
static void transform(void) {
    size_t n = model.count, odds = n / 2;
    const int64_t *x = model.x;
    for (size_t i = 0; i < odds; i++)
        model.high[i] = wrapped(x[2 * i + 1] - floor_of(x[2 * i] + x[2 * i + 2 < n ? 2 * i + 2 : 2 * i], 2));
    for (size_t i = 0; odds > 0 && i < n - odds; i++) {
        int64_t left = model.high[i == 0 ? 0 : i - 1], right = model.high[i < odds ? i : odds - 1];
        model.low[i] = wrapped(x[2 * i] + floor_of(left + right + 2, 4));
    }
}

// The state that the samples leave.
static void lay_out(uint8_t *to) {
    size_t t = model.count, m = written(t);
    put_u32(to, model.total);
    put_u32(to + 4, t == 0 ? 0 : word_of(model.x[2 * m]));
    put_u32(to + 8, t == 0 || t % 2 == 1 ? 0 : word_of(model.x[2 * m + 1]));
    put_u32(to + 12, t < 3 ? 0 : word_of(model.high[m - 1]));
}

// A word where one is kept is below 256 to the width, else it is 0.
static int is_kept(int kept, uint32_t word) { return kept ? word <= word_of(-1) : word == 0; }

static int could_be(const uint8_t *s, size_t length) {
    if (length != STATE) return 0;
    uint32_t t = u32_at(s);
    return t <= LIMIT && is_kept(t > 0, u32_at(s + 4)) && is_kept(t > 0 && t % 2 == 0, u32_at(s + 8)) &&
           is_kept(t >= 3, u32_at(s + 12));
}

static void forget(void) {
    model.could_be = model.whole = 1;
    model.total = 0;
    model.count = lows = highs = 0;
}

// A recording begins, with 16 zeros.
static void begin(void) {
    lend(&state, STATE);
    memset(state.bytes, 0, STATE);
    memset(state.wanted, 0, STATE);
    forget();
}

// Makes the model a recording that leaves the state at hand: of as many samples up to 2, else of 3 or 4, of which the first is any
// and the second makes the detail.
static void load(void) {
    memcpy(state.wanted, state.bytes, state.length);
    forget();
    model.whole = 0;
    model.could_be = could_be(state.bytes, state.length);
    if (!model.could_be) return;
    int64_t even = wrapped(u32_at(state.bytes + 4)), odd = wrapped(u32_at(state.bytes + 8));
    int64_t detail = wrapped(u32_at(state.bytes + 12));
    model.total = u32_at(state.bytes);
    model.count = model.total < 3 ? model.total : model.total % 2 ? 3 : 4;
    if (model.count >= 3) {
        model.x[0] = any_number();
        model.x[1] = wrapped(detail + floor_of(model.x[0] + even, 2));
    }
    model.x[2 * written(model.count)] = even;
    model.x[2 * written(model.count) + 1] = odd;
}

static void lend_state(uint32_t t, uint32_t even, uint32_t odd, uint32_t detail) {
    lend(&state, STATE);
    put_u32(state.bytes, t);
    put_u32(state.bytes + 4, even);
    put_u32(state.bytes + 8, odd);
    put_u32(state.bytes + 12, detail);
    load();
}

// A state of t samples, at most the limit, that some calls leave.
static void lend_any_state(uint32_t t) {
    int how = (int)(drawn() % 3);
    uint32_t even = word_of(any_sample(how)), odd = word_of(any_sample(how)), detail = word_of(any_sample(how));
    lend_state(t, t > 0 ? even : 0, t > 0 && t % 2 == 0 ? odd : 0, t >= 3 ? detail : 0);
}

// ---- a call beside the model

// The samples before the call.
static uint32_t before;

static void failed(const char *what, bk_answer r, bk_answer wanted) {
    printf("%s: %u bits, a state of %lu bytes, %lu samples before, %lu bytes sent, areas of %lu and %lu bytes: ", what,
           (unsigned)(8 * width), (unsigned long)state.length, (unsigned long)before, (unsigned long)piece.length,
           (unsigned long)approx.length, (unsigned long)details.length);
    printf("%u (%lu, %lu), wanted %u (%lu, %lu)\n", (unsigned)r.number, (unsigned long)r.first, (unsigned long)r.second,
           (unsigned)wanted.number, (unsigned long)wanted.first, (unsigned long)wanted.second);
    exit(1);
}

static void compare_slice(const char *what, const char *which, const slice *s, bk_answer r) {
    for (size_t i = 0; i < s->length; i++)
        if (s->bytes[i] != s->wanted[i]) {
            printf("byte %lu of %s is %u, wanted %u, after ", (unsigned long)i, which, s->bytes[i], s->wanted[i]);
            failed(what, r, r);
        }
    for (int i = 0; i < GUARD; i++)
        if (s->bytes[i - GUARD] != guard_byte(i) || s->bytes[s->length + (size_t)i] != guard_byte(i)) {
            printf("written beside %s, after ", which);
            failed(what, r, r);
        }
}

// The answer is the one that was wanted, and so is every byte that was lent.
static void compare(const char *what, bk_answer r, bk_answer wanted) {
    if (r.number != wanted.number || r.first != wanted.first || r.second != wanted.second) failed(what, r, wanted);
    compare_slice(what, "the state", &state, r);
    compare_slice(what, "the piece", &piece, r);
    compare_slice(what, "the approximations", &approx, r);
    compare_slice(what, "the details", &details, r);
}

// What both calls say of lengths and of the state.
static bk_answer of_slices(void) {
    if (piece.length % width) return say(BK_BAD_COUNT, 0, piece.length);
    if (approx.length % width) return say(BK_BAD_COUNT, 0, approx.length);
    if (details.length % width) return say(BK_BAD_COUNT, 0, details.length);
    return model.could_be ? say(BK_DONE, 0, 0) : say(BK_BAD_COUNT, 0, 0);
}

static bk_answer of_room(size_t need_low, size_t need_high) {
    if (approx.length / width < need_low) return say(BK_NO_ROOM, approx.length / width, need_low);
    if (details.length / width < need_high) return say(BK_NO_ROOM, details.length / width, need_high);
    return say(BK_DONE, 0, 0);
}

// What a piece of n samples writes of each band.
static size_t need_of(size_t n) { return written(model.total + n) - written(model.total); }

// Coefficients from one place of a band to another are wanted at the front of an area, and joined to what was written before.
static void want(slice *area, const int64_t *band, size_t from, size_t to, uint8_t *joined, size_t *count) {
    for (size_t i = from; i < to; i++) {
        put_sample(area->wanted + (i - from) * width, band[i]);
        if (model.whole) put_sample(joined + *count * width, band[i]);
        ++*count;
    }
}

// The piece at hand, with areas of so many bytes.
static void ask_piece(size_t approx_bytes, size_t details_bytes) {
    size_t n = piece.length / width, from = written(model.count);
    lend(&approx, approx_bytes);
    lend(&details, details_bytes);
    before = model.total;
    bk_answer wanted = of_slices();
    if (!wanted.number && model.total + n > LIMIT) wanted = say(BK_TOO_LONG, 0, 0);
    if (!wanted.number) wanted = of_room(need_of(n), need_of(n));
    if (!wanted.number) {
        for (size_t i = 0; i < n; i++) model.x[model.count++] = sample_at(piece.bytes + i * width);
        model.total += (uint32_t)n;
        transform();
        want(&approx, model.low, from, written(model.count), joined_low, &lows);
        want(&details, model.high, from, written(model.count), joined_high, &highs);
        lay_out(state.wanted);
    }
    bk_answer r = calls->piece(state.bytes, state.length, piece.bytes, piece.length, approx.bytes, approx_bytes, details.bytes,
                               details_bytes);
    compare("a piece", r, wanted);
    if (model.whole && (lows != bk_stream_written(model.total) || highs != lows)) failed("not as many as stated", r, wanted);
    pieces[r.number]++;
}

// The bands that were written, joined, are those of one call on all samples, and those of the model.
static void compare_bands(void) {
    static uint8_t x[4 * MOST], a[4 * MOST], d[4 * MOST];
    size_t n = model.count;
    for (size_t i = 0; i < n; i++) put_sample(x + i * width, model.x[i]);
    bk_answer r = calls->forward(x, n * width, a, (n - n / 2) * width, d, n / 2 * width);
    if (r.number || lows != n - n / 2 || highs != n / 2) failed("one call", r, say(BK_DONE, 0, 0));
    for (size_t i = 0; i < lows; i++)
        if (sample_at(a + i * width) != sample_at(joined_low + i * width) || sample_at(a + i * width) != model.low[i])
            failed("the approximations, joined", r, r);
    for (size_t i = 0; i < highs; i++)
        if (sample_at(d + i * width) != sample_at(joined_high + i * width) || sample_at(d + i * width) != model.high[i])
            failed("the details, joined", r, r);
    recordings++;
}

static void ask_finish(size_t approx_bytes, size_t details_bytes) {
    size_t from = written(model.count), even = model.total % 2 == 0;
    lend(&piece, 0);
    lend(&approx, approx_bytes);
    lend(&details, details_bytes);
    before = model.total;
    bk_answer wanted = of_slices();
    if (!wanted.number && model.total < 3) wanted = say(BK_MIN_FILTER_SIZE, model.total, 3);
    if (!wanted.number) wanted = of_room(1, even);
    if (!wanted.number) {
        transform();
        want(&approx, model.low, from, model.count - model.count / 2, joined_low, &lows);
        want(&details, model.high, from, model.count / 2, joined_high, &highs);
        memset(state.wanted, 0, STATE);
    }
    bk_answer r = calls->finish(state.bytes, state.length, approx.bytes, approx_bytes, details.bytes, details_bytes);
    compare("the end", r, wanted);
    ends[r.number]++;
    if (wanted.number) return;
    if (model.whole) compare_bands();
    forget();
}

// ---- recordings, cut

// Sends so many samples; at times the piece is refused for room first, and sent again.
static void send(const int64_t *x, size_t n) {
    size_t need = need_of(n), more = drawn() % 3 ? 0 : between(1, 5), beside = drawn() % 3 ? 0 : between(1, 5);
    lend(&piece, n * width);
    for (size_t i = 0; i < n; i++) put_at(&piece, i, x[i]);
    if (need > 0 && drawn() % 4 == 0) {
        ask_piece(0, 0);
        ask_piece((need - 1) * width, (need + more) * width);
        ask_piece((need + more) * width, (need - 1) * width);
        ask_piece((need + more) * width, 0);
    }
    ask_piece((need + more) * width, (need + beside) * width);
}

static void send_nothing(void) {
    while (drawn() % 3 == 0) send(NULL, 0);
}

// The end; at times it is refused for room first. A recording that is too short is given up.
static void end(void) {
    size_t even = model.total % 2 == 0, more = drawn() % 3 ? 0 : between(1, 5);
    if (drawn() % 4 == 0) {
        ask_finish(0, 0);
        ask_finish(0, more * width);
        if (even) ask_finish((1 + more) * width, 0);
    }
    if (model.total > 0) ask_finish((1 + more) * width, (even + more / 2) * width);
    if (model.total > 0 || drawn() % 2) begin();
    ask_finish(width, width);
}

// A recording of n samples, cut after sample i + 1 where bit i is set: every way.
static void compare_cuts(size_t n, int how) {
    int64_t x[SMALL];
    for (size_t i = 0; i < n; i++) x[i] = any_sample(how);
    begin();
    for (uint32_t cuts = 0; cuts < (n < 2 ? 1u : 1u << (n - 1)); cuts++) {
        size_t from = 0;
        for (size_t i = 0; i < n; i++)
            if (i + 1 == n || cuts >> i & 1) {
                send_nothing();
                send(x + from, i + 1 - from);
                from = i + 1;
            }
        send_nothing();
        if (model.total != n || model.count != n) failed("not all was sent", say(0, 0, 0), say(0, 0, 0));
        end();
    }
}

// A longer one: a first piece of so many samples, then pieces of least to most.
static void compare_long(size_t n, size_t first, uint32_t least, uint32_t most, int how) {
    static int64_t x[MOST];
    for (size_t i = 0; i < n; i++) x[i] = any_sample(how);
    begin();
    send(x, first);
    while (model.count < n) {
        size_t left = n - model.count, next = between(least, most);
        send(x + model.count, next < left ? next : left);
    }
    end();
}

// ---- states as they stand

// A few pieces from any state that some calls leave, and the end.
static void compare_onward(uint32_t t) {
    int64_t x[24];
    int how = (int)(drawn() % 3);
    lend_any_state(t);
    for (int turn = 0; turn < 4; turn++) {
        size_t n = drawn() % 3 ? drawn() % 4 : drawn() % 24, left = LIMIT - model.total;
        for (size_t i = 0; i < n; i++) x[i] = any_sample(how);
        send(x, n < left ? n : left);
    }
    end();
}

// As many samples as a recording may have, and more: 6, and then what still fits, and the end.
static void compare_limit(uint32_t left, size_t n) {
    int64_t x[16];
    for (size_t i = 0; i < 16; i++) x[i] = any_number();
    lend_any_state(LIMIT - left);
    lend(&piece, n * width);
    for (size_t i = 0; i < n; i++) put_at(&piece, i, x[i]);
    ask_piece(0, 0);
    if (model.total == LIMIT - left) ask_piece(16 * width, 16 * width);
    if (model.total == LIMIT - left) send(x, left);
    if (n > 0 && n <= left && model.total != LIMIT - left + n) failed("what fits was not taken", say(0, 0, 0), say(0, 0, 0));
    send(x, 0);
    end();
}

// ---- refusals, in every order

// One call of each kind on the state at hand, which is put back, with lengths in bytes.
static void ask_both(size_t sent, size_t approx_bytes, size_t details_bytes) {
    uint8_t kept[2 * STATE + 2];
    size_t length = state.length;
    memcpy(kept, state.bytes, length);
    lend(&piece, sent);
    ask_piece(approx_bytes, details_bytes);
    lend(&state, length);
    memcpy(state.bytes, kept, length);
    load();
    ask_finish(approx_bytes, details_bytes);
    lend(&state, length);
    memcpy(state.bytes, kept, length);
    load();
}

// Lengths around what is needed, also such that are no whole number of samples, with the state at hand.
static void compare_lengths(void) {
    for (size_t sent = 0; sent <= 5 * width; sent++)
        for (size_t one = 0; one <= 3 * width; one++)
            for (size_t other = 0; other <= 3 * width; other++) ask_both(sent, one, other);
}

// States of few samples, at the limit, and such that no calls leave; each with every length.
static void compare_refused(void) {
    for (uint32_t t = 0; t <= 6; t++) {
        lend_any_state(t);
        compare_lengths();
    }
    for (uint32_t left = 0; left <= 4; left++) {
        lend_any_state(LIMIT - left);
        compare_lengths();
    }
    lend_state(0, 1, 0, 0);
    compare_lengths();
    lend_state(LIMIT + 1, 0, 0, 0);
    compare_lengths();
    lend(&state, STATE - 1);
    memset(state.bytes, 0, STATE - 1);
    load();
    compare_lengths();
}

// ---- damaged states

// Both calls, with room, without, and with areas of half a sample.
static void ask_damaged(void) {
    ask_both(3 * width, 3 * width, 3 * width);
    ask_both(2 * width, 0, 0);
    if (drawn() % 16 == 0) ask_both(width + 1, width, width);
    if (drawn() % 16 == 0) ask_both(0, 0, width + 1);
}

// Each number of a state at its borders, with each other.
static void compare_borders(void) {
    static const uint32_t totals[] = {0,   1,         2,     3,         4,         5,           6,         255,
                                      256, LIMIT - 1, LIMIT, LIMIT + 1, LIMIT + 2, 2147483648u, UINT32_MAX};
    static const uint32_t words[] = {0, 1, 127, 128, 255, 256, 65535, 65536, 2147483648u, UINT32_MAX};
    enum { TOTALS = sizeof totals / sizeof *totals, WORDS = sizeof words / sizeof *words };
    for (int t = 0; t < TOTALS; t++)
        for (int i = 0; i < WORDS * WORDS * WORDS; i++) {
            lend_state(totals[t], words[i % WORDS], words[i / WORDS % WORDS], words[i / WORDS / WORDS]);
            ask_damaged();
        }
}

// Drawn bytes, of which some are 0; and a state that some calls leave, with one bit changed.
static void compare_drawn(void) {
    lend(&state, STATE);
    for (int i = 0; i < STATE; i++)
        if (drawn() % 4 || i == 3) state.bytes[i] = 0;
    load();
    ask_damaged();
    lend(&state, STATE);
    load();
    ask_damaged();
    lend_any_state(drawn() % 2 ? drawn() % 8 : drawn() % (LIMIT + 1));
    state.bytes[drawn() % STATE] ^= (uint8_t)(1 << drawn() % 8);
    load();
    ask_damaged();
}

// A state that some calls leave, lent with every other length.
static void compare_state_lengths(uint32_t t) {
    for (size_t length = 0; length <= 2 * STATE + 1; length++) {
        uint8_t good[STATE];
        lend_any_state(t);
        memcpy(good, state.bytes, STATE);
        lend(&state, length);
        memset(state.bytes, 0, length);
        memcpy(state.bytes, good, length < STATE ? length : STATE);
        load();
        if (model.could_be != (length == STATE)) failed("a state of another length", say(0, 0, 0), say(0, 0, 0));
        ask_damaged();
        ask_both(0, 0, 0);
    }
}

// ---- slices of 4 GiB, and the most samples in one piece

static void compare_answer(const char *what, unsigned long *asked, bk_answer r, bk_answer wanted) {
    if (r.number != wanted.number || r.first != wanted.first || r.second != wanted.second) failed(what, r, wanted);
    asked[r.number]++;
}

static void compare_bytes(const char *what, const uint8_t *got, const uint8_t *wanted, size_t bytes) {
    if (memcmp(got, wanted, bytes)) failed(what, say(BK_DONE, 0, 0), say(BK_DONE, 0, 0));
}

// The front of an area has one number, and behind it what blank() left.
static void compare_front(const char *what, const uint8_t *area, int64_t v) {
    uint8_t wanted[FRONT];
    memset(wanted, BLANK, FRONT);
    put_sample(wanted, v);
    compare_bytes(what, area, wanted, FRONT);
}

static void blank(uint8_t *one, uint8_t *other) {
    memset(one, BLANK, FRONT);
    memset(other, BLANK, FRONT);
}

// Lengths that 32 bits do not hold. What is lent as long as that is read or written at its front alone.
static void compare_huge(uint8_t *huge) {
    static const int64_t x[] = {0, 3, -4, 1, 8};
    static const uint8_t zeros[STATE];
    static uint8_t small[FRONT], beside[FRONT];
    const size_t bytes = (size_t)1 << 32;
    const bk_answer done = say(BK_DONE, 0, 0), bad = say(BK_BAD_COUNT, 0, 0), ragged = say(BK_BAD_COUNT, 0, bytes + 1);
    uint8_t sent[5 * 4], at_4[STATE], now[STATE] = {0}, blanks[FRONT];
    memset(blanks, BLANK, FRONT);
    lend(&state, STATE);
    lend(&piece, 0);
    lend(&approx, 0);
    lend(&details, 0);
    for (size_t i = 0; i < 5; i++) put_sample(sent + i * width, x[i]);

    // Areas, of both calls: three samples and two more; then four, and the end.
    blank(huge, small);
    compare_answer("approximations of 4 GiB", pieces, calls->piece(now, STATE, sent, 3 * width, huge, bytes, small, width), done);
    compare_front("approximations of 4 GiB", huge, 3);
    compare_front("beside approximations of 4 GiB", small, 5);
    blank(huge, small);
    compare_answer("details of 4 GiB", pieces,
                   calls->piece(now, STATE, sent + 3 * width, 2 * width, small, width, huge, bytes), done);
    compare_front("details of 4 GiB", huge, -1);
    compare_front("beside details of 4 GiB", small, -3);
    if (u32_at(now) != 5) failed("areas of 4 GiB", say(0, 0, 0), say(0, 0, 0));
    memset(at_4, 0, STATE);
    compare_answer("four samples", pieces, calls->piece(at_4, STATE, sent, 4 * width, small, width, beside, width), done);
    memcpy(now, at_4, STATE);
    blank(huge, small);
    compare_answer("the last approximation, of 4 GiB", ends, calls->finish(now, STATE, huge, bytes, small, width), done);
    compare_front("the last approximation, of 4 GiB", huge, -1);
    compare_front("beside the last approximation, of 4 GiB", small, 5);
    compare_bytes("the state after an end", now, zeros, STATE);
    memcpy(now, at_4, STATE);
    blank(huge, small);
    compare_answer("the last detail, of 4 GiB", ends, calls->finish(now, STATE, small, width, huge, bytes), done);
    compare_front("the last detail, of 4 GiB", huge, 5);
    compare_front("beside the last detail, of 4 GiB", small, -1);
    compare_bytes("the state after an end", now, zeros, STATE);

    // A state whose first 16 bytes are a good one.
    memcpy(huge, at_4, STATE);
    memcpy(now, at_4, STATE);
    blank(small, beside);
    compare_answer("a state of 4 GiB", pieces, calls->piece(huge, bytes + STATE, sent, width, small, FRONT, beside, FRONT), bad);
    compare_answer("a state of 4 GiB, the end", ends, calls->finish(huge, bytes + STATE, small, FRONT, beside, FRONT), bad);

    // A piece, and what is no whole number of samples.
    compare_answer("a piece of 4 GiB", pieces, calls->piece(now, STATE, huge, bytes + 8, small, FRONT, beside, FRONT),
                   say(BK_TOO_LONG, 0, 0));
    if (width > 1) {
        compare_answer("a ragged piece", pieces, calls->piece(now, STATE, huge, bytes + 1, small, FRONT, beside, FRONT), ragged);
        compare_answer("a ragged area", pieces, calls->piece(now, STATE, sent, width, huge, bytes + 1, beside, FRONT), ragged);
        compare_answer("ragged details", pieces, calls->piece(now, STATE, sent, width, small, FRONT, huge, bytes + 1), ragged);
        compare_answer("a ragged area, the end", ends, calls->finish(now, STATE, huge, bytes + 1, beside, FRONT), ragged);
        compare_answer("ragged details, the end", ends, calls->finish(now, STATE, small, FRONT, huge, bytes + 1), ragged);
    }
    compare_bytes("the state after refusals of 4 GiB", now, at_4, STATE);
    compare_bytes("a slice after refusals of 4 GiB", huge, at_4, STATE);
    compare_bytes("approximations after refusals of 4 GiB", small, blanks, FRONT);
    compare_bytes("details after refusals of 4 GiB", beside, blanks, FRONT);
}

// One piece of n drawn samples, and the end, beside one forward call. Before it one more than the most, and the piece with less
// room than it needs.
static void compare_whole(uint8_t *huge, size_t n) {
    static const uint8_t zeros[STATE];
    static uint8_t none[1];
    const size_t fixed = written(n), lows_all = n - n / 2, highs_all = n / 2, bytes = (size_t)1 << 27;
    uint8_t *x = huge, *a = huge + bytes, *d = a + bytes, *one_a = d + bytes, *one_d = one_a + bytes, now[STATE] = {0};
    for (size_t i = 0; i < n * width; i += 4) put_u32(x + i, drawn() ^ drawn() << 16);
    for (size_t i = 0; i < FRONT; i++)
        a[lows_all * width + i] = d[highs_all * width + i] = one_a[lows_all * width + i] = one_d[highs_all * width + i] = BLANK;
    compare_answer("one more than the most", pieces,
                   calls->piece(now, STATE, x, ((size_t)LIMIT + 1) * width, none, 0, none, 0), say(BK_TOO_LONG, 0, 0));
    compare_answer("no room for a long piece", pieces, calls->piece(now, STATE, x, n * width, none, 0, none, 0),
                   say(BK_NO_ROOM, 0, fixed));
    compare_answer("less room than a long piece needs", pieces,
                   calls->piece(now, STATE, x, n * width, a, fixed * width, d, (fixed - 1) * width),
                   say(BK_NO_ROOM, fixed - 1, fixed));
    compare_bytes("the state before a long piece", now, zeros, STATE);
    compare_answer("a long piece", pieces, calls->piece(now, STATE, x, n * width, a, fixed * width, d, fixed * width),
                   say(BK_DONE, 0, 0));
    if (u32_at(now) != n) failed("the samples of a long piece", say(0, u32_at(now), 0), say(0, n, 0));
    compare_answer("the end after it", ends,
                   calls->finish(now, STATE, a + fixed * width, width, d + fixed * width, (highs_all - fixed) * width),
                   say(BK_DONE, 0, 0));
    compare_bytes("the state after a long piece and the end", now, zeros, STATE);
    bk_answer r = calls->forward(x, n * width, one_a, lows_all * width, one_d, highs_all * width);
    if (r.number) failed("one call", r, say(BK_DONE, 0, 0));
    compare_bytes("the approximations of a long piece", a, one_a, lows_all * width + FRONT);
    compare_bytes("the details of a long piece", d, one_d, highs_all * width + FRONT);
    recordings++;
}

// What the header says of its own function, and that (n + 1) / 2 is always enough.
static void compare_written(void) {
    for (uint64_t t = 0; t <= 400; t++)
        for (uint64_t n = 0; n <= 100; n++) {
            uint64_t start = t < 200 ? t : LIMIT - 400 + t, need = bk_stream_written(start + n) - bk_stream_written(start);
            if (bk_stream_written(start) != written(start) || need > (n + 1) / 2)
                failed("as many as are written", say(0, need, n), say(0, 0, 0));
        }
}

int main(void) {
    static const uint32_t of_pieces[] = {BK_DONE, BK_TOO_LONG, BK_NO_ROOM, BK_BAD_COUNT};
    static const uint32_t of_ends[] = {BK_DONE, BK_MIN_FILTER_SIZE, BK_NO_ROOM, BK_BAD_COUNT};
    uint8_t *huge = huge_slice(((size_t)1 << 32) + STATE);
    unsigned long refused = 0;
    seed = 15;
    compare_written();
    for (calls = kinds; calls < kinds + 3; calls++) {
        width = calls->width;
        for (size_t n = 0; n <= SMALL; n++)
            for (int how = 0; how < 3; how++) compare_cuts(n, how);
        for (int how = 0; how < 3; how++) {
            compare_long(LONG - drawn() % 2, 0, 0, 600, how);
            compare_long(LONG - drawn() % 2, 0, 600, 3000, how);
            compare_long(between(300, 400), 0, 0, 3, how);
            for (int i = 0; i < 20; i++) compare_long(between(3, 200), 0, 0, 40, how);
            for (size_t first = 0; first < 5; first++) compare_long(LONG - drawn() % 2, first, LONG, LONG, how);
        }
        for (size_t first = 0; first < 4; first++) compare_long(MOST - drawn() % 2, first, MOST, MOST, 0);
        for (uint32_t t = 0; t <= 300; t++) compare_onward(t);
        for (int i = 0; i < 2000; i++) compare_onward(drawn() % (LIMIT + 1));
        for (uint32_t left = 0; left <= 9; left++)
            for (size_t n = 0; n <= 12; n++) compare_limit(left, n);
        compare_refused();
        compare_borders();
        for (int i = 0; i < 2000; i++) compare_drawn();
        for (uint32_t t = 0; t <= 6; t++) compare_state_lengths(t);
        compare_huge(huge);
        compare_whole(huge, width == 1 ? LIMIT : 1048577);
    }
    for (int i = 0; i < 4; i++) {
        if (pieces[of_pieces[i]] == 0 || ends[of_ends[i]] == 0) {
            printf("no piece answered %u, or no end %u\n", (unsigned)of_pieces[i], (unsigned)of_ends[i]);
            return 1;
        }
        refused += i > 0 ? pieces[of_pieces[i]] + ends[of_ends[i]] : 0;
    }
    printf("ok stream: %lu pieces and %lu ends done and %lu refused as a plain model says, %lu recordings with the bands of ",
           pieces[BK_DONE], ends[BK_DONE], refused, recordings);
    printf("one call\n");
    return 0;
}
