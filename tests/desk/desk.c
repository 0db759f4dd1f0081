// A server over the exported functions: answers request lines on stdin, one line each on stdout.
// Call: tests/desk/build once, then tests/desk/run <requests
//
// A request is `NAME arg arg ..`, one space between. A number is decimal; a slice is `x` and its bytes
// in lowercase hex, for a lent slice those it has before the call. The answer is `number first second`,
// then for pyramid_head its five fields, for pyramid_open the rate, for pyramid_sample the sample, then
// ` x..` for each lent slice after the call, in order; of pyramid_why its five numbers. Else one of
//   unknown NAME     no such function
//   malformed NAME   the arguments are not of the function's shape
//   broken NAME      the call wrote beside a slice, or into one that it may only read
// An empty line, or one that starts with #, is passed over.

#include "beksanour.h"

// What is used of the C library; the kit's clang has no headers.
void *malloc(size_t n);
void *realloc(void *p, size_t n);
void free(void *p);
void *memchr(const void *p, int c, size_t n);
int memcmp(const void *p, const void *q, size_t n);
void *memmove(void *to, const void *from, size_t n);
size_t strlen(const char *s);
long read(int from, void *p, size_t n);
long write(int to, const void *p, size_t n);
void exit(int status);

// ---- the functions

enum { MOST_ARGS = 7, GUARD = 64 };

// A word of the request, and what it says: a number, or the place and length of a slice.
struct arg {
    const char *word;
    size_t length;
    uint64_t number;
    uint8_t *bytes;
    size_t count;
};

typedef void (*function)(void);

// A shape is a letter for each parameter, and how a function of that shape is called.
//   n  a u64     w  a u32     r  a slice that is read     m  a lent slice
struct shape {
    const char *kinds;
    bk_answer (*call)(function f, const struct arg *a);
};

static bk_answer call_n(function f, const struct arg *a) {
    return ((bk_answer(*)(uint64_t))f)(a[0].number);
}

static bk_answer call_rmm(function f, const struct arg *a) {
    return ((bk_answer(*)(const uint8_t *, size_t, uint8_t *, size_t, uint8_t *, size_t))f)(
        a[0].bytes, a[0].count, a[1].bytes, a[1].count, a[2].bytes, a[2].count);
}

static bk_answer call_rrm(function f, const struct arg *a) {
    return ((bk_answer(*)(const uint8_t *, size_t, const uint8_t *, size_t, uint8_t *, size_t))f)(
        a[0].bytes, a[0].count, a[1].bytes, a[1].count, a[2].bytes, a[2].count);
}

static bk_answer call_rwmmm(function f, const struct arg *a) {
    return ((bk_answer(*)(const uint8_t *, size_t, uint32_t, uint8_t *, size_t, uint8_t *, size_t, uint8_t *, size_t))f)(
        a[0].bytes, a[0].count, (uint32_t)a[1].number, a[2].bytes, a[2].count, a[3].bytes, a[3].count, a[4].bytes,
        a[4].count);
}

static bk_answer call_rrrmmm(function f, const struct arg *a) {
    return ((bk_answer(*)(const uint8_t *, size_t, const uint8_t *, size_t, const uint8_t *, size_t, uint8_t *, size_t,
                          uint8_t *, size_t, uint8_t *, size_t))f)(
        a[0].bytes, a[0].count, a[1].bytes, a[1].count, a[2].bytes, a[2].count, a[3].bytes, a[3].count, a[4].bytes,
        a[4].count, a[5].bytes, a[5].count);
}

static bk_answer call_rwmmmm(function f, const struct arg *a) {
    return ((bk_answer(*)(const uint8_t *, size_t, uint32_t, uint8_t *, size_t, uint8_t *, size_t, uint8_t *, size_t,
                          uint8_t *, size_t))f)(
        a[0].bytes, a[0].count, (uint32_t)a[1].number, a[2].bytes, a[2].count, a[3].bytes, a[3].count, a[4].bytes,
        a[4].count, a[5].bytes, a[5].count);
}

static bk_answer call_rwwwmmm(function f, const struct arg *a) {
    return ((bk_answer(*)(const uint8_t *, size_t, uint32_t, uint32_t, uint32_t, uint8_t *, size_t, uint8_t *, size_t,
                          uint8_t *, size_t))f)(
        a[0].bytes, a[0].count, (uint32_t)a[1].number, (uint32_t)a[2].number, (uint32_t)a[3].number, a[4].bytes,
        a[4].count, a[5].bytes, a[5].count, a[6].bytes, a[6].count);
}

static bk_answer call_rwww(function f, const struct arg *a) {
    return ((bk_answer(*)(const uint8_t *, size_t, uint32_t, uint32_t, uint32_t))f)(
        a[0].bytes, a[0].count, (uint32_t)a[1].number, (uint32_t)a[2].number, (uint32_t)a[3].number);
}

static bk_answer call_nwn(function f, const struct arg *a) {
    return ((bk_answer(*)(uint64_t, uint32_t, uint64_t))f)(a[0].number, (uint32_t)a[1].number, a[2].number);
}

static bk_answer call_rrwnn(function f, const struct arg *a) {
    return ((bk_answer(*)(const uint8_t *, size_t, const uint8_t *, size_t, uint32_t, uint64_t, uint64_t))f)(
        a[0].bytes, a[0].count, a[1].bytes, a[1].count, (uint32_t)a[2].number, a[3].number, a[4].number);
}

static bk_answer call_wnw(function f, const struct arg *a) {
    return ((bk_answer(*)(uint32_t, uint64_t, uint32_t))f)((uint32_t)a[0].number, a[1].number, (uint32_t)a[2].number);
}

static bk_answer call_m(function f, const struct arg *a) {
    return ((bk_answer(*)(uint8_t *, size_t))f)(a[0].bytes, a[0].count);
}

static bk_answer call_mmm(function f, const struct arg *a) {
    return ((bk_answer(*)(uint8_t *, size_t, uint8_t *, size_t, uint8_t *, size_t))f)(
        a[0].bytes, a[0].count, a[1].bytes, a[1].count, a[2].bytes, a[2].count);
}

static bk_answer call_mrmm(function f, const struct arg *a) {
    return ((bk_answer(*)(uint8_t *, size_t, const uint8_t *, size_t, uint8_t *, size_t, uint8_t *, size_t))f)(
        a[0].bytes, a[0].count, a[1].bytes, a[1].count, a[2].bytes, a[2].count, a[3].bytes, a[3].count);
}

static bk_answer call_mrw(function f, const struct arg *a) {
    return ((bk_answer(*)(uint8_t *, size_t, const uint8_t *, size_t, uint32_t))f)(a[0].bytes, a[0].count, a[1].bytes,
                                                                                   a[1].count, (uint32_t)a[2].number);
}

static bk_answer call_mw(function f, const struct arg *a) {
    return ((bk_answer(*)(uint8_t *, size_t, uint32_t))f)(a[0].bytes, a[0].count, (uint32_t)a[1].number);
}

static bk_answer call_rw(function f, const struct arg *a) {
    return ((bk_answer(*)(const uint8_t *, size_t, uint32_t))f)(a[0].bytes, a[0].count, (uint32_t)a[1].number);
}

static bk_answer call_area(function f, const struct arg *a) {
    return ((bk_answer(*)(const uint8_t *, size_t))f)(a[0].bytes, a[0].count);
}

// What the last call returned beside its answer.
static int64_t fields[5];
static size_t fields_used;

static bk_answer call_r(function f, const struct arg *a) {
    bk_head h = ((bk_head(*)(const uint8_t *, size_t))f)(a[0].bytes, a[0].count);
    fields[0] = h.width;
    fields[1] = h.levels;
    fields[2] = h.samples;
    fields[3] = h.point;
    fields[4] = h.rate;
    fields_used = 5;
    return h.answer;
}

static bk_answer call_rwwmmm(function f, const struct arg *a) {
    bk_opened o = ((bk_opened(*)(const uint8_t *, size_t, uint32_t, uint32_t, uint8_t *, size_t, uint8_t *, size_t,
                                 uint8_t *, size_t))f)(
        a[0].bytes, a[0].count, (uint32_t)a[1].number, (uint32_t)a[2].number, a[3].bytes, a[3].count, a[4].bytes,
        a[4].count, a[5].bytes, a[5].count);
    fields[0] = o.rate;
    fields_used = 1;
    return o.answer;
}

static bk_answer call_rwwn(function f, const struct arg *a) {
    bk_sample s = ((bk_sample(*)(const uint8_t *, size_t, uint32_t, uint32_t, uint64_t))f)(
        a[0].bytes, a[0].count, (uint32_t)a[1].number, (uint32_t)a[2].number, a[3].number);
    fields[0] = s.sample;
    fields_used = 1;
    return s.answer;
}

// Its number as 32 bits: tests/desk/why.c looks at all 64.
static bk_answer call_rww(function f, const struct arg *a) {
    bk_reason r = ((bk_reason(*)(const uint8_t *, size_t, uint32_t, uint32_t))f)(
        a[0].bytes, a[0].count, (uint32_t)a[1].number, (uint32_t)a[2].number);
    fields[0] = (int64_t)r.wanted;
    fields[1] = (int64_t)r.found;
    fields_used = 2;
    return (bk_answer){(uint32_t)r.number, r.section, r.place};
}

static const struct shape shape_n = {"n", call_n};
static const struct shape shape_rmm = {"rmm", call_rmm};
static const struct shape shape_rrm = {"rrm", call_rrm};
static const struct shape shape_rwmmm = {"rwmmm", call_rwmmm};
static const struct shape shape_rwmmmm = {"rwmmmm", call_rwmmmm};
static const struct shape shape_rwwwmmm = {"rwwwmmm", call_rwwwmmm};
static const struct shape shape_rwwmmm = {"rwwmmm", call_rwwmmm};
static const struct shape shape_rrrmmm = {"rrrmmm", call_rrrmmm};
static const struct shape shape_rwww = {"rwww", call_rwww};
static const struct shape shape_nwn = {"nwn", call_nwn};
static const struct shape shape_rrwnn = {"rrwnn", call_rrwnn};
static const struct shape shape_wnw = {"wnw", call_wnw};
static const struct shape shape_m = {"m", call_m};
static const struct shape shape_mmm = {"mmm", call_mmm};
static const struct shape shape_mrmm = {"mrmm", call_mrmm};
static const struct shape shape_mrw = {"mrw", call_mrw};
static const struct shape shape_mw = {"mw", call_mw};
static const struct shape shape_rw = {"rw", call_rw};
static const struct shape shape_area = {"r", call_area};
static const struct shape shape_r = {"r", call_r};
static const struct shape shape_rwwn = {"rwwn", call_rwwn};
static const struct shape shape_rww = {"rww", call_rww};

static const struct row {
    const char *name;
    const struct shape *shape;
    function call;
} rows[] = {
    {"cdf53_depth", &shape_n, (function)bk_cdf53_depth},
    {"cdf97_depth", &shape_n, (function)bk_cdf97_depth},
    {"cdf53_forward_i8", &shape_rmm, (function)bk_cdf53_forward_i8},
    {"cdf53_forward_i16", &shape_rmm, (function)bk_cdf53_forward_i16},
    {"cdf53_forward_i32", &shape_rmm, (function)bk_cdf53_forward_i32},
    {"cdf53_inverse_i8", &shape_rrm, (function)bk_cdf53_inverse_i8},
    {"cdf53_inverse_i16", &shape_rrm, (function)bk_cdf53_inverse_i16},
    {"cdf53_inverse_i32", &shape_rrm, (function)bk_cdf53_inverse_i32},
    {"cdf53_forward_f32", &shape_rmm, (function)bk_cdf53_forward_f32},
    {"cdf53_forward_f64", &shape_rmm, (function)bk_cdf53_forward_f64},
    {"cdf53_inverse_f32", &shape_rrm, (function)bk_cdf53_inverse_f32},
    {"cdf53_inverse_f64", &shape_rrm, (function)bk_cdf53_inverse_f64},
    {"cdf97_forward_f32", &shape_rmm, (function)bk_cdf97_forward_f32},
    {"cdf97_forward_f64", &shape_rmm, (function)bk_cdf97_forward_f64},
    {"cdf97_inverse_f32", &shape_rrm, (function)bk_cdf97_inverse_f32},
    {"cdf97_inverse_f64", &shape_rrm, (function)bk_cdf97_inverse_f64},
    {"cdf53_multi_dwt_i8", &shape_rwmmm, (function)bk_cdf53_multi_dwt_i8},
    {"cdf53_multi_dwt_i16", &shape_rwmmm, (function)bk_cdf53_multi_dwt_i16},
    {"cdf53_multi_dwt_i32", &shape_rwmmm, (function)bk_cdf53_multi_dwt_i32},
    {"cdf53_multi_dwt_f32", &shape_rwmmm, (function)bk_cdf53_multi_dwt_f32},
    {"cdf53_multi_dwt_f64", &shape_rwmmm, (function)bk_cdf53_multi_dwt_f64},
    {"cdf97_multi_dwt_f32", &shape_rwmmm, (function)bk_cdf97_multi_dwt_f32},
    {"cdf97_multi_dwt_f64", &shape_rwmmm, (function)bk_cdf97_multi_dwt_f64},
    {"cdf53_multi_idwt_i8", &shape_rrrmmm, (function)bk_cdf53_multi_idwt_i8},
    {"cdf53_multi_idwt_i16", &shape_rrrmmm, (function)bk_cdf53_multi_idwt_i16},
    {"cdf53_multi_idwt_i32", &shape_rrrmmm, (function)bk_cdf53_multi_idwt_i32},
    {"cdf53_multi_idwt_f32", &shape_rrrmmm, (function)bk_cdf53_multi_idwt_f32},
    {"cdf53_multi_idwt_f64", &shape_rrrmmm, (function)bk_cdf53_multi_idwt_f64},
    {"cdf97_multi_idwt_f32", &shape_rrrmmm, (function)bk_cdf97_multi_idwt_f32},
    {"cdf97_multi_idwt_f64", &shape_rrrmmm, (function)bk_cdf97_multi_idwt_f64},
    {"cdf53_dwt_i8", &shape_rwmmmm, (function)bk_cdf53_dwt_i8},
    {"cdf53_dwt_i16", &shape_rwmmmm, (function)bk_cdf53_dwt_i16},
    {"cdf53_dwt_i32", &shape_rwmmmm, (function)bk_cdf53_dwt_i32},
    {"cdf53_dwt_f32", &shape_rwmmmm, (function)bk_cdf53_dwt_f32},
    {"cdf53_dwt_f64", &shape_rwmmmm, (function)bk_cdf53_dwt_f64},
    {"cdf97_dwt_f32", &shape_rwmmmm, (function)bk_cdf97_dwt_f32},
    {"cdf97_dwt_f64", &shape_rwmmmm, (function)bk_cdf97_dwt_f64},
    {"stream_piece_i8", &shape_mrmm, (function)bk_stream_piece_i8},
    {"stream_piece_i16", &shape_mrmm, (function)bk_stream_piece_i16},
    {"stream_piece_i32", &shape_mrmm, (function)bk_stream_piece_i32},
    {"stream_finish_i8", &shape_mmm, (function)bk_stream_finish_i8},
    {"stream_finish_i16", &shape_mmm, (function)bk_stream_finish_i16},
    {"stream_finish_i32", &shape_mmm, (function)bk_stream_finish_i32},
    {"pyramid_write_i8", &shape_rwwwmmm, (function)bk_pyramid_write_i8},
    {"pyramid_write_i16", &shape_rwwwmmm, (function)bk_pyramid_write_i16},
    {"pyramid_write_i32", &shape_rwwwmmm, (function)bk_pyramid_write_i32},
    {"pyramid_size", &shape_wnw, (function)bk_pyramid_size},
    {"pyramid_head", &shape_r, (function)bk_pyramid_head},
    {"pyramid_why", &shape_rww, (function)bk_pyramid_why},
    {"pyramid_open", &shape_rwwmmm, (function)bk_pyramid_open},
    {"pyramid_sample", &shape_rwwn, (function)bk_pyramid_sample},
    {"pyramid_section", &shape_rwww, (function)bk_pyramid_section},
    {"book_fresh", &shape_m, (function)bk_book_fresh},
    {"book_add", &shape_mrw, (function)bk_book_add},
    {"book_find", &shape_rw, (function)bk_book_find},
    {"book_withdraw", &shape_mw, (function)bk_book_withdraw},
    {"book_room", &shape_area, (function)bk_book_room},
    {"note_column", &shape_nwn, (function)bk_note_column},
    {"note_span", &shape_nwn, (function)bk_note_span},
    {"note_detail_span", &shape_nwn, (function)bk_note_detail_span},
    {"band_window_i8", &shape_rrwnn, (function)bk_band_window_i8},
    {"band_window_i16", &shape_rrwnn, (function)bk_band_window_i16},
    {"band_window_i32", &shape_rrwnn, (function)bk_band_window_i32},
    {"band_window_f32", &shape_rrwnn, (function)bk_band_window_f32},
    {"band_window_f64", &shape_rrwnn, (function)bk_band_window_f64},
};

// ---- writing

static char out[1 << 16];
static size_t out_used;

static void flush(void) {
    for (size_t done = 0; done < out_used;) {
        long more = write(1, out + done, out_used - done);
        if (more <= 0) exit(1);
        done += (size_t)more;
    }
    out_used = 0;
}

static void put(char c) {
    if (out_used == sizeof out) flush();
    out[out_used++] = c;
}

static void put_text(const char *s, size_t length) {
    for (size_t i = 0; i < length; i++) put(s[i]);
}

static void put_number(uint64_t v) {
    char digits[20];
    size_t i = sizeof digits;
    do digits[--i] = (char)('0' + v % 10);
    while (v /= 10);
    put_text(digits + i, sizeof digits - i);
}

static void put_slice(const uint8_t *p, size_t count) {
    put('x');
    for (size_t i = 0; i < count; i++) {
        put("0123456789abcdef"[p[i] >> 4]);
        put("0123456789abcdef"[p[i] & 15]);
    }
}

static void put_saying(const char *what, const char *name, size_t length) {
    put_text(what, strlen(what));
    put(' ');
    put_text(name, length);
    put('\n');
}

// ---- reading an argument

static int parse_number(struct arg *a, uint64_t limit) {
    a->number = 0;
    for (size_t i = 0; i < a->length; i++) {
        unsigned digit = (unsigned)a->word[i] - '0';
        if (digit > 9 || a->number > (limit - digit) / 10) return 0;
        a->number = a->number * 10 + digit;
    }
    return a->length > 0;
}

static int nibble(char c) {
    return c >= '0' && c <= '9' ? c - '0' : c >= 'a' && c <= 'f' ? c - 'a' + 10 : -1;
}

// The byte of the word's hex at a place, or -1.
static int hex_byte(const struct arg *a, size_t place) {
    int high = nibble(a->word[1 + 2 * place]), low = nibble(a->word[2 + 2 * place]);
    return high < 0 || low < 0 ? -1 : high * 16 + low;
}

static uint8_t guard_byte(size_t i) { return (uint8_t)(0xa5 + 29 * i); }

// Puts a slice between two guards. Empty slices have a place too.
static int parse_slice(struct arg *a) {
    if (a->length % 2 == 0 || a->word[0] != 'x') return 0;
    a->count = a->length / 2;
    uint8_t *area = malloc(a->count + 2 * GUARD);
    if (!area) exit(1);
    a->bytes = area + GUARD;
    for (size_t i = 0; i < GUARD; i++) area[i] = a->bytes[a->count + i] = guard_byte(i);
    for (size_t i = 0; i < a->count; i++) {
        int byte = hex_byte(a, i);
        if (byte < 0) return 0;
        a->bytes[i] = (uint8_t)byte;
    }
    return 1;
}

static int parse(char kind, struct arg *a) {
    switch (kind) {
    case 'n': return parse_number(a, UINT64_MAX);
    case 'w': return parse_number(a, UINT32_MAX);
    default: return parse_slice(a);
    }
}

// Both guards of a slice are as they were, and so are its bytes where it may only be read.
static int is_whole(char kind, const struct arg *a) {
    if (!a->bytes) return 1;
    for (size_t i = 0; i < GUARD; i++)
        if (a->bytes[i - GUARD] != guard_byte(i) || a->bytes[a->count + i] != guard_byte(i)) return 0;
    for (size_t i = 0; kind == 'r' && i < a->count; i++)
        if (a->bytes[i] != hex_byte(a, i)) return 0;
    return 1;
}

// ---- one request

// Calls the function on the words, of which there are as many as it has parameters.
static void call(const struct row *row, struct arg *args) {
    const char *kinds = row->shape->kinds;
    size_t count = strlen(kinds);
    for (size_t i = 0; i < count; i++)
        if (!parse(kinds[i], &args[i])) {
            put_saying("malformed", row->name, strlen(row->name));
            return;
        }
    fields_used = 0;
    bk_answer said = row->shape->call(row->call, args);
    for (size_t i = 0; i < count; i++)
        if (!is_whole(kinds[i], &args[i])) {
            put_saying("broken", row->name, strlen(row->name));
            return;
        }
    put_number(said.number);
    put(' ');
    put_number(said.first);
    put(' ');
    put_number(said.second);
    for (size_t i = 0; i < fields_used; i++) {
        put(' ');
        if (fields[i] < 0) put('-');
        put_number(fields[i] < 0 ? 0 - (uint64_t)fields[i] : (uint64_t)fields[i]);
    }
    for (size_t i = 0; i < count; i++)
        if (kinds[i] == 'm') {
            put(' ');
            put_slice(args[i].bytes, args[i].count);
        }
    put('\n');
}

static void answer(const char *line, size_t length) {
    if (length == 0 || line[0] == '#') return;
    // The name, and the words after it; one more than a function can have is enough to see too many.
    struct arg words[MOST_ARGS + 2] = {{0}};
    size_t count = 0;
    for (size_t at = 0; at <= length && count < MOST_ARGS + 2; count++) {
        const char *end = memchr(line + at, ' ', length - at);
        words[count].word = line + at;
        words[count].length = end ? (size_t)(end - (line + at)) : length - at;
        at += words[count].length + 1;
    }
    for (size_t i = 0; i < sizeof rows / sizeof rows[0]; i++)
        if (words[0].length == strlen(rows[i].name) && memcmp(words[0].word, rows[i].name, words[0].length) == 0) {
            if (count == 1 + strlen(rows[i].shape->kinds))
                call(&rows[i], words + 1);
            else
                put_saying("malformed", words[0].word, words[0].length);
            for (size_t k = 0; k < count; k++)
                if (words[k].bytes) free(words[k].bytes - GUARD);
            return;
        }
    put_saying("unknown", words[0].word, words[0].length);
}

// Reads lines of any length into a buffer that grows, and writes out before it waits for more.
int main(void) {
    size_t room = 1 << 16, used = 0;
    char *in = malloc(room);
    if (!in) return 1;
    for (;;) {
        flush();
        long more = read(0, in + used, room - used);
        if (more < 0) return 1;
        if (more == 0) break;
        // What stood before has no line end: only what came can have one.
        size_t start = 0, seen = used;
        used += (size_t)more;
        for (char *end; (end = memchr(in + seen, '\n', used - seen)); start = seen = (size_t)(end - in) + 1)
            answer(in + start, (size_t)(end - in) - start);
        memmove(in, in + start, used - start);
        used -= start;
        if (used == room && !(in = realloc(in, room *= 2))) return 1;
    }
    answer(in, used);
    flush();
    free(in);
    return 0;
}
