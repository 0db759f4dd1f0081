/*
 * Beksanour: the numeric core of the review desk.
 *
 * Changed in 0.10.0 under their old names, which no linker notices: bk_pyramid_write_i8, bk_pyramid_write_i16 and
 * bk_pyramid_write_i32 take one number more, the sampling rate, after the point; and bk_pyramid_open returns a bk_opened, the
 * answer and the rate, and no longer a bk_answer. Whatever calls one of them must be compiled again with this header. Code that was
 * compiled with one before 0.10.0 hands over its areas at wrong places, or has too little room for what is returned. It does not
 * start with the shared library, which has both numbers of the version in its name; with the static one it links. So does code that
 * was compiled with this header, where it does not call bk_pyramid_why, with a static library before 0.10.0: replace header and
 * library together. CHANGELOG.md has more, and how to ask a library which one it is. bk_pyramid_why is new in 0.11.0, and nothing
 * else changed then.
 *
 * Every call takes numbers and byte slices that the caller lends, each slice as a pointer and its length in bytes. It keeps nothing
 * between calls, no pointer either, needs no heap, may be called from any thread, and ends for every input with an answer: done, or
 * one refusal; bk_pyramid_why, which refuses nothing, with a reason. A refusal changes no lent byte. The slices of one call must
 * not overlap where one of them is written. An empty slice still has a pointer that is not null. Samples are little-endian and need
 * no alignment: on a little-endian machine an array `int16_t x[n]` is lent as `(const uint8_t *)x, sizeof x`.
 *
 * `install.sh PREFIX` installs this header, the library and beksanour.pc, for x86-64 Linux. Then, with PREFIX/lib/pkgconfig in
 * PKG_CONFIG_PATH, `cc examples/desk.c $(pkg-config --cflags --libs beksanour)` links the shared library, which a program finds
 * with PREFIX/lib in LD_LIBRARY_PATH; `cc examples/desk.c -IPREFIX/include PREFIX/lib/libbeksanour.a` links the static one.
 * Without an installation, `rt lib` in crates/desk writes the same library to crates/desk/out/libdesk.a. examples/desk.c is a
 * program that uses the files, the route book, notes, windows and a recording that comes in pieces. CHANGELOG.md says what a caller
 * must change from one version to the next.
 *
 * The calls, in the order of this file; T is the kind of a sample, i8, i16, i32, f32 or f64 (9/7: f32 or f64):
 *   bk_refusal_name, bk_refusal_sentence           a refusal in words
 *   bk_cdf53_depth, bk_cdf97_depth                 how many levels a recording has
 *   bk_cdf53_forward_T, bk_cdf97_forward_T         one level: samples to approximations and details
 *   bk_cdf53_inverse_T, bk_cdf97_inverse_T         and back
 *   bk_cdf53_dwt_T, bk_cdf97_dwt_T                 the last of so many levels
 *   bk_cdf53_multi_dwt_T, bk_cdf97_multi_dwt_T     all of so many levels
 *   bk_cdf53_multi_idwt_T, bk_cdf97_multi_idwt_T   and back
 *   bk_stream_written                              of a recording in pieces: how many of each band are written after t samples
 *   bk_stream_piece_i8, _i16, _i32                 one level while it is recorded: the next piece of the samples
 *   bk_stream_finish_i8, _i16, _i32                and its end
 *   bk_pyramid_size                                how many bytes a pyramid file has
 *   bk_pyramid_write_i8, _i16, _i32                a recording, with its sampling rate, as a pyramid file
 *   bk_pyramid_head                                what a file says of itself
 *   bk_pyramid_open                                what a file, or the front of one, still lets see, and its rate
 *   bk_pyramid_why                                 why a file does not open, or opens cut, and at which byte that shows
 *   bk_pyramid_sample                              one sample of it, with no room lent
 *   bk_pyramid_section                             where a section of a file stands
 *   bk_book_fresh                                  an empty route book, for up to 64 files in one area
 *   bk_book_add                                    a file into a book
 *   bk_book_find                                   where the file of a point stands in it
 *   bk_book_withdraw                               a file out of it, so that its room is free
 *   bk_book_room                                   how much room is free in it, and how many points it holds
 *   bk_note_column                                 the column at which a sample shows
 *   bk_note_span, bk_note_detail_span              the samples that an approximation, or a detail, is made of
 *   bk_band_window_T                               where a part of a band stands
 *
 * Good to know, said once:
 *
 * Bytes or samples. A parameter whose name ends in _bytes is a length in bytes, and a width is a sample's size in bytes. n, t,
 * sample, place, start and count, as parameters, are numbers of samples; the sample of a bk_sample is its value. In an answer bytes
 * are: what bk_pyramid_size, bk_pyramid_section, bk_book_find and bk_band_window_T give when done, and the first number of
 * bk_book_room, whose second counts points; the numbers of 10 and 12; the length of 9 (0, length) and the count of section 0; and
 * of 7 those of the file that is written and those of a book. All other lengths and counts in an answer are samples. In a bk_reason
 * the place is a byte; wanted and found are bytes for 0, 8, 10 and 12, for 6 at place 0 and for the count of section 0, samples for
 * 1, for 6 at place 6 and for the other counts, levels for 4, point numbers for 11 and millihertz for 18.
 *
 * Old and new files, and the rate. A pyramid file is of one of two kinds. A new file has the sampling rate in its section 0, whose
 * count is 14; an old file has no rate, and its count is 10. Versions before 0.10.0 wrote old files. The write calls here write
 * new files alone, and every other call that takes a file takes both kinds. A rate is in millihertz: 25,600 samples a second are
 * 25600000, and 4294967295 is the most. It is that of the recording, at whatever level the file opens, and no sample depends on
 * it. Beside a file that opens, 0 means an old file; beside a refusal it is always 0. In a new file 0 is no rate: it is refused
 * with 18, and so is writing it: a recording whose rate is not known cannot be written. A version before 0.10.0 refuses a new file,
 * with 9 (0, 14), under 14 bytes with 10, over 67,108,974 bytes with 6, and gives no sample of it; and it refuses a book as long
 * as that holds one, with 9 (0, 0).
 *
 * How much room. A slice may be lent with length 0 to ask. bk_pyramid_open with three empty areas answers 7 (0, count) for a file
 * that opens, with the rate 0 beside it, as beside every refusal: the rate of a file that is not opened is in its head. A write
 * with an empty file, where nothing before 7 refuses it, answers 7 (0, size). Nothing is changed. The same refusal comes for areas
 * that are merely too short. A book does not tell so: its 7 always says 904, and 14 says no number. A book for given files needs
 * 904 bytes and the sizes of the files; the first number of bk_book_room is the most bytes that an add may still take, while fewer
 * than 64 points are held. Do not ask so with a piece of a recording: one that writes no coefficient needs no room, and is taken.
 * bk_stream_written says beforehand what a piece writes.
 *
 * Which band is wrong. 2 is said of the approximations and 17 of the details, 2 first. Forward and dwt know the length of a level,
 * so the number names the band. The inverse and multi_idwt go back, and know it only as the sum of the two bands: they say 17 only
 * where 2 approximations come with too few details, in multi_idwt at the deepest level: 17 (1, 0) in 5/3, 17 (2, 0) and 17 (2, 1)
 * in 9/7. All other bands that do not fit each other, where no earlier check refuses, are 2, though the wrong one may be the
 * details: 3 approximations and 1 detail are 2 (2, 3). After a 2 of these calls look at both.
 *
 * A file whose width and point are not known. bk_pyramid_head reads them; hand them to bk_pyramid_open, which then refuses the
 * file only for what is wrong in it, or for the areas (7, 9). A head's width may be any byte, 0 too: bk_pyramid_open refuses it
 * with 8 if it is not 1, 2 or 4. Check it before you divide by it, or probe with empty areas. The head's samples is the n that the
 * three calls for notes ask for: the length of the whole recording, also where the file was cut and opens with fewer. The head's
 * rate is as it is stored: where it is 0 the file is an old one, or a new one that bk_pyramid_open refuses with 18.
 *
 * Opening at a chosen level l, 1 to the head's levels. Ask bk_pyramid_section for section levels + 1 - l, and lend bk_pyramid_open
 * only the front of the file through that section, which is first + second bytes: it opens at level l, with m samples, m being n
 * halved, rounded up, l times. That front is z + 4(levels + 1 - l) + width m bytes, where z is 18 for a new file, whose head has a
 * rate, and 14 for an old one, whose head has the rate 0. So a program that has read the head need not read more of the file. The
 * whole file opens at level 0. bk_pyramid_sample of that front gives one sample of level l in the same way.
 *
 * Columns and spans. A column is an approximation of a level from 1 on. Level 0 is the recording itself and has no columns, so
 * the three calls for notes refuse level 0: there sample s stands at place s. bk_note_column gives each sample one column, which
 * 2^level samples in a row share, or at the end of the recording fewer. A column is made of more samples than show at it, since
 * the filter reads on to either side: bk_note_span gives the first and the last of them. So spans overlap, and a peak may change
 * every column whose span holds it. Spans are those of the integer 5/3 calls, as in pyramid files; nothing is said of float
 * coefficients (9/7 reads further).
 *
 * Damage. A file has no checksum. That it is short shows in the level that it opens at, or it is refused with 10. A section's
 * count that is there whole and is wrong, which is not what n and the levels give, is found. What section 0 says is checked only
 * against itself, what is asked and the counts: in a file that was cut a changed number of samples need not be found, and where
 * width and point are taken from the head, a changed width need not be found and a changed point never is. A changed rate is found
 * only where it became 0. A count of section 0 that became that of the other kind need not be found, though the next count seldom
 * fits then. A bit that flipped among the samples of a section is not found, and the file opens as other samples. Keep a checksum
 * beside it where that matters. Where damage is found, bk_pyramid_why says at which byte it shows.
 * A book has none either. Every call but bk_book_fresh looks at its directory and its two counts, and refuses with 9 (0, 0) those
 * that no calls could have left. Others pass: a point that became one that is not held, or two entries exchanged. The bytes of the
 * files are not looked at. So open what was found for the point that you asked for, not for the point of its head: then a file of
 * another point is refused with 11.
 * The state of a recording in pieces has no checksum either: 16 bytes that no calls could have left are refused with 9 (0, 0), and
 * all others are taken, as another recording so far. A piece that was left out, sent twice or sent out of order is not found: send
 * a piece again only where it was refused.
 *
 * Floats. The bits that the float calls promise hold while the processor rounds to nearest even and keeps subnormal numbers, as
 * it does unless told otherwise. A program that flushes subnormals to zero changes them; so does one that is linked with
 * -ffast-math, which turns that on. The integer calls do not depend on it.
 */
#ifndef BEKSANOUR_H
#define BEKSANOUR_H

#include <stddef.h>
#include <stdint.h>

#ifdef __cplusplus
extern "C" {
#endif

/* The version of this header and of the library that is installed with it; CHANGELOG.md has what changed. */
#define BK_VERSION_MAJOR 0
#define BK_VERSION_MINOR 11
#define BK_VERSION_PATCH 0

/*
 * What the calls return, alone or as the field answer of a struct; bk_pyramid_why, bk_stream_written, bk_refusal_name and
 * bk_refusal_sentence do not. `number` is 0 when the call is done, else the number of the first check that refused; the checks are
 * made in the order in which a call's comment lists them. `first` and `second` are 0 unless the table, or a call that is done, says
 * otherwise. Compare the fields of a struct and not its bytes: those between them are not written.
 */
typedef struct bk_answer {
    uint32_t number;
    uint64_t first;
    uint64_t second;
} bk_answer;

/*
 * The refusals, with their two numbers. 19 is kept for a later version. 18 is new in 0.10.0. 17 is new in 0.9.0: before, a wrong
 * length of the details was 2 too, in the inverse and multi_idwt with the numbers of the approximations.
 */
enum {
    BK_DONE = 0,
    BK_MIN_FILTER_SIZE = 1,                /* the input is too short: its samples, the smallest input */
    BK_APPROX_SIZE_NOT_MATCHES = 2,        /* the approximations have a wrong length: got, the level's input length;
                                              of the calls that go back: expected, got, and there the details may be
                                              at fault: see "Which band is wrong" above */
    BK_OUTPUT_SIZE_IS_NOT_VALID = 3,       /* the output's length is wrong: got, wanted */
    BK_BUFFER_WAS_TOO_SMALL_FOR_LEVEL = 4, /* the recording has too few levels */
    BK_ZEROED_BASE_SIZE = 5,               /* no details list, or no approximations */
    BK_TOO_LONG = 6,                       /* a length above its limit */
    BK_NO_ROOM = 7,                        /* a lent area is too short: have, need */
    BK_OTHER_WIDTH = 8,                    /* the file's width is not the one asked: the file's, asked;
                                              a width that is not 1, 2 or 4: 0, or the file's, and the width */
    BK_BAD_COUNT = 9,                      /* a count is wrong: section, found;
                                              a byte length that is no whole number of samples: 0, the length;
                                              a list of lengths that is not the details: 0, its sum;
                                              a book, or the state of a recording in pieces, that no calls could
                                              have left: 0, 0 */
    BK_CUT_SHORT = 10,                     /* the file ends before section 1, or the one asked for, is whole; for
                                              bk_book_add, before all its sections are: the file's length, 0 */
    BK_OTHER_POINT = 11,                   /* the file's point is not the one asked: the file's, asked */
    BK_TRAILING = 12,                      /* bytes after the last section: how many, 0 */
    BK_NO_SUCH_PLACE = 13,                 /* a place outside its range: the place, the limit */
    BK_BOOK_FULL = 14,                     /* the book holds 64 points, or has too little free room */
    BK_ALREADY_HELD = 15,                  /* the book holds a file of this point */
    BK_NOT_HELD = 16,                      /* the book holds no file of this point */
    BK_DETAILS_SIZE_NOT_MATCHES = 17,      /* the details have a wrong length, and the approximations the right one: got, the
                                              level's input length; of the calls that go back: expected, got */
    BK_NO_RATE = 18                        /* the rate is 0: the one that a new file stores, or the one to be written */
};

/* The name of an answer's number, as in the list above; of a number that is not in it "unknown". */
static inline const char *bk_refusal_name(uint32_t number) {
    switch (number) {
    case BK_DONE: return "BK_DONE";
    case BK_MIN_FILTER_SIZE: return "BK_MIN_FILTER_SIZE";
    case BK_APPROX_SIZE_NOT_MATCHES: return "BK_APPROX_SIZE_NOT_MATCHES";
    case BK_OUTPUT_SIZE_IS_NOT_VALID: return "BK_OUTPUT_SIZE_IS_NOT_VALID";
    case BK_BUFFER_WAS_TOO_SMALL_FOR_LEVEL: return "BK_BUFFER_WAS_TOO_SMALL_FOR_LEVEL";
    case BK_ZEROED_BASE_SIZE: return "BK_ZEROED_BASE_SIZE";
    case BK_TOO_LONG: return "BK_TOO_LONG";
    case BK_NO_ROOM: return "BK_NO_ROOM";
    case BK_OTHER_WIDTH: return "BK_OTHER_WIDTH";
    case BK_BAD_COUNT: return "BK_BAD_COUNT";
    case BK_CUT_SHORT: return "BK_CUT_SHORT";
    case BK_OTHER_POINT: return "BK_OTHER_POINT";
    case BK_TRAILING: return "BK_TRAILING";
    case BK_NO_SUCH_PLACE: return "BK_NO_SUCH_PLACE";
    case BK_BOOK_FULL: return "BK_BOOK_FULL";
    case BK_ALREADY_HELD: return "BK_ALREADY_HELD";
    case BK_NOT_HELD: return "BK_NOT_HELD";
    case BK_DETAILS_SIZE_NOT_MATCHES: return "BK_DETAILS_SIZE_NOT_MATCHES";
    case BK_NO_RATE: return "BK_NO_RATE";
    default: return "unknown";
    }
}

/* What an answer's number says, as one sentence for a person; of a number that is not in the list "unknown". */
static inline const char *bk_refusal_sentence(uint32_t number) {
    switch (number) {
    case BK_DONE: return "The call is done.";
    case BK_MIN_FILTER_SIZE: return "The recording is too short for one level.";
    case BK_APPROX_SIZE_NOT_MATCHES: return "The approximations do not fit their level; going back, the details may be at fault.";
    case BK_OUTPUT_SIZE_IS_NOT_VALID: return "The output does not have the length that the result has.";
    case BK_BUFFER_WAS_TOO_SMALL_FOR_LEVEL: return "The number of levels does not fit the length of the recording.";
    case BK_ZEROED_BASE_SIZE: return "There are no lengths of details, or no approximations, to start from.";
    case BK_TOO_LONG: return "There are more samples, bytes or levels than the library takes.";
    case BK_NO_ROOM: return "An area that was lent is too short.";
    case BK_OTHER_WIDTH: return "The samples do not have the width that was asked for, or no such width exists.";
    case BK_BAD_COUNT: return "A count, a length, the directory of a book or the state of a recording in pieces is wrong.";
    case BK_CUT_SHORT: return "The file ends before what is needed of it is whole.";
    case BK_OTHER_POINT: return "The file belongs to another measuring point.";
    case BK_TRAILING: return "The file has bytes after its last section.";
    case BK_NO_SUCH_PLACE: return "There is no such level, place or section.";
    case BK_BOOK_FULL: return "The book holds 64 points, or has too little free room for the file.";
    case BK_ALREADY_HELD: return "The book holds a file of this measuring point already.";
    case BK_NOT_HELD: return "The book holds no file of this measuring point.";
    case BK_DETAILS_SIZE_NOT_MATCHES: return "The details do not have the length that their level gives.";
    case BK_NO_RATE: return "The sampling rate is 0, which is no rate.";
    default: return "unknown";
    }
}

/* The most samples of a recording, and the most bytes of a pyramid file, one limit for both kinds: before 0.10.0 4 fewer. */
#define BK_MOST_SAMPLES 16777216
#define BK_MOST_BYTES 67108978

/*
 * How many levels a recording of n samples has: how many run before an input has fewer than 3 samples (5/3) or 4 (9/7).
 * Done: first is the depth. Refused: 6 (n over 16,777,216), and nothing else.
 * For example 5/3: 0 at 2, 1 at 3 and 4, 2 at 5 to 8, 23 at 16,777,216; 9/7: 0 at 3, 1 at 4 to 6, 2 at 7 to 12.
 */
bk_answer bk_cdf53_depth(uint64_t n);
bk_answer bk_cdf97_depth(uint64_t n);

/*
 * One level of integer 5/3 of the samples in `input`, 8, 16 or 32 bits each, little-endian, two's complement: their ceil(n/2)
 * approximations into `approx`, their floor(n/2) details into `details`. These are d[i] = x[2i+1] - floor((x[2i] + x[2i+2]) / 2),
 * then a[i] = x[2i] + floor((d[i-1] + d[i] + 2) / 4), where an even sample after the last is the last, d[-1] is d[0], and a detail
 * after the last is the last. Sums are exact; every coefficient is kept modulo 2^8, 2^16 or 2^32, as a signed number, and a is
 * made from the details that were kept. The inverse takes the same steps back, and gives every sample back also where one wrapped.
 *
 * Refused, in this order:
 *   9 (0, length)   a slice's byte length is no multiple of the width: the first of input, approx, details
 *   6               over 16,777,216 samples
 *   1 (n, 3)        fewer than 3 samples
 *   2 (got, n)      approx does not hold ceil(n/2) samples
 *   17 (got, n)     details does not hold floor(n/2) samples
 */
bk_answer bk_cdf53_forward_i8(const uint8_t *input, size_t input_bytes, uint8_t *approx, size_t approx_bytes,
                              uint8_t *details, size_t details_bytes);
bk_answer bk_cdf53_forward_i16(const uint8_t *input, size_t input_bytes, uint8_t *approx, size_t approx_bytes,
                               uint8_t *details, size_t details_bytes);
bk_answer bk_cdf53_forward_i32(const uint8_t *input, size_t input_bytes, uint8_t *approx, size_t approx_bytes,
                               uint8_t *details, size_t details_bytes);

/*
 * The samples whose approximations are in `approx` and details in `details`, into `output`.
 *
 * Refused, in this order:
 *   9 (0, length)        a slice's byte length is no multiple of the width: the first of approx, details, output
 *   6                    a slice of over 16,777,216 samples
 *   3 (got, n)           output does not hold n samples, as many as the two bands together
 *   2 (expected, got)    approx does not hold ceil(n/2) samples, or 2 if that is more
 *   17 (expected, got)   details does not hold floor(n/2) samples, or 1 if that is more
 * 2 may be the details' fault: see "Which band is wrong" above.
 */
bk_answer bk_cdf53_inverse_i8(const uint8_t *approx, size_t approx_bytes, const uint8_t *details, size_t details_bytes,
                              uint8_t *output, size_t output_bytes);
bk_answer bk_cdf53_inverse_i16(const uint8_t *approx, size_t approx_bytes, const uint8_t *details, size_t details_bytes,
                               uint8_t *output, size_t output_bytes);
bk_answer bk_cdf53_inverse_i32(const uint8_t *approx, size_t approx_bytes, const uint8_t *details, size_t details_bytes,
                               uint8_t *output, size_t output_bytes);

/*
 * One level of float 5/3 or 9/7 of the samples in `input`, 32 or 64 bits each, IEEE 754, little-endian: their ceil(n/2)
 * approximations into `approx`, their floor(n/2) details into `details`.
 *
 * To begin with a[i] is x[2i] and d[i] is x[2i+1]. A step "odds c" makes every d[i] (a[i] + a[i+1]) * c + d[i], a step "evens c"
 * makes every a[i] (d[i-1] + d[i]) * c + a[i], where an a after the last is the last, d[-1] is d[0], and a d after the last is the
 * last.
 *   5/3   odds -0.5, evens 0.25
 *   9/7   odds alpha, evens beta, odds gamma, evens delta, then every a[i] * k and every d[i] * invk, with osclet's six factors:
 *         alpha = -1.5861343420693648   beta  = -0.0529801185718856   gamma = 0.8829110755411875
 *         delta = 0.4435068520511142    k     = 1.1496043988602418    invk  = 0.86986445162478079
 *         as f64, the nearest to what is written; in f32 these f64 rounded once to f32
 * Each addition and each multiplication is rounded once, to nearest even, and none is fused: the bits are what these steps give,
 * the same on every machine. Every bit pattern is taken, and nothing is refused for what a sample is. A result that is NaN is
 * written as 7FC00000 or 7FF8000000000000.
 *
 * Refused, in this order:
 *   9 (0, length)   a slice's byte length is no multiple of the width: the first of input, approx, details
 *   6               over 16,777,216 samples
 *   1 (n, least)    fewer than 3 samples (5/3), fewer than 4 (9/7)
 *   2 (got, n)      approx does not hold ceil(n/2) samples
 *   17 (got, n)     details does not hold floor(n/2) samples
 */
bk_answer bk_cdf53_forward_f32(const uint8_t *input, size_t input_bytes, uint8_t *approx, size_t approx_bytes,
                               uint8_t *details, size_t details_bytes);
bk_answer bk_cdf53_forward_f64(const uint8_t *input, size_t input_bytes, uint8_t *approx, size_t approx_bytes,
                               uint8_t *details, size_t details_bytes);
bk_answer bk_cdf97_forward_f32(const uint8_t *input, size_t input_bytes, uint8_t *approx, size_t approx_bytes,
                               uint8_t *details, size_t details_bytes);
bk_answer bk_cdf97_forward_f64(const uint8_t *input, size_t input_bytes, uint8_t *approx, size_t approx_bytes,
                               uint8_t *details, size_t details_bytes);

/*
 * What the same steps make of the approximations in `approx` and the details in `details`, last step first and with the signs
 * of the factors changed (a scaling with its two factors exchanged), into `output`: the bits are what these steps give, each
 * addition and each multiplication rounded once. In 5/3 the bands of whole numbers of size at most 2^20 (f32) or 2^49 (f64)
 * give these numbers back exactly, except that a zero may change sign. Nothing is promised of how near other samples come back:
 * rounding and overflow are the caller's to bear. For example 3e38, 0, 3e38 in f32 comes back from 5/3 as three NaN, since twice
 * 3e38 is too large for f32.
 *
 * Refused, in this order:
 *   9 (0, length)        a slice's byte length is no multiple of the width: the first of approx, details, output
 *   6                    a slice of over 16,777,216 samples
 *   3 (got, n)           output does not hold n samples, as many as the two bands together
 *   2 (expected, got)    approx does not hold ceil(n/2) samples, or 2 if that is more
 *   17 (expected, got)   details does not hold floor(n/2) samples, or 1 (5/3) or 2 (9/7) if that is more
 * 2 may be the details' fault: see "Which band is wrong" above.
 */
bk_answer bk_cdf53_inverse_f32(const uint8_t *approx, size_t approx_bytes, const uint8_t *details, size_t details_bytes,
                               uint8_t *output, size_t output_bytes);
bk_answer bk_cdf53_inverse_f64(const uint8_t *approx, size_t approx_bytes, const uint8_t *details, size_t details_bytes,
                               uint8_t *output, size_t output_bytes);
bk_answer bk_cdf97_inverse_f32(const uint8_t *approx, size_t approx_bytes, const uint8_t *details, size_t details_bytes,
                               uint8_t *output, size_t output_bytes);
bk_answer bk_cdf97_inverse_f64(const uint8_t *approx, size_t approx_bytes, const uint8_t *details, size_t details_bytes,
                               uint8_t *output, size_t output_bytes);

/*
 * The last of so many levels of the samples in `signal`: its approximations into `approx`, its details into `details`. The next
 * level's input is this level's approximations, and m, the last level's input length, is n halved, rounded up, at every level
 * before it. 0 levels means 1. `work1` and `work2` are room for the n samples of `signal` each; what their first n samples hold
 * after a done call is not said, and what is beyond them is as it was.
 *
 * Refused, in this order:
 *   9 (0, length)   a slice's byte length is no multiple of the width: the first of signal, approx, details, work1, work2
 *   6               over 16,777,216 samples
 *   4               fewer levels in the recording than asked, or none
 *   2 (got, m)      approx does not hold ceil(m/2) samples
 *   17 (got, m)     details does not hold floor(m/2) samples
 *   7 (have, n)     work1 holds fewer than n samples, then work2
 */
bk_answer bk_cdf53_dwt_i8(const uint8_t *signal, size_t signal_bytes, uint32_t levels, uint8_t *approx,
                          size_t approx_bytes, uint8_t *details, size_t details_bytes, uint8_t *work1,
                          size_t work1_bytes, uint8_t *work2, size_t work2_bytes);
bk_answer bk_cdf53_dwt_i16(const uint8_t *signal, size_t signal_bytes, uint32_t levels, uint8_t *approx,
                           size_t approx_bytes, uint8_t *details, size_t details_bytes, uint8_t *work1,
                           size_t work1_bytes, uint8_t *work2, size_t work2_bytes);
bk_answer bk_cdf53_dwt_i32(const uint8_t *signal, size_t signal_bytes, uint32_t levels, uint8_t *approx,
                           size_t approx_bytes, uint8_t *details, size_t details_bytes, uint8_t *work1,
                           size_t work1_bytes, uint8_t *work2, size_t work2_bytes);
bk_answer bk_cdf53_dwt_f32(const uint8_t *signal, size_t signal_bytes, uint32_t levels, uint8_t *approx,
                           size_t approx_bytes, uint8_t *details, size_t details_bytes, uint8_t *work1,
                           size_t work1_bytes, uint8_t *work2, size_t work2_bytes);
bk_answer bk_cdf53_dwt_f64(const uint8_t *signal, size_t signal_bytes, uint32_t levels, uint8_t *approx,
                           size_t approx_bytes, uint8_t *details, size_t details_bytes, uint8_t *work1,
                           size_t work1_bytes, uint8_t *work2, size_t work2_bytes);
bk_answer bk_cdf97_dwt_f32(const uint8_t *signal, size_t signal_bytes, uint32_t levels, uint8_t *approx,
                           size_t approx_bytes, uint8_t *details, size_t details_bytes, uint8_t *work1,
                           size_t work1_bytes, uint8_t *work2, size_t work2_bytes);
bk_answer bk_cdf97_dwt_f64(const uint8_t *signal, size_t signal_bytes, uint32_t levels, uint8_t *approx,
                           size_t approx_bytes, uint8_t *details, size_t details_bytes, uint8_t *work1,
                           size_t work1_bytes, uint8_t *work2, size_t work2_bytes);

/*
 * Many levels of the samples in `signal`: the next level's input is this level's approximations. Into `output`, as many samples
 * as there are in `signal`: the deepest approximations, then the details, deepest first. 0 levels means 1. `work1` and `work2`
 * are room for the n samples of `signal` each; what their first n samples hold after a done call is not said, and what is beyond
 * them is as it was.
 *
 * Refused, in this order:
 *   9 (0, length)   a slice's byte length is no multiple of the width: the first of signal, output, work1, work2
 *   6               over 16,777,216 samples
 *   1 (n, 3)        integers, 0 or 1 levels: fewer than 3 samples
 *   4               else: fewer levels in the recording than asked, where 0 asks for 1
 *   3 (got, n)      output does not hold n samples
 *   7 (have, n)     work1 holds fewer than n samples, then work2
 */
bk_answer bk_cdf53_multi_dwt_i8(const uint8_t *signal, size_t signal_bytes, uint32_t levels, uint8_t *output,
                                size_t output_bytes, uint8_t *work1, size_t work1_bytes, uint8_t *work2,
                                size_t work2_bytes);
bk_answer bk_cdf53_multi_dwt_i16(const uint8_t *signal, size_t signal_bytes, uint32_t levels, uint8_t *output,
                                 size_t output_bytes, uint8_t *work1, size_t work1_bytes, uint8_t *work2,
                                 size_t work2_bytes);
bk_answer bk_cdf53_multi_dwt_i32(const uint8_t *signal, size_t signal_bytes, uint32_t levels, uint8_t *output,
                                 size_t output_bytes, uint8_t *work1, size_t work1_bytes, uint8_t *work2,
                                 size_t work2_bytes);
bk_answer bk_cdf53_multi_dwt_f32(const uint8_t *signal, size_t signal_bytes, uint32_t levels, uint8_t *output,
                                 size_t output_bytes, uint8_t *work1, size_t work1_bytes, uint8_t *work2,
                                 size_t work2_bytes);
bk_answer bk_cdf53_multi_dwt_f64(const uint8_t *signal, size_t signal_bytes, uint32_t levels, uint8_t *output,
                                 size_t output_bytes, uint8_t *work1, size_t work1_bytes, uint8_t *work2,
                                 size_t work2_bytes);
bk_answer bk_cdf97_multi_dwt_f32(const uint8_t *signal, size_t signal_bytes, uint32_t levels, uint8_t *output,
                                 size_t output_bytes, uint8_t *work1, size_t work1_bytes, uint8_t *work2,
                                 size_t work2_bytes);
bk_answer bk_cdf97_multi_dwt_f64(const uint8_t *signal, size_t signal_bytes, uint32_t levels, uint8_t *output,
                                 size_t output_bytes, uint8_t *work1, size_t work1_bytes, uint8_t *work2,
                                 size_t work2_bytes);

/*
 * The samples of a recording back from its many levels: the deepest approximations in `approx`, the details of all levels in
 * `details`, deepest first, and in `lengths` how many details each level has, in that order, each a u32, little-endian. Into
 * `output` n samples, as many as there are in `approx` and `details` together. Integers come back as they went into multi_dwt.
 * Floats are what the inverse of each level gives, to the bit; in 5/3 of L levels whole numbers of size at most 2^(24-4L), L to
 * 6 (f32), or 2^(53-4L), L to 13 (f64), come back exactly, except that a zero may change sign, and of other floats nothing is
 * promised of how near they come back: rounding and overflow are the caller's to bear. `work1` and `work2` are room for n
 * samples each; what their first n samples hold after a done call is not said, and what is beyond them is as it was.
 *
 * Refused, in this order:
 *   9 (0, length)        a slice's byte length is no multiple of the width, or that of lengths of 4: the first of approx,
 *                        details, lengths, output, work1, work2
 *   6                    over 16,777,216 samples in output, approx or details, or more than 23 lengths
 *   5                    no lengths, or no approximations
 *   9 (0, sum)           the lengths add up to sum, and not to the samples in details
 *   2 (expected, got)    level by level, from the deepest, m being the samples of its two bands together: the approximations,
 *                        in approx or restored by the level before, are not ceil(m/2) samples, or 2 if that is more
 *   17 (expected, got)   at the same level: its details are not floor(m/2) samples, or 1 (5/3) or 2 (9/7) if that is more
 *   3 (got, n)           output does not hold n samples
 *   7 (have, n)          work1 holds fewer than n samples, then work2
 * Which 9 it is: a length where one of the six byte lengths is ragged, else the sum.
 * 2 may be the details' fault: see "Which band is wrong" above.
 */
bk_answer bk_cdf53_multi_idwt_i8(const uint8_t *approx, size_t approx_bytes, const uint8_t *details,
                                 size_t details_bytes, const uint8_t *lengths, size_t lengths_bytes, uint8_t *output,
                                 size_t output_bytes, uint8_t *work1, size_t work1_bytes, uint8_t *work2,
                                 size_t work2_bytes);
bk_answer bk_cdf53_multi_idwt_i16(const uint8_t *approx, size_t approx_bytes, const uint8_t *details,
                                  size_t details_bytes, const uint8_t *lengths, size_t lengths_bytes, uint8_t *output,
                                  size_t output_bytes, uint8_t *work1, size_t work1_bytes, uint8_t *work2,
                                  size_t work2_bytes);
bk_answer bk_cdf53_multi_idwt_i32(const uint8_t *approx, size_t approx_bytes, const uint8_t *details,
                                  size_t details_bytes, const uint8_t *lengths, size_t lengths_bytes, uint8_t *output,
                                  size_t output_bytes, uint8_t *work1, size_t work1_bytes, uint8_t *work2,
                                  size_t work2_bytes);
bk_answer bk_cdf53_multi_idwt_f32(const uint8_t *approx, size_t approx_bytes, const uint8_t *details,
                                  size_t details_bytes, const uint8_t *lengths, size_t lengths_bytes, uint8_t *output,
                                  size_t output_bytes, uint8_t *work1, size_t work1_bytes, uint8_t *work2,
                                  size_t work2_bytes);
bk_answer bk_cdf53_multi_idwt_f64(const uint8_t *approx, size_t approx_bytes, const uint8_t *details,
                                  size_t details_bytes, const uint8_t *lengths, size_t lengths_bytes, uint8_t *output,
                                  size_t output_bytes, uint8_t *work1, size_t work1_bytes, uint8_t *work2,
                                  size_t work2_bytes);
bk_answer bk_cdf97_multi_idwt_f32(const uint8_t *approx, size_t approx_bytes, const uint8_t *details,
                                  size_t details_bytes, const uint8_t *lengths, size_t lengths_bytes, uint8_t *output,
                                  size_t output_bytes, uint8_t *work1, size_t work1_bytes, uint8_t *work2,
                                  size_t work2_bytes);
bk_answer bk_cdf97_multi_idwt_f64(const uint8_t *approx, size_t approx_bytes, const uint8_t *details,
                                  size_t details_bytes, const uint8_t *lengths, size_t lengths_bytes, uint8_t *output,
                                  size_t output_bytes, uint8_t *work1, size_t work1_bytes, uint8_t *work2,
                                  size_t work2_bytes);

/*
 * Samples while they are recorded: one level of integer 5/3 of a recording that comes in pieces, some of them empty; T is i8, i16
 * or i32. A coefficient is written as soon as it is fixed: as soon as no further sample, if one came, could change it. However the
 * recording is cut, the approximations that its calls write, joined, and the details, joined, are those of bk_cdf53_forward_T on
 * the whole recording. Samples that were sent need not be kept.
 *
 * How a recording is taken:
 *   begin    Set 16 bytes to 0. They are the state of a recording without samples, and no call is needed for it.
 *   pieces   Hand each piece to bk_stream_piece_T, in order, with the state and an area for each band. For a piece of n samples
 *            areas of (n + 1) / 2 samples, rounded down, are always long enough. With t samples before it, the call writes
 *            bk_stream_written(t + n) - bk_stream_written(t) approximations, and as many details, to the front of the areas; it
 *            may be none. Append them to the bands.
 *   end      Call bk_stream_finish_T, after 3 samples or more, with areas of one sample. It writes one approximation and, where t,
 *            now the number of all samples, is even, one detail. Append them. The state is 16 zeros again, for the next recording.
 * An area may be the free end of the band itself: then what is written is appended already. No call that is done tells t, or how
 * much it wrote: count the samples yourself, or read t in bytes 0 to 3 of the state before the call. After the end the state no
 * longer says whether t was even.
 *
 * The state is all that a later call needs of the samples before it, and the library keeps nothing beside it. It needs no
 * alignment, and may be copied, kept on a disk and lent again elsewhere. Every recording has a state of its own. Calls with
 * different states may run at the same time, two with the same state may not. To give a recording up, set its state to 0.
 *
 * The width of a sample is not in the state: keep it beside it, and call the functions of one width for one recording. What 8-bit
 * calls left is a good state for 16-bit calls too, but they take its numbers as 16-bit ones, so that the coefficients after it need
 * not be those of the recording. What 16-bit calls left 8-bit calls refuse with 9 (0, 0) only where one of the three numbers after
 * t is 256 or more. A state without samples is the same at every width.
 *
 * Layout: four numbers of 4 bytes, unsigned, little-endian (docs/FORMAT.md has them with an example). After t samples, with m =
 * bk_stream_written(t), samples and details being counted from 0:
 *   bytes 0 to 3     t, 0 to 16,777,216
 *   bytes 4 to 7     sample 2m, the even one whose coefficients are next; 0 where t is 0
 *   bytes 8 to 11    sample 2m + 1, the odd one after it, where t is even and not 0; else 0
 *   bytes 12 to 15   detail m - 1, the last one written, where t is 3 or more; else 0
 * A sample or a detail is its own 1, 2 or 4 bytes, two's complement, and then zeros: -4 of 8 bits is FC 00 00 00.
 *
 * A state that no calls could have left is refused with 9 (0, 0): it has not 16 bytes; or t is over 16,777,216; or a number is not
 * 0 where the table says 0; or a sample or a detail is not below 2^8 (8-bit calls) or 2^16 (16-bit calls). All other states can be
 * left by calls, and are taken. After this refusal look first whether the call has the width of the recording and state_bytes is
 * 16: if not, the state may still be good. If it is damaged, set it to 0 and begin again; or take a copy of an earlier state, whose
 * t is in its bytes 0 to 3, shorten both bands to bk_stream_written(t) coefficients, and send all samples but the first t again.
 */

/* The bytes of a state. */
#define BK_STREAM_BYTES 16

/*
 * How many approximations, and as many details, are written after t samples of a recording in pieces, by all its calls so far:
 * (t - 1) / 2, rounded down, and none at t = 0. Where t is 3 or more the finish then writes the rest, so that in all there are
 * ceil(t/2) approximations and floor(t/2) details. A t over 16,777,216, which no recording has, is not refused.
 *
 * For example, 0 after 0, 1 or 2 samples, 1 after 3 or 4, 2 after 5 or 6.
 */
static inline uint64_t bk_stream_written(uint64_t t) { return t == 0 ? 0 : (t - 1) / 2; }

/*
 * The next piece of a recording: the samples in `piece`, 8, 16 or 32 bits each, or none. The coefficients that it fixes are written
 * to the front of `approx` and of `details`, as many to each; what is behind them is as it was. `state` becomes that of all samples
 * so far. An empty piece writes nothing, and the state stays as it was. The four slices must not overlap. Each has a pointer that
 * is not null, also where it is empty.
 * Done: first and second are 0. With t samples before it, a piece of n samples wrote bk_stream_written(t + n) -
 * bk_stream_written(t) coefficients of each band.
 *
 * Refused, in this order:
 *   9 (0, length)    a slice's byte length is no multiple of the width: the first of piece, approx, details
 *   9 (0, 0)         state is one that no calls of this width could have left
 *   6                the samples so far and the piece are together over 16,777,216: send as much of it as still fits, or end
 *   7 (have, need)   approx holds fewer approximations than the piece writes; both numbers are in samples
 *   7 (have, need)   details holds fewer details than the piece writes; both numbers are in samples
 * Nothing of a refused piece is taken: after a 7 send the same piece again, with areas of need samples. Which one it is: 9 is the
 * state's where second is 0, else a length. 7 is that of approx where approx holds fewer than need samples, else that of details.
 *
 * For example, 8-bit 0, 3, -4, 1, 7 in three pieces, 0, 3, then none, then -4, 1, 7: the first two write nothing, and the third
 * writes the approximations 3, -3 and the details 5, 0.
 */
bk_answer bk_stream_piece_i8(uint8_t *state, size_t state_bytes, const uint8_t *piece, size_t piece_bytes, uint8_t *approx,
                             size_t approx_bytes, uint8_t *details, size_t details_bytes);
bk_answer bk_stream_piece_i16(uint8_t *state, size_t state_bytes, const uint8_t *piece, size_t piece_bytes, uint8_t *approx,
                              size_t approx_bytes, uint8_t *details, size_t details_bytes);
bk_answer bk_stream_piece_i32(uint8_t *state, size_t state_bytes, const uint8_t *piece, size_t piece_bytes, uint8_t *approx,
                              size_t approx_bytes, uint8_t *details, size_t details_bytes);

/*
 * The end of a recording, of t samples in all its pieces: the last approximation is written to the front of `approx` and, where t
 * is even, the last detail to the front of `details`; what is behind them is as it was. Where t is odd all details are written
 * already, and `details` stays as it was and may be empty. `state` becomes 16 zeros. The three slices must not overlap. Each has a
 * pointer that is not null, also where it is empty.
 * Done: first and second are 0.
 *
 * Refused, in this order:
 *   9 (0, length)   a slice's byte length is no multiple of the width: the first of approx, details
 *   9 (0, 0)        state is one that no calls of this width could have left
 *   1 (t, 3)        fewer than 3 samples were sent: send more, or give the recording up by setting its state to 0
 *   7 (0, 1)        approx is empty
 *   7 (0, 1)        t is even, and details is empty
 * After a 7 call it again with room. Which one it is: 9 is the state's where second is 0, else a length. 7 is that of approx where
 * approx is empty, else that of details.
 *
 * For example, after the five samples above it writes the approximation 7 and no detail.
 */
bk_answer bk_stream_finish_i8(uint8_t *state, size_t state_bytes, uint8_t *approx, size_t approx_bytes, uint8_t *details,
                              size_t details_bytes);
bk_answer bk_stream_finish_i16(uint8_t *state, size_t state_bytes, uint8_t *approx, size_t approx_bytes, uint8_t *details,
                               size_t details_bytes);
bk_answer bk_stream_finish_i32(uint8_t *state, size_t state_bytes, uint8_t *approx, size_t approx_bytes, uint8_t *details,
                               size_t details_bytes);

/*
 * How many bytes the new pyramid file of n samples of `width` bytes each has, at so many levels: 18 + 4(L + 1) + width n, where L
 * is `levels`, or 1 for 0. So much room a write needs; the two areas beside it need n samples, width n bytes, each. The old file of
 * the same samples and levels has 4 bytes fewer.
 * Done: first is the size. Never more than 67,108,978, so it fits a size_t.
 *
 * Refused, in this order:
 *   8 (0, width)   width is not 1, 2 or 4
 *   6              over 16,777,216 samples
 *   1 (n, 3)       0 or 1 levels: fewer than 3 samples
 *   4              more levels: fewer levels in the recording than asked
 * After 8 these are what the write answers for the same samples and levels, where its rate is not 0: there is no 18 here.
 *
 * Changed in 0.10.0: 4 more than before. To hold the length of an old file to it, take 4 off.
 *
 * For example, 5 samples of 1 byte at 2 levels are 35 bytes.
 */
bk_answer bk_pyramid_size(uint32_t width, uint64_t n, uint32_t levels);

/*
 * The samples in `signal`, 8, 16 or 32 bits each, as a new pyramid file for a point, into `file`. `rate` is the sampling rate in
 * millihertz, 1 or more: 25600000 for 25,600 samples a second. A file is sections in a fixed order, each after its count, a u32,
 * little-endian. Section 0 has the count 14: the width of a sample in bytes (one byte), the levels (one byte), n (u32), the point
 * (u32) and the rate (u32). Section 1 has the deepest approximations of integer 5/3, sections 2 to levels + 1 the details, deepest
 * first, each counted in samples. The size is what bk_pyramid_size says; what is past it in `file` is as it was. 0 levels means 1,
 * and 1 is what the file says. `work1` and `work2` are room; what their first n samples hold after a done call is not said, and
 * what is beyond them is as it was. Old files are not written.
 * Done: first and second are 0.
 *
 * Refused, in this order:
 *   9 (0, length)    a slice's byte length is no multiple of the width: the first of signal, work1, work2; file may have any
 *   18               rate is 0
 *   6                over 16,777,216 samples
 *   1 (n, 3)         0 or 1 levels: fewer than 3 samples
 *   4                more levels: fewer levels in the recording than asked
 *   7 (have, size)   file has fewer bytes than the file's size, both in bytes
 *   7 (have, n)      work1 holds fewer than n samples, then work2, both in samples
 * Which 7 it is: second is n for a work area, and more than n for the file.
 *
 * Changed in 0.10.0: `rate` is new, and the file is 4 bytes longer.
 */
bk_answer bk_pyramid_write_i8(const uint8_t *signal, size_t signal_bytes, uint32_t levels, uint32_t point, uint32_t rate,
                              uint8_t *file, size_t file_bytes, uint8_t *work1, size_t work1_bytes, uint8_t *work2,
                              size_t work2_bytes);
bk_answer bk_pyramid_write_i16(const uint8_t *signal, size_t signal_bytes, uint32_t levels, uint32_t point, uint32_t rate,
                               uint8_t *file, size_t file_bytes, uint8_t *work1, size_t work1_bytes, uint8_t *work2,
                               size_t work2_bytes);
bk_answer bk_pyramid_write_i32(const uint8_t *signal, size_t signal_bytes, uint32_t levels, uint32_t point, uint32_t rate,
                               uint8_t *file, size_t file_bytes, uint8_t *work1, size_t work1_bytes, uint8_t *work2,
                               size_t work2_bytes);

/* What bk_pyramid_head returns: the answer, and the fields of section 0 as they are stored. When refused the fields are 0. */
typedef struct bk_head {
    bk_answer answer;
    uint32_t width;   /* the size of a sample in bytes */
    uint32_t levels;  /* how many levels the whole file has */
    uint32_t samples; /* n, how many samples the whole recording has */
    uint32_t point;   /* the number of the measuring point */
    uint32_t rate;    /* the sampling rate in millihertz; 0 for an old file, which has none */
} bk_head;

/*
 * What section 0 of a pyramid file, or of the front of one, says. It is read and not judged: a done call does not say that the file
 * opens, nor that the width is 1, 2 or 4, nor that a new file has a rate other than 0, nor that so many samples follow;
 * bk_pyramid_open says that, and bk_pyramid_why without areas. The first 18 bytes are enough, of an old file the first 14. Done:
 * first and second are 0, and the fields are as stored; the rate of an old file is 0.
 *
 * Refused, in this order:
 *   6                over 67,108,978 bytes
 *   10 (length, 0)   under 4 bytes
 *   9 (0, found)     the count of section 0 is neither 10 nor 14: this is no pyramid file
 *   10 (length, 0)   section 0 is not whole: under 14 bytes where its count is 10, under 18 where it is 14
 * There is no 18: a stored rate of 0 is given as it is.
 *
 * Changed in 0.10.0: the rate, which was always 0; a new file needs 18 bytes here, where 14 were enough; 9 and 10, and the limit,
 * as in bk_pyramid_open.
 */
bk_head bk_pyramid_head(const uint8_t *file, size_t file_bytes);

/* What bk_pyramid_open returns: the answer, and the sampling rate in millihertz. It is 0 for an old file, and when refused. */
typedef struct bk_opened {
    bk_answer answer;
    uint32_t rate;
} bk_opened;

/*
 * The samples of the finest level that a pyramid file, or the front of one that was cut, has whole, into `output`: its
 * approximations at that level, or at level 0 the recording itself. `width`, in bytes, and `point` are those that the file
 * must have. A file cut in section 0 or 1 is refused; one cut later ends there, and the broken section is ignored.
 * Done: first is the level, second the count of samples, n halved, rounded up, so many times as the level says. The rate beside
 * them is that of the recording, whatever the level is, and 0 for an old file. With empty areas a file that opens is refused with
 * 7 (0, count). Room for file_bytes / width samples is always enough, where the width is 1, 2 or 4: one that comes from a head may
 * be any byte, so check it before you divide by it. Samples in `output` past the count are as they were. `work1` and `work2` are
 * room; what their first count samples hold after a done call is not said, and what is beyond them is as it was.
 *
 * Refused, in this order:
 *   9 (0, length)         a slice's byte length is no multiple of the width asked: the first of output, work1, work2; not asked
 *                         where that width is not 1, 2 or 4; file may have any
 *   6                     over 67,108,978 bytes
 *   10 (length, 0)        under 4 bytes
 *   9 (0, found)          the count of section 0 is neither 10 nor 14
 *   10 (length, 0)        section 0 is not whole: under 14 bytes where its count is 10, under 18 where it is 14
 *   8 (file's, asked)     the file's width is not the one asked, or that is not 1, 2 or 4
 *   1 (n, 3)              fewer than 3 samples
 *   6                     over 16,777,216 samples
 *   4                     0 levels, or more than the recording has
 *   11 (file's, asked)    the file's point is not the one asked
 *   18                    a new file whose rate is 0
 *   10 (length, 0)        the file ends in the count of section 1
 *   9 (section, found)    section by section: its count is not the one that n and the levels give
 *   10 (length, 0)        the file ends in the samples of section 1, whose count is right
 *   12 (left, 0)          bytes after the last section
 *   7 (have, count)       output holds fewer than count samples, then work1, then work2, both in samples
 * Which one it is: 9 (0, ..) is a length where one of the three byte lengths is ragged, else section 0's count; 9 with another
 * first number is that section's. 6 is the file's where file_bytes is over the limit, else the samples that its head says. 8 with
 * two equal numbers: the file has the width that was asked, and it is not 1, 2 or 4. 10 always means that too little is left:
 * nothing of this file can be shown. bk_pyramid_why, which needs no area, tells them apart too, but for a ragged length: it says at
 * which byte that shows, and its comment has what to do.
 *
 * Changed in 0.10.0: what is returned; new files are taken too; 18 is new. 4 to 13 bytes with a count of section 0 that is neither
 * 10 nor 14 are 9, and were 10. An old file with bytes behind it, 67,108,975 to 67,108,978 in all, is 12, and was 6.
 *
 * For example, of the 35 bytes that bk_pyramid_write_i8 makes of 0, 3, -4, 1, 7 at 2 levels for point 14 and the rate 1000, the
 * first 24 to 28 open at level 2 as -1, 3, the first 29 to 34 at level 1 as 3, -3, 7, and all 35 as the recording, each with the
 * rate 1000; fewer than 24 are refused with 10.
 */
bk_opened bk_pyramid_open(const uint8_t *file, size_t file_bytes, uint32_t width, uint32_t point, uint8_t *output,
                          size_t output_bytes, uint8_t *work1, size_t work1_bytes, uint8_t *work2, size_t work2_bytes);

/*
 * What bk_pyramid_why returns: its table says what the fields are for each number. All five are 0 for a whole file that has the
 * width and the point asked, and for nothing else.
 */
typedef struct bk_reason {
    uint64_t number;  /* of the refusal: 1, 4, 6, 8, 9, 10, 11, 12 or 18; 0 where the file opens, whole or cut */
    uint64_t section; /* the section at which the opener stopped; 0 also where the file is too long, and where it is whole */
    uint64_t place;   /* a byte, counted from 0: the first of the field or count at which the opener stopped; 0 also where the file
                         is too long; of a cut file_bytes, one past the last byte */
    uint64_t wanted;  /* what the check wants there, or a limit; of 8 and 11 what was asked for; of 12 the file's proper length; of
                         a cut how many bytes the part being read lacks */
    uint64_t found;   /* what stands there; of 12, and of 6 at place 0, file_bytes; of a cut 0 */
} bk_reason;

/*
 * Why a pyramid file, or the front of one, does not open, or opens cut. `file` is held to the checks of bk_pyramid_open, in their
 * order, asked for `width` and `point`. What is returned is the first that it does not pass; where it opens cut, the first section
 * that is not whole; of a whole file five zeros. The file has passed all checks before that. Of those after it nothing is said: put
 * it right, then ask again.
 *
 * It has no refusal of its own. No area is lent to it, and it changes no byte. So its number is never 7, nor the 9 of an area's
 * byte length: it is the number that bk_pyramid_open answers where its areas hold whole samples, and enough of them. Section 0 and
 * the counts are read, and no sample: a few bytes of each level, however long the recording is. bk_refusal_name and
 * bk_refusal_sentence take the number as (uint32_t)r.number; of 0 they say that the call is done, also where the file opens cut.
 *
 * The fields, and below them what to do. n and levels are the samples and the levels that bk_pyramid_head gives. A number is put at
 * a place as a u32: four bytes, little-endian.
 *
 *   number  section          place              wanted                    found
 *
 *   0       0                0                  0                         0
 *           The file is whole, and opens at level 0. Nothing is to be done.
 *   0       2 to levels + 1  file_bytes         bytes the part lacks      0
 *           The file ends in this section, or right before it. It opens with less detail, at level levels + 2 - section. For more
 *           detail fetch the rest, from byte place on; wanted is what the part being read lacks, perhaps only a count. If the file
 *           was not cut, section 0 is damaged, or bytes before its end were lost: fetch all of it again.
 *   1       0                6                  3, the fewest             n
 *           No file has so few samples: fetch it again.
 *   4       0                5                  the 5/3 depth of n        levels
 *           levels is 0, or more than the depth, so levels or n is damaged: fetch the file again.
 *   6       0                0                  67108978, the most        file_bytes
 *           No file has so many bytes, and none of them was read. If a file may stand in front, ask about the first wanted bytes.
 *   6       0                6                  16777216, the most        n
 *           No file has so many samples: fetch it again.
 *   8       0                4                  the width asked           the file's width
 *           If found is 1, 2 or 4, the file may be of that width: ask for it. If found is another number, or you know that the
 *           recording has the width asked, byte 4 is damaged: fetch the file again.
 *   9       0                0                  14                        the count of section 0
 *           This is no pyramid file, or the count is damaged: fetch it again. wanted is 14 also for what may have been an old file,
 *           whose count is 10. If nothing but the count is damaged, 14 put there mends a new file, and 10 an old one: try both in a
 *           copy, and go by the one with which the file is whole.
 *   9       1 to levels + 1  its count's place  the right count           its count
 *           The count is damaged, or bytes before it are damaged, lost or added: fetch the file again. If nothing but the count is
 *           damaged, wanted put there mends it: do that in a copy. In any case the answer is then no longer 9, or it is 9 of a
 *           later section. That a copy then opens does not show that it is mended: if the damage is elsewhere, the four bytes were
 *           a right count, or samples, and other samples may open.
 *   10      0 or 1           file_bytes         bytes the part lacks      0
 *           The file ends in this section, or right before it, and nothing of it can be shown: fetch the rest, as for number 0. If
 *           it was not cut, it may also be no pyramid file.
 *   11      0                10                 the point asked           the file's point
 *           The file says another point: it is another file, or its point is damaged. If it is the file that you want, ask for
 *           found; else look for the file of wanted.
 *   12      levels + 1       as wanted          the file's proper length  file_bytes
 *           By section 0 the file has wanted bytes: others were added behind it, or section 0 is damaged, for example the width in
 *           byte 4. If you know that section 0 is right, its count too, lend the first wanted bytes alone, which open as a whole
 *           file; else cut nothing off, and fetch the file again.
 *   18      0                14                 1, the least              0
 *           A new file whose rate is 0. If you know the rate, put it there, in millihertz; else fetch the file again.
 *
 * How many bytes a cut wants (10, and 0 with a section): those that the part being read lacks, and no more. That is the section's
 * count, 4 bytes, as long as these are not all there, and after that the section. A file that ends right behind a section, and is
 * not whole, wants the 4 bytes of the next count. When so many bytes have come, ask again. Once a count is there, its section is
 * cut, or the count is wrong, which is 9. Once section 0 is there, its fields are checked, and if they pass, section 1 is cut. Once
 * any other section is there, the next one is cut or, if it was the last, the file is whole. How long the whole file is can be told
 * once section 0 is there: bk_pyramid_sample's comment says how.
 *
 * After other calls ask here for the same width and point; after bk_book_add for the width that bk_pyramid_head gives. What
 * bk_pyramid_head refuses is checked before width and point: then ask for any, for example for 0 and 0. bk_pyramid_sample refuses a
 * file with this number; where it is 0, only with 13. Where bk_pyramid_section or bk_book_add says 10, the number here is 10, or 0
 * with the first section that is not whole.
 *
 * New in 0.11.0.
 *
 * For example, of the 35 bytes that bk_pyramid_write_i8 makes of 0, 3, -4, 1, 7 at 2 levels for point 14 and some rate, asked for
 * width 1 and point 14, in the order of the table: the first 10 are 10, 0, 10, 8, 0; the first 22 are 10, 1, 22, 2, 0; the first 24
 * are 0, 2, 24, 4, 0; the first 28 are 0, 2, 28, 1, 0; all 35 are 0, 0, 0, 0, 0; with two bytes behind them they are 12, 3, 35, 35,
 * 37; and with 9 in byte 24, where the count of section 2 begins, they are 9, 2, 24, 1, 9.
 */
bk_reason bk_pyramid_why(const uint8_t *file, size_t file_bytes, uint32_t width, uint32_t point);

/* What bk_pyramid_sample returns: the answer, and the sample as a signed number. When refused the sample is 0. */
typedef struct bk_sample {
    bk_answer answer;
    int64_t sample;
} bk_sample;

/*
 * One sample of a pyramid file, or of the front of one that was cut: the number that bk_pyramid_open with the same `width` and
 * `point` would put at `place` of its output. So `place` counts in what is given back: in the samples of the recording where the
 * file is whole, in the approximations of the finest whole level where it was cut. No room is lent and nothing is restored: a
 * sample takes a few bytes of each level, however long the recording is. Done: first and second are 0, and the sample stands
 * beside them; look at the number first, since 0 is a sample too.
 *
 * The answer tells neither the level nor the rate. The sample is the recording's own where the file is whole, that is where
 * file_bytes is what bk_pyramid_size says of the head's width, samples and levels, or 4 less for an old file, whose head has the
 * rate 0. Where the file was cut, ask bk_pyramid_open once which level is left, and then here for the column that bk_note_column
 * gives at that level. bk_pyramid_why tells both without room: whether the file is whole and, with the head's levels, which level
 * is left.
 *
 * Refused, in this order: as bk_pyramid_open from 6 (over 67,108,978 bytes) to 12, then
 *   13 (place, count)   place is not one of 0 to count - 1; count is what bk_pyramid_open would give back
 * There is no 7, and 9 with 0 is section 0's count: there is no area here. 8 with two equal numbers as in bk_pyramid_open.
 *
 * Changed in 0.10.0: new files, 18, 9, 10 and the limit, as in bk_pyramid_open.
 *
 * For example, of the 35 bytes that bk_pyramid_write_i8 makes of 0, 3, -4, 1, 7 at 2 levels for point 14, at any rate, place 2 is
 * -4. Of their first 31 bytes, which open at level 1 with 3 samples, place 1 is -3, and place 3 is refused with 13 (3, 3).
 */
bk_sample bk_pyramid_sample(const uint8_t *file, size_t file_bytes, uint32_t width, uint32_t point, uint64_t place);

/*
 * Where section `number` of a pyramid file has its bytes, after its count: nothing is copied, the caller reads its own file
 * there. Section 1 has the deepest approximations, section 2 to levels + 1 the details of the deepest level down to level 1.
 * Sections after it are not looked at, so it may be asked of a file that was cut behind it.
 * Done: first is the place of its first byte in `file`, second how many bytes it has.
 *
 * Refused, in this order: as bk_pyramid_open from 6 (over 67,108,978 bytes) to 18, then
 *   13 (number, levels + 1)   number is 0 or above levels + 1
 *   9 (section, found)        section by section up to this one: its count is not the one that n and the levels give
 *   10 (length, 0)            the file ends in this section or before it
 * Which 10 it is: where bk_pyramid_head answers 10 too, section 0 is not whole; else the section asked for is not, and one with a
 * smaller number may still be: bk_pyramid_why names the first that is not. 8 with two equal numbers as in bk_pyramid_open. 9 with 0
 * is section 0's count: there is no area here.
 *
 * Changed in 0.10.0: new files, 18, 9, 10 and the limit, as in bk_pyramid_open.
 */
bk_answer bk_pyramid_section(const uint8_t *file, size_t file_bytes, uint32_t width, uint32_t point, uint32_t number);

/*
 * The route book: up to 64 whole pyramid files in one area, old and new ones, found by the number of their measuring point.
 *
 * bk_book_fresh makes an empty book of an area, bk_book_add copies a file into it, bk_book_find says where the file of a point
 * stands, bk_book_withdraw takes one out and moves those behind it down, and bk_book_room says how much room is free. A point is
 * found by its number alone, never by its place in a list. A withdrawal moves every file that was added after the withdrawn one,
 * with the same bytes. So a place holds only until the next bk_book_withdraw or bk_book_fresh: keep the number and find it again.
 * Do not test a place from before by opening it: the bytes left there may open for a while. Adding moves nothing.
 *
 * The area is the book, and the library keeps nothing beside it. It needs no alignment, and may be copied, kept on a disk and lent
 * again elsewhere. It may be lent longer than before, which is more free room, or shorter, as long as the files that it holds fit.
 * A book that was cut further is refused, with 9 (0, 0) or 7: a file taken from a book may be cut as any file may, the book may
 * not. Threads may find, ask for the room and read files at the same time. While one adds, withdraws or makes the book fresh, no
 * other may use the area, nor a file that it found there.
 *
 * Layout, with numbers as in a file (docs/FORMAT.md has it with an example, byte by byte): in bytes 0 to 3 the count of entries,
 * 64; from byte 4 on the entries, 14 bytes each: the first 14 bytes of the files that are held, in the order in which these were
 * added, then zeros; an entry does not have the rate, which is in the file alone; in bytes 900 to 903 how many bytes all these
 * files have, a u32; from byte 904 on the files, without gaps, in the order of the entries. What is behind them is free room: no
 * call reads it, and only bk_book_add writes it. A withdrawal wipes nothing: the last bytes that the data had, as many as the
 * withdrawn file had, stay behind what is left of it until a file is added over them. If it was the last file it stays there whole.
 * The free room is the end of the area, as many bytes as the first number of bk_book_room: overwrite these where that matters, or
 * keep on a disk only what is before them.
 *
 * Refused by every call, in this order, before what the call itself lists:
 *   6               the area has over 4,294,967,295 bytes
 *   7 (have, 904)   the area has under 904 bytes, which an empty book has
 *   9 (0, 0)        not by bk_book_fresh: a directory or a count that no calls could have left. The first count is not 64; or of
 *                   the entries before the first whose own first four bytes are 0, one is not what any file could begin with
 *                   (count 10 or 14, width 1, 2 or 4, 3 to 16,777,216 samples, 1 level up to their depth), or two have the same
 *                   point; or a byte of the other entries is not 0; or the second count is not the sum of the sizes that the
 *                   entries tell; or the area is too short for these. The bytes of the files are not looked at
 */

/* The most points of a book, and the bytes of an empty one. */
#define BK_BOOK_POINTS 64
#define BK_BOOK_EMPTY 904

/*
 * Makes an empty book of `area`, whatever stood in it: its first 904 bytes are written, and the others are as they were. The files
 * of a book that stood there are no longer found.
 * Done: first and second are 0. Refused: 6 and 7, as above, and nothing else.
 */
bk_answer bk_book_fresh(uint8_t *area, size_t area_bytes);

/*
 * Copies the pyramid file in `file` into the book in `area`, behind the files that it holds, for `point`, which must be the file's
 * own. Only a whole file is kept, of either kind. It may have any of the three widths, and is opened for the one that it says.
 * `file` and `area` must not overlap: a file cannot be added from where it stands in the same book, nor from its free room. A file
 * of another book may be added, where the two areas do not overlap. Done: first and second are 0.
 *
 * Refused, in this order, after what every book call refuses:
 *   6                    file: over 67,108,978 bytes
 *   10 (length, 0)       file: under 4 bytes
 *   9 (0, found)         the count of section 0 is neither 10 nor 14
 *   10 (length, 0)       section 0 is not whole: under 14 bytes where its count is 10, under 18 where it is 14
 *   8 (width, width)     the file's width is not 1, 2 or 4
 *   1 (n, 3)             fewer than 3 samples
 *   6                    over 16,777,216 samples
 *   4                    0 levels, or more than the recording has
 *   11 (file's, asked)   the file's point is not the one asked
 *   18                   a new file whose rate is 0
 *   10 (length, 0)       section by section: the file ends in its count
 *   9 (section, found)   or its count is not the one that n and the levels give
 *   10 (length, 0)       or the file ends in its samples
 *   12 (left, 0)         bytes after the last section
 *   15                   the book holds a file of this point. Before you withdraw it to keep this one: this one is whole, and
 *                        fits in its place if its size is at most the free room and the size that bk_book_find says together
 *   14                   the book holds 64 points, or the file has more bytes than the free room
 * From 6 to 12 these are what bk_pyramid_open says of the file, asked for its own width, but that it is refused with 10 also where
 * a part of it would open. So bk_pyramid_why, asked for its own width and `point`, says at which byte that shows.
 * Which one it is: 7 is always the area's, and 10 always the file's. 6 is the area's where area_bytes is over 4,294,967,295; else
 * the file's where file_bytes is over 67,108,978; else the samples that its head says. 9 (0, 0) is the book's where bk_book_room
 * answers the same; where bk_book_room is done, and for every other 9, it is the file's. 14 is the 64 points where bk_book_room
 * says 64, else the free room.
 *
 * Changed in 0.10.0: new files, which need 4 bytes more room than old ones; 18, 9, 10 and the limit, as in bk_pyramid_open.
 */
bk_answer bk_book_add(uint8_t *area, size_t area_bytes, const uint8_t *file, size_t file_bytes, uint32_t point);

/*
 * Where the file of `point` stands in the book in `area`. Nothing is copied: the caller reads its own area there, as in
 * bk_pyramid_open(area + r.first, r.second, ..). A shorter front of it opens, or is refused with 10, as that of any file.
 * Done: first is the place of its first byte, counted from the first byte of the area, second how many bytes it has; together they
 * are at most area_bytes. Look at the number of the answer first: the two numbers of a 7 are no place. The file may start at an odd
 * byte, so do not read its samples through a pointer to int16_t or int32_t.
 *
 * Refused, after what every book call refuses:
 *   16   the book holds no file of this point
 */
bk_answer bk_book_find(const uint8_t *area, size_t area_bytes, uint32_t point);

/*
 * Takes the file of `point` out of the book in `area`. The files behind it are moved down, byte for byte and in their order, so
 * that the free room grows by its size and is in one piece. Done: first and second are 0.
 *
 * Refused, after what every book call refuses:
 *   16   the book holds no file of this point
 */
bk_answer bk_book_withdraw(uint8_t *area, size_t area_bytes, uint32_t point);

/*
 * How much room is free in the book in `area`, and how many points it holds. Done: first is the free room in bytes, which is
 * area_bytes less 904 and less the sizes of the files that are held; second is the number of points, 0 to 64. A whole file whose
 * point is not held can be added exactly where its size is at most first and second is under 64.
 *
 * Refused: what every book call refuses, and nothing else.
 */
bk_answer bk_book_room(const uint8_t *area, size_t area_bytes);

/*
 * Where a note shows: a note stands at a sample, a drawn column at a coefficient, and the two kinds of number are never mixed.
 * At `level`, from 1 to the 5/3 depth, sample s of n shows at approximation floor(s / 2^level).
 * Done: first is the column, which is the number of that approximation.
 *
 * Refused, in this order:
 *   6                    over 16,777,216 samples
 *   13 (level, depth)    level is 0 or above the 5/3 depth of n
 *   13 (sample, n)       sample is not one of 0 to n - 1
 * Which 13 it is: the level's where level is 0 or above what bk_cdf53_depth says of n, else the sample's.
 *
 * For example, of 20 samples at level 1, sample 7 shows at column 3.
 */
bk_answer bk_note_column(uint64_t n, uint32_t level, uint64_t sample);

/*
 * The samples that an approximation, and so a column, is made of: approximation p of `level` spans samples p * 2^level - r to
 * p * 2^level + r, with r = 2^(level + 1) - 2, but none before 0 or after n - 1. In integer 5/3 no sample outside the span can
 * change the approximation, whatever the values are, also where one wraps. The span of a sample's column holds the sample; the
 * spans of a level cover all n samples, and overlap. A span has at most 2^(level + 2) - 3 samples. Approximation p is sample p of
 * what bk_pyramid_open gives at `level`, and, of integers, of the approximations of bk_cdf53_dwt_T of `level` levels.
 * Done: first is the first sample of the span of approximation `place`, second the last.
 *
 * Refused, in this order:
 *   6                    over 16,777,216 samples
 *   13 (level, depth)    level is 0 or above the 5/3 depth of n
 *   13 (place, places)   place is not one of 0 to places - 1; the level has places = ceil(n / 2^level) approximations
 * Which 13 it is: the level's where level is 0 or above what bk_cdf53_depth says of n, else the place's.
 *
 * Changed in 0.6.0: before, the answer was p * 2^level to (p + 1) * 2^level - 1, no further than n - 1, the samples that show at
 * the column, 2^level of them at most.
 *
 * For example, of 20 samples at level 1, column 3 spans samples 4 to 8; of 5 samples, column 2 spans samples 2 to 4.
 */
bk_answer bk_note_span(uint64_t n, uint32_t level, uint64_t place);

/*
 * The same of a detail: detail p of `level` spans samples p * 2^level - r to (p + 1) * 2^level + r, with r = 2^level - 2, but
 * none before 0 or after n - 1. In integer 5/3 no sample outside the span can change the detail. A span has at most
 * 3 * 2^level - 3 samples. Of integers, detail p is sample p of the details of bk_cdf53_dwt_T of `level` levels, and sample
 * ceil(n / 2^level) + p of the output of bk_cdf53_multi_dwt_T of `level` levels or more; in a file whose head tells `level` levels
 * or more it is sample p of section levels + 2 - level, with the head's levels.
 * Done: first is the first sample of the span of detail `place`, second the last.
 *
 * Refused, in this order:
 *   6                    over 16,777,216 samples
 *   13 (level, depth)    level is 0 or above the 5/3 depth of n
 *   13 (place, places)   place is not one of 0 to places - 1; the level has places = floor(m / 2) details, where m is its input
 *                        length, ceil(n / 2^(level - 1))
 * Which 13 it is: the level's where level is 0 or above what bk_cdf53_depth says of n, else the place's.
 *
 * For example, of 20 samples at level 1, detail 3 spans samples 6 to 8; of 4 samples, detail 1 spans samples 2 to 3.
 */
bk_answer bk_note_detail_span(uint64_t n, uint32_t level, uint64_t place);

/* The bands, as a window asks for them. */
enum { BK_APPROXIMATIONS = 0, BK_DETAILS = 1 };

/*
 * A window on a band, to draw a part of it: `count` samples from `start`, of `approx` where `band` is 0, of `details` where it
 * is any other number. Nothing is copied, the caller reads its own band there.
 * Done: first is the place of its first byte in that band, second how many bytes it has.
 *
 * Refused, in this order:
 *   9 (0, length)        a slice's byte length is no multiple of the width: the first of approx, details, whichever was asked
 *   13 (start, samples)  count is 0, or the window runs past the end of the band, which has so many samples
 */
bk_answer bk_band_window_i8(const uint8_t *approx, size_t approx_bytes, const uint8_t *details, size_t details_bytes,
                            uint32_t band, uint64_t start, uint64_t count);
bk_answer bk_band_window_i16(const uint8_t *approx, size_t approx_bytes, const uint8_t *details, size_t details_bytes,
                             uint32_t band, uint64_t start, uint64_t count);
bk_answer bk_band_window_i32(const uint8_t *approx, size_t approx_bytes, const uint8_t *details, size_t details_bytes,
                             uint32_t band, uint64_t start, uint64_t count);
bk_answer bk_band_window_f32(const uint8_t *approx, size_t approx_bytes, const uint8_t *details, size_t details_bytes,
                             uint32_t band, uint64_t start, uint64_t count);
bk_answer bk_band_window_f64(const uint8_t *approx, size_t approx_bytes, const uint8_t *details, size_t details_bytes,
                             uint32_t band, uint64_t start, uint64_t count);

#ifdef __cplusplus
}
#endif

#endif
