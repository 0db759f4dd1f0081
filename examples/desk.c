/*
 * A small review desk over Beksanour, in plain C99 (it compiles as C++17 too).
 *
 *   ./install.sh PREFIX
 *   export PKG_CONFIG_PATH=PREFIX/lib/pkgconfig LD_LIBRARY_PATH=PREFIX/lib
 *   cc examples/desk.c $(pkg-config --cflags --libs beksanour) -o desk
 *
 *   desk          a tour: four recordings are made and kept as pyramid files, with their sampling rates. Files are cut, opened,
 *                 drawn and marked with notes, and kept in a route book, where one is opened and one is withdrawn. An old file,
 *                 which has no rate, is opened too. A file is damaged, cut and asked for what it is not, and each time it is said
 *                 why it does not open, or opens cut. One recording comes in pieces. Then the library is made to refuse with every
 *                 refusal's number
 *   desk FILE     what a pyramid file says of itself, the level that it opens at, its rate and its overview; and why, where it
 *                 does not open, or opens cut
 *   desk --help   this
 *
 * It ends with 0 when all went well; `desk FILE` ends with the number of the refusal, one of 1, 4, 6, 8, 9, 10, 12 and 18, where
 * the library refuses the file. 64: the call is wrong, or the file cannot be read. 70: no memory, an answer that was not expected,
 * or what it prints could not be written.
 */
#include <stdio.h>
#include <stdlib.h>
#include <string.h>

#include "beksanour.h"

enum { COLUMNS = 64, ROWS = 9, NOTES = 8, BAD_CALL = 64, BAD_TURN = 70 };

/* ---- small helpers */

/* Room for so many bytes; never null, so that an empty area has a pointer too. */
static uint8_t *room(size_t bytes) {
    uint8_t *p = (uint8_t *)malloc(bytes ? bytes : 1);
    if (!p) {
        fprintf(stderr, "desk: no memory for %lu bytes\n", (unsigned long)bytes);
        exit(BAD_TURN);
    }
    return p;
}

/* A sample of 1, 2 or 4 bytes, little-endian, two's complement: as it is stored, and as a number. */
static void put_sample(uint8_t *p, uint32_t width, int32_t value) {
    uint32_t i;
    for (i = 0; i < width; i++) p[i] = (uint8_t)((uint32_t)value >> (8 * i));
}

static int64_t get_sample(const uint8_t *p, uint32_t width) {
    int64_t value = 0, half = (int64_t)1 << (8 * width - 1);
    uint32_t i;
    for (i = 0; i < width; i++) value |= (int64_t)p[i] << (8 * i);
    return value < half ? value : value - 2 * half;
}

/* A refusal in words: what was tried, the number, its two numbers, its name and its sentence. */
static void say_refused(const char *tried, bk_answer a) {
    printf("%s: refused %lu (%llu, %llu), %s\n    %s\n", tried, (unsigned long)a.number, (unsigned long long)a.first,
           (unsigned long long)a.second, bk_refusal_name(a.number), bk_refusal_sentence(a.number));
}

/* Ends the program where an answer is not the one that this program can count on. */
static void expect(const char *tried, bk_answer a, uint32_t number) {
    if (a.number == number) return;
    say_refused(tried, a);
    printf("    that was not expected\n");
    exit(BAD_TURN);
}

/* The end of a line that says what opens: the rate of the recording, in samples a second; an old file has none. */
static void say_rate(uint32_t rate) {
    if (rate == 0)
        printf(", without a rate\n");
    else
        printf(", recorded at %lu.%03lu Hz\n", (unsigned long)(rate / 1000), (unsigned long)(rate % 1000));
}

/* ---- why a file does not open, or opens cut: each reason in one sentence, for the person at the desk */

/* How many bytes the whole file has, by a head that passes the checks: an old file, which has no rate, 4 less than a new one. */
static uint64_t whole_length(bk_head head) {
    bk_answer size = bk_pyramid_size(head.width, head.samples, head.levels);
    expect("the size of the whole file", size, BK_DONE);
    return head.rate == 0 ? size.first - 4 : size.first;
}

static const char *bytes_word(unsigned long long count) { return count == 1 ? "byte" : "bytes"; }

/* A cut: which part is not whole, and how many bytes are missing, in all where the header is there, and at least of that part. */
static void say_cut(bk_reason r, bk_head head) {
    unsigned long long ends = r.place, wanted = r.wanted, lacks;
    if (ends == 0) {
        printf("The file is empty.\n");
        return;
    }
    printf("The file ends after %llu %s, before ", ends, bytes_word(ends));
    if (r.section == 0) {
        printf("its header is whole: it lacks at least %llu %s.\n", wanted, bytes_word(wanted));
        return;
    }
    if (r.section == 1)
        printf("its coarsest level is whole, and does not open");
    else
        printf("section %llu of %lu is whole, and opens with less detail", (unsigned long long)r.section,
               (unsigned long)head.levels + 1);
    lacks = whole_length(head) - ends;
    printf(": by its header it lacks %llu %s", lacks, bytes_word(lacks));
    if (r.section <= head.levels) printf(", at least %llu of them there", wanted); /* in the last one all of them are */
    printf(".\n");
}

/* A width that is not the one asked: the file's own may be asked for, or is no width. */
static void say_width(unsigned long long wanted, unsigned long long found) {
    if (found == 1 || found == 2 || found == 4)
        printf("The file has samples of %llu bits, and %llu bits were asked for.\n", 8 * found, 8 * wanted);
    else
        printf("The header says samples of %llu bits, and a file has 8, 16 or 32: fetch it again.\n", 8 * found);
}

/* A wrong count: the first of the file, or that of a section. */
static void say_count(bk_reason r) {
    if (r.section == 0)
        printf("This is no pyramid file, or its beginning is damaged (the first number is %llu, not %llu or 10): fetch it again.\n",
               (unsigned long long)r.found, (unsigned long long)r.wanted);
    else
        printf("At byte %llu the count of section %llu is %llu, and by the header should be %llu: fetch the file again.\n",
               (unsigned long long)r.place, (unsigned long long)r.section, (unsigned long long)r.found,
               (unsigned long long)r.wanted);
}

/* Levels that a recording of so many samples as the header says cannot have. */
static void say_levels(unsigned long long wanted, unsigned long long found) {
    if (found == 0)
        printf("The header says 0 levels, and no file has fewer than 1: fetch it again.\n");
    else
        printf("The header says %llu levels, and its number of samples allows %llu at most: fetch the file again.\n", found,
               wanted);
}

/* A length above its limit: that of the file, of which no more than found bytes were read, or that of the recording. */
static void say_too_long(bk_reason r) {
    unsigned long long wanted = r.wanted, found = r.found;
    if (r.place == 0)
        printf("The file has %llu bytes or more, and no pyramid file has more than %llu: fetch it again.\n", found, wanted);
    else
        printf("The header says %llu samples, and no file has more than %llu: fetch it again.\n", found, wanted);
}

/* A reason as a sentence, beside what the file says of itself. */
static void say_reason(bk_reason r, bk_head head) {
    unsigned long long wanted = r.wanted, found = r.found;
    switch (r.number) {
    case BK_DONE:
        if (r.section != 0)
            say_cut(r, head);
        else
            printf("The file is whole.\n");
        break;
    case BK_MIN_FILTER_SIZE:
        printf("The header says %llu samples, and no file has fewer than %llu: fetch it again.\n", found, wanted);
        break;
    case BK_BUFFER_WAS_TOO_SMALL_FOR_LEVEL: say_levels(wanted, found); break;
    case BK_TOO_LONG: say_too_long(r); break;
    case BK_OTHER_WIDTH: say_width(wanted, found); break;
    case BK_BAD_COUNT: say_count(r); break;
    case BK_CUT_SHORT: say_cut(r, head); break;
    case BK_OTHER_POINT: printf("The file is of point %llu, and point %llu was asked for.\n", found, wanted); break;
    case BK_TRAILING:
        printf("By its header the file ends after %llu of its %llu bytes: the others were added, or the header is damaged.\n",
               wanted, found);
        break;
    case BK_NO_RATE: printf("The header says a sampling rate of 0, which is none: fetch the file again.\n"); break;
    default: printf("There is no sentence for %llu.\n", (unsigned long long)r.number);
    }
}

/*
 * Says why opening a file for a width and a point answered this number, also where it is 0 and the file was cut; of a whole file
 * nothing. Where the head was refused its width and point, which are 0, do as well as any.
 */
static void say_why(const uint8_t *file, size_t length, uint32_t width, uint32_t point, uint32_t number) {
    bk_reason r = bk_pyramid_why(file, length, width, point);
    if (r.number != number) {
        printf("    the reason is another: %lu\n", (unsigned long)r.number);
        exit(BAD_TURN);
    }
    if (r.number == BK_DONE && r.section == 0) return;
    printf("    ");
    say_reason(r, bk_pyramid_head(file, length));
}

/* ---- recordings: made by integers alone, so that they are the same everywhere */

typedef struct recording {
    const char *where;
    uint32_t point, width;
    uint32_t rate; /* in millihertz: 1,000 times the samples a second */
    size_t n;
    uint8_t *samples; /* n samples of width bytes each */
} recording;

/* A wave like a sine: 65,536 phases, values from -16,384 to 16,384, each half a parabola. */
static int32_t wave(uint64_t phase) {
    int64_t p = (int64_t)(phase % 32768), y = p * (32768 - p) / 16384;
    return (int32_t)(phase % 65536 < 32768 ? y : -y);
}

/* A wave that has so many periods in n samples, at sample k. */
static int32_t tone(uint64_t k, uint64_t n, uint64_t periods) { return wave(k * periods * 65536 / n); }

/* A bearing: the shaft's slow sway, its turning, and from sample 2,600 on a knock every 850 samples that rings and fades. */
static int32_t bearing(uint64_t k, uint64_t n) {
    int32_t value = tone(k, n, 2) / 2 + tone(k, n, 90) / 8;
    if (k >= 2600) {
        int32_t since = (int32_t)((k - 2600) % 850);
        if (since < 120) value += tone((uint64_t)since, 120, 6) / 120 * (120 - since) / 2;
    }
    return value;
}

/* A gear box: two tones that are close to each other beat; 32 bits, since they are large. */
static int32_t gears(uint64_t k, uint64_t n) { return 20000 * tone(k, n, 3) + 20000 * tone(k, n, 4); }

/* A machine that runs up: it turns faster and faster. */
static int32_t run_up(uint64_t k, uint64_t n) { return wave(k * k * 8 * 65536 / (n * n)) / 4; }

/* A fan: its turning, and its blades, five to a turn. */
static int32_t fan(uint64_t k, uint64_t n) { return tone(k, n, 8) / 4 + tone(k, n, 40) / 16; }

static recording record(const char *where, uint32_t point, uint32_t width, uint32_t rate, size_t n,
                        int32_t (*at)(uint64_t, uint64_t)) {
    recording r;
    size_t k;
    r.where = where;
    r.point = point;
    r.width = width;
    r.rate = rate;
    r.n = n;
    r.samples = room(n * width);
    for (k = 0; k < n; k++) put_sample(r.samples + k * width, width, at(k, n));
    return r;
}

/* ---- pyramid files */

typedef struct pyramid_file {
    uint8_t *bytes;
    size_t length;
} pyramid_file;

/* The file of a recording, at as many levels as it has. */
static pyramid_file keep(const recording *r) {
    pyramid_file f;
    bk_answer depth = bk_cdf53_depth(r->n), size, done;
    uint32_t levels = (uint32_t)depth.first;
    size_t bytes = r->n * r->width;
    uint8_t *work1 = room(bytes), *work2 = room(bytes);
    expect("the depth of a recording", depth, BK_DONE);
    size = bk_pyramid_size(r->width, r->n, levels);
    expect("the size of a file", size, BK_DONE);
    f.length = (size_t)size.first;
    f.bytes = room(f.length);
    if (r->width == 2)
        done = bk_pyramid_write_i16(r->samples, bytes, levels, r->point, r->rate, f.bytes, f.length, work1, bytes, work2, bytes);
    else
        done = bk_pyramid_write_i32(r->samples, bytes, levels, r->point, r->rate, f.bytes, f.length, work1, bytes, work2, bytes);
    expect("writing a file", done, BK_DONE);
    free(work1);
    free(work2);
    printf("point %lu, %s: %lu bits, %lu samples, %lu levels, %lu bytes\n", (unsigned long)r->point, r->where,
           (unsigned long)r->width * 8, (unsigned long)r->n, (unsigned long)levels, (unsigned long)f.length);
    return f;
}

/* What a whole file says of itself. */
static bk_head head_of(const pyramid_file *f) {
    bk_head head = bk_pyramid_head(f->bytes, f->length);
    expect("reading a head", head.answer, BK_DONE);
    return head;
}

/* What the front of a file lets see. */
typedef struct opened {
    bk_head head;
    uint32_t level;
    size_t count;
    uint32_t rate;    /* of the recording, in millihertz; 0 for an old file */
    uint8_t *samples; /* count samples of head.width bytes each; null where the front does not open */
} opened;

/* Opens the front of a file for its own width and point. Empty areas first, which tell how much room is needed. */
static bk_answer open_front(const uint8_t *file, size_t length, opened *o) {
    uint8_t empty[3], *work1, *work2;
    bk_opened a;
    size_t bytes;
    memset(o, 0, sizeof *o);
    o->head = bk_pyramid_head(file, length);
    if (o->head.answer.number != BK_DONE) return o->head.answer;
    a = bk_pyramid_open(file, length, o->head.width, o->head.point, empty, 0, empty + 1, 0, empty + 2, 0);
    if (a.answer.number != BK_NO_ROOM) return a.answer;
    bytes = (size_t)a.answer.second * o->head.width;
    o->samples = room(bytes);
    work1 = room(bytes);
    work2 = room(bytes);
    a = bk_pyramid_open(file, length, o->head.width, o->head.point, o->samples, bytes, work1, bytes, work2, bytes);
    expect("opening with the room that was asked for", a.answer, BK_DONE);
    free(work1);
    free(work2);
    o->level = (uint32_t)a.answer.first;
    o->count = (size_t)a.answer.second;
    o->rate = a.rate;
    return a.answer;
}

/* Opens a file at a level from 1 to its levels: only the front through section levels + 1 - level is lent. */
static bk_answer open_at(const uint8_t *file, size_t length, const bk_head *head, uint32_t level, opened *o) {
    bk_answer last = bk_pyramid_section(file, length, head->width, head->point, head->levels + 1 - level);
    memset(o, 0, sizeof *o);
    if (last.number != BK_DONE) return last;
    return open_front(file, (size_t)(last.first + last.second), o);
}

/* Of a file that opens: the finest level, not finer than what is left, whose columns fit the screen; else the deepest. */
static uint32_t fitting_level(const bk_head *head, uint32_t finest) {
    uint32_t level = finest;
    while (level < head->levels && (((uint64_t)head->samples + ((uint64_t)1 << level) - 1) >> level) > COLUMNS) level++;
    return level;
}

/* ---- drawing */

typedef struct range {
    int64_t low, high;
} range;

/* The least and the greatest of some samples. */
static range range_of(const uint8_t *samples, uint32_t width, size_t count) {
    range r;
    size_t i;
    r.low = r.high = get_sample(samples, width);
    for (i = 1; i < count; i++) {
        int64_t value = get_sample(samples + i * width, width);
        if (value < r.low) r.low = value;
        if (value > r.high) r.high = value;
    }
    return r;
}

static int row_of(range all, int64_t value) {
    return all.high == all.low ? 0 : (int)((all.high - value) * (ROWS - 1) / (all.high - all.low));
}

/* One row of a drawing, without spaces at its end: a column has a star from the sample before it to its own. */
static void draw_row(int row, int zero, range all, const uint8_t *samples, uint32_t width, size_t count) {
    size_t each = (count + COLUMNS - 1) / COLUMNS, columns = (count + each - 1) / each, used = 0, i;
    char line[COLUMNS];
    for (i = 0; i < columns; i++) {
        size_t start = i ? i * each - 1 : 0, end = (i + 1) * each < count ? (i + 1) * each : count;
        range r = range_of(samples + start * width, width, end - start);
        line[i] = row_of(all, r.high) <= row && row <= row_of(all, r.low) ? '*' : row == zero ? '-' : ' ';
        if (line[i] != ' ') used = i + 1;
    }
    printf("%.*s\n", (int)used, line);
}

/* Samples as rows of text, beside their greatest and least value and 0. Where they are too many, a column shows several. */
static void draw(const uint8_t *samples, uint32_t width, size_t count) {
    range all = range_of(samples, width, count);
    int row, zero = all.low < 0 && all.high > 0 ? row_of(all, 0) : -1;
    for (row = 0; row < ROWS; row++) {
        if (row == 0 || row == ROWS - 1 || row == zero)
            printf("%12lld |", (long long)(row == 0 ? all.high : row == zero ? 0 : all.low));
        else
            printf("%12s |", "");
        draw_row(row, zero, all, samples, width, count);
    }
}

/* A line below a drawing, with a mark at some columns, which stand in order. */
static void draw_marks(const uint64_t *columns, size_t count) {
    uint64_t at = 0;
    size_t i;
    printf("%14s", "");
    for (i = 0; i < count; i++) {
        for (; at < columns[i]; at++) putchar(' ');
        if (at == columns[i]) {
            putchar('^');
            at++;
        }
    }
    putchar('\n');
}

static void say_level(const opened *o) {
    printf("level %lu, %lu columns, one for every %lu samples\n", (unsigned long)o->level, (unsigned long)o->count,
           (unsigned long)1 << o->level);
}

/* ---- the tour */

/* Cuts a file at given places, and says what is left to see, and why it is no more. */
static void tour_cuts(const pyramid_file *f, const size_t *places, size_t count) {
    size_t i;
    for (i = 0; i < count; i++) {
        opened o;
        char tried[60];
        bk_answer a = open_front(f->bytes, places[i], &o);
        snprintf(tried, sizeof tried, "the first %lu of %lu bytes", (unsigned long)places[i], (unsigned long)f->length);
        if (a.number == BK_DONE) {
            printf("%s: level %lu, %lu samples", tried, (unsigned long)o.level, (unsigned long)o.count);
            say_rate(o.rate);
        } else {
            say_refused(tried, a);
        }
        say_why(f->bytes, places[i], o.head.width, o.head.point, a.number);
        free(o.samples);
    }
}

/* Opens a file of a version before 0.10.0, five samples of 8 bits, whole and without its last four bytes: it has no rate. */
static void tour_old_file(void) {
    static uint8_t old[31] = {10, 0, 0, 0, 1, 2, 5, 0, 0, 0, 14, 0, 0, 0, /* section 0, which ends with the point */
                              2, 0, 0, 0, 255, 3, 1, 0, 0, 0, 248, 2, 0, 0, 0, 5, 0};
    static const size_t cuts[] = {31, 27};
    pyramid_file f;
    f.bytes = old;
    f.length = sizeof old;
    tour_cuts(&f, cuts, 2);
}

/* A file of 35 bytes with one byte changed, so many of its bytes lent, and what it is opened for. */
typedef struct damage {
    const char *what;
    size_t place;
    uint8_t byte;
    size_t length;
    uint32_t width, point;
} damage;

/* Damages a file, which has room for 37 bytes, and says why it does not open, or opens cut; then the damage is undone. */
static void tour_damage(uint8_t *file, const damage *d) {
    uint8_t before = file[d->place];
    bk_reason r;
    file[d->place] = d->byte;
    r = bk_pyramid_why(file, d->length, d->width, d->point);
    printf("%s: number %llu, section %llu, place %llu, wanted %llu, found %llu\n    ", d->what, (unsigned long long)r.number,
           (unsigned long long)r.section, (unsigned long long)r.place, (unsigned long long)r.wanted, (unsigned long long)r.found);
    say_reason(r, bk_pyramid_head(file, d->length));
    file[d->place] = before;
}

/* Puts the count that is wanted where the count of a section is wrong: the file is whole again, if nothing else was damaged. */
static void tour_mend(uint8_t *file, size_t length, uint32_t width, uint32_t point) {
    bk_reason r = bk_pyramid_why(file, length, width, point);
    if (r.number != BK_BAD_COUNT) {
        printf("    no count is wrong\n");
        exit(BAD_TURN);
    }
    put_sample(file + r.place, 4, (int32_t)r.wanted);
    printf("the count %llu put at byte %llu: ", (unsigned long long)r.wanted, (unsigned long long)r.place);
    say_reason(bk_pyramid_why(file, length, width, point), bk_pyramid_head(file, length));
}

/* Every reason but that of a file over the limit, on the file of five samples of 8 bits, two levels, point 14. */
static void tour_reasons(void) {
    static const damage all[] = {{"as it was written", 0, 14, 35, 1, 14},
                                 {"only 10 bytes", 0, 14, 10, 1, 14},
                                 {"11 as the first count", 0, 11, 35, 1, 14},
                                 {"opened for 16 bits", 0, 14, 35, 2, 14},
                                 {"a width of 3", 4, 3, 35, 1, 14},
                                 {"2 samples", 6, 2, 35, 1, 14},
                                 {"16,777,221 samples", 9, 1, 35, 1, 14},
                                 {"3 levels", 5, 3, 35, 1, 14},
                                 {"opened for point 15", 0, 14, 35, 1, 15},
                                 {"the rate 0", 16, 0, 35, 1, 14},
                                 {"only 22 bytes", 0, 14, 22, 1, 14},
                                 {"only 28 bytes", 0, 14, 28, 1, 14},
                                 {"9 as the count of section 2", 24, 9, 35, 1, 14},
                                 {"2 bytes behind it", 0, 14, 37, 1, 14}};
    static const uint8_t x[5] = {0, 3, 252, 1, 7};
    uint8_t file[37] = {0}, work1[5], work2[5];
    size_t i;
    /* At this rate the third of its four bytes, which is byte 16 of the file, is the only one that is not 0. */
    expect("writing a file", bk_pyramid_write_i8(x, 5, 2, 14, 16384000, file, 35, work1, 5, work2, 5), BK_DONE);
    for (i = 0; i < sizeof all / sizeof all[0]; i++) tour_damage(file, &all[i]);
    file[24] = 9;
    tour_mend(file, 35, 1, 14);
}

/* Draws the level of a file that fits the screen, from the front of the file alone. */
static opened tour_overview(const recording *r, const pyramid_file *f) {
    bk_head head = head_of(f);
    opened o;
    expect("opening for an overview", open_at(f->bytes, f->length, &head, fitting_level(&head, 0), &o), BK_DONE);
    printf("point %lu, %s: ", (unsigned long)head.point, r->where);
    say_level(&o);
    draw(o.samples, o.head.width, o.count);
    return o;
}

/* Where each section of a file is. Nothing is copied: the bytes are read where they stand. */
static void tour_sections(const pyramid_file *f) {
    bk_head head = head_of(f);
    uint32_t number;
    for (number = 1; number <= head.levels + 1; number++) {
        bk_answer a = bk_pyramid_section(f->bytes, f->length, head.width, head.point, number);
        range r;
        expect("looking up a section", a, BK_DONE);
        r = range_of(f->bytes + a.first, head.width, (size_t)a.second / head.width);
        printf("section %2lu: %s of level %lu at byte %lu, %lu bytes, from %lld to %lld\n", (unsigned long)number,
               number == 1 ? "approximations" : "details",
               (unsigned long)(number == 1 ? head.levels : head.levels + 2 - number), (unsigned long)a.first,
               (unsigned long)a.second, (long long)r.low, (long long)r.high);
    }
}

/*
 * At most NOTES notes at samples of a recording whose whole file is f: their columns below its overview o, the samples that each
 * column is made of, and the sample under each note, which is read from the file without opening it again.
 */
static void tour_notes(const pyramid_file *f, const opened *o, const uint64_t *notes, size_t count) {
    uint64_t columns[NOTES];
    size_t i;
    if (count > NOTES) {
        fprintf(stderr, "desk: more than %d notes\n", (int)NOTES);
        exit(BAD_TURN);
    }
    for (i = 0; i < count; i++) {
        bk_answer a = bk_note_column(o->head.samples, o->level, notes[i]);
        expect("placing a note", a, BK_DONE);
        columns[i] = a.first;
    }
    draw_marks(columns, count);
    for (i = 0; i < count; i++) {
        bk_answer a = bk_note_span(o->head.samples, o->level, columns[i]);
        bk_sample s = bk_pyramid_sample(f->bytes, f->length, o->head.width, o->head.point, notes[i]);
        expect("finding a note", a, BK_DONE);
        expect("reading a sample", s.answer, BK_DONE);
        printf("the note at sample %lu, whose value is %lld, is in column %lu, which is made of samples %lu to %lu\n",
               (unsigned long)notes[i], (long long)s.sample, (unsigned long)columns[i], (unsigned long)a.first,
               (unsigned long)a.second);
        if (notes[i] < a.first || notes[i] > a.second) {
            printf("    the note's own sample is not among them\n");
            exit(BAD_TURN);
        }
    }
}

/* Where a recording is roughest: the largest detail of level 1, which the last section has, and the samples that it is made of. */
static void tour_roughest(const pyramid_file *f) {
    bk_head head = head_of(f);
    bk_answer details = bk_pyramid_section(f->bytes, f->length, head.width, head.point, head.levels + 1), span;
    int64_t largest = 0;
    uint64_t place = 0, i;
    expect("looking up the last section", details, BK_DONE);
    for (i = 0; i < details.second / head.width; i++) {
        int64_t value = get_sample(f->bytes + details.first + i * head.width, head.width);
        if ((value < 0 ? -value : value) <= (largest < 0 ? -largest : largest)) continue;
        largest = value;
        place = i;
    }
    span = bk_note_detail_span(head.samples, 1, place);
    expect("the span of a detail", span, BK_DONE);
    printf("the largest detail of level 1 is %lld, at place %lu; it is made of samples %lu to %lu\n", (long long)largest,
           (unsigned long)place, (unsigned long)span.first, (unsigned long)span.second);
}

/* A finer level around a sample: a window on the approximations of that level. The window must lie within them. */
static void tour_zoom(const pyramid_file *f, uint32_t level, uint64_t sample) {
    bk_head head = head_of(f);
    uint64_t start, mark;
    uint8_t no_details[1] = {0};
    bk_answer column, window;
    opened o;
    expect("opening for a window", open_at(f->bytes, f->length, &head, level, &o), BK_DONE);
    column = bk_note_column(head.samples, level, sample);
    expect("the column of a window", column, BK_DONE);
    mark = column.first < COLUMNS / 4 ? column.first : COLUMNS / 4;
    start = column.first - mark;
    window = bk_band_window_i16(o.samples, o.count * head.width, no_details, 0, BK_APPROXIMATIONS, start, COLUMNS);
    expect("a window", window, BK_DONE);
    printf("the note at sample %lu again, at level %lu, columns %lu to %lu\n", (unsigned long)sample, (unsigned long)level,
           (unsigned long)start, (unsigned long)start + COLUMNS - 1);
    draw(o.samples + window.first, head.width, (size_t)window.second / head.width);
    draw_marks(&mark, 1);
    free(o.samples);
}

/* ---- the route book, which the tour keeps files in */

typedef struct route_book {
    uint8_t *area;
    size_t length;
} route_book;

/* A note that stays with its measuring point: the point's number is all that it keeps of where the file is. */
typedef struct pinned {
    const char *text;
    uint32_t point;
    uint64_t sample;
} pinned;

/* What a note shows: the sample's value, and the first and the last sample that its column is made of. */
typedef struct shown {
    int64_t value;
    uint64_t first, last;
} shown;

static void say_free(const route_book *b) {
    bk_answer a = bk_book_room(b->area, b->length);
    expect("asking a book for its room", a, BK_DONE);
    printf("the book holds %lu points, and %lu of its %lu bytes are free\n", (unsigned long)a.second, (unsigned long)a.first,
           (unsigned long)b->length);
}

static void add_file(route_book *b, uint32_t point, const pyramid_file *f) {
    expect("adding to the book", bk_book_add(b->area, b->length, f->bytes, f->length, point), BK_DONE);
}

/* The file of a point that the book holds, where it stands. Its bytes are the area's: a withdrawal may move them. */
static pyramid_file find_file(const route_book *b, uint32_t point) {
    bk_answer found = bk_book_find(b->area, b->length, point);
    pyramid_file f;
    expect("finding a point", found, BK_DONE);
    f.bytes = b->area + found.first;
    f.length = (size_t)found.second;
    return f;
}

/* Finds the file of a note's point, which the book holds, and reads the note's sample where the file stands. */
static shown show_pinned(const route_book *b, const pinned *note, uint32_t level) {
    pyramid_file f = find_file(b, note->point);
    bk_head head = head_of(&f);
    bk_sample sample = bk_pyramid_sample(f.bytes, f.length, head.width, note->point, note->sample);
    bk_answer column = bk_note_column(head.samples, level, note->sample), span;
    shown s;
    expect("reading a sample in the book", sample.answer, BK_DONE);
    expect("placing a pinned note", column, BK_DONE);
    span = bk_note_span(head.samples, level, column.first);
    expect("the span of a pinned note", span, BK_DONE);
    s.value = sample.sample;
    s.first = span.first;
    s.last = span.second;
    printf("point %lu, %s: sample %lu is %lld, in a column of samples %lu to %lu; the file is at byte %lu\n",
           (unsigned long)note->point, note->text, (unsigned long)note->sample, (long long)s.value, (unsigned long)s.first,
           (unsigned long)s.last, (unsigned long)(f.bytes - b->area));
    return s;
}

/*
 * Opens the file of a point where it stands in the book, whole and then a front of it. It is opened for the point that was asked
 * for, not for that of its head, so that a file of another point would be refused.
 */
static void open_found(const route_book *b, uint32_t point, size_t front) {
    pyramid_file f = find_file(b, point);
    bk_head head = head_of(&f);
    size_t bytes = (size_t)head.samples * head.width, lengths[2], i;
    uint8_t *out = room(bytes), *work1 = room(bytes), *work2 = room(bytes);
    lengths[0] = f.length;
    lengths[1] = front;
    for (i = 0; i < 2; i++) {
        bk_opened a = bk_pyramid_open(f.bytes, lengths[i], head.width, point, out, bytes, work1, bytes, work2, bytes);
        expect("opening a file in the book", a.answer, BK_DONE);
        printf("point %lu, the first %lu of %lu bytes: level %lu, %lu samples", (unsigned long)point, (unsigned long)lengths[i],
               (unsigned long)f.length, (unsigned long)a.answer.first, (unsigned long)a.answer.second);
        say_rate(a.rate);
        say_why(f.bytes, lengths[i], head.width, point, a.answer.number);
    }
    free(out);
    free(work1);
    free(work2);
}

/* ---- a recording of 16 bits that comes in pieces */

typedef struct incoming {
    uint8_t state[BK_STREAM_BYTES]; /* zeros to begin with */
    uint64_t samples;               /* that came so far */
    uint8_t *approx, *details;      /* the two bands, as far as they are written */
    size_t written, space;          /* of each band: coefficients that are written, and for how many there is room */
} incoming;

/* Makes room for so many coefficients of each band; what is written stays. */
static void make_space(incoming *in, size_t space) {
    uint8_t *approx = room(2 * space), *details = room(2 * space);
    if (in->written > 0) {
        memcpy(approx, in->approx, 2 * in->written);
        memcpy(details, in->details, 2 * in->written);
    }
    free(in->approx);
    free(in->details);
    in->approx = approx;
    in->details = details;
    in->space = space;
}

/* Sends a piece. What is lent of each band is its free end: what is written to the front of it is joined to the band at once. */
static bk_answer send_piece(incoming *in, const uint8_t *piece, size_t n) {
    size_t at = 2 * in->written, bytes = 2 * (in->space - in->written);
    return bk_stream_piece_i16(in->state, BK_STREAM_BYTES, piece, 2 * n, in->approx + at, bytes, in->details + at, bytes);
}

/* Takes a piece. Where there is too little room it is refused and nothing has changed: more room is made, and it is sent again. */
static void take_piece(incoming *in, const uint8_t *piece, size_t n) {
    size_t before = in->written;
    char tried[40];
    bk_answer a = send_piece(in, piece, n);
    snprintf(tried, sizeof tried, "a piece of %lu samples", (unsigned long)n);
    if (a.number == BK_NO_ROOM) {
        say_refused(tried, a);
        make_space(in, 2 * (in->written + (size_t)a.second));
        a = send_piece(in, piece, n);
    }
    expect(tried, a, BK_DONE);
    in->samples += n;
    in->written = (size_t)bk_stream_written(in->samples);
    printf("%s: %lu more of each band, %lu so far\n", tried, (unsigned long)(in->written - before), (unsigned long)in->written);
}

/* A recording of 16 bits in these pieces, which are all of it; its bands must be those of one call on the whole recording. */
static void tour_pieces(const recording *r, const size_t *pieces, size_t count) {
    size_t approx_bytes = 2 * (r->n - r->n / 2), details_bytes = 2 * (r->n / 2), sent = 0, i;
    uint8_t *approx = room(approx_bytes), *details = room(details_bytes);
    incoming in;
    memset(&in, 0, sizeof in);
    make_space(&in, 200);
    for (i = 0; i < count; i++) {
        take_piece(&in, r->samples + 2 * sent, pieces[i]);
        sent += pieces[i];
    }
    make_space(&in, in.written + 1);
    expect("the end of a recording",
           bk_stream_finish_i16(in.state, BK_STREAM_BYTES, in.approx + 2 * in.written, 2, in.details + 2 * in.written, 2), BK_DONE);
    expect("one level of the whole recording",
           bk_cdf53_forward_i16(r->samples, 2 * r->n, approx, approx_bytes, details, details_bytes), BK_DONE);
    if (sent != r->n || memcmp(approx, in.approx, approx_bytes) != 0 || memcmp(details, in.details, details_bytes) != 0) {
        printf("    the bands are not those of one call\n");
        exit(BAD_TURN);
    }
    printf("the end: %lu approximations and %lu details, those of one call on all %lu samples\n", (unsigned long)approx_bytes / 2,
           (unsigned long)details_bytes / 2, (unsigned long)r->n);
    free(in.approx);
    free(in.details);
    free(approx);
    free(details);
}

/* Says a refusal that was provoked, and that it is the one that was meant. */
static void provoked(uint32_t number, const char *tried, bk_answer a) {
    expect(tried, a, number);
    say_refused(tried, a);
}

/* Refusals of the transforms, on a few samples of one byte. */
static void tour_refused_transforms(void) {
    uint8_t x[8] = {0, 3, 252, 1, 7, 0, 0, 0}, a[8], d[8], w[8];
    provoked(BK_MIN_FILTER_SIZE, "one level of 2 samples", bk_cdf53_forward_i8(x, 2, a, 1, d, 1));
    provoked(BK_APPROX_SIZE_NOT_MATCHES, "room for 2 approximations of 5 samples", bk_cdf53_forward_i8(x, 5, a, 2, d, 2));
    provoked(BK_DETAILS_SIZE_NOT_MATCHES, "room for 1 detail of 5 samples", bk_cdf53_forward_i8(x, 5, a, 3, d, 1));
    provoked(BK_OUTPUT_SIZE_IS_NOT_VALID, "5 samples back into room for 4", bk_cdf53_inverse_i8(x, 3, x + 3, 2, d, 4));
    provoked(BK_BUFFER_WAS_TOO_SMALL_FOR_LEVEL, "3 levels of 5 samples", bk_cdf53_multi_dwt_i8(x, 5, 3, a, 5, d, 5, w, 5));
    provoked(BK_ZEROED_BASE_SIZE, "many levels back without a length",
             bk_cdf53_multi_idwt_i8(x, 5, x + 5, 0, x + 6, 0, a, 5, d, 5, w, 5));
    provoked(BK_TOO_LONG, "the depth of 16,777,217 samples", bk_cdf53_depth(BK_MOST_SAMPLES + 1));
    provoked(BK_BAD_COUNT, "5 bytes as samples of 2 bytes", bk_cdf53_forward_i16(x, 5, a, 4, d, 2));
}

/* Refusals of a recording in pieces, of samples of one byte: 2 of them, which are too few to end with, and a damaged state. */
static void tour_refused_pieces(void) {
    uint8_t state[BK_STREAM_BYTES] = {0}, x[2] = {0, 3}, a[1], d[1];
    expect("a piece of 2 samples", bk_stream_piece_i8(state, BK_STREAM_BYTES, x, 2, a, 0, d, 0), BK_DONE);
    provoked(BK_MIN_FILTER_SIZE, "the end of a recording of 2 samples", bk_stream_finish_i8(state, BK_STREAM_BYTES, a, 1, d, 1));
    state[15] = 1;
    provoked(BK_BAD_COUNT, "a piece beside a damaged state", bk_stream_piece_i8(state, BK_STREAM_BYTES, x, 2, a, 1, d, 1));
}

/* What opening a file without lending an area says. */
static bk_answer say_open(const uint8_t *file, size_t length, uint32_t width, uint32_t point) {
    uint8_t none[3];
    return bk_pyramid_open(file, length, width, point, none, 0, none + 1, 0, none + 2, 0).answer;
}

/* The refusal of a file that was provoked, and why. */
static void provoked_open(uint32_t number, const char *tried, const uint8_t *file, size_t length, uint32_t width, uint32_t point) {
    provoked(number, tried, say_open(file, length, width, point));
    say_why(file, length, width, point, number);
}

/* Refusals of a file: the recording's own file, asked for what it has not, cut too short, with a byte too many, or with no rate. */
static void tour_refused_files(const recording *r, const pyramid_file *f) {
    uint8_t *longer = room(f->length + 1), none[3];
    size_t bytes = r->n * r->width;
    memcpy(longer, f->bytes, f->length);
    longer[f->length] = 0;
    provoked(BK_NO_ROOM, "writing a file into no room",
             bk_pyramid_write_i16(r->samples, bytes, 1, r->point, r->rate, none, 0, none + 1, 0, none + 2, 0));
    provoked(BK_NO_RATE, "writing a file with the rate 0",
             bk_pyramid_write_i16(r->samples, bytes, 1, r->point, 0, none, 0, none + 1, 0, none + 2, 0));
    provoked_open(BK_OTHER_WIDTH, "opening 16 bits as 32", f->bytes, f->length, 4, r->point);
    provoked_open(BK_CUT_SHORT, "opening the first 15 bytes", f->bytes, 15, r->width, r->point);
    provoked_open(BK_OTHER_POINT, "opening it for the next point", f->bytes, f->length, r->width, r->point + 1);
    provoked_open(BK_TRAILING, "opening it with a byte behind it", longer, f->length + 1, r->width, r->point);
    memset(longer + 14, 0, 4);
    provoked_open(BK_NO_RATE, "opening it with zeros where its rate was", longer, f->length, r->width, r->point);
    provoked(BK_NO_SUCH_PLACE, "a note after the last sample", bk_note_column(r->n, 1, r->n));
    provoked(BK_NO_SUCH_PLACE, "a column of level 0", bk_note_column(r->n, 0, 0));
    provoked(BK_NO_SUCH_PLACE, "the span of a detail after the last", bk_note_detail_span(r->n, 1, r->n / 2));
    provoked(BK_NO_SUCH_PLACE, "the sample after the last",
             bk_pyramid_sample(f->bytes, f->length, r->width, r->point, r->n).answer);
    free(longer);
}

/* Refusals of a book that has room for one file, and of the same with a byte changed in its directory. */
static void tour_refused_books(const recording *r, const pyramid_file *f) {
    route_book b;
    b.length = BK_BOOK_EMPTY + f->length;
    b.area = room(b.length);
    provoked(BK_NO_ROOM, "a book in one byte less than an empty one has", bk_book_fresh(b.area, BK_BOOK_EMPTY - 1));
    expect("making a book", bk_book_fresh(b.area, b.length), BK_DONE);
    /* Only the first bytes of the area are lent, those of an empty book, so that it is a book without free room. */
    provoked(BK_BOOK_FULL, "adding a file to a book without free room",
             bk_book_add(b.area, BK_BOOK_EMPTY, f->bytes, f->length, r->point));
    provoked(BK_CUT_SHORT, "adding a file without its last byte",
             bk_book_add(b.area, b.length, f->bytes, f->length - 1, r->point));
    add_file(&b, r->point, f);
    provoked(BK_ALREADY_HELD, "adding it once more", bk_book_add(b.area, b.length, f->bytes, f->length, r->point));
    provoked(BK_NOT_HELD, "finding the next point", bk_book_find(b.area, b.length, r->point + 1));
    b.area[4]++;
    provoked(BK_BAD_COUNT, "finding in a damaged book", bk_book_find(b.area, b.length, r->point));
    free(b.area);
}

/* Files of points 13, 14 and 15 in a book, with a note each; 14 is withdrawn, 15 is opened, and 16 takes of the free room. */
static void tour_book(const recording *r, const pyramid_file *f) {
    static const pinned notes[] = {{"blades", 13, 310}, {"first knock", 14, 2600}, {"beat", 15, 9000}};
    recording r13 = record("fan", 13, 2, 2560000, 1200, fan);
    pyramid_file f13 = keep(&r13);
    shown before[3], after;
    route_book b;
    size_t i;
    b.length = BK_BOOK_EMPTY + f13.length + f[0].length + f[1].length;
    b.area = room(b.length);
    expect("making a book", bk_book_fresh(b.area, b.length), BK_DONE);
    add_file(&b, 13, &f13);
    add_file(&b, r[0].point, &f[0]);
    add_file(&b, r[1].point, &f[1]);
    say_free(&b);
    for (i = 0; i < 3; i++) before[i] = show_pinned(&b, &notes[i], 3);

    printf("point 14 is withdrawn\n");
    expect("withdrawing a point", bk_book_withdraw(b.area, b.length, 14), BK_DONE);
    say_free(&b);
    for (i = 0; i < 3; i++) {
        if (notes[i].point == 14) {
            provoked(BK_NOT_HELD, "finding point 14", bk_book_find(b.area, b.length, 14));
            continue;
        }
        after = show_pinned(&b, &notes[i], 3);
        if (after.value != before[i].value || after.first != before[i].first || after.last != before[i].last) {
            printf("    the note at point %lu has changed\n", (unsigned long)notes[i].point);
            exit(BAD_TURN);
        }
    }
    open_found(&b, 15, 1000);

    printf("point 16 is added\n");
    add_file(&b, r[2].point, &f[2]);
    say_free(&b);
    free(r13.samples);
    free(f13.bytes);
    free(b.area);
}

/* Files that are whole, cut, old and damaged; f is that of point 16. */
static void tour_files(const pyramid_file *f) {
    size_t cuts[5];
    printf("\n== what a cut leaves of point 16\n");
    cuts[0] = f->length;
    cuts[1] = f->length - 1;
    cuts[2] = 400;
    cuts[3] = 100;
    cuts[4] = 20;
    tour_cuts(f, cuts, 5);

    printf("\n== an old file, which has no rate\n");
    tour_old_file();

    printf("\n== why a file does not open, or opens cut\n");
    tour_reasons();

    printf("\n== the sections of point 16\n");
    tour_sections(f);
}

/* Each refusal's number, provoked. */
static void tour_refusals(const recording *r, const pyramid_file *f) {
    printf("\n== every refusal\n");
    tour_refused_transforms();
    tour_refused_pieces();
    tour_refused_files(r, f);
    tour_refused_books(r, f);
}

static int tour(void) {
    static const uint64_t notes[] = {700, 2600, 5900};
    static const size_t pieces[] = {256, 0, 2, 3, 0, 340};
    recording r[3];
    pyramid_file f[3];
    opened seen[3];
    size_t i;
    printf("== three recordings, kept as files\n");
    r[0] = record("bearing", 14, 2, 25600000, 6000, bearing);
    r[1] = record("gear box", 15, 4, 51200000, 20000, gears);
    r[2] = record("run-up", 16, 2, 2048000, 601, run_up);
    for (i = 0; i < 3; i++) f[i] = keep(&r[i]);
    tour_files(&f[2]);

    printf("\n== overviews, and notes\n");
    for (i = 3; i-- > 0;) seen[i] = tour_overview(&r[i], &f[i]);
    tour_notes(&f[0], &seen[0], notes, 3);
    tour_roughest(&f[0]);
    tour_zoom(&f[0], 2, notes[1]);

    printf("\n== a route book\n");
    tour_book(r, f);

    printf("\n== point 16 once more, in pieces\n");
    tour_pieces(&r[2], pieces, 6);

    tour_refusals(&r[2], &f[2]);
    for (i = 0; i < 3; i++) {
        free(r[i].samples);
        free(f[i].bytes);
        free(seen[i].samples);
    }
    return 0;
}

/* ---- one file */

/* A file's bytes, at most one more than the library takes, which it refuses; null where the file cannot be read. */
static uint8_t *read_file(const char *name, size_t *length) {
    const size_t most = (size_t)BK_MOST_BYTES + 1;
    size_t have = 65536, got;
    uint8_t *bytes;
    FILE *in = fopen(name, "rb");
    if (!in) return NULL;
    bytes = room(have);
    *length = 0;
    while (*length < most && (got = fread(bytes + *length, 1, have - *length, in)) > 0) {
        *length += got;
        if (*length == have && have < most) {
            uint8_t *more = room(have = 2 * have < most ? 2 * have : most);
            memcpy(more, bytes, *length);
            free(bytes);
            bytes = more;
        }
    }
    if (ferror(in)) {
        free(bytes);
        bytes = NULL;
    }
    fclose(in);
    return bytes;
}

/* Prints what a file shows; the number of the refusal, or 0. */
static int show_bytes(const char *name, const uint8_t *bytes, size_t length) {
    opened o, overview;
    uint32_t level;
    bk_answer a = open_front(bytes, length, &o);
    if (o.head.answer.number == BK_DONE)
        printf("%s: point %lu, %lu bits, %lu samples, %lu levels\n", name, (unsigned long)o.head.point,
               (unsigned long)o.head.width * 8, (unsigned long)o.head.samples, (unsigned long)o.head.levels);
    if (a.number != BK_DONE) {
        say_refused(name, a);
        say_why(bytes, length, o.head.width, o.head.point, a.number);
        return (int)a.number;
    }
    printf("%lu bytes open at level %lu, %lu samples", (unsigned long)length, (unsigned long)o.level, (unsigned long)o.count);
    say_rate(o.rate);
    say_why(bytes, length, o.head.width, o.head.point, a.number);
    level = fitting_level(&o.head, o.level);
    if (level == o.level) {
        draw(o.samples, o.head.width, o.count);
    } else {
        expect("opening for an overview", open_at(bytes, length, &o.head, level, &overview), BK_DONE);
        say_level(&overview);
        draw(overview.samples, overview.head.width, overview.count);
        free(overview.samples);
    }
    free(o.samples);
    return 0;
}

static int show_file(const char *name) {
    size_t length;
    int number;
    uint8_t *bytes = read_file(name, &length);
    if (!bytes) {
        fprintf(stderr, "desk: %s cannot be read\n", name);
        return BAD_CALL;
    }
    number = show_bytes(name, bytes, length);
    free(bytes);
    return number;
}

static int run(int argc, char **argv) {
    if (argc == 1) return tour();
    if (argc == 2 && argv[1][0] != '-') return show_file(argv[1]);
    printf("usage: desk          a tour of the library\n"
           "       desk FILE     what a pyramid file shows; ends with the refusal's number, or 0\n");
    return argc == 2 && (strcmp(argv[1], "--help") == 0 || strcmp(argv[1], "-h") == 0) ? 0 : BAD_CALL;
}

int main(int argc, char **argv) {
    int status = run(argc, argv);
    if (fflush(stdout) != 0 || ferror(stdout)) {
        fprintf(stderr, "desk: the output cannot be written\n");
        return BAD_TURN;
    }
    return status;
}
