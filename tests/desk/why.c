// bk_pyramid_why beside a plain walk over the file, made from document 02 (C-18): the opener's checks in their order, and of the first
// that stops all five numbers. The figures; and of both kinds and each width every front of files of 3 to 40 samples and each number of
// levels, and some bytes more; bytes of section 0 and of the counts changed; heads of recordings of any length and depth; other widths
// and points asked; every set of faults, of which the first is named; drawn damage; and files of the most samples, of as many bytes as
// there may be, and of more than 32 bits tell. Of all these the laws are tried on the library: opening says the same, with room and
// with none; the wanted count at its place, until no count is wrong; as many bytes more as are wanted, the file's own, zeros and drawn
// ones; and the file is not written to. Says how many it asked, or the first that differs.
// Call: tests/desk/program why
#include "beksanour.h"
#include "drawn.h"
#include "files.h"
#include "huge.h"
#include <stdio.h>
#include <stdlib.h>
#include <string.h>

enum { POINT = 14, MOST_BYTES = 67108978, MOST_SAMPLES = 16777216 };

// The header's numbers are the ones that this test writes out.
typedef char bytes_are_most[BK_MOST_BYTES == MOST_BYTES ? 1 : -1], samples_are_most[BK_MOST_SAMPLES == MOST_SAMPLES ? 1 : -1];

// The cases of the table; those of sections are of section 1, and of a later one.
enum {
    WHOLE, FILE_TOO_LONG, CUT_COUNT_0, BAD_COUNT_0, CUT_0, OTHER_WIDTH, TOO_FEW, TOO_MANY, BAD_LEVELS, OTHER_POINT, NO_RATE,
    CUT_BEFORE_1, CUT_COUNT_1, BAD_COUNT_1, CUT_1, CUT_BEFORE, CUT_COUNT, BAD_COUNT, CUT, TRAILING, CASES
};

// A file that is lent, with what may stand behind it in its room, and what it is asked for.
typedef struct {
    uint8_t *file;
    size_t length, room;
    uint32_t width, point;
} question;

static unsigned long seen[CASES], asked, openings, mended, completed;

static question of(pyramid *f, uint32_t width, uint32_t point) {
    return (question){f->bytes, f->length, sizeof f->bytes, width, point};
}

static bk_reason say(uint64_t number, uint64_t section, uint64_t place, uint64_t wanted, uint64_t found) {
    return (bk_reason){number, section, place, wanted, found};
}

static int equal(bk_reason r, bk_reason s) {
    return r.number == s.number && r.section == s.section && r.place == s.place && r.wanted == s.wanted && r.found == s.found;
}

static int is_zeros(bk_reason r) { return equal(r, say(0, 0, 0, 0, 0)); }

static int is_cut(bk_reason r) { return r.number == BK_CUT_SHORT || (r.number == BK_DONE && r.section != 0); }

static void print_reason(const char *what, bk_reason r) {
    printf("%s %lu (%lu, %lu, %lu, %lu)", what, (unsigned long)r.number, (unsigned long)r.section, (unsigned long)r.place,
           (unsigned long)r.wanted, (unsigned long)r.found);
}

static void failed(const char *what, question q, bk_reason r, bk_reason wanted) {
    printf("%s: width %u, point %u, %lu bytes", what, (unsigned)q.width, (unsigned)q.point, (unsigned long)q.length);
    print_reason(":", r);
    print_reason(", wanted", wanted);
    printf("\nx");
    for (size_t i = 0; i < q.length && i < MOST_FILE; i++) printf("%02x", q.file[i]);
    printf(q.length > MOST_FILE ? "..\n" : "\n");
    exit(1);
}

// ---- what document 02 says

// The checks up to section 1; zeros where all pass.
static bk_reason walk_head(question q) {
    const uint8_t *file = q.file;
    size_t b = q.length;
    if (b > MOST_BYTES) return say(BK_TOO_LONG, 0, 0, MOST_BYTES, b);
    if (b < 4) return say(BK_CUT_SHORT, 0, b, 4 - b, 0);
    uint32_t count = u32_at(file);
    if (!is_kind(count)) return say(BK_BAD_COUNT, 0, 0, NEW, count);
    if (b < 4 + count) return say(BK_CUT_SHORT, 0, b, 4 + count - b, 0);
    uint32_t width = file[4], levels = file[5], n = u32_at(file + 6), point = u32_at(file + 10);
    if (width != q.width || (width != 1 && width != 2 && width != 4)) return say(BK_OTHER_WIDTH, 0, 4, q.width, width);
    if (n < 3) return say(BK_MIN_FILTER_SIZE, 0, 6, 3, n);
    if (n > MOST_SAMPLES) return say(BK_TOO_LONG, 0, 6, MOST_SAMPLES, n);
    if (levels == 0 || levels > depth_of(n)) return say(BK_BUFFER_WAS_TOO_SMALL_FOR_LEVEL, 0, 5, depth_of(n), levels);
    if (point != q.point) return say(BK_OTHER_POINT, 0, 10, q.point, point);
    if (count == NEW && u32_at(file + 14) == 0) return say(BK_NO_RATE, 0, 14, 1, 0);
    return say(BK_DONE, 0, 0, 0, 0);
}

static bk_reason walk(question q) {
    bk_reason head = walk_head(q);
    if (head.number) return head;
    uint32_t levels = q.file[5];
    uint64_t b = q.length, at = 4 + u32_at(q.file);
    for (uint32_t section = 1; section <= levels + 1; section++) {
        uint64_t count = count_of(u32_at(q.file + 6), levels, section), end = at + 4 + q.width * count;
        uint64_t cut = section == 1 ? BK_CUT_SHORT : BK_DONE;
        if (b < at + 4) return say(cut, section, b, at + 4 - b, 0);
        if (u32_at(q.file + at) != count) return say(BK_BAD_COUNT, section, at, count, u32_at(q.file + at));
        if (b < end) return say(cut, section, b, end - b, 0);
        at = end;
    }
    return b > at ? say(BK_TRAILING, levels + 1, at, at, b) : say(BK_DONE, 0, 0, 0, 0);
}

// Where a section of a file starts with its count, from section 1 on, as section 0 tells it.
static uint64_t start_of(const uint8_t *file, uint64_t section) {
    uint64_t at = 4 + u32_at(file);
    for (uint32_t i = 1; i < section; i++) at += 4 + file[4] * count_of(u32_at(file + 6), file[5], i);
    return at;
}

// The case of the table that a reason is, to see that none is left out.
static int case_of(question q, bk_reason r) {
    if (is_zeros(r)) return WHOLE;
    switch (r.number) {
    case BK_TOO_LONG: return r.place == 0 ? FILE_TOO_LONG : TOO_MANY;
    case BK_BAD_COUNT: return r.section == 0 ? BAD_COUNT_0 : r.section == 1 ? BAD_COUNT_1 : BAD_COUNT;
    case BK_OTHER_WIDTH: return OTHER_WIDTH;
    case BK_MIN_FILTER_SIZE: return TOO_FEW;
    case BK_BUFFER_WAS_TOO_SMALL_FOR_LEVEL: return BAD_LEVELS;
    case BK_OTHER_POINT: return OTHER_POINT;
    case BK_NO_RATE: return NO_RATE;
    case BK_TRAILING: return TRAILING;
    default: break;
    }
    if (r.section == 0) return r.place < 4 ? CUT_COUNT_0 : CUT_0;
    uint64_t into = r.place - start_of(q.file, r.section);
    if (r.section == 1) return into == 0 ? CUT_BEFORE_1 : into < 4 ? CUT_COUNT_1 : CUT_1;
    return into == 0 ? CUT_BEFORE : into < 4 ? CUT_COUNT : CUT;
}

// ---- a question

// What opening with room says where this is the reason: its two numbers stand in the reason too.
static bk_answer opening_of(question q, bk_reason r) {
    uint32_t number = (uint32_t)r.number, level = r.section ? (uint32_t)(q.file[5] + 2 - r.section) : 0;
    switch (r.number) {
    case BK_DONE: return (bk_answer){number, level, approximations(u32_at(q.file + 6), level)};
    case BK_MIN_FILTER_SIZE:
    case BK_OTHER_WIDTH:
    case BK_OTHER_POINT: return (bk_answer){number, r.found, r.wanted};
    case BK_BAD_COUNT: return (bk_answer){number, r.section, r.found};
    case BK_CUT_SHORT: return (bk_answer){number, r.place, 0};
    case BK_TRAILING: return (bk_answer){number, r.found - r.wanted, 0};
    default: return (bk_answer){number, 0, 0};
    }
}

static void compare_opening(question q, bk_reason r, size_t room) {
    static uint8_t out[MOST_FILE], work1[MOST_FILE], work2[MOST_FILE];
    bk_answer wanted = opening_of(q, r);
    bk_answer said = bk_pyramid_open(q.file, q.length, q.width, q.point, out, room, work1, room, work2, room).answer;
    if (room == 0 && wanted.number == BK_DONE) wanted = (bk_answer){BK_NO_ROOM, 0, wanted.second};
    int at_level_0 = said.number == BK_DONE && said.first == 0;
    openings++;
    if (same(said, wanted) && (room == 0 || at_level_0 == is_zeros(r))) return;
    printf("opening with %lu bytes of room is %u (%lu, %lu), not %u (%lu, %lu), which ", (unsigned long)room, (unsigned)said.number,
           (unsigned long)said.first, (unsigned long)said.second, (unsigned)wanted.number, (unsigned long)wanted.first,
           (unsigned long)wanted.second);
    failed("the reason tells", q, r, walk(q));
}

// What is said of a small file at any alignment, which is left as it is; of a large one it is looked at when all is asked.
static bk_reason reason_of(question q) {
    static uint8_t room[MOST_FILE + 8];
    if (q.room > MOST_FILE) return bk_pyramid_why(q.file, q.length, q.width, q.point);
    uint8_t *lent = room + drawn() % 8;
    memcpy(lent, q.file, q.room);
    bk_reason r = bk_pyramid_why(lent, q.length, q.width, q.point);
    if (memcmp(lent, q.file, q.room) != 0) failed("the file was written to", q, r, walk(q));
    return r;
}

// The reason, which is the walk's, and what opening says; a large file is not restored.
static bk_reason ask(question q) {
    bk_reason wanted = walk(q), r = reason_of(q);
    if (!equal(r, wanted)) failed("another reason", q, r, wanted);
    compare_opening(q, r, 0);
    if (q.room <= MOST_FILE) compare_opening(q, r, MOST_FILE);
    seen[case_of(q, r)]++;
    asked++;
    return r;
}

// ---- the laws

// Puts the count that is wanted at its place until no count is wrong: the 9 is gone each time, or is one of a later section.
static bk_reason mend(question q, bk_reason r) {
    while (r.number == BK_BAD_COUNT) {
        bk_reason before = r;
        put_u32(q.file + r.place, (uint32_t)r.wanted);
        r = ask(q);
        if (r.number == BK_BAD_COUNT && r.section <= before.section) failed("a count that was mended is wrong", q, r, before);
        mended++;
    }
    return r;
}

// Whether the part that r says was cut is whole in a file of which next is said.
static int is_complete(question q, bk_reason r, bk_reason next) {
    int cut = is_cut(next) && next.place == q.length && next.found == 0;
    int bad = next.number == BK_BAD_COUNT;
    if (r.section == 0 && r.place < 4)
        return next.section == 0 && q.length == 4 && (bad ? next.place == 0 : cut && next.wanted == u32_at(q.file));
    if (r.section == 0) return next.number != BK_CUT_SHORT || next.section != 0;
    uint64_t start = start_of(q.file, r.section), count = count_of(u32_at(q.file + 6), q.file[5], (uint32_t)r.section);
    if (r.place < start + 4)
        return next.section == r.section && (bad ? next.place == start : cut && next.wanted == q.width * count);
    if (r.section <= q.file[5]) return cut && next.section == r.section + 1 && next.wanted == 4;
    return is_zeros(next);
}

// Takes as many bytes more as are wanted of what stands behind the file.
static bk_reason complete(question *q, bk_reason r) {
    q->length += (size_t)r.wanted;
    bk_reason next = ask(*q);
    if (!is_complete(*q, r, next)) failed("what was cut is not whole", *q, next, r);
    completed++;
    return next;
}

// The same from a cut of a whole file on, part by part, until it is whole: a count and the rest of each section.
static void complete_all(question q) {
    bk_reason r = ask(q);
    for (int parts = 0; is_cut(r); parts++) {
        if (parts == 2 * (q.file[5] + 2)) failed("too many parts", q, r, say(0, 0, 0, 0, 0));
        r = complete(&q, r);
    }
    if (!is_zeros(r)) failed("a file of all its parts", q, r, say(0, 0, 0, 0, 0));
}

// Asks about a small file, and tries what is said of a wrong count or of a cut: with what stands behind it, zeros and drawn bytes.
static bk_reason ask_all(pyramid f, uint32_t width, uint32_t point) {
    bk_reason r = ask(of(&f, width, point));
    if (r.number == BK_BAD_COUNT) mend(of(&f, width, point), r);
    if (!is_cut(r) || f.length + r.wanted > MOST_FILE) return r;
    for (int more = 0; more < 3; more++) {
        question q = of(&f, width, point);
        for (size_t i = f.length; more && i < f.length + r.wanted; i++) f.bytes[i] = (uint8_t)(more == 1 ? 0 : drawn());
        complete(&q, r);
    }
    return r;
}

// ---- the figures of document 02

static const uint8_t p6[] = {10, 0, 0, 0, 1, 2, 5, 0, 0, 0, 14, 0, 0, 0, 2, 0, 0, 0, 255, 3, 1, 0, 0, 0, 248, 2, 0, 0, 0, 5, 0};

// P6, or the same recording as a new file: its first bytes, and so many bytes of them that are put at a place as a number.
static const struct {
    uint32_t kind;
    size_t length, at, size;
    uint32_t number;
    bk_reason said;
} figures[] = {
    {OLD, 3, 0, 0, 0, {10, 0, 3, 1, 0}},
    {OLD, 13, 0, 0, 0, {10, 0, 13, 1, 0}},
    {OLD, 18, 0, 0, 0, {10, 1, 18, 2, 0}},
    {OLD, 20, 0, 0, 0, {0, 2, 20, 4, 0}},
    {OLD, 24, 0, 0, 0, {0, 2, 24, 1, 0}},
    {OLD, 31, 0, 0, 0, {0, 0, 0, 0, 0}},
    {OLD, 33, 0, 0, 0, {12, 3, 31, 31, 33}},
    {OLD, 31, 20, 4, 9, {9, 2, 20, 1, 9}},
    {OLD, 31, 0, 4, 11, {9, 0, 0, 14, 11}},
    {OLD, 31, 5, 1, 3, {4, 0, 5, 2, 3}},
    {NEW, 10, 0, 0, 0, {10, 0, 10, 8, 0}},
    {NEW, 35, 14, 4, 0, {18, 0, 14, 1, 0}},
    {NEW, 35, 0, 0, 0, {0, 0, 0, 0, 0}},
};

static void compare_figures(void) {
    static const uint8_t p5[] = {0, 3, 252, 1, 7};
    uint8_t work1[sizeof p5], work2[sizeof p5];
    for (size_t i = 0; i < sizeof figures / sizeof *figures; i++) {
        pyramid f = {{0}, 35, POINT};
        bk_answer r = write_file(1, p5, sizeof p5, 2, POINT, 25600000, f.bytes, MOST_FILE, work1, work2);
        if (figures[i].kind == OLD) f.length = make_old(f.bytes, f.length);
        if (r.number || (figures[i].kind == OLD && memcmp(f.bytes, p6, sizeof p6) != 0))
            failed("P6 was not written", of(&f, 1, POINT), say(r.number, 0, 0, 0, 0), say(0, 0, 0, 0, 0));
        for (size_t k = 0; k < figures[i].size; k++) f.bytes[figures[i].at + k] = (uint8_t)(figures[i].number >> 8 * k);
        f.length = figures[i].length;
        bk_reason said = ask_all(f, 1, POINT);
        if (!equal(said, figures[i].said)) failed("a figure", of(&f, 1, POINT), said, figures[i].said);
    }
}

// ---- small files

// With drawn bytes behind it.
static pyramid small_file(uint32_t kind, uint32_t width, uint32_t n, uint32_t levels) {
    pyramid f = file_of(kind, width, n, levels, POINT);
    for (size_t i = f.length; i < MOST_FILE; i++) f.bytes[i] = (uint8_t)drawn();
    return f;
}

// Every front, every completion from there, and up to 8 bytes more.
static void compare_cuts(pyramid f, uint32_t width) {
    size_t whole = f.length;
    for (f.length = 0; f.length <= whole + 8; f.length++) {
        bk_reason r = ask_all(f, width, POINT);
        if (f.length <= whole) complete_all(of(&f, width, POINT));
        if (is_zeros(r) != (f.length == whole)) failed("zeros, or none", of(&f, width, POINT), r, say(0, 0, 0, 0, 0));
    }
}

// Every byte of section 0 and of the counts changed, in the whole file and in a front of it.
static void compare_changed(const pyramid *whole, uint32_t width) {
    for (uint32_t section = 0; section <= whole->bytes[5] + 1u; section++) {
        size_t start = section ? (size_t)start_of(whole->bytes, section) : 0, end = section ? start + 4 : 4 + u32_at(whole->bytes);
        for (size_t at = start; at < end; at++)
            for (uint32_t to = 0; to < 256; to += section ? between(1, 60) : 1) {
                pyramid f = *whole;
                f.bytes[at] = (uint8_t)to;
                ask_all(f, width, POINT);
                f.length = between(0, (uint32_t)whole->length);
                ask_all(f, width, POINT);
            }
    }
}

// Every count wrong, but section 0's of an old file, which would be mended to the other kind: one by one the file becomes whole.
static void compare_all_wrong(pyramid f, uint32_t width) {
    for (uint32_t section = 1; section <= f.bytes[5] + 1u; section++) {
        uint8_t *count = f.bytes + start_of(f.bytes, section);
        put_u32(count, u32_at(count) ^ (uint32_t)1 << drawn() % 32);
    }
    if (u32_at(f.bytes) == NEW) f.bytes[drawn() % 4] ^= 1;
    bk_reason r = mend(of(&f, width, POINT), ask(of(&f, width, POINT)));
    if (!is_zeros(r)) failed("a file of all its counts", of(&f, width, POINT), r, say(0, 0, 0, 0, 0));
}

static void compare_small(uint32_t kind, uint32_t width) {
    for (uint32_t n = 3; n <= MOST; n++)
        for (uint32_t levels = 1; levels <= depth_of(n); levels++) {
            pyramid f = small_file(kind, width, n, levels);
            compare_cuts(f, width);
            compare_all_wrong(f, width);
            if (n % 18 == 4 || n % 18 == 5) compare_changed(&f, width);
        }
}

// Any width and point asked, and stored: a width of 3 asked of a file that has it is no width either.
static void compare_asked(uint32_t kind, uint32_t width) {
    static const uint8_t stored[] = {0, 1, 2, 3, 4, 5, 8, 255};
    const uint32_t widths[] = {0, 1, 2, 3, 4, 5, 7, 8, 255, 256, 256 + width, 65536 + width, 2147483648u + width, UINT32_MAX};
    const uint32_t points[] = {POINT, POINT + 1, 0, POINT ^ 256, POINT ^ 2147483648u, UINT32_MAX};
    pyramid f = small_file(kind, width, between(5, MOST), 2);
    for (size_t s = 0; s < sizeof stored; s++) {
        f.bytes[4] = stored[s];
        for (size_t w = 0; w < sizeof widths / sizeof *widths; w++)
            for (size_t p = 0; p < sizeof points / sizeof *points; p++) ask_all(f, widths[w], points[p]);
    }
}

// Heads of recordings of lengths near a power of two, with any levels, and as many counts as there is room for, cut anywhere.
static void compare_heads(uint32_t kind, uint32_t width) {
    static const uint32_t depths[] = {25, 32, 64, 128, 255};
    for (uint32_t power = 1; power <= 32; power++)
        for (uint32_t beside = 0; beside < 3; beside++)
            for (uint32_t i = 0; i < 30; i++) {
                uint32_t n = (uint32_t)(((uint64_t)1 << power) - 1 + beside), levels = i < 25 ? i : depths[i - 25];
                pyramid f = {{0}, MOST_FILE, POINT};
                for (size_t k = 0; k < MOST_FILE; k++) f.bytes[k] = (uint8_t)drawn();
                size_t whole = make_whole(f.bytes, MOST_FILE, kind, width, n, levels, POINT);
                if (whole < MOST_FILE) f.length = whole;
                for (int cuts = 0; cuts < 4; cuts++) {
                    ask_all(f, width, POINT + (drawn() % 16 == 0));
                    f.length = between(0, (uint32_t)f.length);
                }
            }
}

// ---- every set of faults

// What can be wrong, in the order of the checks, and how it is named; of a section that the file ends in its count, that the count is
// wrong, and that the file ends behind it.
enum { AT_3, KIND, IN_HEAD, WIDTH, FEW, MANY, LEVELS, PLACE, RATE, SECTIONS, LONGER = SECTIONS + 9, FAULTS };

static const struct {
    uint32_t number, section;
    int is_length; // of these a file has one at most
} faults[FAULTS] = {
    [AT_3] = {10, 0, 1}, [KIND] = {9, 0, 0}, [IN_HEAD] = {10, 0, 1}, [WIDTH] = {8, 0, 0}, [FEW] = {1, 0, 0}, [MANY] = {6, 0, 0},
    [LEVELS] = {4, 0, 0}, [PLACE] = {11, 0, 0}, [RATE] = {18, 0, 0},
    [SECTIONS] = {10, 1, 1}, {9, 1, 0}, {10, 1, 1}, {0, 2, 1}, {9, 2, 0}, {0, 2, 1}, {0, 3, 1}, {9, 3, 0}, {0, 3, 1},
    [LONGER] = {12, 3, 1},
};

static void put_fault(pyramid *f, const pyramid *whole, int fault) {
    uint32_t section = faults[fault].section;
    size_t start = (size_t)start_of(whole->bytes, section), end = (size_t)start_of(whole->bytes, section + 1);
    switch (fault) {
    case AT_3: f->length = 3; break;
    case KIND: f->bytes[0] ^= 1; break;
    case IN_HEAD: f->length = end - 1; break;
    case WIDTH: f->bytes[4] ^= 3; break;
    case FEW: put_u32(f->bytes + 6, 2); break;
    case MANY: put_u32(f->bytes + 6, MOST_SAMPLES + 1); break;
    case LEVELS: f->bytes[5] = drawn() % 2 ? 0 : 24; break;
    case PLACE: f->bytes[10] ^= 1; break;
    case RATE: put_u32(f->bytes + 14, 0); break;
    case LONGER: f->length++; break;
    default:
        if (!faults[fault].is_length) f->bytes[start] ^= 1;
        else f->length = (fault - SECTIONS) % 3 == 0 ? start + 3 : end - 1;
    }
}

static int can_be(uint32_t set, uint32_t kind) {
    int lengths = 0;
    for (int i = 0; i < FAULTS; i++) lengths += faults[i].is_length && set >> i & 1;
    return lengths <= 1 && (set >> FEW & set >> MANY & 1) == 0 && (kind == NEW || (set >> RATE & 1) == 0);
}

// The first of them is named.
static void compare_faults(uint32_t kind, uint32_t width) {
    const pyramid whole = small_file(kind, width, 11, 2);
    for (uint32_t set = 1; set < (uint32_t)1 << FAULTS; set++) {
        if (!can_be(set, kind)) continue;
        pyramid f = whole;
        int first = 0;
        for (int i = FAULTS - 1; i >= 0; i--)
            if (set >> i & 1) put_fault(&f, &whole, first = i);
        bk_reason r = ask_all(f, width, POINT);
        if (r.number != faults[first].number || r.section != faults[first].section)
            failed("not the first fault", of(&f, width, POINT), r, walk(of(&f, width, POINT)));
    }
}

// ---- drawn damage

static uint8_t any_byte(void) {
    static const uint8_t some[] = {0, 1, 2, 3, 4, 5, 10, 14, 128, 255};
    return drawn() % 2 ? some[drawn() % sizeof some] : (uint8_t)drawn();
}

static uint32_t any_count(uint32_t right, uint32_t width) {
    const uint32_t some[] = {0, right + 1, right - 1, right * width, right + 65536, UINT32_MAX, drawn()};
    return some[drawn() % (sizeof some / sizeof *some)];
}

static void damage(question *q, const pyramid *whole) {
    size_t start = (size_t)start_of(whole->bytes, between(1, whole->bytes[5] + 1u)), at = drawn();
    switch (drawn() % 10) {
    case 0: case 1: q->file[at % (4 + u32_at(whole->bytes))] = any_byte(); break;
    case 2: q->file[start + at % 4] = any_byte(); break;
    case 3: put_u32(q->file + start, any_count(u32_at(whole->bytes + start), whole->bytes[4])); break;
    case 4: case 5: q->length = between(0, (uint32_t)q->length); break;
    case 6: q->length = whole->length + between(1, 8); break;
    case 7: q->width = between(0, 8); break;
    case 8: q->point ^= (uint32_t)1 << drawn() % 32; break;
    default: q->width = q->file[4] = 3;
    }
}

static void compare_drawn(uint32_t kind, uint32_t width) {
    uint32_t n = between(3, MOST);
    const pyramid whole = small_file(kind, width, n, between(1, depth_of(n)));
    pyramid f = whole;
    question q = of(&f, width, POINT);
    for (uint32_t times = between(1, 3); times > 0; times--) damage(&q, &whole);
    f.length = q.length;
    ask_all(f, q.width, q.point);
}

// ---- files of many bytes

enum { LARGE = MOST_BYTES + 2 };

// Of each section its count cut, just there, and wrong, and the section cut; all parts from nothing on; and lengths about the limit.
static void compare_large(uint32_t kind, uint32_t width, uint32_t n) {
    static uint8_t file[LARGE], copy[LARGE];
    uint32_t levels = depth_of(n);
    make_whole(copy, LARGE, kind, width, n, levels, POINT);
    question q = {file, make_whole(file, LARGE, kind, width, n, levels, POINT), LARGE, width, POINT}, cut = q;
    for (uint32_t section = 1; section <= levels + 1; section++) {
        size_t start = (size_t)start_of(file, section), end = (size_t)start_of(file, section + 1);
        const size_t lengths[] = {start, start + 3, start + 4, end - 1};
        for (size_t i = 0; i < sizeof lengths / sizeof *lengths; i++) {
            cut.length = lengths[i];
            ask(cut);
        }
        put_u32(file + start, u32_at(file + start) ^ (uint32_t)1 << drawn() % 32);
        mend(q, ask(q));
    }
    cut.length = 0;
    complete_all(cut);
    for (cut.length = MOST_BYTES - 4; cut.length <= LARGE; cut.length++) ask(cut);
    if (memcmp(file, copy, LARGE) != 0) failed("a large file was written to", q, walk(q), walk(q));
}

// A file with any fault but its length in more bytes than the limit, also where 32 bits tell its own length: 6, before all that.
static void compare_too_long(uint8_t *huge, uint32_t kind, uint32_t width) {
    const pyramid whole = small_file(kind, width, 11, 2);
    const size_t most = (size_t)1 << 32, lengths[] = {MOST_BYTES + 1, most - 1, most, most + 3, most + whole.length};
    for (int fault = 0; fault < FAULTS; fault++)
        for (size_t i = 0; i < sizeof lengths / sizeof *lengths; i++) {
            pyramid f = whole;
            put_fault(&f, &whole, fault);
            memcpy(huge, f.bytes, MOST_FILE);
            question q = {huge, lengths[i], most + MOST_FILE, width, POINT};
            bk_reason r = ask(q), wanted = say(BK_TOO_LONG, 0, 0, MOST_BYTES, lengths[i]);
            if (!equal(r, wanted)) failed("not the length of the file", q, r, wanted);
            if (memcmp(huge, f.bytes, MOST_FILE) != 0) failed("a file over the limit was written to", q, r, wanted);
        }
}

// All of it for a kind and a width; every case of the table was met.
static void compare_kind(uint8_t *huge, uint32_t kind, uint32_t width) {
    memset(seen, 0, sizeof seen);
    compare_small(kind, width);
    compare_asked(kind, width);
    compare_heads(kind, width);
    compare_faults(kind, width);
    for (int i = 0; i < 20000; i++) compare_drawn(kind, width);
    compare_large(kind, width, MOST_SAMPLES);
    compare_large(kind, width, MOST_SAMPLES - 1);
    compare_large(kind, width, between(MOST_SAMPLES / 2, MOST_SAMPLES));
    compare_too_long(huge, kind, width);
    for (int i = 0; i < CASES; i++)
        if (seen[i] == 0 && (kind == NEW || i != NO_RATE)) {
            printf("no file of count %u and width %u was case %d\n", (unsigned)kind, (unsigned)width, i);
            exit(1);
        }
}

int main(void) {
    uint8_t *huge = huge_slice(((size_t)1 << 32) + MOST_FILE);
    seed = 18;
    compare_figures();
    for (uint32_t width = 1; width <= 4; width *= 2) {
        compare_kind(huge, OLD, width);
        compare_kind(huge, NEW, width);
    }
    printf("ok why: %lu reasons as a plain walk gives them, %lu openings that say the same, %lu counts mended, %lu cuts completed\n",
           asked, openings, mended, completed);
    return 0;
}
