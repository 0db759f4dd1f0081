// The route book beside a plain map: the points that are held and their files, of both kinds, in the order of adding. After every call
// the answer and every byte of the area are what the map says, laid out anew; what is behind the data is as it was. Drawn calls on
// many areas, most of them too small, with few points and whole, cut, longer and changed files; 64 points and one more; areas of 0 to
// 904 bytes, areas filled to the last byte, and areas at their limit; every cut of a file; each byte of a directory and the two counts
// changed, and directories that say other files, beside the rule for a book that no calls could have left; a file that was found,
// cut everywhere, beside the same of the file that was added; files of up to 18,000,002 bytes, moved twice; and files of the most
// bytes in the longest area. Says how many it asked, or the first that differs.
// Call: tests/desk/program book
#include "beksanour.h"
#include "drawn.h"
#include "files.h"
#include "huge.h"
#include <stdio.h>
#include <stdlib.h>
#include <string.h>

enum { POINTS = 64, ENTRY = 14, TOTAL_AT = 900, DATA_AT = 904, GUARD = 16, AREA = 16384 };
enum { MOST_BYTES = 67108978 }; // of any file
static const uint64_t MOST_AREA = 4294967295;

// The header's numbers are the ones that this test writes out.
typedef char points_are_64[BK_BOOK_POINTS == POINTS ? 1 : -1], empty_is_904[BK_BOOK_EMPTY == DATA_AT ? 1 : -1];

static unsigned long asked[BK_NO_RATE + 1], cuts;

static bk_answer say(uint32_t number, uint64_t first, uint64_t second) { return (bk_answer){number, first, second}; }

// ---- what the header says

static uint64_t size_by(const uint8_t *head) {
    return 4 + (uint64_t)u32_at(head) + 4 * ((uint64_t)head[5] + 1) + head[4] * (uint64_t)u32_at(head + 6);
}

// What is said of the fields that both kinds have, for the file's own width, before its point.
static bk_answer of_fields(const uint8_t *head) {
    uint32_t width = head[4], levels = head[5], n = u32_at(head + 6);
    if (width != 1 && width != 2 && width != 4) return say(BK_OTHER_WIDTH, width, width);
    if (n < 3) return say(BK_MIN_FILTER_SIZE, n, 3);
    if (n > 16777216) return say(BK_TOO_LONG, 0, 0);
    if (levels == 0 || levels > depth_of(n)) return say(BK_BUFFER_WAS_TOO_SMALL_FOR_LEVEL, 0, 0);
    return say(BK_DONE, 0, 0);
}

// What adding says of a file alone: only a whole one is done.
static bk_answer of_file(const uint8_t *file, size_t length, uint32_t point) {
    if (length > MOST_BYTES) return say(BK_TOO_LONG, 0, 0);
    if (length < 4) return say(BK_CUT_SHORT, length, 0);
    if (!is_kind(u32_at(file))) return say(BK_BAD_COUNT, 0, u32_at(file));
    size_t at = 4 + u32_at(file);
    if (length < at) return say(BK_CUT_SHORT, length, 0);
    bk_answer fields = of_fields(file);
    if (fields.number) return fields;
    if (u32_at(file + 10) != point) return say(BK_OTHER_POINT, u32_at(file + 10), point);
    if (u32_at(file) == NEW && u32_at(file + 14) == 0) return say(BK_NO_RATE, 0, 0);
    uint32_t width = file[4], levels = file[5], n = u32_at(file + 6);
    for (uint32_t section = 1; section <= levels + 1; section++) {
        uint64_t count = count_of(n, levels, section);
        if (length - at < 4) return say(BK_CUT_SHORT, length, 0);
        if (u32_at(file + at) != count) return say(BK_BAD_COUNT, section, u32_at(file + at));
        if (length - at - 4 < width * count) return say(BK_CUT_SHORT, length, 0);
        at += 4 + (size_t)(width * count);
    }
    return at < length ? say(BK_TRAILING, length - at, 0) : say(BK_DONE, 0, 0);
}

// Whether calls can have left this directory and these counts.
static int could_be(const uint8_t *area, uint64_t length) {
    uint64_t sum = 0;
    int held = 0;
    if (u32_at(area) != POINTS) return 0;
    while (held < POINTS && u32_at(area + 4 + ENTRY * held) != 0) held++;
    for (int i = 0; i < held; i++) {
        const uint8_t *entry = area + 4 + ENTRY * i;
        if (!is_kind(u32_at(entry)) || of_fields(entry).number) return 0;
        for (int j = 0; j < i; j++)
            if (u32_at(area + 4 + ENTRY * j + 10) == u32_at(entry + 10)) return 0;
        sum += size_by(entry);
    }
    for (int at = 4 + ENTRY * held; at < TOTAL_AT; at++)
        if (area[at] != 0) return 0;
    return u32_at(area + TOTAL_AT) == sum && DATA_AT + sum <= length;
}

// ---- the map, and the area that it says

static struct {
    int is_book; // else no calls could have left it
    int count;
    struct {
        uint8_t entry[ENTRY];
        pyramid file;
    } held[POINTS];
    uint8_t wanted[AREA]; // what the area must be
    size_t length;
} map;

// The area that is lent, at any alignment, between two guards.
static uint8_t room[AREA + 2 * GUARD + 8], *area;

static uint8_t guard_byte(int i) { return (uint8_t)(0xa5 + 29 * i); }

static void lend(size_t length) {
    area = room + GUARD + drawn() % 8;
    map.is_book = 0;
    map.count = 0;
    map.length = length;
    for (int i = 0; i < GUARD; i++) area[i - GUARD] = area[(int)length + i] = guard_byte(i);
    for (size_t i = 0; i < length; i++) area[i] = map.wanted[i] = (uint8_t)drawn();
}

// Lays the map out: its directory, its counts and its files. What is behind them stays.
static void lay_out(void) {
    size_t at = DATA_AT;
    memset(map.wanted, 0, DATA_AT);
    put_u32(map.wanted, POINTS);
    for (int i = 0; i < map.count; i++) {
        memcpy(map.wanted + 4 + ENTRY * i, map.held[i].entry, ENTRY);
        memcpy(map.wanted + at, map.held[i].file.bytes, map.held[i].file.length);
        at += map.held[i].file.length;
    }
    put_u32(map.wanted + TOTAL_AT, (uint32_t)(at - DATA_AT));
}

static int slot_of(uint32_t point) {
    for (int i = 0; i < map.count; i++)
        if (map.held[i].file.point == point) return i;
    return -1;
}

static size_t place_of(int slot) {
    size_t at = DATA_AT;
    for (int i = 0; i < slot; i++) at += map.held[i].file.length;
    return at;
}

static size_t free_room(void) { return map.length - place_of(map.count); }

static void end_with(bk_answer r, bk_answer wanted) {
    printf(": %u (%lu, %lu), wanted %u (%lu, %lu)\n", (unsigned)r.number, (unsigned long)r.first, (unsigned long)r.second,
           (unsigned)wanted.number, (unsigned long)wanted.first, (unsigned long)wanted.second);
    exit(1);
}

static void failed(const char *what, uint32_t point, bk_answer r, bk_answer wanted) {
    printf("%s, point %u, an area of %lu bytes, %d points held", what, (unsigned)point, (unsigned long)map.length, map.count);
    end_with(r, wanted);
}

// Makes the map what the area says, where calls can have left it; its files are bytes, whatever they are.
static void load(void) {
    size_t at = DATA_AT;
    map.count = 0;
    memcpy(map.wanted, area, map.length);
    map.is_book = map.length >= DATA_AT && could_be(area, map.length);
    while (map.is_book && map.count < POINTS && u32_at(area + 4 + ENTRY * map.count) != 0) {
        pyramid *f = &map.held[map.count].file;
        memcpy(map.held[map.count].entry, area + 4 + ENTRY * map.count, ENTRY);
        f->point = u32_at(map.held[map.count].entry + 10);
        f->length = (size_t)size_by(map.held[map.count].entry);
        if (f->length > MOST_FILE) failed("a file too long for this test", f->point, say(0, 0, 0), say(0, 0, 0));
        memcpy(f->bytes, area + at, f->length);
        at += f->length;
        map.count++;
    }
}

// ---- a call beside the map

// The answer is the one that was wanted, and so is every byte of the area; nothing beside it was written.
static void compare(const char *what, uint32_t point, bk_answer r, bk_answer wanted) {
    if (!same(r, wanted)) failed(what, point, r, wanted);
    for (size_t i = 0; i < map.length; i++)
        if (area[i] != map.wanted[i]) {
            printf("byte %lu of the area is %u, wanted %u, after: ", (unsigned long)i, area[i], map.wanted[i]);
            failed(what, point, r, wanted);
        }
    for (int i = 0; i < GUARD; i++)
        if (area[i - GUARD] != guard_byte(i) || area[(int)map.length + i] != guard_byte(i)) {
            printf("written beside the area: ");
            failed(what, point, r, wanted);
        }
    asked[r.number]++;
}

// What every call says first.
static bk_answer of_area(int fresh) {
    if (map.length < DATA_AT) return say(BK_NO_ROOM, map.length, DATA_AT);
    return fresh || map.is_book ? say(BK_DONE, 0, 0) : say(BK_BAD_COUNT, 0, 0);
}

static void ask_fresh(void) {
    bk_answer wanted = of_area(1);
    if (!wanted.number) {
        map.is_book = 1;
        map.count = 0;
        lay_out();
    }
    compare("fresh", 0, bk_book_fresh(area, map.length), wanted);
}

static void ask_room(void) {
    bk_answer wanted = of_area(0);
    if (!wanted.number) wanted = say(BK_DONE, free_room(), (uint64_t)map.count);
    compare("room", 0, bk_book_room(area, map.length), wanted);
}

static bk_answer ask_find(uint32_t point) {
    bk_answer wanted = of_area(0), r = bk_book_find(area, map.length, point);
    int slot = slot_of(point);
    if (!wanted.number) wanted = slot < 0 ? say(BK_NOT_HELD, 0, 0) : say(BK_DONE, place_of(slot), map.held[slot].file.length);
    compare("find", point, r, wanted);
    return r;
}

static void ask_withdraw(uint32_t point) {
    bk_answer wanted = of_area(0);
    int slot = slot_of(point);
    if (!wanted.number && slot < 0) wanted = say(BK_NOT_HELD, 0, 0);
    if (!wanted.number) {
        map.count--;
        for (int i = slot; i < map.count; i++) map.held[i] = map.held[i + 1];
        lay_out();
    }
    compare("withdraw", point, bk_book_withdraw(area, map.length, point), wanted);
}

// A file for a point; the file must stay as it is, and opening must say the same of it where both are asked.
static void ask_add(const pyramid *f, uint32_t point) {
    static uint8_t lent[MOST_FILE], out[4 * MOST_FILE], work1[4 * MOST_FILE], work2[4 * MOST_FILE];
    bk_answer wanted = of_area(0), of = of_file(f->bytes, f->length, point);
    if (!wanted.number) wanted = of;
    if (!wanted.number && slot_of(point) >= 0) wanted = say(BK_ALREADY_HELD, 0, 0);
    if (!wanted.number && (map.count == POINTS || f->length > free_room())) wanted = say(BK_BOOK_FULL, 0, 0);
    if (!wanted.number) {
        memcpy(map.held[map.count].entry, f->bytes, ENTRY);
        map.held[map.count].file = *f;
        map.held[map.count++].file.point = point;
        lay_out();
    }
    memcpy(lent, f->bytes, f->length);
    compare("add", point, bk_book_add(area, map.length, lent, f->length, point), wanted);
    for (size_t i = 0; i < f->length; i++)
        if (lent[i] != f->bytes[i]) failed("the file was written to", point, wanted, wanted);
    uint32_t width = f->length < ENTRY ? 1 : f->bytes[4];
    bk_answer r = bk_pyramid_open(lent, f->length, width, point, out, sizeof out, work1, sizeof work1, work2, sizeof work2).answer;
    if (r.number == BK_DONE) r = r.first == 0 ? say(BK_DONE, 0, 0) : say(BK_CUT_SHORT, f->length, 0);
    if (!same(r, of)) failed("opening the file", point, r, of);
}

static void add_whole(const pyramid *f) { ask_add(f, f->point); }

// ---- drawn calls

// A file that is whole, or one that adding must refuse.
static pyramid any_whole_or_wrong(uint32_t point) {
    pyramid f = any_file(MOST, point);
    uint32_t at = between(0, (uint32_t)f.length - 1);
    switch (drawn() % 8) {
    case 0: f.length = at; break;
    case 1: f.length += between(1, 8); break;
    case 2: f.bytes[at] ^= (uint8_t)(1 << drawn() % 8); break;
    case 3: if (drawn() % 4 == 0) put_u32(f.bytes + 14, 0); break; // a rate of 0, or of an old file a wrong count
    default: break;
    }
    return f;
}

static void compare_drawn(void) {
    static const uint32_t apart[] = {0, 1, 14, 15, 256, 65536, 2147483648u, UINT32_MAX};
    uint32_t few = between(1, 100), most = drawn() % 8 == 0 ? 8000 : 700;
    int spread = drawn() % 2;
    lend(DATA_AT + between(0, most));
    ask_room();
    ask_fresh();
    for (int calls = 80; calls > 0; calls--) {
        uint32_t point = spread ? apart[drawn() % 8] : 14 + drawn() % few;
        switch (drawn() % 16) {
        case 0: ask_room(); break;
        case 1: case 2: case 3: ask_find(point); break;
        case 4: case 5: case 6: case 7: ask_withdraw(point); break;
        case 8: if (drawn() % 40 == 0) ask_fresh(); break;
        default: {
            pyramid f = any_whole_or_wrong(point);
            ask_add(&f, drawn() % 16 == 0 ? point + 1 : point);
        }
        }
    }
    for (int i = 0; i < map.count; i++) ask_find(map.held[i].file.point);
    ask_room();
}

// ---- 64 points, and areas that are just long enough

static void ask_all(uint32_t point) {
    pyramid f = any_file(MOST, point), cut = f;
    cut.length--;
    ask_room();
    ask_find(point);
    ask_add(&cut, point);
    ask_add(&f, point + 1);
    ask_add(&f, point);
    ask_withdraw(point);
}

static void compare_full(void) {
    lend(DATA_AT + 5000);
    ask_fresh();
    for (uint32_t i = 0; i < POINTS; i++) {
        pyramid f = any_file(8, 1000 + i * 7);
        add_whole(&f);
    }
    if (map.count != POINTS) failed("64 points are not held", 0, say(0, 0, 0), say(0, 0, 0));
    pyramid more = any_file(8, 3), held = any_file(8, 1000), cut = more;
    cut.length--;
    add_whole(&more);
    add_whole(&held);
    add_whole(&cut);
    for (uint32_t i = 0; i < POINTS; i++) ask_find(1000 + i * 7);
    ask_withdraw(1000 + 31 * 7);
    add_whole(&more);
    ask_room();
    for (uint32_t i = 0; i < POINTS; i++) ask_find(1000 + i * 7);
    ask_find(3);
    // from the front, from the end, from the middle, until nothing is held
    for (int turn = 0; map.count > 0; turn++) {
        ask_withdraw(map.held[turn % 3 == 0 ? 0 : turn % 3 == 1 ? map.count - 1 : map.count / 2].file.point);
        for (int i = 0; i < map.count; i++) ask_find(map.held[i].file.point);
    }
    ask_room();
}

// A file of so many bytes, 29 to 62.
static pyramid file_of_size(size_t bytes, uint32_t point) {
    uint32_t kind = any_kind();
    return file_of(kind, 1, (uint32_t)bytes - 12 - kind, 1, point);
}

// An area for exactly these files, and the same with a byte more or a byte less.
static void compare_filled(int count) {
    pyramid files[4];
    size_t sum = 0;
    for (int i = 0; i < count; i++) {
        files[i] = file_of_size(between(30, 34), 14 + (uint32_t)i);
        sum += files[i].length;
    }
    for (int more = -1; more <= 1; more++) {
        lend(DATA_AT + sum + (size_t)more);
        ask_fresh();
        for (int i = 0; i < count; i++) add_whole(&files[i]);
        ask_room();
        if (map.count != (more < 0 ? count - 1 : count)) failed("not as many as fit", 0, say(0, 0, 0), say(0, 0, 0));
        if (map.count > 0) ask_withdraw(14);
        pyramid longer = file_of_size(free_room() + 1, 99), exact = file_of_size(free_room(), 99);
        add_whole(&longer);
        add_whole(&exact);
        if (free_room() != 0) failed("free room is left", 0, say(0, 0, 0), say(0, 0, 0));
        for (int i = 0; i < count; i++) ask_find(files[i].point);
        ask_find(99);
    }
}

static void compare_short(void) {
    for (size_t length = 0; length <= DATA_AT; length++) {
        lend(length);
        ask_all(14);
        ask_fresh();
        ask_all(14);
    }
    lend(DATA_AT + 30);
    memset(area, 0, map.length);
    load();
    ask_all(14);
}

// The same book, lent with every length up to its own.
static void compare_lengths(void) {
    lend(DATA_AT + 400);
    ask_fresh();
    for (uint32_t i = 0; i < 3; i++) {
        pyramid f = file_of(i == 1 ? OLD : NEW, 1, 5 + i, 2, 14 + i);
        add_whole(&f);
    }
    uint8_t book[DATA_AT + 400];
    memcpy(book, area, sizeof book);
    for (size_t length = 0; length <= sizeof book; length++) {
        lend(length);
        memcpy(area, book, length);
        load();
        ask_room();
        ask_find(16);
        ask_all(17);
    }
}

// ---- files that adding refuses

static void compare_refused(uint32_t kind, uint32_t width) {
    const pyramid whole = file_of(kind, width, 11, 3, 14);
    pyramid held = any_file(MOST, 15);
    lend(DATA_AT + 600);
    ask_fresh();
    add_whole(&held);
    for (size_t more = 1; more <= 8; more++) {
        pyramid f = whole;
        f.length += more;
        ask_add(&f, 14);
    }
    ask_add(&whole, 13);
    for (size_t at = 0; at < whole.length; at++)
        for (uint32_t to = 0; to < 256; to += at < 18 ? 1 : between(1, 40)) {
            pyramid f = whole;
            f.bytes[at] = (uint8_t)to;
            ask_add(&f, 14);
            if (slot_of(14) >= 0) ask_withdraw(14);
        }
    // 0, 2 and 16,777,217 samples, 0 levels and one too many, another point where the point asked is held, and every cut; then all this
    // with a rate of 0, where an old file has the count of section 1, and with a wrong count of section 0
    for (int wrong = 0; wrong < 3; wrong++) {
        pyramid other = whole;
        if (wrong == 1) put_u32(other.bytes + 14, 0);
        if (wrong == 2) put_u32(other.bytes, kind + 1);
        for (uint32_t n = 0; n < 3; n++) {
            pyramid f = other;
            put_u32(f.bytes + 6, n == 0 ? 0 : n == 1 ? 2 : 16777217);
            ask_add(&f, 15);
        }
        for (int levels = 0; levels < 2; levels++) {
            pyramid f = other;
            f.bytes[5] = levels ? 4 : 0;
            ask_add(&f, 15);
        }
        ask_add(&other, 15);
        for (size_t cut = 0; cut <= other.length; cut++) {
            pyramid f = other;
            f.length = cut;
            ask_add(&f, 14);
        }
        if (slot_of(14) >= 0) ask_withdraw(14);
    }
    ask_room();
}

// As many bytes as a file can have, and one more; its pages are zeros until they are written.
static uint8_t longest[MOST_BYTES + 1];

// A file of the most bytes, and one more: 6, before all that is wrong in it.
static void compare_too_long(void) {
    lend(DATA_AT + 100);
    ask_fresh();
    compare("add", 14, bk_book_add(area, map.length, longest, sizeof longest, 14), say(BK_TOO_LONG, 0, 0));
    compare("add", 14, bk_book_add(area, map.length, longest, sizeof longest - 1, 14), say(BK_BAD_COUNT, 0, 0));
    for (int i = 0; i < 2; i++) {
        longest[0] = i ? OLD : NEW;
        compare("add", 14, bk_book_add(area, map.length, longest, sizeof longest, 14), say(BK_TOO_LONG, 0, 0));
        compare("add", 14, bk_book_add(area, map.length, longest, sizeof longest - 1, 14), say(BK_OTHER_WIDTH, 0, 0));
    }
}

// ---- damaged books

// Every call on what stands in `book`, the area put back before each.
static void ask_damaged(const uint8_t *book, uint32_t point) {
    pyramid held = file_of(NEW, 1, 3, 1, point), other = file_of(any_kind(), 1, 3, 1, point + 100000), cut = other;
    cut.length--;
    for (int call = 0; call < 7; call++) {
        memcpy(area, book, map.length);
        load();
        switch (call) {
        case 0: ask_room(); break;
        case 1: ask_find(point); break;
        case 2: ask_withdraw(point); break;
        case 3: add_whole(&held); break;
        case 4: add_whole(&other); break;
        case 5: add_whole(&cut); break;
        default: ask_fresh();
        }
    }
}

// Each byte of the directory and of the two counts changed, in a book of so many points.
static void compare_damaged(int count) {
    static uint8_t book[AREA];
    lend(DATA_AT + 60 + 40 * (size_t)count);
    ask_fresh();
    for (int i = 0; i < count; i++) {
        pyramid f = any_file(5, i < 4 ? 14 + (uint32_t)i : (uint32_t)i << 8 | 14);
        add_whole(&f);
    }
    if (map.count != count) failed("a book that does not hold all", 0, say(0, 0, 0), say(0, 0, 0));
    memcpy(book, area, map.length);
    for (int at = 0; at < DATA_AT; at++) {
        const uint8_t was = book[at], to[] = {was ^ 1, (uint8_t)(was + 1), (uint8_t)(was - 1), 0, 1, 10, 14, 255, (uint8_t)drawn()};
        uint32_t own = at < 4 || at >= TOTAL_AT || count == 0 ? 14 : u32_at(book + 4 + (at - 4) / ENTRY * ENTRY + 10);
        for (size_t i = 0; i < sizeof to; i++)
            if (to[i] != was) {
                book[at] = to[i];
                ask_damaged(book, i % 2 ? own : 14 + drawn() % 4);
            }
        book[at] = was;
    }
}

// A directory of any entries, few of which no file begins with, and a count that is mostly their sum.
static void compare_directory(void) {
    static uint8_t book[AREA];
    uint32_t entries = between(0, drawn() % 8 ? 6 : POINTS), wrong = drawn() % 3 ? 64 : drawn() % 64;
    uint64_t sum = 0;
    for (size_t i = 0; i < AREA; i++) book[i] = i < DATA_AT ? 0 : (uint8_t)drawn();
    put_u32(book, POINTS);
    for (uint32_t i = 0; i < entries; i++) {
        uint8_t *e = book + 4 + ENTRY * i;
        uint32_t n = between(3, 22), at = drawn() % 4, fault = i % 8 == wrong / 8 ? wrong % 8 : 8;
        e[0] = (uint8_t)any_kind();
        e[4] = (uint8_t)(fault == 0 ? drawn() % 6 : any_width());
        e[5] = (uint8_t)(fault == 1 ? drawn() % 2 * (depth_of(n) + 1) : between(1, depth_of(n)));
        put_u32(e + 6, fault == 2 ? drawn() % 4 : n);
        put_u32(e + 10, 14 + 3 * (fault == 3 ? drawn() % entries : i));
        if (fault == 4) e[at] = (uint8_t)(drawn() % 16);
        if (fault == 5) memset(e, 0, ENTRY);
        if (u32_at(e) != 0) sum += size_by(e) - (u32_at(e) - e[0]); // of a wrong count as its first byte tells it
    }
    if (wrong % 8 == 6) sum += drawn() % 3;
    if (wrong % 8 == 7) book[between(4, TOTAL_AT - 1)] ^= 1;
    put_u32(book + TOTAL_AT, (uint32_t)sum);
    lend(DATA_AT + (size_t)sum + between(0, 60));
    ask_damaged(book, 14 + 3 * between(0, entries));
}

// ---- what was found

// The front of what must be the file f.
static bk_answer opened(const pyramid *f, const uint8_t *bytes, size_t cut, uint8_t *out) {
    static uint8_t work1[4 * MOST], work2[4 * MOST];
    bk_opened r = bk_pyramid_open(bytes, cut, f->bytes[4], f->point, out, 4 * MOST, work1, sizeof work1, work2, sizeof work2);
    uint32_t rate = r.answer.number ? 0 : rate_in(f->bytes);
    if (r.rate != rate) failed("the rate of a file found and cut", f->point, say(0, r.rate, 0), say(0, rate, 0));
    return r.answer;
}

// A file in the book, cut everywhere, opens as the file that was added, cut there.
static void compare_found(void) {
    static uint8_t out[2][4 * MOST];
    pyramid files[6];
    lend(DATA_AT + 6 * MOST_FILE);
    ask_fresh();
    for (uint32_t i = 0; i < 6; i++) {
        files[i] = any_file(MOST, 14 + i);
        add_whole(&files[i]);
    }
    ask_withdraw(15);
    for (int i = 0; i < 6; i++) {
        const pyramid *f = &files[i];
        bk_answer found = ask_find(f->point);
        if (found.number == BK_NOT_HELD) continue;
        for (size_t cut = 0; cut <= f->length; cut++) {
            memset(out, 0, sizeof out);
            bk_answer wanted = opened(f, f->bytes, cut, out[0]), r = opened(f, area + found.first, cut, out[1]);
            if (!same(r, wanted)) failed("a file found and cut", f->point, r, wanted);
            for (size_t k = 0; k < sizeof out[0]; k++)
                if (out[0][k] != out[1][k]) failed("the samples of a file found and cut", f->point, r, wanted);
            cuts++;
        }
    }
}

// ---- files of many bytes, in areas that are not looked at as a map

static void compare_answer(const char *what, bk_answer r, bk_answer wanted) {
    if (!same(r, wanted)) {
        printf("%s", what);
        end_with(r, wanted);
    }
    asked[r.number]++;
}

// So many bytes of an area, from a place on, are the ones that were wanted.
static void compare_bytes(const char *what, const uint8_t *book, uint64_t from, const uint8_t *wanted, size_t count) {
    for (size_t i = 0; i < count; i++)
        if (book[from + i] != wanted[i]) {
            printf("byte %lu of the area is %u, wanted %u, after: %s\n", (unsigned long)(from + i), book[from + i], wanted[i],
                   what);
            exit(1);
        }
}

// Three files of 200,000, 3,000,001 and 18,000,002 bytes; the first is withdrawn, then the second. Every byte of the area is looked
// at, also what a withdrawal leaves behind the data. `wanted` is the area that must be, and the files are added from there.
static void compare_large(void) {
    enum { FILES = 3, FREE = 5000, SUM = 200000 + 3000001 + 18000002, LENGTH = DATA_AT + SUM + FREE };
    static const struct { uint32_t kind, width, n, levels; } files[FILES] = {
        {NEW, 2, 99981, 4}, {OLD, 1, 2999971, 3}, {NEW, 4, 4499991, 4}};
    static uint8_t book[LENGTH], wanted[LENGTH];
    size_t size[FILES], at = DATA_AT;
    for (size_t i = DATA_AT; i < LENGTH; i++) wanted[i] = (uint8_t)drawn();
    memcpy(book + DATA_AT + SUM, wanted + DATA_AT + SUM, FREE);
    put_u32(wanted, POINTS);
    put_u32(wanted + TOTAL_AT, SUM);
    compare_answer("large: fresh", bk_book_fresh(book, LENGTH), say(BK_DONE, 0, 0));
    for (uint32_t i = 0; i < FILES; i++) {
        size[i] = make_whole(wanted + at, LENGTH - at, files[i].kind, files[i].width, files[i].n, files[i].levels, 14 + i);
        memcpy(wanted + 4 + ENTRY * i, wanted + at, ENTRY);
        compare_answer("large: add", bk_book_add(book, LENGTH, wanted + at, size[i], 14 + i), say(BK_DONE, 0, 0));
        at += size[i];
    }
    compare_bytes("large: three files are added", book, 0, wanted, LENGTH);
    for (uint32_t i = 0; i < FILES - 1; i++) {
        size_t left = u32_at(wanted + TOTAL_AT) - size[i];
        for (size_t k = DATA_AT; k < DATA_AT + left; k++) wanted[k] = wanted[k + size[i]];
        for (size_t k = 4; k < TOTAL_AT; k++) wanted[k] = k + ENTRY < TOTAL_AT ? wanted[k + ENTRY] : 0;
        put_u32(wanted + TOTAL_AT, (uint32_t)left);
        compare_answer("large: withdraw", bk_book_withdraw(book, LENGTH, 14 + i), say(BK_DONE, 0, 0));
        compare_bytes(i == 0 ? "large: the first is withdrawn" : "large: the second is withdrawn", book, 0, wanted, LENGTH);
        compare_answer("large: room", bk_book_room(book, LENGTH), say(BK_DONE, LENGTH - DATA_AT - left, FILES - 1 - i));
        compare_answer("large: find", bk_book_find(book, LENGTH, 16), say(BK_DONE, DATA_AT + left - size[2], size[2]));
    }
}

// ---- areas at their limit

// Of a long area its first bytes are looked at, its last, and as many behind it.
enum { LOOKED = 16384 };

static void compare_long(const char *what, const uint8_t *book, const uint8_t *front, bk_answer r, bk_answer wanted) {
    static const uint8_t zeros[2 * LOOKED];
    compare_answer(what, r, wanted);
    compare_bytes(what, book, 0, front, LOOKED);
    compare_bytes(what, book, MOST_AREA - LOOKED, zeros, sizeof zeros);
}

// A directory of so many files of the most bytes of a kind, and their sum as far as four bytes tell it.
static void put_longest(uint8_t *book, uint32_t kind, uint32_t count, uint32_t n) {
    memset(book, 0, DATA_AT);
    put_u32(book, POINTS);
    for (uint32_t i = 0; i < count; i++) {
        uint8_t *e = book + 4 + ENTRY * i;
        e[0] = (uint8_t)kind;
        e[4] = 4;
        e[5] = 23;
        put_u32(e + 6, n);
        put_u32(e + 10, i);
    }
    put_u32(book + TOTAL_AT, (uint32_t)(count * (4 + kind + 4 * 24 + 4 * (uint64_t)n)));
}

static void compare_longest(void) {
    static uint8_t front[LOOKED];
    const uint64_t most_file = MOST_BYTES, old_file = most_file - 4, sum = 63 * most_file;
    uint8_t *book = huge_slice((size_t)MOST_AREA + LOOKED);
    pyramid f = file_of(NEW, 1, 5, 2, 14), last = file_of(OLD, 2, 5, 2, 63);
    const bk_answer done = {BK_DONE, 0, 0}, too_long = {BK_TOO_LONG, 0, 0}, bad = {BK_BAD_COUNT, 0, 0}, full = {BK_BOOK_FULL, 0, 0};
    compare_long("fresh, too long", book, front, bk_book_fresh(book, MOST_AREA + 1), too_long);
    compare_long("room, too long", book, front, bk_book_room(book, MOST_AREA + 1), too_long);
    compare_long("find, too long", book, front, bk_book_find(book, MOST_AREA + 1, 14), too_long);
    compare_long("withdraw, too long", book, front, bk_book_withdraw(book, MOST_AREA + 1, 14), too_long);
    compare_long("add, too long", book, front, bk_book_add(book, MOST_AREA + 1, f.bytes, f.length, 14), too_long);
    compare_long("add a cut file, too long", book, front, bk_book_add(book, MOST_AREA + 1, f.bytes, f.length - 1, 14), too_long);
    compare_long("room of no book", book, front, bk_book_room(book, MOST_AREA), bad);
    put_u32(front, POINTS);
    compare_long("fresh, the longest", book, front, bk_book_fresh(book, MOST_AREA), done);
    compare_long("room, the longest", book, front, bk_book_room(book, MOST_AREA), say(BK_DONE, MOST_AREA - DATA_AT, 0));
    compare_long("room of a book, too long", book, front, bk_book_room(book, MOST_AREA + 1), too_long);
    memcpy(front + 4, f.bytes, ENTRY);
    memcpy(front + DATA_AT, f.bytes, f.length);
    put_u32(front + TOTAL_AT, (uint32_t)f.length);
    compare_long("add, the longest", book, front, bk_book_add(book, MOST_AREA, f.bytes, f.length, 14), done);
    // 63 old files of the most bytes, then 63 new ones, whose samples are not looked at, and one behind them
    put_longest(book, OLD, 63, BK_MOST_SAMPLES);
    memcpy(front, book, DATA_AT);
    compare_long("room, 63 old files", book, front, bk_book_room(book, MOST_AREA), say(BK_DONE, MOST_AREA - DATA_AT - 63 * old_file, 63));
    compare_long("find, 63 old files", book, front, bk_book_find(book, MOST_AREA, 1), say(BK_DONE, DATA_AT + old_file, old_file));
    put_longest(book, NEW, 63, BK_MOST_SAMPLES);
    memcpy(front, book, DATA_AT);
    compare_long("room, 63 files", book, front, bk_book_room(book, MOST_AREA), say(BK_DONE, MOST_AREA - DATA_AT - sum, 63));
    compare_long("find, 63 files", book, front, bk_book_find(book, MOST_AREA, 62), say(BK_DONE, DATA_AT + sum - most_file, most_file));
    compare_long("room, 63 files that do not fit", book, front, bk_book_room(book, DATA_AT + sum - 1), bad);
    compare_long("room, 63 files that fit", book, front, bk_book_room(book, DATA_AT + sum), say(BK_DONE, 0, 63));
    memcpy(front + 4 + 63 * ENTRY, last.bytes, ENTRY);
    put_u32(front + TOTAL_AT, (uint32_t)(sum + last.length));
    compare_long("add, 63 files", book, front, bk_book_add(book, MOST_AREA, last.bytes, last.length, 63), done);
    compare_long("find, 64 files", book, front, bk_book_find(book, MOST_AREA, 63), say(BK_DONE, DATA_AT + sum, last.length));
    compare_bytes("add, 63 files", book, DATA_AT + sum, last.bytes, last.length);
    memset(front + 4 + 62 * ENTRY, 0, 2 * ENTRY);
    memcpy(front + 4 + 62 * ENTRY, last.bytes, ENTRY);
    put_u32(front + TOTAL_AT, (uint32_t)(sum - most_file + last.length));
    compare_long("withdraw, 64 files", book, front, bk_book_withdraw(book, MOST_AREA, 62), done);
    compare_bytes("withdraw, 64 files", book, DATA_AT + sum - most_file, last.bytes, last.length);
    // as many bytes as four bytes cannot tell, and files of too many samples
    put_longest(book, NEW, 64, BK_MOST_SAMPLES);
    memcpy(front, book, DATA_AT);
    compare_long("room, 64 files of the most bytes", book, front, bk_book_room(book, MOST_AREA), bad);
    compare_long("find, 64 files of the most bytes", book, front, bk_book_find(book, MOST_AREA, 0), bad);
    compare_long("room, the same in few bytes", book, front, bk_book_room(book, LOOKED), bad);
    put_longest(book, NEW, 1, BK_MOST_SAMPLES + 1);
    memcpy(front, book, DATA_AT);
    compare_long("room, a file of too many samples", book, front, bk_book_room(book, MOST_AREA), bad);
    // 62 files of the most bytes, and a 63rd, for which the area is a byte too short, then just long enough; a 64th would end past
    // 2^32, at 8,200 as far as four bytes tell it
    make_whole(longest, sizeof longest, NEW, 4, BK_MOST_SAMPLES, 23, 62);
    memset(longest + MOST_BYTES - LOOKED, 0xa5, LOOKED);
    put_longest(book, NEW, 62, BK_MOST_SAMPLES);
    memcpy(front, book, DATA_AT);
    compare_long("add, a byte too short", book, front, bk_book_add(book, DATA_AT + sum - 1, longest, MOST_BYTES, 62), full);
    memcpy(front + 4 + 62 * ENTRY, longest, ENTRY);
    put_u32(front + TOTAL_AT, (uint32_t)sum);
    compare_long("add the 63rd", book, front, bk_book_add(book, DATA_AT + sum, longest, MOST_BYTES, 62), done);
    compare_bytes("add the 63rd", book, DATA_AT + sum - most_file, longest, MOST_BYTES);
    put_u32(longest + 10, 63);
    compare_long("add the 64th", book, front, bk_book_add(book, MOST_AREA, longest, MOST_BYTES, 63), full);
    compare_long("room, beside the 64th", book, front, bk_book_room(book, MOST_AREA), say(BK_DONE, MOST_AREA - DATA_AT - sum, 63));
}

int main(void) {
    seed = 14;
    for (int i = 0; i < 300; i++) compare_drawn();
    for (int i = 0; i < 3; i++) compare_full();
    for (int count = 1; count <= 4; count++)
        for (int i = 0; i < 20; i++) compare_filled(count);
    compare_short();
    compare_lengths();
    for (uint32_t width = 1; width <= 4; width *= 2) {
        compare_refused(OLD, width);
        compare_refused(NEW, width);
    }
    compare_too_long();
    compare_damaged(0);
    compare_damaged(3);
    compare_damaged(POINTS);
    for (int i = 0; i < 4000; i++) compare_directory();
    for (int i = 0; i < 20; i++) compare_found();
    compare_large();
    compare_longest();
    static const uint32_t numbers[] = {BK_DONE, BK_MIN_FILTER_SIZE, BK_BUFFER_WAS_TOO_SMALL_FOR_LEVEL, BK_TOO_LONG, BK_NO_ROOM,
                                       BK_OTHER_WIDTH, BK_BAD_COUNT, BK_CUT_SHORT, BK_OTHER_POINT, BK_TRAILING, BK_BOOK_FULL,
                                       BK_ALREADY_HELD, BK_NOT_HELD, BK_NO_RATE};
    unsigned long refused = 0;
    for (size_t i = 0; i < sizeof numbers / sizeof *numbers; i++) {
        if (asked[numbers[i]] == 0) {
            printf("no call answered %u\n", (unsigned)numbers[i]);
            return 1;
        }
        refused += i > 0 ? asked[numbers[i]] : 0;
    }
    printf("ok book: %lu calls done and %lu refused as a plain map says, %lu cuts of files that were found\n", asked[BK_DONE],
           refused, cuts);
    return 0;
}
