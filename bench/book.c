// A withdrawal beside memmove, an addition beside memcpy, and finding. Times bk_book_withdraw of the first of 16 files of 1 MiB
// each, and memmove of the 15 MiB behind it; bk_book_add of the same file behind the others, and memcpy of it; and compares the
// bytes that both sides leave. Each side has files and an area of its own, so that none reads what the other has warmed, and the
// sides go first in turn. Then bk_book_find and bk_book_room in a book of 64 points.
// Call: bench/calls book
#include "calls.h"
#include <stdlib.h>
#include <string.h>

TIMED(bk_answer, pyramid_write_i16, const uint8_t *, size_t, uint32_t, uint32_t, uint32_t, uint8_t *, size_t, uint8_t *, size_t, uint8_t *,
      size_t);
TIMED(bk_answer, book_fresh, uint8_t *, size_t);
TIMED(bk_answer, book_add, uint8_t *, size_t, const uint8_t *, size_t, uint32_t);
TIMED(bk_answer, book_find, const uint8_t *, size_t, uint32_t);
TIMED(bk_answer, book_withdraw, uint8_t *, size_t, uint32_t);
TIMED(bk_answer, book_room, const uint8_t *, size_t);

enum { LEVELS = 10, RATE = 25600000, FILES = 16, ROUNDS = 50, FINDS = 100000, FIND_ROUNDS = 7 };

static const size_t MIB = 1 << 20, AREA = BK_BOOK_EMPTY + ((size_t)FILES << 20);

static void must(bk_answer r) {
    if (r.number) exit(2);
}

// A file of random samples of 16 bits, of so many bytes.
static uint8_t *file_of(size_t bytes, uint32_t levels, uint32_t point) {
    size_t area = bytes - 18 - 4 * (levels + 1);
    uint8_t *x = malloc(area), *file = malloc(bytes), *work1 = malloc(area), *work2 = malloc(area);
    if (!x || !file || !work1 || !work2) exit(2);
    for (size_t i = 0; i < area; i++) x[i] = (uint8_t)drawn();
    must(CALL(bk_answer, pyramid_write_i16, x, area, levels, point, RATE, file, bytes, work1, area, work2, area));
    free(x);
    free(work1);
    free(work2);
    return file;
}

static void least(double *best, double from) {
    double took = now() - from;
    if (took < *best) *best = took;
}

// One side: its area and its files, one for each point, and its best times.
typedef struct {
    uint8_t *area, *files[FILES];
    double withdraw, add;
} side;

static side new_side(void) {
    side s = {malloc(AREA), {0}, 1e300, 1e300};
    if (!s.area) exit(2);
    return s;
}

static void free_side(side *s) {
    for (int p = 0; p < FILES; p++) free(s->files[p]);
    free(s->area);
}

static void withdraw_book(side *s, uint32_t point) {
    double from = now();
    bk_answer r = CALL(bk_answer, book_withdraw, s->area, AREA, point);
    least(&s->withdraw, from);
    must(r);
}

static void withdraw_plain(side *s) {
    uint8_t *data = s->area + BK_BOOK_EMPTY;
    double from = now();
    memmove(data, data + MIB, (FILES - 1) * MIB);
    least(&s->withdraw, from);
}

static void add_book(side *s, uint32_t point) {
    double from = now();
    bk_answer r = CALL(bk_answer, book_add, s->area, AREA, s->files[point], MIB, point);
    least(&s->add, from);
    must(r);
}

static void add_plain(side *s, uint32_t point) {
    double from = now();
    memcpy(s->area + BK_BOOK_EMPTY + (FILES - 1) * MIB, s->files[point], MIB);
    least(&s->add, from);
}

static void compare_sides(const side *book, const side *plain) {
    if (memcmp(book->area + BK_BOOK_EMPTY, plain->area + BK_BOOK_EMPTY, FILES * MIB)) exit(101);
}

// Each round withdraws the first file, whose point is the one that was added longest ago, and adds it behind the others. In odd
// rounds the plain side goes first.
static void time_moves(void) {
    side book = new_side(), plain = new_side();
    must(CALL(bk_answer, book_fresh, book.area, AREA));
    for (uint32_t p = 0; p < FILES; p++) {
        book.files[p] = file_of(MIB, LEVELS, p);
        plain.files[p] = malloc(MIB);
        if (!plain.files[p]) exit(2);
        memcpy(plain.files[p], book.files[p], MIB);
        must(CALL(bk_answer, book_add, book.area, AREA, book.files[p], MIB, p));
        memcpy(plain.area + BK_BOOK_EMPTY + p * MIB, plain.files[p], MIB);
    }
    for (uint32_t round = 0; round < ROUNDS; round++) {
        uint32_t point = round % FILES, odd = round % 2;
        if (odd) withdraw_plain(&plain);
        withdraw_book(&book, point);
        if (!odd) withdraw_plain(&plain);
        compare_sides(&book, &plain);
        if (odd) add_plain(&plain, point);
        add_book(&book, point);
        if (!odd) add_plain(&plain, point);
        compare_sides(&book, &plain);
    }
    printf("| call | the book, us | memmove or memcpy, us | the book / the other |\n|---|---|---|---|\n");
    printf("| withdraw the first of 16 files of 1 MiB | %.0f | %.0f | %.2f |\n", book.withdraw / 1e3, plain.withdraw / 1e3,
           book.withdraw / plain.withdraw);
    printf("| add the 16th file of 1 MiB | %.0f | %.0f | %.2f |\n", book.add / 1e3, plain.add / 1e3, book.add / plain.add);
    free_side(&book);
    free_side(&plain);
}

static uint32_t asked[FINDS];

// The best time of a round of finds, by call, in nanoseconds; `number` is what each of them must answer.
static double time_finds(const uint8_t *area, size_t bytes, uint32_t number) {
    double best = 1e300;
    for (int round = 0; round < FIND_ROUNDS; round++) {
        uint32_t others = 0;
        double from = now();
        for (int i = 0; i < FINDS; i++) others |= CALL(bk_answer, book_find, area, bytes, asked[i]).number ^ number;
        least(&best, from);
        if (others) exit(101);
    }
    return best / FINDS;
}

static double time_room(const uint8_t *area, size_t bytes) {
    double best = 1e300;
    for (int round = 0; round < FIND_ROUNDS; round++) {
        uint64_t points = 0;
        double from = now();
        for (int i = 0; i < FINDS; i++) points += CALL(bk_answer, book_room, area, bytes).second;
        least(&best, from);
        if (points != (uint64_t)FINDS * BK_BOOK_POINTS) exit(101);
    }
    return best / FINDS;
}

static void time_finding(void) {
    const size_t size = 18 + 4 * 2 + 2 * 5, bytes = BK_BOOK_EMPTY + BK_BOOK_POINTS * size;
    uint8_t *area = malloc(bytes);
    if (!area) exit(2);
    must(CALL(bk_answer, book_fresh, area, bytes));
    for (uint32_t p = 0; p < BK_BOOK_POINTS; p++) {
        uint8_t *file = file_of(size, 1, p);
        must(CALL(bk_answer, book_add, area, bytes, file, size, p));
        free(file);
    }
    printf("\n| in a book of 64 points | ns |\n|---|---|\n");
    for (int i = 0; i < FINDS; i++) asked[i] = 0;
    printf("| find the first | %.0f |\n", time_finds(area, bytes, BK_DONE));
    for (int i = 0; i < FINDS; i++) asked[i] = BK_BOOK_POINTS - 1;
    printf("| find the last | %.0f |\n", time_finds(area, bytes, BK_DONE));
    for (int i = 0; i < FINDS; i++) asked[i] = (uint32_t)(drawn() % BK_BOOK_POINTS);
    printf("| find a drawn one | %.0f |\n", time_finds(area, bytes, BK_DONE));
    for (int i = 0; i < FINDS; i++) asked[i] = BK_BOOK_POINTS + (uint32_t)i;
    printf("| find one that is not held | %.0f |\n", time_finds(area, bytes, BK_NOT_HELD));
    printf("| how much room | %.0f |\n", time_room(area, bytes));
    free(area);
}

int main(void) {
    seed = 14;
    time_moves();
    time_finding();
    return 0;
}
