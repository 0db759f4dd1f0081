// bk_cdf53_depth and bk_cdf97_depth beside document 01's words, for every length up to the limit: an input below the smallest has
// no level, any other one more than its approximations. Past the limit, each power of two with its neighbours and the largest
// number: refused with 6. And so of the depth that notes tell, where the count is compiled in once more. Says how many it asked,
// or the first that differs.
// Call: tests/desk/program depths
#include "beksanour.h"
#include <stdio.h>

static unsigned long done, refused;

// Notes refuse level 0 with 13 (0, depth): as an answer of bk_cdf53_depth.
static bk_answer told_by_notes(uint64_t n) {
    bk_answer r = bk_note_column(n, 0, 0);
    return r.number == BK_NO_SUCH_PLACE && r.first == 0 ? (bk_answer){0, r.second, 0} : r;
}

static int same(const char *what, uint64_t n, bk_answer r, bk_answer wanted) {
    if (r.number == wanted.number && r.first == wanted.first && r.second == wanted.second) return 1;
    printf("%s of %lu: %u (%lu, %lu), wanted %u (%lu, %lu)\n", what, (unsigned long)n, (unsigned)r.number, (unsigned long)r.first,
           (unsigned long)r.second, (unsigned)wanted.number, (unsigned long)wanted.first, (unsigned long)wanted.second);
    return 0;
}

// Every length up to the limit: each takes what is known of its approximations.
static int within(const char *what, bk_answer (*depth)(uint64_t), uint64_t smallest) {
    static uint8_t known[BK_MOST_SAMPLES + 1];
    for (uint64_t n = 0; n <= BK_MOST_SAMPLES; n++) {
        known[n] = n < smallest ? 0 : (uint8_t)(1 + known[n - n / 2]);
        if (!same(what, n, depth(n), (bk_answer){0, known[n], 0})) return 0;
        done++;
    }
    return 1;
}

static int past(const char *what, bk_answer (*depth)(uint64_t), uint64_t n) {
    if (n <= BK_MOST_SAMPLES) return 1;
    refused++;
    return same(what, n, depth(n), (bk_answer){BK_TOO_LONG, 0, 0});
}

static int compare(const char *what, bk_answer (*depth)(uint64_t), uint64_t smallest) {
    if (!within(what, depth, smallest) || !past(what, depth, UINT64_MAX)) return 0;
    for (int power = 24; power < 64; power++)
        for (uint64_t i = 0; i < 3; i++)
            if (!past(what, depth, ((uint64_t)1 << power) - 1 + i)) return 0;
    return 1;
}

int main(void) {
    if (!compare("5/3 depth", bk_cdf53_depth, 3) || !compare("9/7 depth", bk_cdf97_depth, 4)) return 1;
    if (!compare("5/3 depth that notes tell", told_by_notes, 3)) return 1;
    printf("ok depths: %lu as document 01 has them, %lu refused\n", done, refused);
    return 0;
}
