// Times 10,000,000 depths: of lengths drawn from all up to the limit, of lengths whose 5/3 depths are drawn, and of the longest.
// Libraries whose sums differ answered differently. Call: bench/calls depth
#include "calls.h"

TIMED(bk_answer, cdf53_depth, uint64_t);
TIMED(bk_answer, cdf97_depth, uint64_t);

static bk_answer cdf53(uint64_t n) { return CALL(bk_answer, cdf53_depth, n); }

static bk_answer cdf97(uint64_t n) { return CALL(bk_answer, cdf97_depth, n); }

enum { CALLS = 10000000, ROUNDS = 5, LENGTHS = 4096 };

static uint64_t lengths[LENGTHS];

static uint64_t any(void) { return drawn() % (BK_MOST_SAMPLES + 1); }

static uint64_t any_depth(void) {
    uint64_t power = (uint64_t)1 << drawn() % 24;
    return power + 1 + drawn() % power;
}

static uint64_t longest(void) { return BK_MOST_SAMPLES; }

// The best time of a round, printed in milliseconds.
static void print_time(const char *filter, bk_answer (*depth)(uint64_t), const char *what, uint64_t (*length)(void)) {
    double best = 1e300;
    uint64_t sum = 0;
    for (int i = 0; i < LENGTHS; i++) lengths[i] = length();
    for (int round = 0; round < ROUNDS; round++) {
        double from = now();
        sum = 0;
        for (int i = 0; i < CALLS; i++) sum += depth(lengths[i % LENGTHS]).first;
        if (now() - from < best) best = now() - from;
    }
    printf("| %s | %s | %.0f | %lu |\n", filter, what, best / 1e6, (unsigned long)sum);
}

int main(void) {
    seed = 53;
    printf("| wavelet | lengths | 10,000,000 depths, ms | their sum |\n|---|---|---|---|\n");
    print_time("5/3", cdf53, "drawn", any);
    print_time("5/3", cdf53, "of drawn depths", any_depth);
    print_time("5/3", cdf53, "the longest", longest);
    print_time("9/7", cdf97, "drawn", any);
    print_time("9/7", cdf97, "of drawn depths", any_depth);
    print_time("9/7", cdf97, "the longest", longest);
    return 0;
}
