// One sample beside opening: times bk_pyramid_sample at drawn places and at places in a row of files of 16,777,216 samples of 16
// bits at several numbers of levels, and bk_pyramid_open of the same files, and compares each sample that was read with the one
// that opening gave. Call: bench/calls sample
#include "calls.h"
#include <stdlib.h>

TIMED(bk_answer, pyramid_size, uint32_t, uint64_t, uint32_t);
TIMED(bk_answer, pyramid_write_i16, const uint8_t *, size_t, uint32_t, uint32_t, uint32_t, uint8_t *, size_t, uint8_t *, size_t, uint8_t *,
      size_t);
TIMED(bk_opened, pyramid_open, const uint8_t *, size_t, uint32_t, uint32_t, uint8_t *, size_t, uint8_t *, size_t, uint8_t *, size_t);
TIMED(bk_sample, pyramid_sample, const uint8_t *, size_t, uint32_t, uint32_t, uint64_t);

enum { WIDTH = 2, POINT = 14, RATE = 25600000, READS = 20000, ROUNDS = 15 };

static uint64_t places[READS];
static int64_t read_there[READS];

// The best time of a round of reads, by read, in nanoseconds. Each round has places of its own, drawn or in a row; what it read
// is held to the samples in `out`.
static double time_reads(const uint8_t *file, size_t bytes, const uint8_t *out, int in_a_row) {
    double best = 1e300;
    for (int round = 0; round < ROUNDS; round++) {
        uint64_t first = drawn() % (BK_MOST_SAMPLES - READS);
        for (int i = 0; i < READS; i++) places[i] = in_a_row ? first + (uint64_t)i : drawn() % BK_MOST_SAMPLES;
        double from = now();
        for (int i = 0; i < READS; i++)
            read_there[i] = CALL(bk_sample, pyramid_sample, file, bytes, WIDTH, POINT, places[i]).sample;
        double took = (now() - from) / READS;
        if (took < best) best = took;
        for (int i = 0; i < READS; i++) {
            const uint8_t *at = out + places[i] * WIDTH;
            if (read_there[i] != (int16_t)(at[0] | at[1] << 8)) exit(101);
        }
    }
    return best;
}

int main(void) {
    seed = 16777216;
    const uint64_t n = BK_MOST_SAMPLES;
    const uint32_t levels[] = {1, 2, 4, 8, 12, 16, 20, 23};
    size_t area = n * WIDTH;
    uint8_t *x = malloc(area), *file = malloc(BK_MOST_BYTES), *out = malloc(area), *work1 = malloc(area), *work2 = malloc(area);
    if (!x || !file || !out || !work1 || !work2) return 2;
    for (size_t i = 0; i < area; i++) x[i] = (uint8_t)drawn();
    printf("| levels | one sample, drawn places, ns | one sample, places in a row, ns | opening, ms | opening / one sample, drawn |\n|---|---|---|---|---|\n");
    for (size_t l = 0; l < sizeof levels / sizeof *levels; l++) {
        size_t bytes = (size_t)CALL(bk_answer, pyramid_size, WIDTH, n, levels[l]).first;
        if (CALL(bk_answer, pyramid_write_i16, x, area, levels[l], POINT, RATE, file, bytes, work1, area, work2, area).number) return 2;
        double opening = 1e300;
        for (int round = 0; round < 5; round++) {
            double from = now();
            if (CALL(bk_opened, pyramid_open, file, bytes, WIDTH, POINT, out, area, work1, area, work2, area).answer.number) return 2;
            if (now() - from < opening) opening = now() - from;
        }
        double far = time_reads(file, bytes, out, 0), near = time_reads(file, bytes, out, 1);
        printf("| %u | %.0f | %.0f | %.1f | %.0f |\n", (unsigned)levels[l], far, near, opening / 1e6, opening / far);
    }
    return 0;
}
