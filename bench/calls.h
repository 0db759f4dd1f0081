// What the programs share that time single calls, bench/sample.c, bench/depth.c, bench/book.c and bench/stream.c.
#include "beksanour.h"
#include <stdio.h>
#include <time.h>

// bench/host-staticlib: on Arm a struct of more than 16 bytes is returned through a pointer that is handed in first
#ifdef __aarch64__
#define TIMED(type, name, ...) extern type *raw_##name(type *, __VA_ARGS__) __asm__("bk_" #name)
#define CALL(type, name, ...) (*raw_##name(&(type){0}, __VA_ARGS__))
#else
#define TIMED(type, name, ...) extern type bk_##name(__VA_ARGS__)
#define CALL(type, name, ...) bk_##name(__VA_ARGS__)
#endif

static uint64_t seed;

static uint64_t drawn(void) {
    seed = seed * 6364136223846793005u + 1442695040888963407u;
    return seed >> 33;
}

// In nanoseconds.
static double now(void) {
    struct timespec t;
    clock_gettime(CLOCK_MONOTONIC, &t);
    return (double)t.tv_sec * 1e9 + (double)t.tv_nsec;
}
