// Numbers that look drawn and are the same everywhere; a program sets the seed first.
#include <stdint.h>

static uint64_t seed;

static uint32_t drawn(void) {
    seed = seed * 6364136223846793005u + 1442695040888963407u;
    return (uint32_t)(seed >> 33);
}

// From a to b.
static inline uint32_t between(uint32_t a, uint32_t b) { return a + drawn() % (b - a + 1); }
