// Slices at and over a limit, of which only some pages are touched.
#include <stddef.h>
#include <stdint.h>
#include <stdio.h>
#include <stdlib.h>

// What is used of Linux; the kit's clang has no header for it.
void *mmap(void *at, size_t bytes, int access, int kind, int file, long offset);
enum { READ_WRITE = 3, PRIVATE_UNRESERVED = 0x4022 };

// So many bytes, zeros until they are written.
static uint8_t *huge_slice(size_t bytes) {
    uint8_t *slice = mmap(NULL, bytes, READ_WRITE, PRIVATE_UNRESERVED, -1, 0);
    if (slice == (uint8_t *)-1) {
        printf("there is no room for a slice of %lu bytes\n", (unsigned long)bytes);
        exit(1);
    }
    return slice;
}
