/* limits.h - what the programs at the limits of the C calls share: an answer as a line, and a huge slice. */
#define _GNU_SOURCE
#include <stdio.h>
#include <stdlib.h>
#include <string.h>
#include <sys/mman.h>

#include "m25p.h"

/* More than 2^32 bytes, of which at most 16 MiB are touched. */
#define HUGE_BYTES (((size_t)1 << 32) + 8192)

/* A name, and the answer's number, first, count and bits missing. */
static void show(const char *name, uint64_t a)
{
    printf("%s: %u %u %u %u\n", name, m25p_answer(a), m25p_first(a), m25p_count(a), m25p_missing(a));
}

/* So many bytes of address space, all 00; where there is no room the program ends. */
static uint8_t *huge_slice(size_t n)
{
    void *bytes = mmap(NULL, n, PROT_READ | PROT_WRITE, MAP_PRIVATE | MAP_ANONYMOUS | MAP_NORESERVE, -1, 0);
    if (bytes == MAP_FAILED) {
        perror("mmap");
        exit(1);
    }
    return bytes;
}
