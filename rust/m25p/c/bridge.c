/* bridge.c - makes the C calls for a process on another processor than libm25p.a is for. It takes
 * requests from standard input and answers each on standard output with the call's 64 bits. The slices
 * lie in memory that it shares with that process: a file descriptor and a size, its two arguments. */
#define _POSIX_C_SOURCE 200809L
#include <stdio.h>
#include <stdlib.h>
#include <sys/mman.h>
#include <unistd.h>

#include "m25p.h"

/* A request has one form for every call: the call, how many numbers and slices it has, the numbers, and of
 * each slice where it begins in the shared memory and its length; both in the order of the call's
 * arguments. Empty slices are handed on as NULL. */
enum { MOST = 16 };

struct request {
    uint32_t call, numbers, slices;
    uint32_t number[MOST];
    uint8_t *start[MOST];
    size_t length[MOST];
};

static uint8_t *shared;

static void fail(const char *what)
{
    perror(what);
    exit(1);
}

/* Reads so many bytes; 0 at the end of input. */
static int take(void *to, size_t bytes)
{
    size_t got = 0;
    while (got < bytes) {
        ssize_t n = read(STDIN_FILENO, (char *)to + got, bytes - got);
        if (n < 0)
            fail("bridge: read");
        if (n == 0)
            return 0;
        got += (size_t)n;
    }
    return 1;
}

/* Reads a whole request; 0 at the end of input. */
static int next(struct request *r)
{
    uint32_t head[3];
    uint64_t slice[2];
    if (!take(head, sizeof head))
        return 0;
    r->call = head[0];
    r->numbers = head[1];
    r->slices = head[2];
    if (r->numbers > MOST || r->slices > MOST)
        return 0;
    if (!take(r->number, r->numbers * sizeof r->number[0]))
        return 0;
    for (uint32_t i = 0; i < r->slices; i++) {
        if (!take(slice, sizeof slice))
            return 0;
        r->length[i] = slice[1];
        r->start[i] = slice[1] == 0 ? NULL : shared + slice[0];
    }
    return 1;
}

/* A number and a slice of the request. */
#define N(i) r->number[i]
#define S(i) r->start[i], r->length[i]

static uint64_t call(const struct request *r)
{
    switch (r->call) {
    case 0:
        return m25p_deliver(S(0), N(0), S(1), N(1), N(2), N(3), N(4));
    case 1:
        return m25p_transact(S(0), S(1), S(2), N(0), N(1), S(3));
    case 2:
        return m25p_wait(S(0), S(1), N(0));
    case 3:
        return m25p_power_up(S(0), S(1));
    case 4:
        return m25p_pins(S(0), S(1), S(2), S(3));
    case 5:
        return m25p_loss(S(0), S(1), S(2), N(0));
    case 6:
        return m25p_batch(S(0), S(1), S(2), S(3), S(4), S(5));
    case 7:
        return m25p_image_write(N(0), S(0), S(1));
    case 8:
        return m25p_image_read(N(0), S(0), S(1));
    case 9:
        return m25p_image_salvage(N(0), S(0), S(1));
    case 10:
        return m25p_bus_transact(S(0), S(1), N(0), S(2), N(1), N(2), S(3));
    case 11:
        return m25p_bus_wait(S(0), S(1), N(0));
    case 12:
        return m25p_report(S(0), S(1), S(2), S(3), S(4), S(5));
    default:
        fprintf(stderr, "bridge: there is no call %u\n", (unsigned)r->call);
        exit(1);
    }
}

int main(int argc, char **argv)
{
    struct request r;
    if (argc != 3)
        return 2;
    shared = mmap(NULL, strtoull(argv[2], NULL, 10), PROT_READ | PROT_WRITE, MAP_SHARED, atoi(argv[1]), 0);
    if (shared == MAP_FAILED)
        fail("bridge: mmap");
    while (next(&r)) {
        uint64_t answer = call(&r);
        if (write(STDOUT_FILENO, &answer, sizeof answer) != sizeof answer)
            fail("bridge: write");
    }
    return 0;
}
