/* image_rooms.h - an array, its image and a list, each in a room of its own, for the program at the limits of the image
 * calls. All of each room is compared after a call with what is due there, by blocks.h. */
#include "limits.h"

#include "blocks.h"

enum { WRITE, READ, SALVAGE, CALLS };
enum { ARRAY, IMAGE, LIST, SLICES };
enum { GUARD = 64, MARK = 0xC3 };

#define ROOM (GUARD + M25P_IMAGE_BYTES(M25P_M25P128_BYTES) + GUARD)

static uint8_t room[SLICES][ROOM], due[SLICES][ROOM];
static size_t length[SLICES];

/* How many bytes of each room are in use, guards and marks included. */
static size_t used;

static const struct {
    const char *name;
    size_t bytes;
} parts[] = {
    {"bench", M25P_BENCH_BYTES}, {"M25P10-A", M25P_M25P10A_BYTES}, {"M25P40", M25P_M25P40_BYTES},
    {"M25P32", M25P_M25P32_BYTES}, {"M25P128", M25P_M25P128_BYTES}, {"older M25P10-A", M25P_M25P10A_OLDER_BYTES},
    {"M25PE40", M25P_M25PE40_BYTES},
};

/* Where a slice begins, and where what is due of it does. */
static uint8_t *at(int slice)
{
    return room[slice] + GUARD;
}

static uint8_t *due_at(int slice)
{
    return due[slice] + GUARD;
}

/* Bytes without a pattern. */
static void put_array(uint8_t *array, size_t bytes)
{
    uint32_t state = 1;
    for (size_t i = 0; i < bytes; i++) {
        state = state * 1664525u + 1013904223u;
        array[i] = (uint8_t)(state >> 24);
    }
}

/* All bytes are due to stay. */
static void stay(void)
{
    for (int i = 0; i < SLICES; i++)
        memcpy(due[i], room[i], used);
}

/* An array of the part, its image, and an empty list; every other byte of the rooms is a mark. */
static void prepare(uint32_t part)
{
    length[ARRAY] = parts[part].bytes;
    length[IMAGE] = M25P_IMAGE_BYTES(length[ARRAY]);
    length[LIST] = M25P_LIST_BYTES(length[ARRAY]);
    used = GUARD + length[IMAGE] + GUARD;
    for (int i = 0; i < SLICES; i++)
        memset(room[i], MARK, used);
    put_array(at(ARRAY), length[ARRAY]);
    put_image(at(IMAGE), at(ARRAY), length[ARRAY]);
    stay();
}

/* A call, with one slice elsewhere and of another length; none of them for SLICES. */
static uint64_t made(int call, uint32_t part, int other, uint8_t *start, size_t n)
{
    uint8_t *p[SLICES];
    for (int i = 0; i < SLICES; i++)
        p[i] = i == other ? start : at(i);
    if (other < SLICES)
        length[other] = n;
    if (call == WRITE)
        return m25p_image_write(part, p[ARRAY], length[ARRAY], p[IMAGE], length[IMAGE]);
    if (call == READ)
        return m25p_image_read(part, p[IMAGE], length[IMAGE], p[ARRAY], length[ARRAY]);
    return m25p_image_salvage(part, p[IMAGE], length[IMAGE], p[LIST], length[LIST]);
}

/* Prints whether every byte of the rooms is as due. */
static void check(void)
{
    int same = 1;
    for (int i = 0; i < SLICES; i++)
        same = same && memcmp(room[i], due[i], used) == 0;
    printf("%s\n", same ? "as due" : "other bytes");
}

/* The call on the rooms. */
static void told(const char *name, int call, uint32_t part)
{
    show(name, made(call, part, SLICES, NULL, 0));
    check();
}
