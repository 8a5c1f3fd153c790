/* bus_rooms.h - a row of three chips, their bytes, what is sent and the response, each in a room of its own, for the
 * program at the limits of the bus calls. All of each room is compared after a call with what is due there: what the
 * calls on one chip do to that chip's record and bytes, or nothing. */
#include "limits.h"

enum { ROW, ARRAY, SENT, RESPONSE, SLICES };
enum { GUARD = 64, ROOM = 262144, MARK = 0xC3, CHIPS = 3 };

static uint8_t room[SLICES][ROOM], due[SLICES][ROOM];
static size_t length[SLICES];

/* The chips, the bytes before those of each, and the durations of their programs. */
static const struct {
    uint32_t part;
    size_t begin, bytes;
    uint32_t program;
} chips[CHIPS] = {
    {M25P_BENCH, 0, 4096, 3}, {M25P_M25P10A, 4096, 131072, 4}, {M25P_BENCH, 135168, 4096, 5},
};

/* Where a slice begins, and where what is due of it does. */
static uint8_t *at(int slice)
{
    return room[slice] + GUARD;
}

static uint8_t *due_at(int slice)
{
    return due[slice] + GUARD;
}

/* A transaction on one chip of the row, by the call that knows of no other. */
static uint64_t alone(uint8_t *row, uint8_t *array, uint32_t k, uint32_t pulses, uint8_t *response)
{
    return m25p_transact(row + 304 * k, 304, array + chips[k].begin, chips[k].bytes, at(SENT), length[SENT], pulses, 1,
                         response, length[RESPONSE]);
}

/* What is to be sent next, with a response of this length. */
static void sends(const uint8_t *bytes, size_t n, size_t response)
{
    memcpy(at(SENT), bytes, n);
    memcpy(due_at(SENT), bytes, n);
    length[SENT] = n;
    length[RESPONSE] = response;
}

/* All bytes are due to stay. */
static void stay(void)
{
    memcpy(due, room, sizeof room);
}

/* The three chips as delivered, but that 00 stands at each one's byte 1, and the first and the last have a program of
 * 5A running at byte 0; every other byte of the rooms is a mark. A write enable for the second is to be sent. */
static void prepare(void)
{
    const uint8_t enable[] = {0x06}, program[] = {0x02, 0, 0, 0, 0x5A};
    memset(room, MARK, sizeof room);
    length[ROW] = 304 * CHIPS;
    length[ARRAY] = 139264;
    for (uint32_t k = 0; k < CHIPS; k++) {
        uint8_t *record = at(ROW) + 304 * k, *array = at(ARRAY) + chips[k].begin;
        m25p_deliver(record, 304, chips[k].part, array, chips[k].bytes, chips[k].program, 20, 30, 40);
        array[1] = 0x00;
    }
    for (uint32_t k = 0; k < CHIPS; k += 2) {
        sends(enable, 1, 1);
        alone(at(ROW), at(ARRAY), k, 0, at(RESPONSE));
        sends(program, 5, 5);
        alone(at(ROW), at(ARRAY), k, 0, at(RESPONSE));
    }
    memset(room[SENT], MARK, ROOM);
    memset(room[RESPONSE], MARK, ROOM);
    stay();
    sends(enable, 1, 3);
}

/* Where a slice begins of which one is elsewhere. */
static uint8_t *start_of(int slice, int other, uint8_t *start)
{
    return slice == other ? start : at(slice);
}

/* The calls, with one slice elsewhere and of another length; none of them for SLICES. */
static uint64_t sent_with(uint32_t chip, uint32_t pulses, int other, uint8_t *start, size_t n)
{
    if (other < SLICES)
        length[other] = n;
    return m25p_bus_transact(start_of(ROW, other, start), length[ROW], start_of(ARRAY, other, start), length[ARRAY],
                             chip, start_of(SENT, other, start), length[SENT], pulses, 1,
                             start_of(RESPONSE, other, start), length[RESPONSE]);
}

static uint64_t waited_with(uint32_t ticks, int other, uint8_t *start, size_t n)
{
    if (other < SLICES)
        length[other] = n;
    return m25p_bus_wait(start_of(ROW, other, start), length[ROW], start_of(ARRAY, other, start), length[ARRAY],
                         ticks);
}

/* Prints whether every byte of the rooms is as due. */
static void check(void)
{
    printf("%s\n", memcmp(room, due, sizeof room) == 0 ? "as due" : "other bytes");
}

/* A transaction on the bus; the same by the call on the chip alone is due, its answer too. */
static void told(const char *name, uint32_t chip, uint32_t pulses)
{
    uint64_t due_answer = alone(due_at(ROW), due_at(ARRAY), chip, pulses, due_at(RESPONSE));
    uint64_t answer = sent_with(chip, pulses, SLICES, NULL, 0);
    show(name, answer);
    if (answer != due_answer)
        printf("another answer\n");
    check();
}

/* A wait on the bus; the same by the call on each chip alone is due. */
static void waited(const char *name, uint32_t ticks)
{
    for (uint32_t k = 0; k < CHIPS; k++)
        m25p_wait(due_at(ROW) + 304 * k, 304, due_at(ARRAY) + chips[k].begin, chips[k].bytes, ticks);
    show(name, waited_with(ticks, SLICES, NULL, 0));
    check();
}
