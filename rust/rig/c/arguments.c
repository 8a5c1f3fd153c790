/* arguments.c - the order of each C call's arguments. Every argument of a call has another value. The call
 * does what the header says of these values, and with any two of its pointers or any two of its numbers and
 * lengths exchanged it does something else: so a library that takes two of them in another order does not
 * pass here. Prints one line for each call. */
#include <stdio.h>
#include <string.h>

#include "blocks.h"

enum { MOST_POINTERS = 6, MOST_NUMBERS = 7, ROOM = 262144, CLOCKED = 83 };

/* What a call is given: its pointers and its numbers, lengths among them, each in the header's order. Every
 * pointer has a room of its own, larger than any length below, so that no exchange leads out of it. */
struct call {
    const char *name;
    uint64_t (*make)(uint8_t *const p[], const uint64_t n[]);
    void (*prepare)(struct call *call);
    int (*right)(const struct call *call);
    int pointers, numbers;
    uint8_t *pointer[MOST_POINTERS];
    uint64_t number[MOST_NUMBERS];
    uint64_t answer;
};

static uint8_t room[MOST_POINTERS][ROOM];
static uint8_t after[MOST_POINTERS][ROOM];
static uint8_t plain[ROOM];

static uint64_t deliver(uint8_t *const p[], const uint64_t n[])
{
    return m25p_deliver(p[0], n[0], n[1], p[1], n[2], n[3], n[4], n[5], n[6]);
}

static uint64_t transact(uint8_t *const p[], const uint64_t n[])
{
    return m25p_transact(p[0], n[0], p[1], n[1], p[2], n[2], n[3], n[4], p[3], n[5]);
}

static uint64_t wait(uint8_t *const p[], const uint64_t n[])
{
    return m25p_wait(p[0], n[0], p[1], n[1], n[2]);
}

static uint64_t power_up(uint8_t *const p[], const uint64_t n[])
{
    return m25p_power_up(p[0], n[0], p[1], n[1]);
}

static uint64_t loss(uint8_t *const p[], const uint64_t n[])
{
    return m25p_loss(p[0], n[0], p[1], n[1], p[2], n[2], n[3]);
}

static uint64_t pins(uint8_t *const p[], const uint64_t n[])
{
    return m25p_pins(p[0], n[0], p[1], n[1], p[2], n[2], p[3], n[3]);
}

static uint64_t batch(uint8_t *const p[], const uint64_t n[])
{
    return m25p_batch(p[0], n[0], p[1], n[1], p[2], n[2], p[3], n[3], p[4], n[4], p[5], n[5]);
}

static uint64_t report(uint8_t *const p[], const uint64_t n[])
{
    return m25p_report(p[0], n[0], p[1], n[1], p[2], n[2], p[3], n[3], p[4], n[4], p[5], n[5]);
}

static uint64_t image_write(uint8_t *const p[], const uint64_t n[])
{
    return m25p_image_write(n[0], p[0], n[1], p[1], n[2]);
}

static uint64_t image_read(uint8_t *const p[], const uint64_t n[])
{
    return m25p_image_read(n[0], p[0], n[1], p[1], n[2]);
}

static uint64_t image_salvage(uint8_t *const p[], const uint64_t n[])
{
    return m25p_image_salvage(n[0], p[0], n[1], p[1], n[2]);
}

static uint64_t bus_transact(uint8_t *const p[], const uint64_t n[])
{
    return m25p_bus_transact(p[0], n[0], p[1], n[1], n[2], p[2], n[3], n[4], n[5], p[3], n[6]);
}

static uint64_t bus_wait(uint8_t *const p[], const uint64_t n[])
{
    return m25p_bus_wait(p[0], n[0], p[1], n[1], n[2]);
}

static void set(struct call *call, int numbers, const uint64_t *number)
{
    memcpy(call->number, number, (size_t)numbers * sizeof *number);
    for (int i = 0; i < MOST_POINTERS; i++)
        call->pointer[i] = room[i];
}

/* A record of the M25P10-A with SRWD set, the latch set, in standby or with 20 ticks left of a program in the
 * second page. */
static void record(uint8_t *at, int busy)
{
    uint8_t bytes[M25P_RECORD_BYTES] = {
        1, 0, 1, 1, (uint8_t)busy, 0, 0, 0, busy ? 20 : 0, 0, 0, 0, 11, 0, 0, 0, 12, 0, 0, 0, 13, 0, 0, 0, 14};
    if (busy) {
        bytes[28] = 1;
        bytes[33] = 1;
        memset(bytes + 36, 0xF0, 256);
    }
    memcpy(at, bytes, sizeof bytes);
}

/* Whether every byte of an array's second page is this one, and those around it are as they were. */
static int second_page(const uint8_t *array, uint8_t byte)
{
    for (int i = 0; i < 256; i++)
        if (array[256 + i] != byte)
            return 0;
    return array[255] == 0x5A && array[512] == 0x5A;
}

/* Whether the record is in standby with the latch reset, and remembers no cycle. */
static int rested(const uint8_t *record)
{
    for (int i = 28; i < 304; i++)
        if (record[i] != 0)
            return 0;
    return record[3] == 0 && record[4] == 0 && record[8] == 0;
}

static void prepare_deliver(struct call *call)
{
    set(call, 7, (const uint64_t[]){304, 1, M25P_M25P10A_BYTES, 101, 102, 103, 104});
}

/* Part, durations and array are where the header has them. */
static int right_deliver(const struct call *call)
{
    const uint8_t packed[M25P_RECORD_BYTES] = {1, 0, 0, 0, 0, 0, 0, 0, 0, 0, 0, 0, 101, 0, 0, 0,
                                               102, 0, 0, 0, 103, 0, 0, 0, 104};
    for (size_t i = 0; i < M25P_M25P10A_BYTES; i++)
        if (room[1][i] != 0xFF)
            return 0;
    return call->answer == 0 && memcmp(room[0], packed, sizeof packed) == 0;
}

/* A status write that W low would freeze and a further pulse would spoil. */
static void prepare_transact(struct call *call)
{
    set(call, 6, (const uint64_t[]){304, M25P_M25P10A_BYTES, 2, 0, 1, 5});
    record(room[0], 0);
    memcpy(room[2], (const uint8_t[]){0x01, 0x04}, 2);
}

/* Whether a record is busy for a status write with BP 1 and SRWD 0 to come. */
static int in_status_write(const uint8_t *record)
{
    return record[1] == 0 && record[2] == 1 && record[4] == 1 && record[8] == 14 && record[28] == 4
        && record[29] == 1 && record[30] == 0;
}

/* The record is, and the response two bytes FF. */
static int right_transact(const struct call *call)
{
    return call->answer == 0 && in_status_write(room[0]) && room[3][0] == 0xFF && room[3][1] == 0xFF
        && room[3][2] == 0x5C && room[1][0] == 0x5A;
}

static void prepare_wait(struct call *call)
{
    set(call, 3, (const uint64_t[]){304, M25P_M25P10A_BYTES, 20});
    record(room[0], 1);
}

static int right_wait(const struct call *call)
{
    return call->answer == 0 && rested(room[0]) && second_page(room[1], 0x5A & 0xF0);
}

static void prepare_power_up(struct call *call)
{
    set(call, 2, (const uint64_t[]){304, M25P_M25P10A_BYTES});
    record(room[0], 1);
}

static int right_power_up(const struct call *call)
{
    return call->answer == 0 && rested(room[0]) && second_page(room[1], 0x5A & 0xF0);
}

/* The mask is all 02. */
static void prepare_loss(struct call *call)
{
    set(call, 4, (const uint64_t[]){304, M25P_M25P10A_BYTES, 256, 1});
    record(room[0], 1);
    memset(room[2], 0x02, 256);
}

static int right_loss(const struct call *call)
{
    return call->answer == 0 && rested(room[0]) && second_page(room[1], 0x5A & (0xF0 | 0x02)) && room[2][0] == 0x02;
}

/* A transaction of five bytes from this sample on, then Select high: 40 clock pulses of two samples, with
 * half a pulse around, CLOCKED samples in all. The sample behind it. */
static size_t clocked(size_t at, const uint8_t *sent)
{
    const uint8_t low = M25P_PIN_W | M25P_PIN_HOLD;
    room[2][at++] = low;
    for (int bit = 0; bit < 40; bit++) {
        uint8_t data = sent[bit / 8] >> (7 - bit % 8) & 1 ? M25P_PIN_DATA : 0;
        room[2][at++] = low | data;
        room[2][at++] = low | data | M25P_PIN_CLOCK;
    }
    room[2][at++] = low;
    room[2][at++] = M25P_PINS_AT_REST;
    return at;
}

/* A READ of the first byte, a program of FF over it, and the READ again. */
static void prepare_pins(struct call *call)
{
    const uint8_t read[5] = {0x03}, program[5] = {0x02, 0, 0, 0, 0xFF};
    size_t at = clocked(clocked(clocked(0, read), program), read);
    record(room[0], 0);
    set(call, 4, (const uint64_t[]){304, M25P_M25P10A_BYTES, at, at + 3});
}

/* The byte is 5A, its bits show from the fall behind the 32nd rise on. FF over it misses four bits, and it
 * stays; the last READ is ignored, so that nothing is driven from the program on. */
static int right_pins(const struct call *call)
{
    const uint8_t *output = room[3];
    size_t n = call->number[2];
    for (int bit = 0; bit < 8; bit++)
        if (output[65 + 2 * bit] != (0x5A >> (7 - bit) & 1))
            return 0;
    for (size_t i = CLOCKED; i < 3 * CLOCKED; i++)
        if (output[i] != M25P_NOT_DRIVEN)
            return 0;
    if (m25p_missing(call->answer) != 4 || call->answer << 16 != 0 || room[1][0] != 0x5A || room[0][28] != 1)
        return 0;
    return n == 3 * CLOCKED && output[64] == M25P_NOT_DRIVEN && output[n] == 0x5C;
}

/* FF over the first byte, eight status reads, 20 ticks, and a READ of that byte. The buffers have just the
 * lengths that are needed, the last one this many, so that none will do for another. */
static void prepare_items(struct call *call, uint64_t last)
{
    const uint8_t program[8] = {5, 0, 1, 0x02, 0, 0, 0, 0xFF}, status[5] = {2, 0, 1, 0x05};
    const uint8_t wait[7] = {4, 0, M25P_ITEM_WAIT, 20}, read[8] = {5, 0, 1, 0x03};
    record(room[0], 0);
    memcpy(room[2], program, 8);
    for (int i = 0; i < 8; i++)
        memcpy(room[2] + 8 + 5 * i, status, 5);
    memcpy(room[2] + 48, wait, 7);
    memcpy(room[2] + 55, read, 8);
    set(call, 6, (const uint64_t[]){304, M25P_M25P10A_BYTES, 63, 5 + 8 * 2 + 5, 1 + 8 + 1 + 1, last});
}

/* The status is that of a busy chip with SRWD set, and the byte is 5A as before. */
static int right_items(const struct call *call)
{
    const uint8_t answers[11] = {0};
    for (int i = 0; i < 26; i++)
        if (room[3][i] != (i == 25 ? 0x5A : i > 5 && i < 21 && i % 2 == 0 ? 0x83 : 0xFF))
            return 0;
    return call->answer == 0 && rested(room[0]) && room[1][0] == 0x5A && room[3][26] == 0x5C
        && memcmp(room[4], answers, 11) == 0 && room[4][11] == 0x5D && room[5][call->number[5]] == 0x5E;
}

static void prepare_batch(struct call *call)
{
    prepare_items(call, M25P_MISSING_BYTES);
}

/* Four bits are missing. */
static int right_batch(const struct call *call)
{
    const uint8_t missing[8] = {4};
    return right_items(call) && memcmp(room[5], missing, 8) == 0;
}

static void prepare_report(struct call *call)
{
    prepare_items(call, M25P_TOTALS_BYTES);
}

/* One program in sector 0, eight status reads and a READ, each of which drives a byte, are added. */
static int right_report(const struct call *call)
{
    static const uint64_t added[M25P_TOTALS_BYTES / 8] = {
        [0x02] = 1, [0x03] = 1, [0x05] = 8, [M25P_TOTALS_ANSWERS] = 10, [M25P_TOTALS_DRIVEN] = 9,
        [M25P_TOTALS_PROGRAMS] = 1
    };
    for (unsigned k = 0; k < M25P_TOTALS_BYTES / 8; k++)
        if (m25p_total(room[5], k) != UINT64_C(0x5E5E5E5E5E5E5E5E) + added[k])
            return 0;
    return right_items(call);
}

enum { BYTES = M25P_M25P10A_BYTES, IMAGE = M25P_IMAGE_BYTES(M25P_M25P10A_BYTES) };

/* The array is all 59, as its room is. */
static void prepare_image_write(struct call *call)
{
    set(call, 3, (const uint64_t[]){1, BYTES, IMAGE});
}

static int right_image_write(const struct call *call)
{
    put_image(plain, room[0], BYTES);
    return call->answer == 0 && memcmp(room[1], plain, IMAGE) == 0 && room[1][IMAGE] == 0x5A;
}

/* The image of an array that is all 3C. */
static void prepare_image_read(struct call *call)
{
    set(call, 3, (const uint64_t[]){1, IMAGE, BYTES});
    memset(plain, 0x3C, BYTES);
    put_image(room[0], plain, BYTES);
}

static int right_image_read(const struct call *call)
{
    return call->answer == 0 && memcmp(room[1], plain, BYTES) == 0 && room[1][BYTES] == 0x5A;
}

/* The same, with another number in its second block. */
static void prepare_image_salvage(struct call *call)
{
    prepare_image_read(call);
    set(call, 3, (const uint64_t[]){1, IMAGE, M25P_LIST_BYTES(BYTES)});
    room[0][512] = 0x07;
}

/* That block is FF, and alone in the list. */
static int right_image_salvage(const struct call *call)
{
    const uint8_t list[9] = {1, 0, 0, 0, M25P_REASON_NUMBER, 0, 0, 0, 0x5A};
    memset(plain + 504, 0xFF, 504);
    put_image(room[2], plain, BYTES);
    return call->answer == (uint64_t)1 << 16 && memcmp(room[0], room[2], IMAGE) == 0
        && memcmp(room[1], list, sizeof list) == 0;
}

/* The same status write for the last of four chips; the others are bench parts. */
static void prepare_bus_transact(struct call *call)
{
    prepare_transact(call);
    set(call, 7, (const uint64_t[]){4 * 304, 3 * M25P_BENCH_BYTES + BYTES, 3, 2, 0, 1, 5});
    for (int k = 0; k < 4; k++) {
        record(room[0] + 304 * k, 0);
        room[0][304 * k] = k == 3 ? M25P_M25P10A : M25P_BENCH;
    }
}

static int right_bus_transact(const struct call *call)
{
    return call->answer == 0 && in_status_write(room[0] + 3 * 304) && room[0][4] == 0 && room[0][304 + 4] == 0
        && room[3][0] == 0xFF && room[3][1] == 0xFF && room[3][2] == 0x5C && room[1][0] == 0x5A;
}

/* The second of two chips has 20 ticks left. */
static void prepare_bus_wait(struct call *call)
{
    set(call, 3, (const uint64_t[]){2 * 304, M25P_BENCH_BYTES + BYTES, 20});
    record(room[0], 0);
    room[0][0] = M25P_BENCH;
    record(room[0] + 304, 1);
}

static int right_bus_wait(const struct call *call)
{
    return call->answer == 0 && rested(room[0] + 304) && room[0][3] == 1
        && second_page(room[1] + M25P_BENCH_BYTES, 0x5A & 0xF0);
}

static void run(struct call *call, int i, int j, int of_pointers)
{
    for (int r = 0; r < MOST_POINTERS; r++)
        memset(room[r], 0x59 + r, ROOM);
    call->prepare(call);
    if (i != j && of_pointers) {
        uint8_t *p = call->pointer[i];
        call->pointer[i] = call->pointer[j];
        call->pointer[j] = p;
    } else if (i != j) {
        uint64_t n = call->number[i];
        call->number[i] = call->number[j];
        call->number[j] = n;
    }
    call->answer = call->make(call->pointer, call->number);
}

/* Whether the values of the two differ, and the call with them exchanged ends otherwise. */
static int noticed(struct call *call, int i, int j, int of_pointers)
{
    uint64_t answer;
    run(call, 0, 0, 0);
    if (!of_pointers && call->number[i] == call->number[j])
        return 0;
    answer = call->answer;
    memcpy(after, room, sizeof room);
    run(call, i, j, of_pointers);
    return answer != call->answer || memcmp(after, room, sizeof room) != 0;
}

static int try_all(struct call *call)
{
    int tried = 0, seen = 0;
    run(call, 0, 0, 0);
    int right = call->right(call);
    for (int of_pointers = 0; of_pointers < 2; of_pointers++) {
        int count = of_pointers ? call->pointers : call->numbers;
        for (int i = 0; i < count; i++)
            for (int j = i + 1; j < count; j++, tried++)
                seen += noticed(call, i, j, of_pointers);
    }
    printf("%s: %s, %d of %d exchanges noticed\n", call->name, right ? "right" : "wrong", seen, tried);
    return right && seen == tried;
}

#define CALL(NAME, POINTERS, NUMBERS)                                                              \
    {                                                                                              \
        .name = "m25p_" #NAME, .make = NAME, .prepare = prepare_##NAME, .right = right_##NAME,     \
        .pointers = POINTERS, .numbers = NUMBERS                                                   \
    }

int main(void)
{
    static struct call calls[] = {
        CALL(deliver, 2, 7), CALL(transact, 4, 6), CALL(wait, 2, 3),
        CALL(power_up, 2, 2), CALL(loss, 3, 4), CALL(pins, 4, 4),
        CALL(batch, 6, 6), CALL(report, 6, 6), CALL(image_write, 2, 3),
        CALL(image_read, 2, 3), CALL(image_salvage, 2, 3), CALL(bus_transact, 4, 7),
        CALL(bus_wait, 2, 3),
    };
    int fine = 1;
    for (size_t i = 0; i < sizeof calls / sizeof *calls; i++)
        fine &= try_all(&calls[i]);
    return fine ? 0 : 1;
}
