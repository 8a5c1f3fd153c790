/* bus.c - several chips on one bus, at the limits of its two calls: every refusal in its order, transactions on each
 * chip of a row, waits that end cycles of several, empty slices with and without an address, lengths beyond 32 bits,
 * and slices that end where the memory ends. Each slice lies in a room of its own, and all of each room is compared
 * after each call with what is due there. Prints one line for each call: its name, and answer number, first, count and
 * bits missing; then whether every byte is as due. */
#include "bus_rooms.h"

#include "fences.h"

enum { TRANSACT = 1, WAIT = 2, BOTH = 3, NONE = -1 };

/* Refused: the lengths of row and array, the chip, how many bytes are sent, with which further pulses and how long a
 * response, the record that is spoiled, and the calls to make. */
struct refusal {
    const char *name;
    size_t row, array;
    uint32_t chip;
    size_t sent;
    uint32_t pulses;
    size_t response;
    int bad, calls;
};

static const struct refusal refusals[] = {
    {"row of a byte, all else wrong", 1, 1, 3, 65537, 8, 0, 0, BOTH},
    {"row of 303 bytes", 303, 4096, 0, 1, 0, 1, NONE, BOTH},
    {"row of 305 bytes", 305, 4096, 0, 1, 0, 1, NONE, BOTH},
    {"row of a byte less", 911, 139264, 1, 1, 0, 1, NONE, BOTH},
    {"row of a byte more", 913, 139264, 1, 1, 0, 1, NONE, BOTH},
    {"nine records and a byte", 2737, 139264, 1, 1, 0, 1, NONE, BOTH},
    {"no record, all else wrong", 0, 1, 3, 65537, 8, 0, 0, BOTH},
    {"no record", 0, 0, 0, 1, 0, 1, NONE, BOTH},
    {"nine records, all else wrong", 2736, 1, 9, 65537, 8, 0, 0, BOTH},
    {"nine records", 2736, 163840, 1, 1, 0, 1, NONE, BOTH},
    {"256 records", 77824, 139264, 1, 1, 0, 1, NONE, BOTH},
    {"259 records", 78736, 139264, 1, 1, 0, 1, NONE, BOTH},
    {"chip 3, all else wrong", 912, 1, 3, 65537, 8, 0, 0, TRANSACT},
    {"chip 3", 912, 139264, 3, 1, 0, 1, NONE, TRANSACT},
    {"chip 255", 912, 139264, 255, 1, 0, 1, NONE, TRANSACT},
    {"chip 256", 912, 139264, 256, 1, 0, 1, NONE, TRANSACT},
    {"chip 257", 912, 139264, 257, 1, 0, 1, NONE, TRANSACT},
    {"chip 65536", 912, 139264, 65536, 1, 0, 1, NONE, TRANSACT},
    {"chip 2^31", 912, 139264, (uint32_t)1 << 31, 1, 0, 1, NONE, TRANSACT},
    {"chip 2^32-1", 912, 139264, UINT32_MAX, 1, 0, 1, NONE, TRANSACT},
    {"chip 1 of one", 304, 4096, 1, 1, 0, 1, NONE, TRANSACT},
    {"chip 256 of one", 304, 4096, 256, 1, 0, 1, NONE, TRANSACT},
    {"a bad record, all else wrong", 912, 1, 1, 65537, 8, 0, 2, BOTH},
    {"a bad record 0, chip 0", 912, 139264, 0, 1, 0, 1, 0, BOTH},
    {"a bad record 0, chip 1", 912, 139264, 1, 1, 0, 1, 0, BOTH},
    {"a bad record 0, chip 2", 912, 139264, 2, 1, 0, 1, 0, BOTH},
    {"a bad record 1, chip 0", 912, 139264, 0, 1, 0, 1, 1, BOTH},
    {"a bad record 1, chip 1", 912, 139264, 1, 1, 0, 1, 1, BOTH},
    {"a bad record 1, chip 2", 912, 139264, 2, 1, 0, 1, 1, BOTH},
    {"a bad record 2, chip 0", 912, 139264, 0, 1, 0, 1, 2, BOTH},
    {"a bad record 2, chip 1", 912, 139264, 1, 1, 0, 1, 2, BOTH},
    {"a bad record 2, chip 2", 912, 139264, 2, 1, 0, 1, 2, BOTH},
    {"array, all else wrong", 912, 139263, 1, 65537, 8, 0, NONE, BOTH},
    {"no array", 912, 0, 1, 1, 0, 1, NONE, BOTH},
    {"array of a byte less", 912, 139263, 1, 1, 0, 1, NONE, BOTH},
    {"array of a byte more", 912, 139265, 1, 1, 0, 1, NONE, BOTH},
    {"array of the chip alone", 912, 131072, 1, 1, 0, 1, NONE, BOTH},
    {"array of one chip less", 912, 135168, 0, 1, 0, 1, NONE, BOTH},
    {"array of one chip more", 912, 143360, 1, 1, 0, 1, NONE, BOTH},
    {"array of three for one chip", 304, 139264, 0, 1, 0, 1, NONE, BOTH},
    {"65537 bytes, all else wrong", 912, 139264, 1, 65537, 8, 0, NONE, TRANSACT},
    {"65537 bytes", 912, 139264, 1, 65537, 0, 65537, NONE, TRANSACT},
    {"8 pulses, no response", 912, 139264, 1, 1, 8, 0, NONE, TRANSACT},
    {"256 pulses", 912, 139264, 1, 1, 256, 1, NONE, TRANSACT},
    {"2^32-1 pulses", 912, 139264, 1, 1, UINT32_MAX, 1, NONE, TRANSACT},
    {"no response", 912, 139264, 1, 1, 0, 0, NONE, TRANSACT},
    {"response of a byte less", 912, 139264, 1, 65536, 7, 65535, NONE, TRANSACT},
};

/* The answers in full, of those calls that are made. Behind the row stand six sound records more. */
static void refuse(const struct refusal *row)
{
    prepare();
    for (int k = CHIPS; k < 9; k++)
        memcpy(at(ROW) + 304 * k, at(ROW), 304);
    if (row->bad != NONE)
        at(ROW)[304 * row->bad + 7] = 1;
    stay();
    length[ROW] = row->row;
    length[ARRAY] = row->array;
    length[SENT] = row->sent;
    length[RESPONSE] = row->response;
    printf("%s:", row->name);
    if (row->calls & TRANSACT)
        printf(" %llu", (unsigned long long)sent_with(row->chip, row->pulses, SLICES, NULL, 0));
    if (row->calls & WAIT)
        printf(" %llu", (unsigned long long)waited_with(9, SLICES, NULL, 0));
    printf("\n");
    check();
}

/* The modes of the chips, and their bytes 0 and 1. */
static void look(void)
{
    for (int k = 0; k < CHIPS; k++) {
        const uint8_t *array = at(ARRAY) + chips[k].begin;
        printf("%u %02X %02X%s", at(ROW)[304 * k + 4], array[0], array[1], k + 1 < CHIPS ? ", " : "\n");
    }
}

/* The one in the middle works while its neighbours are busy; then all are. */
static void transactions(void)
{
    printf("transactions\n");
    prepare();
    told("WREN", 1, 0);
    told("WREN, busy", 0, 0);
    told("WREN, a pulse more", 1, 1);
    sends((const uint8_t[]){0x05, 0, 0}, 3, 5);
    told("RDSR", 0, 0);
    told("RDSR", 1, 0);
    printf("%02X %02X %02X %02X\n", at(RESPONSE)[0], at(RESPONSE)[1], at(RESPONSE)[2], at(RESPONSE)[3]);
    sends((const uint8_t[]){0x03, 0x01, 0xFF, 0xFF, 0, 0, 0}, 7, 7);
    told("READ that rolls over", 1, 0);
    printf("%02X %02X %02X\n", at(RESPONSE)[4], at(RESPONSE)[5], at(RESPONSE)[6]);
    sends((const uint8_t[]){0x02, 0, 0, 0, 0x3C, 0xFF}, 6, 6);
    told("PP", 1, 0);
    told("PP, busy", 2, 0);
    sends((const uint8_t[]){0x9F, 0, 0, 0}, 0, 4);
    told("nothing", 1, 0);
    look();
}

/* Time passes for all: two cycles end at once, the third later; one that is left goes by m25p_power_up on its part. */
static void waits(void)
{
    printf("waits\n");
    prepare();
    told("WREN", 1, 0);
    sends((const uint8_t[]){0xC7}, 1, 1);
    told("BE", 1, 0);
    waited("0 ticks", 0);
    waited("2 ticks", 2);
    look();
    waited("3 ticks", 3);
    look();
    waited("24 ticks", 24);
    sends((const uint8_t[]){0x05, 0}, 2, 2);
    told("RDSR", 1, 0);
    printf("%02X\n", at(RESPONSE)[1]);
    show("power-up", m25p_power_up(at(ROW) + 304, 304, at(ARRAY) + 4096, 131072));
    look();
    waited("2^32-1 ticks", UINT32_MAX);
}

/* Eight chips are a row, too, and the last of them is there. */
static void eight(void)
{
    printf("eight chips\n");
    prepare();
    for (size_t k = 0; k < 8; k++)
        m25p_deliver(at(ROW) + 304 * k, 304, M25P_BENCH, at(ARRAY) + 4096 * k, 4096, 3, 5, 9, 2);
    length[ROW] = 304 * 8;
    length[ARRAY] = 4096 * 8;
    stay();
    due_at(ROW)[304 * 7 + 3] = 1;
    due_at(RESPONSE)[0] = 0xFF;
    show("WREN, chip 7", sent_with(7, 0, SLICES, NULL, 0));
    check();
    show("WREN, chip 8", sent_with(8, 0, SLICES, NULL, 0));
    show("wait", waited_with(1, SLICES, NULL, 0));
    check();
}

/* Every slice empty in turn, at an address or at none; then all of them. */
static void empty(const char *kind, uint8_t *start)
{
    static const char *const names[] = {"row", "array", "sent", "response"};
    char name[32];
    printf("empty slices, %s\n", kind);
    for (int i = 0; i < SLICES; i++) {
        prepare();
        if (i == SENT)
            length[RESPONSE] = 0;
        show(names[i], sent_with(1, 0, i, start, 0));
        check();
    }
    for (int i = ROW; i <= ARRAY; i++) {
        prepare();
        sprintf(name, "wait, %s", names[i]);
        show(name, waited_with(9, i, start, 0));
        check();
    }
    show("all", m25p_bus_transact(start, 0, start, 0, 0, start, 0, 0, 1, start, 0));
    show("wait, all", m25p_bus_wait(start, 0, start, 0, 9));
}

/* Lengths that are right only if they are cut to 32 bits, or their count of records to 16, and a response that is too
 * short only then. */
static void beyond_32_bits(void)
{
    const size_t over = (size_t)1 << 32, wide = 304 * ((size_t)65536 + CHIPS);
    uint8_t *huge = huge_slice(over + ROOM);
    const size_t lengths[] = {over + 912, wide, over + 139264};
    printf("lengths beyond 32 bits\n");
    for (int i = 0; i < 3; i++) {
        int slice = i < 2 ? ROW : ARRAY;
        prepare();
        memcpy(huge, at(slice), length[slice]);
        show(slice == ROW ? "row" : "array", sent_with(1, 0, slice, huge, lengths[i]));
        show("wait", waited_with(9, slice, huge, lengths[i]));
        check();
    }
    prepare();
    show("sent", sent_with(1, 0, SENT, huge, over + 1));
    check();
    prepare();
    show("response", sent_with(1, 0, RESPONSE, huge, over));
    printf("%02X %u\n", huge[0], huge[1]);
}

/* Slices at the end of the memory: the calls go no further. What is lent to a refused call may be memory that can't be
 * written, and so may the array of a transaction. */
static void fences(void)
{
    uint8_t *row, *array, *response;
    const uint8_t enable[] = {0x06};
    printf("fences\n");
    prepare();
    row = fenced(at(ROW), 912);
    array = fenced(at(ARRAY), 139264);
    response = fenced(at(RESPONSE), 1);
    close_room(array, 139264);
    show("WREN", m25p_bus_transact(row, 912, array, 139264, 1, enable, 1, 0, 1, response, 1));
    close_room(row, 912);
    close_room(response, 1);
    show("refused", m25p_bus_transact(row, 912, array, 139264, 3, enable, 1, 0, 1, response, 1));
    show("refused", m25p_bus_transact(row, 912, array + 1, 139263, 1, enable, 1, 0, 1, response, 1));
    show("refused", m25p_bus_transact(row, 912, array, 139264, 1, enable, 1, 0, 1, response + 1, 0));
    show("wait, refused", m25p_bus_wait(row, 912, array + 1, 139263, 9));
}

/* Four chips of which one alone has bytes that can be read: neither a transaction on it nor a wait looks at those of
 * the others, which rest. */
static void unread_neighbours(void)
{
    static uint8_t row[304 * 4], all[4 * 131072], response[6];
    const uint8_t enable[] = {0x06}, program[] = {0x02, 0, 0, 0x10, 0x5A}, read[] = {0x03, 0, 0, 0x10, 0, 0};
    uint8_t *array;
    printf("neighbours that can't be read\n");
    for (size_t k = 0; k < 4; k++)
        m25p_deliver(row + 304 * k, 304, M25P_M25P10A, all + 131072 * k, 131072, 3, 5, 9, 2);
    array = fenced(all, sizeof all);
    if (mprotect(array, 2 * 131072, PROT_NONE) != 0 || mprotect(array + 3 * 131072, 131072, PROT_NONE) != 0)
        abort();
    show("WREN", m25p_bus_transact(row, sizeof row, array, sizeof all, 2, enable, 1, 0, 1, response, 6));
    show("PP", m25p_bus_transact(row, sizeof row, array, sizeof all, 2, program, 5, 0, 1, response, 6));
    show("wait", m25p_bus_wait(row, sizeof row, array, sizeof all, 3));
    show("READ", m25p_bus_transact(row, sizeof row, array, sizeof all, 2, read, 6, 0, 1, response, 6));
    printf("%02X %02X\n", response[4], response[5]);
}

int main(void)
{
    printf("refusals\n");
    for (size_t i = 0; i < sizeof refusals / sizeof refusals[0]; i++)
        refuse(&refusals[i]);
    transactions();
    waits();
    eight();
    empty("an address", due[0]);
    empty("NULL", NULL);
    beyond_32_bits();
    fences();
    unread_neighbours();
    return 0;
}
