/* item_rooms.h - the slices of a call that carries items out, each in a room of its own, and the limits that batches and
 * reports have alike. The program says before which CALL it is, the NAME_OF_LAST slice, and how many BYTES_OF_LAST are
 * needed. All of each room is looked at after each call. */
#include "limits.h"

enum { RECORD, ARRAY, ITEMS, RESPONSES, ANSWERS, LAST, SLICES };
enum { GUARD = 64, ROOM = 131072, MARK = 0xC3 };

static uint8_t room[SLICES][ROOM], before[SLICES][ROOM];
static size_t length[SLICES];

/* A row of items, and what it needs: response bytes and answers. */
struct row {
    const uint8_t *items;
    size_t bytes, responses, answers;
};

/* Prints what was written to the last slice, behind its name. */
static void print_last(void);

/* Where a slice begins. */
static uint8_t *at(int slice)
{
    return room[slice] + GUARD;
}

/* All bytes are to stay as they are now. */
static void stay(void)
{
    memcpy(before, room, sizeof room);
}

/* The bench part as delivered and the row; every other byte of the rooms is a mark. The buffers have the lengths
 * that are needed. */
static void prepare(const struct row *row)
{
    const size_t needed[SLICES] = {M25P_RECORD_BYTES, M25P_BENCH_BYTES, row->bytes,
                                   row->responses, row->answers, BYTES_OF_LAST};
    memset(room, MARK, sizeof room);
    memcpy(length, needed, sizeof length);
    m25p_deliver(at(RECORD), length[RECORD], M25P_BENCH, at(ARRAY), length[ARRAY], 3, 5, 9, 2);
    memcpy(at(ITEMS), row->items, row->bytes);
    stay();
}

/* The call, with one slice elsewhere and of another length; none of them for SLICES. */
static uint64_t call_with(int other, uint8_t *start, size_t n)
{
    uint8_t *p[SLICES];
    for (int i = 0; i < SLICES; i++)
        p[i] = i == other ? start : at(i);
    if (other < SLICES)
        length[other] = n;
    return CALL(p[0], length[0], p[1], length[1], p[2], length[2], p[3], length[3], p[4], length[4], p[5], length[5]);
}

/* Whether a room is as it was but for so many bytes from this one of the slice on. */
static int stays_around(int slice, size_t first, size_t written)
{
    size_t start = GUARD + first, end = start + written;
    return memcmp(room[slice], before[slice], start) == 0
        && memcmp(room[slice] + end, before[slice] + end, ROOM - end) == 0;
}

static int stays(int slice, size_t written)
{
    return stays_around(slice, 0, written);
}

static void bytes(const char *name, int slice, size_t n)
{
    printf("%s", name);
    for (size_t i = 0; i < n; i++)
        printf(" %02X", at(slice)[i]);
    printf("\n");
}

/* The row with so many more bytes in each buffer; what is written is printed. */
static void carried(const char *name, const struct row *row, size_t responses, size_t answers, size_t last)
{
    prepare(row);
    length[RESPONSES] += responses;
    length[ANSWERS] += answers;
    length[LAST] += last;
    show(name, call_with(SLICES, NULL, 0));
    bytes("answers", ANSWERS, row->answers);
    bytes("responses", RESPONSES, row->responses);
    print_last();
    int rest = stays(RECORD, length[RECORD]) && stays(ARRAY, length[ARRAY]) && stays(ITEMS, 0)
        && stays(RESPONSES, row->responses) && stays(ANSWERS, row->answers) && stays(LAST, BYTES_OF_LAST);
    printf("%s\n", rest ? "all else stayed" : "written elsewhere");
}

/* The call as it stands: refused. */
static void told(const char *name)
{
    show(name, call_with(SLICES, NULL, 0));
    printf("%s\n", memcmp(room, before, sizeof room) == 0 ? "all stayed" : "written");
}

/* The row with one slice of another length: refused. */
static void refused(const char *name, const struct row *row, int slice, size_t n)
{
    prepare(row);
    length[slice] = n;
    told(name);
}

/* Programs, waits whose ticks are in the highest and in the second byte, a status write that is frozen with W low and
 * taken with W high, a status read and a READ with further pulses, an item without bytes. */
static const uint8_t day[] = {
    1, 0, 1, 0x06, 6, 0, 0, 0x02, 0, 0, 0xFF, 0x0F, 0x33, 4, 0, M25P_ITEM_WAIT, 0, 0, 0, 1,
    1, 0, 0, 0x06, 5, 0, 1, 0x02, 0, 0, 0xFF, 0xFF, 2, 0, 0x0E, 0x05, 0, 4, 0, M25P_ITEM_WAIT, 0, 1, 0, 0,
    1, 0, 15, 0x06, 1, 0, 0, 0x06, 2, 0, 1, 0x01, 0x80, 4, 0, M25P_ITEM_WAIT, 2, 0, 0, 0,
    1, 0, 0, 0x06, 2, 0, 0, 0x01, 0x00, 2, 0, 1, 0x01, 0x00, 4, 0, M25P_ITEM_WAIT, 2, 0, 0, 0,
    0, 0, 13, 6, 0, 0x0B, 0x03, 0, 0, 0xFF, 0, 0
};
static const struct row a_day = {day, sizeof day, 30, 17};
static const struct row none = {day, 0, 0, 0};

static void rooms(void)
{
    printf("rooms\n");
    carried("just enough", &a_day, 0, 0, 0);
    carried("more", &a_day, 1, 3, 5);
    carried("what always suffices", &a_day, sizeof day - 30, sizeof day / 3 - 17, 0);
    refused("responses too short", &a_day, RESPONSES, 29);
    refused("answers too short", &a_day, ANSWERS, 16);
    refused(NAME_OF_LAST " too short", &a_day, LAST, BYTES_OF_LAST - 1);
    carried("no items", &none, 0, 0, 0);
    refused("no items, " NAME_OF_LAST " too short", &none, LAST, BYTES_OF_LAST - 1);
}

/* The longest item there is, a READ that rolls over. */
static void longest(void)
{
    static uint8_t read[3 + 65535] = {0xFF, 0xFF, 0, 0x03};
    const struct row row = {read, sizeof read, 65535, 1};
    printf("longest item\n");
    prepare(&row);
    show("READ", call_with(SLICES, NULL, 0));
    printf("%02X %02X %02X %02X\n", at(ANSWERS)[0], at(RESPONSES)[0], at(RESPONSES)[65534], at(RESPONSES)[65535]);
    print_last();
    refused("a byte less", &row, RESPONSES, 65534);
    refused("cut", &row, ITEMS, sizeof read - 1);
}

/* Behind a WREN, every end that is bad; no buffer is long enough, as 9 comes before 10. */
static void bad_items(void)
{
    static const struct {
        const char *name;
        size_t n;
        uint8_t end[8];
    } ends[] = {
        {"one byte left", 1, {1}}, {"two bytes left", 2, {4, 0}},
        {"a body that is not there", 3, {1, 0, 0}}, {"a body cut", 5, {3, 0, 1, 0x9F, 0}},
        {"a length of 256, cut", 4, {0, 1, 1, 0x05}}, {"a wait cut", 6, {4, 0, 16, 1, 0, 0}},
        {"flag 17, cut", 4, {2, 0, 17, 0}}, {"flag 17", 3, {0, 0, 17}},
        {"flag 32", 7, {4, 0, 32, 1, 0, 0, 0}}, {"flag 255", 4, {1, 0, 255, 0x06}},
        {"a wait of 0", 3, {0, 0, 16}}, {"a wait of 3", 6, {3, 0, 16, 1, 0, 0}},
        {"a wait of 5", 8, {5, 0, 16, 1, 0, 0, 0, 0}},
    };
    uint8_t items[12] = {1, 0, 1, 0x06};
    printf("bad items\n");
    for (size_t i = 0; i < sizeof ends / sizeof ends[0]; i++) {
        const struct row row = {items, 4 + ends[i].n, 0, 0};
        memcpy(items + 4, ends[i].end, ends[i].n);
        refused(ends[i].name, &row, LAST, 0);
    }
}

static const char *const names[SLICES] = {"record", "array", "items", "responses", "answers", NAME_OF_LAST};

/* Every slice empty in turn, at an address or at none; then all that may be, and all. */
static void empty(const char *kind, uint8_t *start)
{
    printf("empty slices, %s\n", kind);
    for (int i = 0; i < SLICES; i++) {
        prepare(&a_day);
        show(names[i], call_with(i, start, 0));
    }
    prepare(&none);
    show("items, responses and answers", CALL(at(RECORD), length[RECORD], at(ARRAY), length[ARRAY], start, 0,
                                              start, 0, start, 0, at(LAST), length[LAST]));
    print_last();
    show("all", CALL(start, 0, start, 0, start, 0, start, 0, start, 0, start, 0));
}

/* Lengths that are right only if they are cut to 32 bits, and buffers that are too short only then. Items of that
 * length would be read to their end. */
static void beyond_32_bits(void)
{
    const size_t over = (size_t)1 << 32;
    uint8_t *huge = huge_slice(HUGE_BYTES);
    printf("lengths beyond 32 bits\n");
    for (int i = 0; i < SLICES; i++) {
        if (i == ITEMS)
            continue;
        prepare(&a_day);
        memset(huge, 0, M25P_BENCH_BYTES);
        if (i < ITEMS)
            memcpy(huge, at(i), length[i]);
        show(names[i], call_with(i, huge, i < ITEMS ? over + length[i] : over));
    }
}

/* All of these. */
static void item_limits(void)
{
    rooms();
    longest();
    bad_items();
    empty("an address", before[0]);
    empty("NULL", NULL);
    beyond_32_bits();
}
