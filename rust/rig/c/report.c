/* report.c - reports at their limits: all that batches have alike, totals at any address, every number at its limit and
 * one above, the order of the refusals, and slices that end where the memory does. Prints one line for each call: its
 * name, answer number, first, count and bits missing of the answer; then what was added, and whether all else stayed. */
#define CALL m25p_report
#define NAME_OF_LAST "totals"
#define BYTES_OF_LAST M25P_TOTALS_BYTES
#include "item_rooms.h"

#include "fences.h"

enum { NUMBERS = M25P_TOTALS_BYTES / 8 };

/* What the day adds to each number. */
static const uint64_t day_adds[NUMBERS] = {
    [0x01] = 2, [0x02] = 2, [0x03] = 1, [0x05] = 1, [0x06] = 4, [M25P_TOTALS_ANSWERS] = 10,
    [M25P_TOTALS_ANSWERS + 11] = 1, [M25P_TOTALS_ANSWERS + 15] = 1, [M25P_TOTALS_ANSWERS + 18] = 1,
    [M25P_TOTALS_DRIVEN] = 3, [M25P_TOTALS_PROGRAMS] = 2
};

/* The numbers of these totals that differ from what they all were before, and by how much. */
static void added(const uint8_t *totals, uint64_t number_before)
{
    printf("totals");
    for (unsigned k = 0; k < NUMBERS; k++) {
        uint64_t more = m25p_total(totals, k) - number_before;
        if (more != 0)
            printf(" %u+%llu", k, (unsigned long long)more);
    }
    printf("\n");
}

static void print_last(void)
{
    added(at(LAST), UINT64_C(0xC3C3C3C3C3C3C3C3));
}

/* A number of the totals before the call. */
static void put(unsigned k, uint64_t number)
{
    for (int i = 0; i < 8; i++, number >>= 8)
        at(LAST)[8 * k + (unsigned)i] = (uint8_t)number;
    stay();
}

/* Totals that begin at each place within eight bytes. */
static void places(void)
{
    uint8_t sums[M25P_TOTALS_BYTES];
    printf("places\n");
    prepare(&a_day);
    call_with(SLICES, NULL, 0);
    memcpy(sums, at(LAST), sizeof sums);
    for (size_t k = 1; k < 8; k++) {
        prepare(&a_day);
        show("day", call_with(LAST, at(LAST) + k, sizeof sums));
        int same = memcmp(at(LAST) + k, sums, sizeof sums) == 0 && stays_around(LAST, k, sizeof sums);
        printf("%s\n", same ? "the same" : "another");
    }
}

/* Number k so large that the day's sum is 2^64 - 1. */
static int reaches_the_limit(unsigned k)
{
    prepare(&a_day);
    put(k, UINT64_MAX - day_adds[k]);
    return call_with(SLICES, NULL, 0) == 0 && m25p_total(at(LAST), k) == UINT64_MAX;
}

/* Every number in turn: a sum of 2^64 - 1 is good, whether something is added or not, and one above is refused. */
static void limits_of_numbers(void)
{
    char name[32];
    int good = 0;
    printf("limits of numbers\n");
    for (unsigned k = 0; k < NUMBERS; k++) {
        good += reaches_the_limit(k);
        if (day_adds[k] == 0)
            continue;
        prepare(&a_day);
        put(k, UINT64_MAX - day_adds[k] + 1);
        sprintf(name, "number %u", k);
        told(name);
    }
    printf("2^64 - 1: %d of %d\n", good, NUMBERS);
}

/* The sum that 64 bits cannot hold comes with the first transaction, with the last, or with all but the waits. */
static void moments(void)
{
    printf("moments\n");
    prepare(&a_day);
    put(0x06, UINT64_MAX);
    told("first");
    prepare(&a_day);
    put(0x03, UINT64_MAX);
    told("last");
    prepare(&a_day);
    memset(at(LAST), 0xFF, M25P_TOTALS_BYTES);
    stay();
    told("all");
}

/* Everything that can be refused is wrong, and one thing less from call to call. */
static void order(void)
{
    uint8_t items[sizeof day + 3] = {0};
    const struct row row = {items, sizeof items, 30, 17};
    memcpy(items, day, sizeof day);
    items[sizeof day + 2] = M25P_ITEM_WAIT + 1;
    printf("order\n");
    prepare(&row);
    memset(at(LAST), 0xFF, M25P_TOTALS_BYTES);
    at(RECORD)[5] = 1;
    stay();
    length[RECORD] = 303;
    length[ARRAY] = 4095;
    length[LAST] = 2823;
    told("record_len");
    length[RECORD] = 304;
    told("record");
    at(RECORD)[5] = 0;
    stay();
    told("array_len");
    length[ARRAY] = 4096;
    told("items");
    length[ITEMS] = sizeof day;
    told("totals_len");
    length[LAST] = 2824;
    told("totals");
    memset(at(LAST), 0, M25P_TOTALS_BYTES);
    show("none", call_with(SLICES, NULL, 0));
    added(at(LAST), 0);
}

/* Slices at the end of the memory: the call goes no further. The items are only read, and what is lent to a refused
 * report may be memory that can't be written. */
static void fences(void)
{
    uint8_t *p[SLICES];
    printf("fences\n");
    prepare(&a_day);
    memset(at(LAST), 0, M25P_TOTALS_BYTES);
    for (int i = 0; i < SLICES; i++)
        p[i] = fenced(at(i), length[i]);
    close_room(p[2], length[2]);
    show("day", m25p_report(p[0], 304, p[1], 4096, p[2], sizeof day, p[3], 30, p[4], 17, p[5], 2824));
    added(p[5], 0);
    memset(p[5], 0xFF, M25P_TOTALS_BYTES);
    for (int i = 0; i < SLICES; i++)
        close_room(p[i], length[i]);
    show("refused", m25p_report(p[0], 304, p[1], 4096, p[2], sizeof day - 1, p[3], 30, p[4], 17, p[5], 2824));
    show("refused", m25p_report(p[0], 304, p[1], 4096, p[2], sizeof day, p[3], 30, p[4], 17, p[5] + 1, 2823));
    show("refused", m25p_report(p[0], 304, p[1], 4096, p[2], sizeof day, p[3], 30, p[4], 17, p[5], 2824));
}

/* The last sector counts in the last number, which ends where the memory does; a page write counts in none. */
static void last_sectors(void)
{
    static const struct {
        const char *name;
        uint32_t part;
        size_t bytes;
    } parts[] = {
        {"bench", M25P_BENCH, M25P_BENCH_BYTES}, {"M25P40", M25P_M25P40, M25P_M25P40_BYTES},
        {"M25P32", M25P_M25P32, M25P_M25P32_BYTES}, {"M25P128", M25P_M25P128, M25P_M25P128_BYTES},
        {"M25PE40", M25P_M25PE40, M25P_M25PE40_BYTES},
    };
    static uint8_t array[M25P_M25P128_BYTES], zeros[M25P_TOTALS_BYTES];
    const uint8_t items[] = {
        1, 0, 1, 0x06, 5, 0, 1, 0x02, 0xFF, 0xFF, 0xFF, 0x5A, 4, 0, M25P_ITEM_WAIT, 3, 0, 0, 0,
        1, 0, 1, 0x06, 5, 0, 1, 0x0A, 0xFF, 0xFF, 0xFF, 0x5A
    };
    uint8_t record[M25P_RECORD_BYTES], responses[sizeof items], answers[sizeof items / 3];
    printf("last sectors\n");
    for (size_t i = 0; i < sizeof parts / sizeof parts[0]; i++) {
        uint8_t *totals = fenced(zeros, sizeof zeros);
        m25p_deliver(record, sizeof record, parts[i].part, array, parts[i].bytes, 3, 5, 9, 2);
        show(parts[i].name, m25p_report(record, sizeof record, array, parts[i].bytes, items, sizeof items, responses,
                                        sizeof responses, answers, sizeof answers, totals, sizeof zeros));
        added(totals, 0);
    }
}

int main(void)
{
    item_limits();
    places();
    limits_of_numbers();
    moments();
    order();
    fences();
    last_sectors();
    return 0;
}
