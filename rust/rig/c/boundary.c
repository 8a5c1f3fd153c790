/* boundary.c - the C calls at their limits: empty slices with and without an address, lengths beyond 32
 * bits, full 32-bit numbers, rewrites without an erase, power losses, lock registers, every part. Prints
 * one line for each call: its name, answer number, first, count and bits missing; of each part one line: the
 * answers of delivery, RDID and RES, and what the two drive. Batches are in batch.c, reports in
 * report.c, images in image.c, several chips on one bus in bus.c. */
#include "limits.h"

static uint8_t record[M25P_RECORD_BYTES];
static uint8_t array[M25P_BENCH_BYTES];
static uint8_t sent[M25P_MOST_SENT + 1];
static uint8_t response[M25P_MOST_SENT + 1];
static uint8_t mask[M25P_MASK_BYTES + 1];
static const uint8_t samples[3] = {M25P_PINS_AT_REST, M25P_PIN_W | M25P_PIN_HOLD, M25P_PINS_AT_REST};
static uint8_t *huge;

static void fresh(void)
{
    m25p_deliver(record, sizeof record, M25P_BENCH, array, sizeof array, 3, 5, 9, 2);
}

static uint64_t send(const uint8_t *bytes, size_t n, uint32_t pulses, uint32_t w, uint8_t *q, size_t length)
{
    return m25p_transact(record, sizeof record, array, sizeof array, bytes, n, pulses, w, q, length);
}

static uint64_t lose(const uint8_t *bytes, size_t n, uint32_t yes)
{
    return m25p_loss(record, sizeof record, array, sizeof array, bytes, n, yes);
}

static uint64_t probe(const uint8_t *bytes, size_t n, uint8_t *output, size_t length)
{
    return m25p_pins(record, sizeof record, array, sizeof array, bytes, n, output, length);
}

/* Every slice of every call empty in turn, at an address or at none. */
static void empty(const char *kind, uint8_t *none)
{
    printf("empty slices, %s\n", kind);
    fresh();
    show("deliver record", m25p_deliver(none, 0, 0, array, sizeof array, 3, 5, 9, 2));
    show("deliver array", m25p_deliver(record, sizeof record, 0, none, 0, 3, 5, 9, 2));
    show("deliver both", m25p_deliver(none, 0, 0, none, 0, 3, 5, 9, 2));
    show("wait record", m25p_wait(none, 0, array, sizeof array, 1));
    show("wait array", m25p_wait(record, sizeof record, none, 0, 1));
    show("power-up record", m25p_power_up(none, 0, array, sizeof array));
    show("power-up array", m25p_power_up(record, sizeof record, none, 0));
    show("loss record", m25p_loss(none, 0, array, sizeof array, mask, M25P_MASK_BYTES, 1));
    show("loss array", m25p_loss(record, sizeof record, none, 0, mask, M25P_MASK_BYTES, 1));
    show("loss mask", lose(none, 0, 1));
    show("loss all", m25p_loss(none, 0, none, 0, none, 0, 1));
    show("transact record", m25p_transact(none, 0, array, sizeof array, sent, 1, 0, 1, response, 1));
    show("transact array", m25p_transact(record, sizeof record, none, 0, sent, 1, 0, 1, response, 1));
    show("transact sent", send(none, 0, 0, 1, response, sizeof response));
    show("transact response", send(sent, 1, 0, 1, none, 0));
    show("transact sent and response", send(none, 0, 0, 1, none, 0));
    show("transact all", m25p_transact(none, 0, none, 0, none, 0, 0, 1, none, 0));
    show("pins record", m25p_pins(none, 0, array, sizeof array, samples, 3, response, 3));
    show("pins array", m25p_pins(record, sizeof record, none, 0, samples, 3, response, 3));
    show("pins samples", probe(none, 0, response, sizeof response));
    show("pins output", probe(samples, 3, none, 0));
    show("pins samples and output", probe(none, 0, none, 0));
    show("pins all", m25p_pins(none, 0, none, 0, none, 0, none, 0));
}

/* Lengths that are right only if they are cut to 32 bits, and a response and an output that are wrong
 * only then. */
static void beyond_32_bits(void)
{
    size_t over = (size_t)1 << 32, longer = over + M25P_RECORD_BYTES;
    printf("lengths beyond 32 bits\n");
    fresh();
    memcpy(huge, record, sizeof record);
    show("deliver record", m25p_deliver(huge, longer, 0, array, sizeof array, 3, 5, 9, 2));
    show("deliver array", m25p_deliver(record, sizeof record, 0, huge, over + 4096, 3, 5, 9, 2));
    show("wait record", m25p_wait(huge, longer, array, sizeof array, 1));
    show("wait array", m25p_wait(record, sizeof record, huge, over + 4096, 1));
    show("power-up record", m25p_power_up(huge, longer, array, sizeof array));
    show("power-up array", m25p_power_up(record, sizeof record, huge, over + 4096));
    show("loss record", m25p_loss(huge, longer, array, sizeof array, mask, M25P_MASK_BYTES, 1));
    show("loss array", m25p_loss(record, sizeof record, huge, over + 4096, mask, M25P_MASK_BYTES, 1));
    show("loss mask", lose(huge, over + M25P_MASK_BYTES, 1));
    show("transact record", m25p_transact(huge, longer, array, sizeof array, sent, 1, 0, 1, response, 1));
    show("transact array", m25p_transact(record, sizeof record, huge, over + 4096, sent, 1, 0, 1, response, 1));
    show("transact sent", send(huge, over + 1, 0, 1, response, sizeof response));
    sent[0] = 0x9F;
    show("transact response", send(sent, 4, 0, 1, huge, over));
    printf("%02X %02X %02X %02X\n", huge[0], huge[1], huge[2], huge[3]);
    memcpy(huge, record, sizeof record);
    show("pins record", m25p_pins(huge, longer, array, sizeof array, samples, 3, response, 3));
    show("pins array", m25p_pins(record, sizeof record, huge, over + 4096, samples, 3, response, 3));
    show("pins output", probe(samples, 3, huge, over));
    printf("%u %u %u\n", huge[0], huge[1], huge[2]);
}

/* Numbers that are right only if they are cut to 8 or 16 bits. */
static void full_numbers(void)
{
    const uint8_t settings[2] = {0x01, 0x00};
    printf("full numbers\n");
    fresh();
    show("part 256", m25p_deliver(record, sizeof record, 256, array, sizeof array, 3, 5, 9, 2));
    show("part 65536", m25p_deliver(record, sizeof record, 65536, array, sizeof array, 3, 5, 9, 2));
    show("program 1000001", m25p_deliver(record, sizeof record, 0, array, sizeof array, 1000001, 5, 9, 2));
    show("write status 2^32-1", m25p_deliver(record, sizeof record, 0, array, sizeof array, 3, 5, 9, UINT32_MAX));
    sent[0] = 0x06;
    show("pulses 256", send(sent, 1, 256, 1, response, 1));
    show("pulses 2^31", send(sent, 1, (uint32_t)1 << 31, 1, response, 1));
    record[2] = record[3] = 1;
    show("W 0", send(settings, 2, 0, 0, response, 2));
    show("W 256", send(settings, 2, 0, 256, response, 2));
    show("wait 2^32-1", m25p_wait(record, sizeof record, array, sizeof array, UINT32_MAX));
}

/* The longest transaction, and one byte more. */
static void longest(void)
{
    printf("longest transactions\n");
    fresh();
    sent[0] = 0x03;
    show("read 65536", send(sent, 65536, 7, 0, response, 65536));
    show("read 65537", send(sent, 65537, 7, 0, response, 65537));
    show("short response", send(sent, 65536, 0, 1, response, 65535));
    sent[0] = 0x06;
    send(sent, 1, 0, 1, response, 1);
    sent[0] = 0x02;
    show("program 65536", send(sent, 65536, 0, 0, response, 65536));
}

/* The refusals of raw pins. */
static void pins(void)
{
    const uint8_t odd[2] = {M25P_PINS_AT_REST, 0x80};
    printf("raw pins\n");
    fresh();
    show("rest", probe(samples, 3, response, 3));
    show("bit 7", probe(odd, 2, response, 1));
    show("short output", probe(samples, 3, response, 2));
}

/* Write enable, and a program of n bytes of this value; its cycle is over afterwards. */
static uint64_t program(unsigned address, uint8_t value, size_t n)
{
    const uint8_t enable[1] = {0x06};
    uint64_t answer;
    send(enable, 1, 0, 1, response, 1);
    sent[0] = 0x02;
    sent[1] = (uint8_t)(address >> 16);
    sent[2] = (uint8_t)(address >> 8);
    sent[3] = (uint8_t)address;
    memset(sent + 4, value, n);
    answer = send(sent, n + 4, 0, 1, response, n + 4);
    m25p_wait(record, sizeof record, array, sizeof array, 3);
    return answer;
}

/* Programs over programmed bytes: the bits missing, and none after an erase. */
static void rewrites(void)
{
    const uint8_t enable[1] = {0x06}, erase[4] = {0xD8}, protect[2] = {0x01, 0x0C};
    printf("rewrites\n");
    fresh();
    show("00 in 3 bytes", program(0x1FE, 0x00, 3));
    show("FF over 00 in 3 bytes", program(0x1FE, 0xFF, 3));
    show("A5 over 00 in 2 bytes", program(0x1FF, 0xA5, 2));
    show("FF where no 00 is", program(0x101, 0xFF, 253));
    show("00 in a page", program(0x100, 0x00, 256));
    show("FF over 00 in a page", program(0x142, 0xFF, 256));
    show("FF over 00 in 60000 bytes", program(0x142, 0xFF, 60000));
    send(enable, 1, 0, 1, response, 1);
    show("erase", send(erase, 4, 0, 1, response, 4));
    show("program while busy", send(sent, 60, 0, 1, response, 60));
    show("wait", m25p_wait(record, sizeof record, array, sizeof array, 5));
    show("FF after the erase", program(0x142, 0xFF, 256));
    program(0x100, 0x00, 1);
    send(enable, 1, 0, 1, response, 1);
    show("protect", send(protect, 2, 0, 1, response, 2));
    show("power-up", m25p_power_up(record, sizeof record, array, sizeof array));
    show("FF over 00, protected", program(0x100, 0xFF, 1));
    show("deliver", m25p_deliver(record, sizeof record, M25P_BENCH, array, sizeof array, 3, 5, 9, 2));
    show("FF after the delivery", program(0x100, 0xFF, 1));
}

/* A status write and a loss in it: the answer, and BP and SRWD then. */
static void lose_settings(const char *name, size_t mask_len, uint32_t yes)
{
    const uint8_t enable[1] = {0x06}, settings[2] = {0x01, 0x88};
    fresh();
    send(enable, 1, 0, 1, response, 1);
    send(settings, 2, 0, 1, response, 2);
    show(name, lose(mask, mask_len, yes));
    printf("%u %u %u\n", record[1], record[2], record[4]);
}

/* Masks of every length around the right one, and a yes that is right only at its full width. */
static void losses(void)
{
    printf("losses\n");
    lose_settings("mask of 255", 255, 1);
    lose_settings("mask of 257", 257, 1);
    lose_settings("no", 256, 0);
    lose_settings("yes 1", 256, 1);
    lose_settings("yes 256", 256, 256);
    lose_settings("yes 2^31", 256, (uint32_t)1 << 31);
    show("once more", lose(mask, 256, 0));
}

/* A transaction on the M25PE40, whose array is the beginning of the huge slice. */
static uint64_t on_m25pe40(const uint8_t *bytes, size_t n)
{
    return m25p_transact(record, sizeof record, huge, M25P_M25PE40_BYTES, bytes, n, 0, 1, response, n);
}

/* A sector of the M25PE40 is locked and frozen until power-up; then a page write around the end of its page. */
static void locks(void)
{
    const uint8_t enable[1] = {0x06}, lock[5] = {0xE5, 7, 0, 0, M25P_LOCK_DOWN | M25P_WRITE_LOCK};
    const uint8_t look[6] = {0xE8, 7, 0xFF, 0xFF}, write[6] = {0x0A, 7, 0, 0xFF, 0x12, 0x34};
    printf("locks\n");
    show("deliver", m25p_deliver(record, sizeof record, M25P_M25PE40, huge, M25P_M25PE40_BYTES, 3, 5, 9, 2));
    show("lock without the latch", on_m25pe40(lock, 5));
    on_m25pe40(enable, 1);
    show("lock", on_m25pe40(lock, 5));
    show("look", on_m25pe40(look, 6));
    printf("%02X %02X %02X\n", response[3], response[4], response[5]);
    on_m25pe40(enable, 1);
    show("page write, locked", on_m25pe40(write, 6));
    show("lock, frozen", on_m25pe40(lock, 5));
    printf("%u\n", record[303]);
    show("power-up", m25p_power_up(record, sizeof record, huge, M25P_M25PE40_BYTES));
    printf("%u\n", record[303]);
    on_m25pe40(enable, 1);
    show("page write", on_m25pe40(write, 6));
    printf("%u %u\n", record[28], record[292]);
    show("wait", m25p_wait(record, sizeof record, huge, M25P_M25PE40_BYTES, 3));
    printf("%02X %02X %02X\n", huge[0x700FF], huge[0x70000], huge[0x70001]);
}

/* Every part by its name and size in the header: what delivery, RDID and RES answer, and what the two drive. */
static void parts(void)
{
    static const struct {
        const char *name;
        uint32_t part;
        size_t bytes;
    } all[] = {
        {"bench", M25P_BENCH, M25P_BENCH_BYTES},
        {"M25P10-A", M25P_M25P10A, M25P_M25P10A_BYTES},
        {"M25P40", M25P_M25P40, M25P_M25P40_BYTES},
        {"M25P32", M25P_M25P32, M25P_M25P32_BYTES},
        {"M25P128", M25P_M25P128, M25P_M25P128_BYTES},
        {"older M25P10-A", M25P_M25P10A_OLDER, M25P_M25P10A_OLDER_BYTES},
        {"M25PE40", M25P_M25PE40, M25P_M25PE40_BYTES},
    };
    const uint8_t identify[4] = {0x9F}, release[5] = {0xAB};
    uint8_t named[4], signed_by[5];
    printf("parts\n");
    for (size_t i = 0; i < sizeof all / sizeof all[0]; i++) {
        size_t n = all[i].bytes;
        uint64_t delivered = m25p_deliver(record, sizeof record, all[i].part, huge, n, 3, 5, 9, 2);
        uint64_t rdid = m25p_transact(record, sizeof record, huge, n, identify, 4, 0, 1, named, 4);
        uint64_t res = m25p_transact(record, sizeof record, huge, n, release, 5, 0, 1, signed_by, 5);
        printf("%s: %u %u %u, %02X %02X %02X, %02X\n", all[i].name, m25p_answer(delivered), m25p_answer(rdid),
               m25p_answer(res), named[1], named[2], named[3], signed_by[4]);
    }
    show("part 7", m25p_deliver(record, sizeof record, 7, huge, M25P_M25PE40_BYTES, 3, 5, 9, 2));
}

int main(void)
{
    huge = huge_slice(HUGE_BYTES);
    sent[0] = 0x05;
    empty("an address", array);
    beyond_32_bits();
    full_numbers();
    longest();
    pins();
    rewrites();
    losses();
    locks();
    parts();
    sent[0] = 0x05;
    empty("NULL", NULL);
    return 0;
}
