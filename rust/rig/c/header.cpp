// header.cpp - the header from C++: the constants, the inline functions, and the linkage of the calls.
#include "m25p.h"

// The macros of images stand in brackets, and so do their arguments.
static_assert(M25P_BLOCKS(true ? 4096u : 0u) == 9 && 18 / M25P_BLOCKS(4096u) == 2, "blocks");
static_assert(9216 / M25P_IMAGE_BYTES(4096u) == 2 && 144 / M25P_LIST_BYTES(4096u) == 2, "bytes");

// The calls for images, and the macros as the bounds of arrays.
static bool images()
{
    static uint8_t array[M25P_BENCH_BYTES], image[M25P_IMAGE_BYTES(M25P_BENCH_BYTES)];
    static uint8_t list[M25P_LIST_BYTES(M25P_BENCH_BYTES)];
    uint64_t written = m25p_image_write(M25P_BENCH, array, sizeof array, image, sizeof image);
    image[M25P_BLOCK_BYTES + M25P_BLOCK_HEAD] = 1;
    uint64_t read = m25p_image_read(M25P_BENCH, image, sizeof image, array, sizeof array);
    uint64_t salvaged = m25p_image_salvage(M25P_BENCH, image, sizeof image, list, sizeof list);
    bool listed = list[0] == 1 && list[4] == M25P_REASON_SUMS && list[M25P_LIST_PLACE] == 0;
    bool refused = m25p_image_write(7, array, sizeof array, image, sizeof image) == M25P_IMAGE_PART
        && m25p_image_write(M25P_BENCH, array, sizeof array, image, M25P_BLOCK_ARRAY) == M25P_IMAGE_LENGTH
        && m25p_image_salvage(M25P_BENCH, image, sizeof image, list, M25P_LIST_PLACE) == M25P_LIST_ROOM;
    return written == M25P_EXECUTED && m25p_answer(read) == M25P_BAD_BLOCK && m25p_blocks(read) == 1
        && m25p_answer(salvaged) == M25P_EXECUTED && m25p_blocks(salvaged) == 1 && listed && refused;
}

// The calls for several chips on one bus: two of the bench part, and no third.
static bool bus()
{
    static uint8_t row[2 * M25P_RECORD_BYTES], array[2 * M25P_BENCH_BYTES];
    static_assert(sizeof row < M25P_MOST_CHIPS * M25P_RECORD_BYTES, "two chips are no more than eight");
    uint8_t sent[] = {0x05, 0}, response[2] = {};
    for (size_t k = 0; k < 2; k++)
        m25p_deliver(row + M25P_RECORD_BYTES * k, M25P_RECORD_BYTES, M25P_BENCH, array + M25P_BENCH_BYTES * k,
                     M25P_BENCH_BYTES, 3, 5, 9, 2);
    auto status = [&](uint32_t chip, size_t row_len, size_t array_len) {
        return m25p_bus_transact(row, row_len, array, array_len, chip, sent, 2, 0, 1, response, 2);
    };
    uint64_t answer = status(1, sizeof row, sizeof array);
    bool driven = m25p_first(answer) == 1 && m25p_count(answer) == 1 && response[1] == 0;
    bool refused = status(0, 0, sizeof array) == M25P_ROW_LENGTH
        && status(2, sizeof row, sizeof array) == M25P_CHIP_NOT_THERE
        && m25p_bus_wait(row, sizeof row, array, 1, 3) == M25P_BUS_ARRAY;
    return m25p_answer(answer) == M25P_EXECUTED && driven && refused
        && m25p_bus_wait(row, sizeof row, array, sizeof array, 3) == M25P_EXECUTED;
}

// The totals: their numbers lie one behind another, and a report of an RDID without bytes behind it adds to two.
static_assert(M25P_TOTALS_BYTES == 8 * (M25P_TOTALS_PROGRAMS + 64), "the programs are the last 64");
static_assert(M25P_TOTALS_ANSWERS == M25P_TOTALS_EXECUTED + 256, "256 first bytes are before the answers");
static_assert(M25P_TOTALS_DRIVEN == M25P_TOTALS_ANSWERS + 32, "32 answers are before the driven bytes");
static_assert(M25P_TOTALS_PROGRAMS == M25P_TOTALS_DRIVEN + 1, "the driven bytes are one number");

static bool reports()
{
    static uint8_t record[M25P_RECORD_BYTES], array[M25P_BENCH_BYTES], totals[M25P_TOTALS_BYTES];
    uint8_t items[] = {1, 0, 0, 0x9F}, responses[1] = {}, answers[1] = {};
    m25p_deliver(record, sizeof record, M25P_BENCH, array, sizeof array, 3, 5, 9, 2);
    auto report = [&](size_t totals_len) {
        return m25p_report(record, sizeof record, array, sizeof array, items, sizeof items, responses,
                           sizeof responses, answers, sizeof answers, totals, totals_len);
    };
    bool first = report(sizeof totals) == M25P_EXECUTED && report(sizeof totals - 1) == M25P_BATCH_ROOM;
    bool added = m25p_total(totals, M25P_TOTALS_EXECUTED + 0x9F) == 1 && m25p_total(totals, M25P_TOTALS_ANSWERS) == 1
        && m25p_total(totals, M25P_TOTALS_DRIVEN) == 0 && m25p_total(totals, M25P_TOTALS_PROGRAMS + 63) == 0;
    for (size_t i = 0; i < 8; i++)
        totals[8 * M25P_TOTALS_ANSWERS + i] = 0xFF;
    return first && added && report(sizeof totals) == M25P_TOTALS_OVERFLOW
        && m25p_total(totals, M25P_TOTALS_ANSWERS) == UINT64_MAX;
}

int main()
{
    uint8_t record[M25P_RECORD_BYTES] = {}, array[M25P_BENCH_BYTES] = {}, mask[M25P_MASK_BYTES] = {};
    uint8_t items[] = {0, 0, 0}, responses[3] = {}, answers[1] = {}, missing[M25P_MISSING_BYTES] = {};
    uint64_t answer = m25p_loss(record, sizeof record, array, sizeof array, mask, sizeof mask, 1);
    uint64_t batch = m25p_batch(record, sizeof record, array, sizeof array, items, sizeof items, responses,
                                sizeof responses, answers, sizeof answers, missing, sizeof missing);
    bool refused = m25p_answer(answer) == M25P_RECORD_UNSOUND && answer == batch;
    bool alone = m25p_first(answer) == 0 && m25p_count(answer) == 0 && m25p_missing(answer) == 0;
    return refused && alone && reports() && images() && bus() ? 0 : 1;
}
