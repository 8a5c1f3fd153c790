/* batch.c - batches at their limits: empty slices with and without an address, lengths beyond 32 bits, buffers of
 * the length that is needed, longer and shorter, and every bad item. Prints one line for each call: its name, answer
 * number, first, count and bits missing of the answer; then what was written, and whether all else stayed. */
#define CALL m25p_batch
#define NAME_OF_LAST "missing"
#define BYTES_OF_LAST M25P_MISSING_BYTES
#include "item_rooms.h"

static void print_last(void)
{
    bytes("missing", LAST, M25P_MISSING_BYTES);
}

int main(void)
{
    item_limits();
    return 0;
}
