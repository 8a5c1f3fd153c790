/* first.c - a first program: deliver the bench part, identify it, program it, wait, and read it back; then
 * program it once more without an erase, hear that one was missing, and lose power in mid-program.
 *
 *   ./archive
 *   cc -O2 -Iinclude examples/first.c target/staticlib/libm25p.a -o target/first && target/first
 *
 * The archive is for x86-64, and so are these commands. docs/C-CALLS.md has those for another processor.
 */
#include <stdio.h>
#include <stdlib.h>
#include <string.h>

#include "m25p.h"

static uint8_t record[M25P_RECORD_BYTES];
static uint8_t array[M25P_BENCH_BYTES];
static uint8_t response[64];
static uint8_t mask[M25P_MASK_BYTES];

/* Ends the program unless the call was executed. */
static uint64_t executed(const char *name, uint64_t answer)
{
    if (m25p_answer(answer) != M25P_EXECUTED) {
        fprintf(stderr, "%s: answer %u\n", name, m25p_answer(answer));
        exit(1);
    }
    return answer;
}

/* One transaction with W high and no further pulses; prints the bytes that the chip drove, and how many bits
 * a program wanted 1 that were 0. */
static void say(const char *name, const uint8_t *sent, size_t n)
{
    uint64_t answer = executed(name, m25p_transact(record, sizeof record, array, sizeof array,
                                                   sent, n, 0, 1, response, sizeof response));
    uint32_t first = m25p_first(answer), count = m25p_count(answer);
    printf("%-16s", name);
    for (uint32_t i = 0; i < count; i++)
        printf(" %02X", response[first + i]);
    printf("%s", count == 0 ? " done" : "");
    if (m25p_missing(answer) > 0)
        printf(", %u bits missing: erase first", m25p_missing(answer));
    printf("\n");
}

int main(void)
{
    const uint8_t identify[] = {0x9F, 0, 0, 0};
    const uint8_t write_enable[] = {0x06};
    const uint8_t program[] = {0x02, 0x00, 0x01, 0x00, 'f', 'l', 'a', 's', 'h'};
    const uint8_t status[] = {0x05, 0};
    const uint8_t read[] = {0x03, 0x00, 0x01, 0x00, 0, 0, 0, 0, 0, 0};
    const uint8_t rewrite[] = {0x02, 0x00, 0x01, 0x00, 'b', 'o', 'a', 'r', 'd'};

    executed("deliver", m25p_deliver(record, sizeof record, M25P_BENCH, array, sizeof array,
                                     3, 5, 9, 2));
    say("identification", identify, sizeof identify);
    say("write enable", write_enable, sizeof write_enable);
    say("program", program, sizeof program);
    say("status", status, sizeof status);
    executed("wait", m25p_wait(record, sizeof record, array, sizeof array, 3));
    say("status", status, sizeof status);
    say("read", read, sizeof read);
    say("write enable", write_enable, sizeof write_enable);
    say("rewrite", rewrite, sizeof rewrite);

    /* The program has cleared its bits but for bit 3 of each byte: 68 stays, where 60 was to come. */
    memset(mask, 0x08, sizeof mask);
    executed("loss", m25p_loss(record, sizeof record, array, sizeof array, mask, sizeof mask, 0));
    say("read", read, sizeof read);
    return 0;
}
