/* m25p.h - the C calls of a software stand-in for M25P and M25PE serial flash chips (libm25p.a).
 *
 * A chip is two buffers that you own: a packed record of 304 bytes (the settings, the mode and a running
 * cycle) and the memory array (its contents). Each call on a chip is lent both, changes them in place and
 * returns one 64-bit answer. The two m25p_bus calls are lent up to eight chips that share a bus: a row of
 * records and one array. The three m25p_image calls are lent no record: they carry an array to an image,
 * which is for a disk, and back, and save what is left of a damaged image. Nothing is allocated, and between
 * calls nothing is remembered but in your buffers.
 *
 * Parts
 *
 *   no. name       bytes        sectors  sector bytes  identification  signature  highest BP
 *   0   bench           4,096    4         1,024       00 00 0C        0B         3
 *   1   M25P10-A      131,072    4        32,768       20 20 11        10         3
 *   2   M25P40        524,288    8        65,536       20 20 13        12         7
 *   3   M25P32      4,194,304   64        65,536       20 20 16        15         7
 *   4   M25P128    16,777,216   64       262,144       20 20 18        none       7
 *   5   M25P10-A,     131,072    4        32,768       none            10         3
 *       older
 *   6   M25PE40       524,288    8        65,536       20 80 13        none       7
 *
 *   Identification and signature are hexadecimal. A page is 256 bytes. Part 0 exists only here, for
 *   programs that want small buffers. Part 5 is the M25P10-A before process technology X and Y: it does
 *   what part 1 does, but 9F is not an instruction of it and answers 14. Part 6 is of another family: it
 *   has five instructions more, subsectors of 4,096 bytes, and a lock register for each sector.
 *
 * The packed record, 304 bytes
 *
 *   byte 0       part, 0 to 6
 *   byte 1       BP (block protect), 0 to the part's highest
 *   byte 2       SRWD (status register write disable), 0 or 1
 *   byte 3       write enable latch, 0 or 1
 *   byte 4       mode: 0 standby, 1 busy, 2 deep power-down
 *   bytes 5-7    zero
 *   bytes 8-11   ticks left: 1 to 1,000,000 while busy, otherwise 0
 *   bytes 12-15  duration of a page program, page write or page erase, in ticks, 1 to 1,000,000
 *   bytes 16-19  duration of a sector erase or subsector erase, likewise
 *   bytes 20-23  duration of a bulk erase, likewise
 *   bytes 24-27  duration of a status write, likewise
 *
 *   While busy, the cycle that is running:
 *
 *   byte 28      its kind: 1 page program, 2 sector erase, 3 bulk erase, 4 status write; on part 6 also
 *                5 page write, 6 page erase, 7 subsector erase
 *   byte 29      kind 4: the new BP, 0 to the part's highest
 *   byte 30      kind 4: the new SRWD, 0 or 1
 *   byte 31      zero
 *   bytes 32-35  kinds 1, 2, 5, 6 and 7: the address as it was sent, modulo the part's size
 *   bytes 36-291 kinds 1 and 5: the 256 slots of the page, FF where no data went
 *   bytes 292-295 kind 5: how many bytes of the page are named, 1 to 256: those at the places
 *                (address + k) modulo 256, for each k below this number
 *
 *   What a kind does not use is zero, and all of bytes 28 to 295 unless busy. Behind it:
 *
 *   bytes 296-303 the lock registers of sectors 0 to 7 of part 6, 0 to 3 each: bit 0 the write lock, bit 1
 *                the lock-down; zero on the other parts
 *
 *   Numbers of four bytes are little-endian. A record is sound if every field is as above, a busy record
 *   has its latch set exactly if more than one tick is left, and part 4 is not in deep power-down. Slots
 *   that no data went to may hold any byte. Any other 304 bytes are answered with 6.
 *
 * Cycles
 *
 *   An executed PP, SE, BE or WRSR, on part 6 also PW, PE or SSE, starts a cycle. Until its end the record
 *   remembers it, and array, BP and SRWD stay as they are. The cycle acts on the array that is lent at its
 *   end, which is one of three: its last tick (m25p_wait, m25p_bus_wait, or a wait in m25p_batch or
 *   m25p_report), m25p_power_up, which completes it, and m25p_loss, which cuts it.
 *
 * The answer, 64 bits
 *
 *   bits 0-7     answer number, see enum m25p_number
 *   bits 8-15    first driven position: the first byte of the response that the chip drove
 *   bits 16-47   driven count: how many bytes of the response the chip drove; of m25p_image_read and
 *                m25p_image_salvage a block, or a number of blocks, see m25p_blocks
 *   bits 48-63   bits missing: how many bits an executed page program wanted 1 that were 0 in the array
 *                before, and so stayed 0; 0 to 2,048
 *
 *   The whole word may be other than 0 although the call was executed. Test m25p_answer(r), never the
 *   whole word: r == 0 is no test for executed.
 *
 *   Of a call on a chip: where nothing was driven, and on every number but 0, first and count are 0. The bits
 *   missing are 0 on every number but 0, for every transaction but a page program (02), and in every answer
 *   of m25p_deliver, m25p_wait, m25p_bus_wait, m25p_power_up and m25p_loss. m25p_pins gives the sum over its
 *   transactions; m25p_batch gives it in a buffer of its own, m25p_report does not give it, and the answers
 *   of both are the number alone. They are counted as the program starts, on the array that is lent to that
 *   call.
 *
 *   The m25p_image calls drive and program nothing. Bits 16-47 are the first bad block where m25p_image_read
 *   answers 33, and how many blocks were changed where m25p_image_salvage answers 0; all else is 0 but the
 *   number.
 *
 *   What the bits missing are good for: a program can only make a 1 a 0. Where it wants a 1 and the array
 *   holds a 0, the 0 stays, the answer number is 0 all the same, and the page does not hold what was
 *   sent. Bits missing above 0 say just that: an erase should have come first.
 *
 * What you may pass
 *
 *   Any number in any argument: each is checked at its full width. Every slice is a pointer and its
 *   length in bytes, and the memory must be there for that whole length. Empty slices: with a length of 0
 *   the pointer may be anything, NULL too, as nothing is read or written there. What the calls cannot
 *   check:
 *   - Buffers lent to one call must not overlap.
 *   - No buffer may be longer than PTRDIFF_MAX bytes.
 *   - One chip is used by one thread at a time, and so are an image, a list or totals that are written.
 *     Different ones are independent. The chips of a row are one in this: a call on a bus looks at all its
 *     records.
 */
#ifndef M25P_H
#define M25P_H

#include <stddef.h>
#include <stdint.h>

#ifdef __cplusplus
extern "C" {
#endif

#define M25P_RECORD_BYTES 304u
#define M25P_MASK_BYTES 256u         /* the mask of a power loss: a byte for each byte of a page */
#define M25P_MOST_SENT 65536u        /* the most bytes in one transaction */
#define M25P_MOST_TICKS 1000000u     /* the longest duration */
#define M25P_ITEM_WAIT 16u           /* the flag byte of a wait in a batch or a report */
#define M25P_MISSING_BYTES 8u        /* the sum of the bits missing of a batch */
#define M25P_MOST_CHIPS 8u           /* the most chips on a bus */

/* The totals of a report, see m25p_report, and which of their numbers are which. */
#define M25P_TOTALS_BYTES 2824u      /* 353 numbers of 8 bytes */
#define M25P_TOTALS_EXECUTED 0u      /* executed transactions, for each first byte 0 to 255 */
#define M25P_TOTALS_ANSWERS 256u     /* answers, for each number 0 to 31 */
#define M25P_TOTALS_DRIVEN 288u      /* driven bytes */
#define M25P_TOTALS_PROGRAMS 289u    /* executed page programs, for each sector 0 to 63 */

/* One sample of raw pins: each bit is the level of its pin, bits 5 to 7 are 0. */
#define M25P_PIN_SELECT 0x01u        /* Chip Select: low while a transaction runs */
#define M25P_PIN_CLOCK 0x02u
#define M25P_PIN_DATA 0x04u          /* data in */
#define M25P_PIN_W 0x08u             /* Write Protect */
#define M25P_PIN_HOLD 0x10u          /* low to hold */
#define M25P_PINS_AT_REST 0x19u      /* Select, W and Hold high, clock and data low */

/* Images, see m25p_image_write. */
#define M25P_BLOCK_BYTES 512u        /* a block of an image */
#define M25P_BLOCK_HEAD 8u           /* its number and its sums */
#define M25P_BLOCK_ARRAY 504u        /* the bytes of the array in it */
#define M25P_LIST_PLACE 8u           /* a place in the list of a salvage */
#define M25P_REASON_NUMBER 1u        /* in that list: the block's number was wrong */
#define M25P_REASON_SUMS 2u          /* its number was right, and a sum was wrong */

/* For an array of so many bytes: the blocks of its image, the image's length, and the length of a list that
 * is enough for any image of it. */
#define M25P_BLOCKS(array_bytes) (((array_bytes) + M25P_BLOCK_ARRAY - 1u) / M25P_BLOCK_ARRAY)
#define M25P_IMAGE_BYTES(array_bytes) (M25P_BLOCKS(array_bytes) * M25P_BLOCK_BYTES)
#define M25P_LIST_BYTES(array_bytes) (M25P_BLOCKS(array_bytes) * M25P_LIST_PLACE)

#define M25P_NOT_DRIVEN 2u           /* an output byte of raw pins; a driven one is 0 or 1 */

enum m25p_part {
    M25P_BENCH = 0,
    M25P_M25P10A = 1,
    M25P_M25P40 = 2,
    M25P_M25P32 = 3,
    M25P_M25P128 = 4,
    M25P_M25P10A_OLDER = 5,
    M25P_M25PE40 = 6
};

#define M25P_BENCH_BYTES 4096u
#define M25P_M25P10A_BYTES 131072u
#define M25P_M25P40_BYTES 524288u
#define M25P_M25P32_BYTES 4194304u
#define M25P_M25P128_BYTES 16777216u
#define M25P_M25P10A_OLDER_BYTES 131072u
#define M25P_M25PE40_BYTES 524288u

/* The bits of a lock register. */
#define M25P_WRITE_LOCK 0x01u        /* nothing is written, programmed or erased in the sector */
#define M25P_LOCK_DOWN 0x02u         /* the register is frozen until power-up or a power loss */

/* Answer numbers. On 1 to 10, 21 to 23, 31 to 34, 41, 51 to 53 and 71 the call was refused and has written
 * nothing anywhere. On 11 to 19 the chip ignored the transaction: record and array stay, the latch included,
 * and the response is all FF. "All" are the calls that take such an argument; what is said of transact goes
 * for bus_transact, too. */
enum m25p_number {
    M25P_EXECUTED = 0,          /* done */

    M25P_UNKNOWN_PART = 1,      /* deliver: part above 6 */
    M25P_ARRAY_LENGTH = 2,      /* all but the bus calls: array_len is not the part's size */
    M25P_SENT_LENGTH = 3,       /* transact: sent_len above 65,536 */
    M25P_PULSES = 4,            /* transact: further pulses above 7 */
    M25P_RESPONSE_LENGTH = 5,   /* transact: response_len below sent_len */
    M25P_RECORD_UNSOUND = 6,    /* all but deliver: not the packing of a sound record, any of a row */
    M25P_DURATION = 7,          /* deliver: a duration outside 1 to 1,000,000 */
    M25P_RECORD_LENGTH = 8,     /* all: record_len is not 304, or row_len is not a multiple of 304 */
    M25P_BAD_ITEM = 9,          /* batch, report: a cut item, a flag byte above 16, or a wait not of length 4 */
    M25P_BATCH_ROOM = 10,       /* batch, report: a buffer too short */

    M25P_NO_BYTES = 11,         /* nothing was sent */
    M25P_BUSY = 12,             /* busy, and not RDSR */
    M25P_DEEP = 13,             /* deep power-down, and not its release (AB) */
    M25P_UNKNOWN_CODE = 14,     /* the first byte is no instruction of this part */
    M25P_WRONG_FORM = 15,       /* number of bytes, or further pulses, not as the instruction needs */
    M25P_LATCH_NEEDED = 16,     /* the latch is needed and not set */
    M25P_PROTECTED = 17,        /* PP, SE, PW, PE or SSE in a protected sector; BE with any protected */
    M25P_STATUS_FROZEN = 18,    /* WRSR with SRWD set and W low */
    M25P_LOCK_FROZEN = 19,      /* WRLR to a register whose lock-down bit is set */

    M25P_SAMPLE_BITS = 21,      /* pins: a sample with any of bits 5 to 7 set */
    M25P_PINS_LENGTH = 22,      /* pins: a transaction of more than 65,536 bytes */
    M25P_OUTPUT_LENGTH = 23,    /* pins: output_len below samples_len */

    M25P_IMAGE_PART = 31,       /* image_write, image_read, image_salvage: part above 6 */
    M25P_IMAGE_LENGTH = 32,     /* the same: image_len is not the part's block count times 512 */
    M25P_BAD_BLOCK = 33,        /* image_read: a block's number or sums are wrong */
    M25P_LIST_ROOM = 34,        /* image_salvage: fewer list places than blocks */

    M25P_MASK_LENGTH = 41,      /* loss: mask_len is not 256 */

    M25P_ROW_LENGTH = 51,       /* bus_transact, bus_wait: a row of no record, or of more than 8 */
    M25P_CHIP_NOT_THERE = 52,   /* bus_transact: the row has no such chip */
    M25P_BUS_ARRAY = 53,        /* bus_transact, bus_wait: array_len is not the sum of the parts' sizes */

    M25P_TOTALS_OVERFLOW = 71   /* report: a total that 64 bits cannot hold */
};

/* Each call gives the first number that applies, in this order:
 *   m25p_deliver              8, 1, 2, 7
 *   m25p_transact             8, 6, 2, 3, 4, 5, then 11, 14, 12, 13, 15, 16, 17, 18, 19
 *   m25p_wait, m25p_power_up  8, 6, 2
 *   m25p_loss                 8, 6, 2, 41
 *   m25p_pins                 8, 6, 2, 21, 22, 23
 *   m25p_batch                8, 6, 2, 9, 10
 *   m25p_report               8, 6, 2, 9, 10, 71
 *   m25p_bus_transact         8, 51, 52, 6, 53, 3, 4, 5, then 11 and so on as m25p_transact
 *   m25p_bus_wait             8, 51, 6, 53
 *   m25p_image_write          31, 32, 2
 *   m25p_image_read           31, 32, 2, 33
 *   m25p_image_salvage        31, 32, 34
 */

/* A part as it comes from the factory: the array all FF, BP 0, SRWD 0, latch reset, lock registers 0,
 * standby, with the given durations in ticks. The record's 304 bytes need not hold anything before. */
uint64_t m25p_deliver(uint8_t *record, size_t record_len, uint32_t part,
                      uint8_t *array, size_t array_len,
                      uint32_t program, uint32_t sector_erase,
                      uint32_t bulk_erase, uint32_t write_status);

/* One transaction, that is one period of Chip Select low. sent: the n = sent_len whole bytes shifted in.
 * pulses: the further clock pulses after them, 0 to 7. w: the level of the Write Protect pin W as Chip
 * Select rises, low for 0, high for anything else. response: byte i of its first n is what the chip
 * drove during byte i, FF where it drove nothing; bytes from n on are left as they are.
 *
 *   code  name       needs                          effect
 *   06    WREN       n = 1, no pulses               latch set
 *   04    WRDI       n = 1, no pulses               latch reset
 *   9F    RDID       n >= 1                         from byte 1: the identification, then 00
 *                                                   (unknown on part 5)
 *   05    RDSR       n >= 1                         from byte 1: the status byte, repeated
 *   01    WRSR       n = 2, no pulses, latch        SRWD = bit 7, BP = bits 4 to 2 (3 and 2 on parts
 *                                                   0, 1 and 5)
 *   03    READ       n >= 4                         from byte 4: the array from the address on, rolling
 *                                                   over from the last byte to 0
 *   0B    FAST_READ  n >= 5                         the same, from byte 5
 *   02    PP         n >= 5, no pulses, latch       page program, see below
 *   D8    SE         n = 4, no pulses, latch        the addressed sector becomes FF
 *   C7    BE         n = 1, no pulses, latch,       the array becomes FF
 *                    nothing protected
 *   B9    DP         n = 1, no pulses               deep power-down (unknown on part 4)
 *   AB    RES        n >= 1                         standby; from byte 4: the signature, repeated
 *                                                   (unknown on part 4)
 *
 * Part 6 has another AB, and five instructions more, which are unknown on the other parts:
 *
 *   AB    RDP        n = 1, no pulses               standby; drives nothing
 *   0A    PW         n >= 5, no pulses, latch       page write, see below
 *   DB    PE         n = 4, no pulses, latch        the addressed page becomes FF
 *   20    SSE        n = 4, no pulses, latch        the addressed subsector becomes FF
 *   E5    WRLR       n = 5, no pulses, latch        bits 1 and 0 of byte 4 become the addressed sector's
 *                                                   lock register; latch reset; at once, no cycle
 *   E8    RDLR       n >= 4                         from byte 4: that register, repeated
 *
 * An address is bytes 1 to 3, high byte first, modulo the part's size. A program takes the bytes from 4
 * on: data byte k goes to slot (address + k) modulo 256, a later byte replaces an earlier one in its
 * slot, and then each byte of the addressed page becomes itself AND its slot; where no data went, the
 * byte stays. The bits missing of an executed program are those that are 1 in a slot that data went to
 * and 0 in the slot's byte of the page before. An FF that was sent counts the zeros under it; a slot
 * where no data went counts nothing; of several bytes for one slot only the last counts.
 *
 * A page write fills the slots as a program does, and names as many bytes of the page as there are data
 * bytes, or all 256: those whose slots data went to. Each of them becomes its slot, be it by a 0 or by a
 * 1, and the rest of the page stays.
 *
 * An executed WRSR, PP, SE or BE makes the chip busy for its duration and takes effect as its cycle ends,
 * and so do PW and PE, for that of PP, and SSE, for that of SE; no transaction changes the array. Status
 * byte: bit 7 SRWD, bits 4 to 2 BP, bit 1 the latch, bit 0 set while busy. The latch falls one tick before
 * the cycle ends, SRWD and BP are the old ones up to the end: in a status write of 8C over 00 the status is
 * 03, in the last tick 01, and 8C afterwards.
 *
 * BP protects this many of the highest sectors: 0 for BP 0, otherwise 2 to the power BP - 1, or all of
 * them where the part has fewer. On part 6 a sector whose lock register has M25P_WRITE_LOCK set is
 * protected as well. A register with M25P_LOCK_DOWN set is frozen: WRLR answers 19, for the same value
 * too. Nothing else stops WRLR, neither BP nor W. m25p_power_up and m25p_loss set all registers to 0.
 *
 * Hardware protection of parts 0 to 5: starting from a standby record with SRWD set, as long as w is 0 in
 * every transaction (in m25p_pins, as long as W is low in every sample in which Select rises; in m25p_batch
 * and m25p_report, as long as bit 0 of every transaction's flag byte is 0), no call on the chip but
 * m25p_deliver changes BP, SRWD or a byte of a protected sector, power losses included. One WRSR with W high
 * may undo it, and so may one with W low where SRWD is not set, or one that was running at the start. Sectors
 * that BP leaves free are programmed and erased as ever.
 *
 * What a lock is worth: starting from a standby record of part 6 with a lock register of 3, no transaction
 * and no wait changes that register or a byte of its sector, whatever w is. */
uint64_t m25p_transact(uint8_t *record, size_t record_len,
                       uint8_t *array, size_t array_len,
                       const uint8_t *sent, size_t sent_len,
                       uint32_t pulses, uint32_t w,
                       uint8_t *response, size_t response_len);

/* Lets ticks pass. While busy: fewer ticks than are left are taken off, with one tick left the latch is
 * reset, and the array is left alone; otherwise the cycle ends and takes effect on the array that is lent
 * here, or on BP and SRWD, with standby and the latch reset, and ticks beyond its last are lost. In standby
 * and deep power-down nothing changes. */
uint64_t m25p_wait(uint8_t *record, size_t record_len,
                   uint8_t *array, size_t array_len, uint32_t ticks);

/* Power off and on: standby, latch reset, lock registers 0. A running cycle is completed, on the array that
 * is lent here. Nothing else changes. */
uint64_t m25p_power_up(uint8_t *record, size_t record_len,
                       uint8_t *array, size_t array_len);

/* Power is lost and comes back: standby, latch reset, lock registers 0. A running cycle is cut, at
 * whichever tick:
 *
 *   page program  each byte of the page becomes itself AND (its slot OR its mask byte): where the mask has
 *                 a 1, the bit was not reached; with a mask of 00 the program is complete
 *   erases        each byte of the page, subsector or sector, or of the array, becomes itself OR its mask
 *                 byte: where the mask has a 0, the bit was not reached; with a mask of FF the erase is
 *                 complete
 *   page write    each named byte becomes itself OR its mask byte, as its page is erased before it is
 *                 written; the rest of the page stays
 *   status write  complete if yes is not 0, absent if it is 0
 *
 * A byte's mask byte is mask[i % 256] for byte i of the array. The array is the one that is lent here. yes
 * does not matter for programs, writes and erases, nor the mask for a status write; outside a cycle neither
 * does, and all else is kept. mask_len is looked at even then. */
uint64_t m25p_loss(uint8_t *record, size_t record_len,
                   uint8_t *array, size_t array_len,
                   const uint8_t *mask, size_t mask_len, uint32_t yes);

/* Raw pins: what a probe saw, one byte for each sample (M25P_PIN_SELECT and so on), is found to be
 * transactions, and these are carried out in order, each as by m25p_transact. output: byte i of its first
 * samples_len is the level of the data output after sample i, 0 or 1, or 2 where the chip does not drive
 * it; bytes from samples_len on are left as they are.
 *
 * Each run starts from rest (M25P_PINS_AT_REST); no pin is remembered from one run to the next. In a
 * sample a Select change is taken first, then the clock, then Hold; data and W are the levels of that
 * very sample.
 *
 *   Select falls  A transaction begins. The output is 2 until a clock fall reaches a driven bit. If Hold
 *                 was low before this sample, that counts as a fall of Hold now, with the clock as it was
 *                 before this sample.
 *   Clock rises   With Select low and no hold, a bit is taken from data in, most significant bit first.
 *   Clock falls   With Select low and no hold, the output moves on: with m bits taken it shows bit
 *                 7 - m % 8 of what the chip drives after the first m / 8 bytes, or 2. Bits of an
 *                 unfinished last byte show, too.
 *   Hold falls    With the clock low the hold starts; otherwise when the clock next falls, after the
 *                 output has moved on. In a hold the output is 2, and no bit is taken.
 *   Hold rises    With the clock low the hold ends; otherwise when the clock next falls. The output is
 *                 then the one from before the hold. A fall or rise that is undone before the clock is
 *                 low counts for nothing.
 *   Select rises  The transaction ends and is carried out with the whole bytes taken, the 0 to 7 further
 *                 pulses, and W as it is in this sample. In a hold, one whose end still waits included,
 *                 it is thrown away and has no effect; a hold whose start still waits does not count.
 *
 * A transaction that is unfinished at the end of the run has no effect either. No ticks pass within a
 * run: a chip that became busy stays so, and no run changes the array. A transaction that the chip ignores
 * (11 to 19) does not refuse the run, and its number is not told. An answer number of 0 says that the run
 * was carried out; first and count are always 0. The bits missing are the sum over the transactions carried
 * out: at most 2,048, as a chip that was programmed is busy for the rest of the run. A refused run has
 * none.
 *
 * 21 goes by all samples. 22 goes by the pins alone and counts the whole bytes of every transaction,
 * thrown away and unfinished ones too; 65,536 bytes and 7 further pulses are allowed. A refused run
 * changes nothing: record, array and output stay as they are. */
uint64_t m25p_pins(uint8_t *record, size_t record_len,
                   uint8_t *array, size_t array_len,
                   const uint8_t *samples, size_t samples_len,
                   uint8_t *output, size_t output_len);

/* A batch: many transactions and waits in one call. items is a row of items, one behind the other:
 *
 *   bytes 0-1    length, 0 to 65,535, little-endian
 *   byte 2       flag byte, 0 to 15 for a transaction: bit 0 is W, bits 1 to 3 are the further pulses; 16
 *                (M25P_ITEM_WAIT) for a wait
 *   from byte 3  so many bytes: what is sent, or the ticks of a wait, whose length is 4, as 32 bits,
 *                little-endian
 *
 * The items are carried out in order, each as by one call of m25p_transact or m25p_wait: record, array,
 * responses and answers come out as they would by those. Two batches one after the other, neither refused,
 * are the batch of both rows one behind the other, where the second is lent what the first left over of
 * responses and answers; their sums in missing, which each sets anew, are to be added.
 *
 * responses: the responses of the transactions follow each other, each as long as what was sent: byte i of
 * it is what the chip drove during byte i, FF where it drove nothing. A wait has none. answers: one byte for
 * each item, its answer number: 0 for a wait, for a transaction 0 or 11 to 19; a transaction of length 0
 * is answered with 11. First and count are not told. missing: its first 8 bytes are set (not added to) to
 * the sum of the items' bits missing, modulo 2 to the power 64, little-endian; 0 for a batch without items,
 * too. To read it:
 *
 *   uint64_t sum = 0;
 *   for (int i = 8; i-- > 0;)
 *       sum = sum << 8 | missing[i];
 *
 * 9 goes by all items before the first is carried out: one or two bytes that are left at the end, an item
 * with fewer bytes left than its length, whatever its flag byte, a flag byte of 17 or above, or a wait whose
 * length is not 4. 10: responses_len below the sum of the transactions' lengths, answers_len below the
 * number of items, waits counted, or missing_len below 8. Whoever does not want to read the batch first
 * lends items_len bytes for responses and items_len / 3 for answers, which always suffice. Longer buffers
 * are good, and what lies beyond is left as it is.
 *
 * A refused batch changes nothing: record, array, responses, answers and missing stay as they are. A
 * transaction that the chip ignores does not refuse the batch: the answer number is 0, and all other bits of
 * the answer are 0 in any case. An item sends at most 65,535 bytes, one fewer than m25p_transact can. */
uint64_t m25p_batch(uint8_t *record, size_t record_len,
                    uint8_t *array, size_t array_len,
                    const uint8_t *items, size_t items_len,
                    uint8_t *responses, size_t responses_len,
                    uint8_t *answers, size_t answers_len,
                    uint8_t *missing, size_t missing_len);

/* A report: a batch that is counted, too. items, responses and answers are as in m25p_batch, the items are
 * carried out as by it, and record, array, responses and answers end as it leaves them. There is no missing
 * here. What the transactions did is added to totals, which are 353 numbers of 64 bits, little-endian, 2,824
 * bytes in all (M25P_TOTALS_BYTES):
 *
 *   0 to 255     executed transactions (answer 0), by the first byte sent: from M25P_TOTALS_EXECUTED on
 *   256 to 287   answers of transactions, by number 0 to 31: from M25P_TOTALS_ANSWERS on
 *   288          driven bytes, the sum of the transactions' driven counts, where a driven FF counts, too:
 *                M25P_TOTALS_DRIVEN
 *   289 to 352   executed page programs (first byte 02, answer 0), by the addressed sector 0 to 63: from
 *                M25P_TOTALS_PROGRAMS on
 *
 * Number k lies in the 8 bytes from totals + 8 * k on; m25p_total reads it. The addressed sector is the
 * address modulo the part's size, divided by the part's sector size. A page write (0A) is no page program,
 * and a program counts as it starts: whatever becomes of its cycle does not matter. A transaction without
 * bytes counts under answer 11 alone. Waits count nowhere.
 *
 * Begin with 2,824 bytes 00, and lend the same totals to one report after another. Two reports one after the
 * other, neither refused, are the report of both rows one behind the other, where the second is lent what the
 * first left over of responses and answers: record, array and totals are those of both. What is added by a
 * report: over all answers as many as it has transactions, over all first bytes as many as under answer 0,
 * and over all sectors as many as under first byte 02.
 *
 * 9 is as in m25p_batch, and so is 10, but that totals_len below 2,824 stands in the place of missing_len.
 * Longer totals are good, and what lies beyond is left as it is. 71: any of the 353 sums would be above
 * 2 to the power 64 minus 1. A sum of just that is good, and so is a total of just that to which nothing is
 * added.
 *
 * A refused report changes nothing, with 71 neither: record, array, responses, answers and totals stay as
 * they are. A transaction that the chip ignores does not refuse the report: the answer number is 0, and all
 * other bits of the answer are 0 in any case. */
uint64_t m25p_report(uint8_t *record, size_t record_len,
                     uint8_t *array, size_t array_len,
                     const uint8_t *items, size_t items_len,
                     uint8_t *responses, size_t responses_len,
                     uint8_t *answers, size_t answers_len,
                     uint8_t *totals, size_t totals_len);

/* One transaction on a bus that 1 to 8 chips share (M25P_MOST_CHIPS). chip is the selected one, from 0 on.
 *
 *   row          the packed records of the chips, one after another: that of chip k is the 304 bytes from
 *                row + 304 * k on, and row_len is 304 times the number of chips
 *   array        the bytes of the chips, one after another in the order of the row: those of a chip begin
 *                where those of the chips before it end, and array_len is the sum of the parts' sizes
 *
 * Any parts may stand in a row, in any order, and one part more than once. The answer, the response and the
 * selected chip's record become what they become by m25p_transact on that chip's record and bytes alone: the
 * answer with first, count and bits missing, and bytes of the response from sent_len on are left as they are.
 * All other records and the whole array stay. Two runs, in which no call is refused with 8, 51, 52, 6, 53,
 * 3, 4 or 5, that agree on one chip's record and bytes and on what is sent to it and waited give it the same
 * answers, whatever stands beside it and is sent there.
 *
 * 8 goes by row_len, which must be a multiple of 304. 51: a row of no record, or of more than 8, be they
 * sound or not. 52: chip is not below the number of records. 6: any record of the row is not sound, the
 * selected one or another. 53, in the place of 2: array_len is shorter or longer than the sum. A refused call
 * changes nothing: row, array and response stay as they are.
 *
 * Delivery, power-up, power loss, raw pins, batches and reports have no call for a bus, as those on one chip
 * do it: on its record, and on its bytes of the array. Of chip k, where begin is the sum of the sizes of chips
 * 0 to k - 1 and size is its own:
 *
 *   m25p_power_up(row + M25P_RECORD_BYTES * k, M25P_RECORD_BYTES, array + begin, size);
 *
 * A row is made by one m25p_deliver for each chip. Where the whole board loses its power, one call for each
 * chip tells so, with a mask of its own. The waits in a batch or a report are waited by that chip alone. */
uint64_t m25p_bus_transact(uint8_t *row, size_t row_len,
                           uint8_t *array, size_t array_len, uint32_t chip,
                           const uint8_t *sent, size_t sent_len,
                           uint32_t pulses, uint32_t w,
                           uint8_t *response, size_t response_len);

/* Lets ticks pass for every chip of a row, each as by m25p_wait on its own record and bytes: cycles of
 * several chips may end in one call. Row and array are as in m25p_bus_transact. Refused with 8, 51, 6 or 53,
 * no tick passes for any of them. */
uint64_t m25p_bus_wait(uint8_t *row, size_t row_len,
                       uint8_t *array, size_t array_len, uint32_t ticks);

/* Writes the image of an array, to be kept on a disk. An image is blocks of 512 bytes, as many as hold the
 * array:
 *
 *   bytes 0-3    the block's number: its place in the image, from 0 on
 *   bytes 4-5    first sum: starts at the number modulo 65,536 and adds each of the bytes 8-511
 *   bytes 6-7    second sum: starts at 0 and adds the first sum after each of them
 *   bytes 8-511  504 bytes of the array; the last block is filled up with FF
 *
 * Number and sums are little-endian, and both sums are modulo 65,536:
 *
 *   uint16_t first = (uint16_t)number, second = 0;
 *   for (int i = 8; i < 512; i++) {
 *       first += block[i];
 *       second += first;
 *   }
 *
 *   part     array bytes  blocks  image bytes  list bytes
 *   0              4,096       9        4,608          72
 *   1 and 5      131,072     261      133,632       2,088
 *   2 and 6      524,288   1,041      532,992       8,328
 *   3          4,194,304   8,323    4,261,376      66,584
 *   4         16,777,216  33,289   17,043,968     266,312
 *
 * The array stays as it is, and every byte of the image is written, whatever it held. Refused with 31, 32 or
 * 2, the image stays as it is. Only the array is in an image: settings, lock registers and a running cycle
 * are in the record, which is yours to keep. The part is not in it either: parts of one size read each
 * other's images.
 *
 * A block is good if its number is its place and both sums are right. What fills up the last block need not
 * be FF; its sums count it as it stands. The sums see most damage, not all. A change of one or two bytes in
 * a block is always seen; but 512 bytes 00 are a good block in place 0, and where three neighbours become 1
 * more, 2 less and 1 more, both sums stay. */
uint64_t m25p_image_write(uint32_t part, const uint8_t *array, size_t array_len,
                          uint8_t *image, size_t image_len);

/* Reads an image back into an array. If all blocks are good, the answer is 0, and every byte of the array is
 * written: it is the one that the image was written of; what fills up the last block is dropped. Otherwise
 * the answer is 33, and m25p_blocks is the place of the first bad block, whatever number stands in it. With
 * 33, as with 31, 32 and 2, the array stays as it is: not even good blocks before the bad one are copied. The
 * image stays in any case. */
uint64_t m25p_image_read(uint32_t part, const uint8_t *image, size_t image_len,
                         uint8_t *array, size_t array_len);

/* Saves what is left of a damaged image: the 504 bytes of each bad block become FF, and it gets a right
 * number and right sums. A good block is never changed. So the image can be read afterwards, and a second
 * salvage changes nothing. m25p_blocks is how many blocks were changed, 0 for none.
 *
 * list: for each changed block, in order from the first place on and without gaps, a place of 8 bytes:
 *
 *   bytes 0-3    the block, by its place in the image
 *   bytes 4-7    the reason: 1 (M25P_REASON_NUMBER) if its number was wrong, whatever its sums were, 2
 *                (M25P_REASON_SUMS) if its number was right and a sum was wrong
 *
 * Both are little-endian. What lies behind the last place used is left as it is. Of the array, block b held
 * the bytes from 504 * b on, 504 of them or those up to its end.
 *
 * 34 goes by whole places, list_len / 8, which must not be fewer than the blocks of the image, however few
 * of them are bad: M25P_LIST_BYTES of the array's size suffices. Longer lists are good. A refused salvage
 * changes nothing: image and list stay as they are. */
uint64_t m25p_image_salvage(uint32_t part, uint8_t *image, size_t image_len,
                            uint8_t *list, size_t list_len);

/* The answer number, one of enum m25p_number: the test for executed. */
static inline unsigned m25p_answer(uint64_t answer)
{
    return (unsigned)(answer & 0xFFu);
}

/* The first driven position. */
static inline unsigned m25p_first(uint64_t answer)
{
    return (unsigned)((answer >> 8) & 0xFFu);
}

/* The driven count. */
static inline uint32_t m25p_count(uint64_t answer)
{
    return (uint32_t)((answer >> 16) & 0xFFFFFFFFu);
}

/* The first bad block of m25p_image_read with 33, or how many blocks m25p_image_salvage has changed. */
static inline uint32_t m25p_blocks(uint64_t answer)
{
    return (uint32_t)((answer >> 16) & 0xFFFFFFFFu);
}

/* The bits missing: above 0 where an erase should have come before a page program. */
static inline unsigned m25p_missing(uint64_t answer)
{
    return (unsigned)(answer >> 48);
}

/* A number of a report's totals, 0 to 352: M25P_TOTALS_ANSWERS + 12 is how often 12 was answered. */
static inline uint64_t m25p_total(const uint8_t *totals, unsigned number)
{
    uint64_t total = 0;
    for (int i = 8; i-- > 0;)
        total = total << 8 | totals[8u * number + (unsigned)i];
    return total;
}

#ifdef __cplusplus
}
#endif

#endif
