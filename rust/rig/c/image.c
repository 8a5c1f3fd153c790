/* image.c - chip images at their limits: every part, blocks that are bad in every way, lists of the length that is
 * needed, longer and shorter, every refusal in its order, empty slices with and without an address, lengths beyond 32
 * bits, and slices that end where the memory ends. Each slice lies in a room of its own, and all of each room is
 * compared after each call with what is due there by blocks.h. Prints one line for each call: its name, and answer
 * number, first, blocks and bits missing of the answer; then whether every byte is as due. */
#include "image_rooms.h"

#include "fences.h"

/* The part's array to an image, and back: from marks, so that every byte is written. */
static void to_and_fro(uint32_t part)
{
    prepare(part);
    memset(at(IMAGE), MARK, length[IMAGE]);
    told("write", WRITE, part);
    prepare(part);
    memset(at(ARRAY), MARK, length[ARRAY]);
    told("read", READ, part);
}

/* A block, one of its bytes, and the bits of it that change. */
struct harm {
    uint32_t place, byte;
    uint8_t bits;
};

static void spoil(const struct harm *harm)
{
    at(IMAGE)[512 * (size_t)harm->place + harm->byte] ^= harm->bits;
}

/* A block is due to be FF, and in this place of the list. */
static void lose(size_t i, uint32_t place, uint8_t reason)
{
    const uint8_t entry[8] = {(uint8_t)place, (uint8_t)(place >> 8), 0, 0, reason};
    put_block(due_at(IMAGE), place, NULL, 0);
    memcpy(due_at(LIST) + 8 * i, entry, 8);
}

/* Blocks of the part are spoiled, one harm for each, in order: they are due to be lost. */
static void spoil_all(const struct harm *harms, size_t n)
{
    for (size_t i = 0; i < n; i++)
        spoil(&harms[i]);
    stay();
    for (size_t i = 0; i < n; i++)
        lose(i, harms[i].place, harms[i].byte < 4 ? M25P_REASON_NUMBER : M25P_REASON_SUMS);
}

/* Bad blocks of a part: the last for the reader; four, the first and the last among them, and all for salvage. */
static void damaged(uint32_t part)
{
    const uint32_t blocks = M25P_BLOCKS(parts[part].bytes), last = blocks - 1;
    const struct harm harms[] = {{0, 8, 0x01}, {1, 1, 0x02}, {last / 2, 6, 0x04}, {last, 71, 0x80}};
    prepare(part);
    spoil(&harms[3]);
    stay();
    told("read, the last is bad", READ, part);
    prepare(part);
    told("salvage, all are good", SALVAGE, part);
    spoil_all(harms, 4);
    told("salvage, four are bad", SALVAGE, part);
    stay();
    told("salvage again", SALVAGE, part);
    prepare(part);
    memset(at(IMAGE), MARK, length[IMAGE]);
    stay();
    for (uint32_t i = 0; i < blocks; i++)
        lose(i, i, M25P_REASON_NUMBER);
    told("salvage, all are bad", SALVAGE, part);
}

/* Every part, with the header's figures: its blocks, and the bytes of its image and of a list. */
static void all_parts(void)
{
    for (uint32_t part = 0; part < 7; part++) {
        size_t bytes = parts[part].bytes;
        printf("%s: %u %u %u\n", parts[part].name, (unsigned)M25P_BLOCKS(bytes), (unsigned)M25P_IMAGE_BYTES(bytes),
               (unsigned)M25P_LIST_BYTES(bytes));
        to_and_fro(part);
        damaged(part);
    }
}

/* An image by its bytes, all of them 00 to begin with: three heads, and where the filling begins. */
static void bytes_of_blocks(void)
{
    printf("bytes\n");
    prepare(M25P_BENCH);
    memset(at(ARRAY), 0x00, length[ARRAY]);
    at(ARRAY)[1008] = 0x80;
    show("write", made(WRITE, M25P_BENCH, SLICES, NULL, 0));
    for (int block = 0; block < 9; block += block < 2 ? 1 : 6) {
        for (int i = 0; i < 10; i++)
            printf("%02X ", at(IMAGE)[512 * block + i]);
        printf("%02X %02X\n", at(IMAGE)[512 * block + 71], at(IMAGE)[512 * block + 72]);
    }
}

/* One bit of a block, at every byte of its head and some behind; the reader names the block and leaves the array, and
 * salvage puts FF. */
static void bad_blocks(void)
{
    static const uint32_t bytes[] = {0, 1, 2, 3, 4, 5, 6, 7, 8, 255, 256, 510, 511};
    char name[40];
    printf("bad blocks\n");
    for (size_t i = 0; i < sizeof bytes / sizeof bytes[0]; i++) {
        const struct harm harm = {(uint32_t)(i % 9), bytes[i], (uint8_t)(1u << i % 8)};
        sprintf(name, "read, byte %u", (unsigned)bytes[i]);
        prepare(M25P_BENCH);
        memset(at(ARRAY), MARK, length[ARRAY]);
        spoil(&harm);
        stay();
        told(name, READ, M25P_BENCH);
        prepare(M25P_BENCH);
        spoil_all(&harm, 1);
        told("salvage", SALVAGE, M25P_BENCH);
    }
}

/* A block that is right by itself in another's place, one with another number and wrong sums, and a last block that is
 * filled up otherwise, with right sums and with wrong ones. */
static void other_blocks(void)
{
    static const struct harm harms[] = {{3, 0, 0x00}, {4, 2, 0x10}, {6, 0, 0x01}};
    printf("other blocks\n");
    prepare(M25P_BENCH);
    memset(at(ARRAY), MARK, length[ARRAY]);
    put_block(at(IMAGE), 5, at(IMAGE) + 3 * 512, 504);
    memcpy(at(IMAGE) + 3 * 512, at(IMAGE) + 5 * 512, 512);
    at(IMAGE)[4 * 512 + 9] ^= 0x01;
    stay();
    told("read", READ, M25P_BENCH);
    spoil_all(harms, 3);
    told("salvage", SALVAGE, M25P_BENCH);
    prepare(M25P_BENCH);
    memset(at(IMAGE) + 8 * 512 + 72, 0x00, 440);
    put_head(at(IMAGE) + 8 * 512, 8);
    stay();
    memset(at(ARRAY), MARK, length[ARRAY]);
    told("read, filled up with 00", READ, M25P_BENCH);
    told("salvage, filled up with 00", SALVAGE, M25P_BENCH);
    at(IMAGE)[8 * 512 + 511] = 0x01;
    stay();
    lose(0, 8, M25P_REASON_SUMS);
    told("salvage, one more than its sums", SALVAGE, M25P_BENCH);
}

/* Lists with just the places, and longer; all blocks bad, and one. */
static void lists(void)
{
    static const size_t lengths[] = {72, 73, 79, 80, 4096};
    struct harm harms[9];
    char name[40];
    printf("lists\n");
    for (uint32_t i = 0; i < 9; i++)
        harms[i] = (struct harm){i, i % 2 == 0 ? 100 + i : i % 4, 0x20};
    for (size_t i = 0; i < sizeof lengths / sizeof lengths[0]; i++) {
        for (size_t bad = 1; bad < 10; bad += 8) {
            sprintf(name, "%u bytes, %u bad", (unsigned)lengths[i], (unsigned)bad);
            prepare(M25P_BENCH);
            length[LIST] = lengths[i];
            spoil_all(harms, bad);
            told(name, SALVAGE, M25P_BENCH);
        }
    }
}

/* Refused: the part, the lengths, and the calls to make, each as one bit. In the rooms are those of the bench part, and
 * its first block is bad. */
struct refusal {
    const char *name;
    uint32_t part;
    size_t array, image, list;
    int calls;
};

static const struct refusal refusals[] = {
    {"part 7, all else wrong", 7, 0, 0, 0, 7},
    {"part 7", 7, 4096, 4608, 72, 7},
    {"part 8", 8, 4096, 4608, 72, 7},
    {"part 255", 255, 4096, 4608, 72, 7},
    {"part 256", 256, 4096, 4608, 72, 7},
    {"part 65536", 65536, 4096, 4608, 72, 7},
    {"part 2^31", (uint32_t)1 << 31, 4096, 4608, 72, 7},
    {"part 2^32-1", UINT32_MAX, 4096, 4608, 72, 7},
    {"part 258, another's lengths", 258, M25P_M25P40_BYTES, 532992, 8328, 7},
    {"part 1", 1, 4096, 4608, 72, 7},
    {"part 2", 2, 4096, 4608, 72, 7},
    {"part 3", 3, 4096, 4608, 72, 7},
    {"part 4", 4, 4096, 4608, 72, 7},
    {"part 5", 5, 4096, 4608, 72, 7},
    {"part 6", 6, 4096, 4608, 72, 7},
    {"no image, all else wrong", 0, 0, 0, 0, 7},
    {"image of a byte less, all else wrong", 0, 4095, 4607, 71, 7},
    {"image of a byte less", 0, 4096, 4607, 72, 7},
    {"image of a byte more", 0, 4096, 4609, 72, 7},
    {"image of a block less", 0, 4096, 4096, 72, 7},
    {"image of a block more", 0, 4096, 5120, 72, 7},
    {"no array", 0, 0, 4608, 72, 3},
    {"array of a byte less", 0, 4095, 4608, 72, 3},
    {"array of a byte more", 0, 4097, 4608, 72, 3},
    {"array as long as the image", 0, 4608, 4608, 72, 3},
    {"a bad block", 0, 4096, 4608, 72, 2},
    {"no list", 0, 4096, 4608, 0, 4},
    {"list of one place", 0, 4096, 4608, 8, 4},
    {"list of 9 bytes", 0, 4096, 4608, 9, 4},
    {"list of a place less", 0, 4096, 4608, 64, 4},
    {"list of a byte less", 0, 4096, 4608, 71, 4},
};

/* The answers in full, of those calls that are made. */
static void refuse(const struct refusal *row)
{
    static const struct harm first = {0, 8, 0x01};
    prepare(M25P_BENCH);
    spoil(&first);
    stay();
    printf("%s:", row->name);
    for (int call = 0; call < CALLS; call++) {
        length[ARRAY] = row->array;
        length[IMAGE] = row->image;
        length[LIST] = row->list;
        if (row->calls >> call & 1)
            printf(" %llu", (unsigned long long)made(call, row->part, SLICES, NULL, 0));
    }
    printf("\n");
    check();
}

/* Every slice of every call empty in turn, at an address or at none; then all of them. */
static void empty(const char *kind, uint8_t *start)
{
    static const struct {
        const char *name;
        int call, slice;
    } rows[] = {
        {"write, array", WRITE, ARRAY}, {"write, image", WRITE, IMAGE}, {"read, image", READ, IMAGE},
        {"read, array", READ, ARRAY}, {"salvage, image", SALVAGE, IMAGE}, {"salvage, list", SALVAGE, LIST},
    };
    printf("empty slices, %s\n", kind);
    for (size_t i = 0; i < sizeof rows / sizeof rows[0]; i++) {
        prepare(M25P_BENCH);
        show(rows[i].name, made(rows[i].call, M25P_BENCH, rows[i].slice, start, 0));
        check();
    }
    show("write, both", m25p_image_write(M25P_BENCH, start, 0, start, 0));
    show("read, both", m25p_image_read(M25P_BENCH, start, 0, start, 0));
    show("salvage, both", m25p_image_salvage(M25P_BENCH, start, 0, start, 0));
    show("salvage, both, part 7", m25p_image_salvage(7, start, 0, start, 0));
}

/* Lengths that are right only if they are cut to 32 bits, and lists that are too short only then; one has 2^32
 * places. */
static void beyond_32_bits(void)
{
    static const struct harm harm = {2, 8, 0x01};
    const size_t over = (size_t)1 << 32;
    uint8_t *huge = huge_slice(8 * over);
    printf("lengths beyond 32 bits\n");
    for (int call = 0; call < CALLS; call++) {
        prepare(M25P_BENCH);
        memcpy(huge, at(IMAGE), length[IMAGE]);
        show("image", made(call, M25P_BENCH, IMAGE, huge, over + length[IMAGE]));
    }
    for (int call = 0; call < SALVAGE; call++) {
        prepare(M25P_BENCH);
        memcpy(huge, at(ARRAY), length[ARRAY]);
        show("array", made(call, M25P_BENCH, ARRAY, huge, over + length[ARRAY]));
    }
    for (size_t times = 1; times <= 8; times += 7) {
        memset(huge, MARK, 4608);
        prepare(M25P_BENCH);
        spoil(&harm);
        show("list", made(SALVAGE, M25P_BENCH, LIST, huge, times * over));
        printf("%u %u %02X\n", huge[0], huge[4], huge[8]);
    }
}

/* Slices at the end of the memory: the calls go no further. What is only read, and all that is lent to a refused call,
 * may be memory that can't be written. */
static void fences(void)
{
    uint8_t *array, *image, *list;
    printf("fences\n");
    prepare(M25P_BENCH);
    array = fenced(at(ARRAY), 4096);
    image = fenced(at(IMAGE), 4608);
    list = fenced(at(LIST), 72);
    memset(image, MARK, 4608);
    close_room(array, 4096);
    show("write", m25p_image_write(M25P_BENCH, array, 4096, image, 4608));
    show("write, refused", m25p_image_write(M25P_BENCH, array + 1, 4095, image, 4608));
    image[512] = 0x07;
    image[8 * 512 + 511] = 0x07;
    show("salvage", m25p_image_salvage(M25P_BENCH, image, 4608, list, 72));
    close_room(image, 4608);
    close_room(list, 72);
    show("read", m25p_image_read(M25P_BENCH, image, 4608, at(ARRAY), 4096));
    show("read, refused", m25p_image_read(M25P_BENCH, image, 4608, array + 1, 4095));
    show("salvage, refused", m25p_image_salvage(M25P_BENCH, image, 4608, list + 1, 71));
    show("salvage, refused", m25p_image_salvage(M25P_BENCH, image + 1, 4607, list, 72));
    image = fenced(image, 4608);
    image[0] = 0x01;
    close_room(image, 4608);
    show("read, a bad block", m25p_image_read(M25P_BENCH, image, 4608, array, 4096));
}

int main(void)
{
    all_parts();
    bytes_of_blocks();
    bad_blocks();
    other_blocks();
    lists();
    printf("refusals\n");
    for (size_t i = 0; i < sizeof refusals / sizeof refusals[0]; i++)
        refuse(&refusals[i]);
    empty("an address", due[0]);
    empty("NULL", NULL);
    beyond_32_bits();
    fences();
    return 0;
}
