/* blocks.h - an image as a plain C program writes it, for the programs that hold the library to it. */
#include <string.h>

#include "m25p.h"

/* The head that belongs to these 504 bytes in this place. */
static void put_head(uint8_t *block, uint32_t place)
{
    uint16_t first = (uint16_t)place, second = 0;
    for (int i = 8; i < 512; i++) {
        first += block[i];
        second += first;
    }
    for (int i = 0; i < 4; i++)
        block[i] = (uint8_t)(place >> 8 * i);
    for (int i = 0; i < 2; i++) {
        block[4 + i] = (uint8_t)(first >> 8 * i);
        block[6 + i] = (uint8_t)(second >> 8 * i);
    }
}

/* The block of a place: FF, but for these bytes in front. */
static void put_block(uint8_t *image, uint32_t place, const uint8_t *bytes, size_t n)
{
    uint8_t *block = image + 512 * (size_t)place;
    memset(block + 8, 0xFF, 504);
    if (n > 0)
        memcpy(block + 8, bytes, n);
    put_head(block, place);
}

/* The image of an array. */
static void put_image(uint8_t *image, const uint8_t *array, size_t bytes)
{
    for (size_t from = 0; from < bytes; from += 504)
        put_block(image, (uint32_t)(from / 504), array + from, bytes - from < 504 ? bytes - from : 504);
}
