/*
 * How a relay goes on with an old flash part, some of whose cells no longer move: to be pasted into a firmware beside examples/relay.c, which says
 * more of the driver and of the loss of supply.
 *
 *   map      kept beside the page, a bit for each cell; a cell that isn't as it was programmed or erased is marked, for good
 *   store    write with the map, program, verify; where a cell did not follow, it is marked, and the write made anew from what the flash holds
 *   erase    with the map: the marked cells keep their bits, and those that turn out not to be emptied are marked
 *
 * The map has to outlive a restart. It has a sector of its own, which no erase of the page touches: marks are only added, so that it is programmed as
 * the page is and never erased.
 *
 * Where a cell did not follow, the page holds neither the old image nor the new one until the next write is done. The image stays in RAM meanwhile.
 */
#include <stdbool.h>
#include <stdio.h>
#include <string.h>

#include "segrunov.h"

/* The shape of this relay's page: 4 strips of 8 data bytes, so 512 cells. */
enum { STRIP_BYTES = 8, STRIPS = 4, CELLS = 16 * STRIP_BYTES * STRIPS };
#define IMAGE_BYTES SEGRUNOV_DATA_BYTES(STRIP_BYTES, STRIPS)

/* The page, and its map beside it. */
struct part {
    uint8_t page[STRIP_BYTES * STRIPS * 6];
    uint8_t map[STRIP_BYTES * STRIPS * 2];
};

static struct part ram;

/* The driver: the flash of this example is two arrays, the sectors, of which one has bits that no longer move. It complements every byte. */
static struct part flash;
static uint8_t stuck[sizeof flash.page];

static void flash_load(void)
{
    size_t i;
    for (i = 0; i < sizeof ram.page; i++) {
        ram.page[i] = (uint8_t)~flash.page[i];
    }
    for (i = 0; i < sizeof ram.map; i++) {
        ram.map[i] = (uint8_t)~flash.map[i];
    }
}

static void flash_program(void)
{
    size_t i;
    for (i = 0; i < sizeof ram.page; i++) {
        flash.page[i] &= (uint8_t)(~ram.page[i] | stuck[i]);
    }
    for (i = 0; i < sizeof ram.map; i++) {
        flash.map[i] &= (uint8_t)~ram.map[i];
    }
}

static void flash_erase_page(void)
{
    size_t i;
    for (i = 0; i < sizeof flash.page; i++) {
        flash.page[i] |= (uint8_t)~stuck[i];
    }
}

static unsigned bit(const uint8_t *bytes, size_t n)
{
    return (unsigned)bytes[n / 8] >> (n % 8) & 1u;
}

/* The three bits of a cell. A strip's cells fill its bytes, so that cell c of strip k is cell n = 16*L*k + c of the page, and map bit n. */
static unsigned triple(const uint8_t *page, size_t n)
{
    return bit(page, 3 * n) + 2 * bit(page, 3 * n + 1) + 4 * bit(page, 3 * n + 2);
}

/* Loads what the flash holds. Where a cell is not as the page was to be, it is marked, also in the flash, and the answer is false. */
static bool verified(void)
{
    const struct part wanted = ram;
    bool followed = true;
    size_t n;
    flash_load();
    for (n = 0; n < CELLS; n++) {
        if (triple(ram.page, n) != triple(wanted.page, n)) {
            ram.map[n / 8] = (uint8_t)(ram.map[n / 8] | 1u << (n % 8));
            followed = false;
        }
    }
    if (!followed) {
        flash_program(); /* the map; of the page what it holds */
    }
    return followed;
}

/* FAULT: a marked cell moved, or a constant of this file is wrong. */
enum store_result { STORED, ERASE_WANTED, FAULT };

/* Stores an image. Each round but the last marks a cell, so that there are no more than cells. */
static enum store_result store(const uint8_t *image)
{
    size_t round;
    for (round = 0; round <= CELLS; round++) {
        const uint64_t answer = segrunov_write_mapped(SEGRUNOV_LONG, STRIP_BYTES, STRIPS, SEGRUNOV_HOUSE_W1, SEGRUNOV_HOUSE_W2, SEGRUNOV_HOUSE_W3,
                                                      ram.page, sizeof ram.page, ram.map, sizeof ram.map, image, IMAGE_BYTES);
        if (SEGRUNOV_NUMBER(answer) != SEGRUNOV_DONE) {
            return SEGRUNOV_NUMBER(answer) == SEGRUNOV_SPENT ? ERASE_WANTED : FAULT;
        }
        flash_program();
        if (verified()) {
            return STORED;
        }
    }
    return FAULT;
}

/* Erases the page and stores the image anew. Where an erased page is spent too, too many of its cells are marked: then the part is to be replaced. */
static bool erase(const uint8_t *image, int16_t tenths)
{
    const uint64_t answer = segrunov_erase_mapped(STRIP_BYTES, STRIPS, ram.page, sizeof ram.page, ram.map, sizeof ram.map, tenths);
    if (SEGRUNOV_NUMBER(answer) != SEGRUNOV_DONE) {
        return false;
    }
    flash_erase_page();
    (void)verified();
    return store(image) == STORED;
}

/* From now on this cell of the example's flash holds what it has. */
static void wear_out(size_t n)
{
    size_t k;
    for (k = 3 * n; k < 3 * n + 3; k++) {
        stuck[k / 8] = (uint8_t)(stuck[k / 8] | 1u << (k % 8));
    }
}

/* How many cells are marked; CELLS + 1 where one of them is not worn out. */
static unsigned marked(void)
{
    unsigned count = 0;
    size_t n;
    for (n = 0; n < CELLS; n++) {
        if (bit(ram.map, n) != 0) {
            if (triple(stuck, n) != 7) {
                return CELLS + 1;
            }
            count++;
        }
    }
    return count;
}

/* Stores images of a feeder that warms up until an erase is wanted. The answer is how many, and 0 where something is wrong. */
static unsigned store_images(uint8_t *image)
{
    unsigned stored = 0;
    for (;;) {
        enum store_result result;
        image[stored % IMAGE_BYTES] = (uint8_t)(image[stored % IMAGE_BYTES] + 37u);
        result = store(image);
        if (result != STORED) {
            return result == ERASE_WANTED ? stored : 0;
        }
        stored++;
        if (stored % 30 == 0) {
            wear_out(17u * stored % CELLS); /* at the level that it has by now */
        }
        if (stored > 3 * CELLS) {
            return 0; /* each new image raises a cell, and a cell rises three times */
        }
    }
}

int main(void)
{
    uint8_t image[STRIP_BYTES * STRIPS] = {0};
    uint8_t again[sizeof image];
    unsigned stored;
    memset(&flash, 0xff, sizeof flash); /* as a new part comes */
    wear_out(5);
    wear_out(6);
    wear_out(300);
    flash_load();
    stored = store_images(image);
    printf("images stored before the erase: %u, cells marked: %u\n", stored, marked());
    if (stored == 0 || marked() < 3 || marked() > CELLS) {
        return 1;
    }
    if (erase(image, 450) || !erase(image, 250)) {
        return 1; /* too warm, then within the limits */
    }
    stored = store_images(image);
    printf("images stored after the erase: %u, cells marked: %u\n", stored, marked());
    if (stored == 0 || marked() > CELLS || !erase(image, 250)) {
        return 1;
    }
    /* What a restart would read is what was stored, and the map is as it was. */
    stored = marked();
    flash_load();
    if (SEGRUNOV_NUMBER(segrunov_read(SEGRUNOV_LONG, STRIP_BYTES, STRIPS, ram.page, sizeof ram.page, again, IMAGE_BYTES)) != SEGRUNOV_DONE) {
        return 1;
    }
    return memcmp(again, image, sizeof image) == 0 && marked() == stored ? 0 : 1;
}
