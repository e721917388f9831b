/*
 * How a relay keeps its image in a block of pages, and what its start makes of a block whose programming was cut off:
 * to be pasted into a firmware beside examples/relay.c, which says more of the driver.
 *
 *   put      write the image into the page for which that is cheapest; program this page first, then the directory
 *   start    read the live page, look for a newer image in the other pages, and where there is one put it again
 *   erase    the whole block, within the limits of the flash's certificate, 5.0 to 40.0 degrees Celsius
 *
 * An image has a number, which grows with each put, and a checksum. A cut of the supply leaves one of these:
 *
 *   The put goes into another page than the live one, and that page is cut off. The directory names the old page still,
 *   and a get gives the old image. The page that is cut off reads as anything; its checksum says that it is no image.
 *
 *   The page is programmed, and the directory is cut off. It can name any page, or one that is not there, which a get
 *   refuses by 14. The page that it names may have an image from long ago, whose checksum is right: so the start looks
 *   at all pages, and takes the image with the highest number. That is the new one, and is put again.
 *
 *   The put goes into the live page itself, and that page is cut off. It is neither the old image nor the new one, and
 *   the checksum says so. Both are lost, since no other page had them: some of the old page's cells are raised already,
 *   and to which level the others were to be raised nobody knows. The start comes up with the newest image of the other
 *   pages, or with none. It cannot tell how old that one is.
 *
 * A put goes into the live page more often than not, since the directory then costs nothing. An erase loses all images
 * until the next put is programmed. A relay that may lose no image keeps two blocks, each in a sector of its own, and
 * puts into them by turns: the cut spoils one, and the other has the old image.
 */
#include <stdbool.h>
#include <stdio.h>
#include <string.h>

#include "segrunov.h"

/* The shape of this relay's block: 4 pages of 2 strips of 8 data bytes. */
enum { STRIP_BYTES = 8, STRIPS = 2, PAGES = 4 };
#define IMAGE_BYTES SEGRUNOV_DATA_BYTES(STRIP_BYTES, STRIPS)
#define PAGE_BYTES SEGRUNOV_PAGE_BYTES(STRIP_BYTES, STRIPS)

/*
 * An image: what the relay knows of its feeder, then the image's number, then the checksum of both. The number's low
 * byte is its last, since bits that change often belong late in a strip. It has 32 bits: no flash lives to see it go
 * round.
 */
enum { NUMBER_AT = 8, CHECKSUM_AT = 12 };

static uint8_t block[6 + PAGES * STRIP_BYTES * STRIPS * 6];

/* The driver: the flash of this example is an array, and its supply lasts for so many bytes. Then it is cut off: of the
 * next byte the bits that are ones in torn are not programmed. */
static uint8_t flash[sizeof block];
enum { ENOUGH = sizeof flash };
static size_t supply = ENOUGH;
static uint8_t torn = 0xff;

static void flash_load(void)
{
    size_t i;
    for (i = 0; i < sizeof block; i++) {
        block[i] = (uint8_t)~flash[i];
    }
}

/* Programs the bytes that are to change. False where the flash does not hold them afterwards. */
static bool flash_program(size_t from, size_t to)
{
    size_t i;
    for (i = from; i < to; i++) {
        const uint8_t wanted = (uint8_t)~block[i];
        if (flash[i] == wanted) {
            continue;
        }
        if (supply == 0) {
            flash[i] &= (uint8_t)(wanted | torn);
            torn = 0xff;
            return false;
        }
        supply--;
        flash[i] &= wanted; /* all that programming can do */
        if (flash[i] != wanted) {
            return false;
        }
    }
    return true;
}

static void flash_erase(void)
{
    memset(flash, 0xff, sizeof flash);
}

/* The page first: the directory is to name no page that is not whole. */
static bool program(void)
{
    return flash_program(SEGRUNOV_DIRECTORY_BYTES, sizeof block) && flash_program(0, SEGRUNOV_DIRECTORY_BYTES);
}

static uint32_t word(const uint8_t *bytes)
{
    return (uint32_t)bytes[0] << 24 | (uint32_t)bytes[1] << 16 | (uint32_t)bytes[2] << 8 | bytes[3];
}

static void set_word(uint8_t *bytes, uint32_t value)
{
    size_t i;
    for (i = 0; i < 4; i++) {
        bytes[i] = (uint8_t)(value >> (24 - 8 * i));
    }
}

/* CRC-32. Of zeros it is not 0, so that an erased page is no image. */
static uint32_t checksum(const uint8_t *image)
{
    uint32_t sum = UINT32_C(0xffffffff);
    size_t i, bit;
    for (i = 0; i < CHECKSUM_AT; i++) {
        sum ^= image[i];
        for (bit = 0; bit < 8; bit++) {
            sum = sum >> 1 ^ ((sum & 1) != 0 ? UINT32_C(0xedb88320) : 0);
        }
    }
    return ~sum;
}

static bool is_image(const uint8_t *image)
{
    return word(image + CHECKSUM_AT) == checksum(image);
}

/* FAULT: the flash failed, or a constant of this file is wrong. */
enum put_result { STORED, ERASE_WANTED, FAULT };

static enum put_result put(const uint8_t *image)
{
    const uint64_t answer =
        segrunov_block_put(SEGRUNOV_LONG, STRIP_BYTES, STRIPS, PAGES, block, sizeof block, image, IMAGE_BYTES);
    switch (SEGRUNOV_NUMBER(answer)) {
    case SEGRUNOV_DONE:
        return program() ? STORED : FAULT;
    case SEGRUNOV_SPENT:
        return ERASE_WANTED;
    default:
        return FAULT;
    }
}

/*
 * CURRENT: the live page has the newest image. FOUND: another page had it. Then it was put again, and images that were
 * newer may be lost; with FOUND_SPENT the block would not take it, and the image in RAM is to be kept for an erase.
 */
enum start_result { CURRENT, FOUND, FOUND_SPENT, NO_IMAGE, START_FAULT };

static enum start_result start(uint8_t *image)
{
    uint8_t other[STRIP_BYTES * STRIPS];
    bool is_live = false, found;
    uint32_t number;
    flash_load();
    switch (SEGRUNOV_NUMBER(
        segrunov_block_get(SEGRUNOV_LONG, STRIP_BYTES, STRIPS, PAGES, block, sizeof block, image, IMAGE_BYTES))) {
    case SEGRUNOV_DONE:
        is_live = is_image(image);
        break;
    case SEGRUNOV_NO_PAGE:
        break;
    default:
        return START_FAULT;
    }
    found = is_live;
    for (number = 0; number < PAGES; number++) {
        const uint8_t *page = block + SEGRUNOV_BLOCK_PAGE(STRIP_BYTES, STRIPS, number);
        (void)segrunov_read(SEGRUNOV_LONG, STRIP_BYTES, STRIPS, page, PAGE_BYTES, other, IMAGE_BYTES);
        if (is_image(other) && (!found || word(other + NUMBER_AT) > word(image + NUMBER_AT))) {
            memcpy(image, other, sizeof other);
            found = true;
            is_live = false;
        }
    }
    if (is_live) {
        return CURRENT;
    }
    if (!found) {
        return NO_IMAGE;
    }
    switch (put(image)) {
    case STORED:
        return FOUND;
    case ERASE_WANTED:
        return FOUND_SPENT;
    default:
        return START_FAULT;
    }
}

/* Erases the block and puts the image anew; false where it is too cold or too warm, and the block stays as it is. */
static bool erase(const uint8_t *image, int16_t tenths)
{
    const uint64_t answer = segrunov_block_erase(STRIP_BYTES, STRIPS, PAGES, block, sizeof block, tenths);
    if (SEGRUNOV_NUMBER(answer) != SEGRUNOV_DONE) {
        return false;
    }
    flash_erase();
    return put(image) == STORED;
}

/* The image with a number, of a feeder that warms up. */
static void make_image(uint8_t *image, uint32_t number)
{
    size_t i;
    for (i = 0; i < NUMBER_AT; i++) {
        image[i] = (uint8_t)(number * (37 + 2 * i) / 3);
    }
    set_word(image + NUMBER_AT, number);
    set_word(image + CHECKSUM_AT, checksum(image));
}

/* What the starts after cuts came up with. */
static struct {
    unsigned cuts, had_old, had_new;           /* another page than the live one was programmed, or the directory */
    unsigned live_cuts, kept, had_older, none; /* the live page was */
    unsigned no_page;                          /* cuts of either kind that left a directory which names no page */
} seen;

static uint32_t live_page(void)
{
    uint8_t number = 0;
    (void)segrunov_read(SEGRUNOV_SHORT, 1, 1, block, SEGRUNOV_DIRECTORY_BYTES, &number, 1);
    return number;
}

/* The number of the image that the start comes up with, 0 for none. False where it has an image that was never put. */
static bool restart(uint32_t *number)
{
    uint8_t image[STRIP_BYTES * STRIPS], made[sizeof image];
    const enum start_result result = start(image);
    *number = 0;
    if (result == NO_IMAGE) {
        return true;
    }
    *number = word(image + NUMBER_AT);
    make_image(made, *number);
    return result != START_FAULT && memcmp(image, made, sizeof image) == 0;
}

/* Counts what the start makes of a cut in a put of the image with a number; false where it should have done better. */
static bool judge(uint32_t number, uint32_t found, bool within_live)
{
    if (!within_live) {
        seen.cuts++;
        seen.had_old += found + 1 == number;
        seen.had_new += found == number;
        return found + 1 == number || found == number;
    }
    seen.live_cuts++;
    seen.kept += found + 1 == number || found == number;
    seen.had_older += found != 0 && found + 1 < number;
    seen.none += found == 0 && number > 1;
    return found <= number;
}

/* The bytes from one place to another in which the block in RAM is another one than in the flash. */
static size_t changes(size_t from, size_t to)
{
    size_t i, count = 0;
    for (i = from; i < to; i++) {
        count += (flash[i] ^ block[i]) != 0xff;
    }
    return count;
}

/* Puts the image with a number, and before that cuts the same put off at each of its bytes, which are then not begun,
 * or programmed in part. */
static enum put_result put_with_cuts(uint32_t number)
{
    static const uint8_t PARTS[] = {0xff, 0x55, 0xf0};
    uint8_t image[STRIP_BYTES * STRIPS], before[sizeof flash], after[sizeof block];
    size_t page_changes, all_changes, cut, part;
    enum put_result result;
    make_image(image, number);
    memcpy(before, flash, sizeof flash);
    supply = 0;
    result = put(image); /* in RAM alone */
    supply = ENOUGH;
    if (result == ERASE_WANTED) {
        return result;
    }
    memcpy(after, block, sizeof block);
    page_changes = changes(SEGRUNOV_DIRECTORY_BYTES, sizeof block);
    all_changes = page_changes + changes(0, SEGRUNOV_DIRECTORY_BYTES);
    for (cut = 0; cut < all_changes; cut++) {
        for (part = 0; part < sizeof PARTS; part++) {
            const bool begun = cut > 0 || PARTS[part] != 0xff;
            const bool within_live = all_changes == page_changes && begun;
            uint32_t found;
            memcpy(flash, before, sizeof flash);
            memcpy(block, after, sizeof block);
            supply = cut;
            torn = PARTS[part];
            if (program()) {
                return FAULT;
            }
            flash_load();
            seen.no_page += live_page() >= PAGES;
            /* the supply is lost once more, while the start puts the image again */
            supply = cut % 7;
            torn = PARTS[part];
            (void)restart(&found);
            supply = ENOUGH;
            if (!restart(&found) || !judge(number, found, within_live)) {
                return FAULT;
            }
        }
    }
    memcpy(flash, before, sizeof flash);
    memcpy(block, after, sizeof block);
    return program() ? STORED : FAULT;
}

int main(void)
{
    uint8_t image[STRIP_BYTES * STRIPS];
    uint32_t number = 0, found, live = 0;
    unsigned changed = 0;
    enum put_result result;
    flash_erase(); /* as a new part comes */
    if (start(image) != NO_IMAGE) {
        return 1;
    }
    while ((result = put_with_cuts(number + 1)) == STORED) {
        number++;
        changed += live_page() != live;
        live = live_page();
        if (!restart(&found) || found != number) {
            return 1;
        }
    }
    if (result == FAULT) {
        return 1;
    }
    printf("images put before the erase: %u, into another page than the live one: %u\n", (unsigned)number, changed);
    printf("cuts with another page or the directory: %u, the start has the old image: %u, the new one: %u\n", seen.cuts,
           seen.had_old, seen.had_new);
    printf("cuts within the live page: %u, the start has the old or the new image: %u, an older one: %u, none: %u\n",
           seen.live_cuts, seen.kept, seen.had_older, seen.none);
    printf("of all cuts, with a directory that named no page: %u\n", seen.no_page);
    /* The block is spent and keeps the image. Its erase is done within the limits only, and the new image put then. */
    if (start(image) != CURRENT || word(image + NUMBER_AT) != number) {
        return 1;
    }
    make_image(image, number + 1);
    if (erase(image, 450) || start(image) != CURRENT || word(image + NUMBER_AT) != number) {
        return 1;
    }
    make_image(image, number + 1);
    if (!erase(image, 250) || start(image) != CURRENT || word(image + NUMBER_AT) != number + 1) {
        return 1;
    }
    printf("at 25.0 degrees the block is erased and the next image put\n");
    return seen.cuts > 0 && seen.no_page > 0 && seen.had_new > 0 && seen.had_older > 0 ? 0 : 1;
}
