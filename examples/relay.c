/*
 * How a relay keeps the thermal image of its feeder, and the temperature of a winding, each in a flash page of its own: to be pasted into a firmware
 * and fitted to its driver.
 *
 *   start    read the image that the page holds, and look whether the RAM with a battery still holds what it was given
 *   store    price the new image, and write it where the page takes it; where the page is spent, keep the old image and ask for an erase
 *   erase    within the limits of the flash's certificate, 5.0 to 40.0 degrees Celsius
 *   enqueue  keep an image in RAM with a battery while the supply is too low to program the flash
 *   catch_up at the next start: write the images that queued up as lists, and program the page once for each; where it is spent, erase it and go on
 *   start_temperature, store_temperature
 *            the temperature may be stored a few units off: of these values the cheapest, so that an erase is wanted less often
 *
 * A page is worked on in RAM. The three functions of the driver below stand for the real ones of a NOR flash: an erase makes its bits ones, and
 * programming turns ones into zeros. The library's erased page is zeros, and a write turns zeros into ones: so the driver complements every byte, on
 * load and on program. A write lowers no cell, so that programming needs no erase. Each page has a sector of its own, since a sector is erased whole.
 *
 * Neither erasing nor programming is done at once. A relay that can lose its supply meanwhile keeps the image in a second page until the first holds
 * it, and a checksum in the image, by which the start knows an unfinished page.
 */
#include <stdbool.h>
#include <stdio.h>
#include <string.h>

#include "segrunov.h"

/* The shape of this relay's page: 4 strips of 8 data bytes, an image of 32 bytes in a page of 192. */
enum { STRIP_BYTES = 8, STRIPS = 4 };
#define IMAGE_BYTES SEGRUNOV_DATA_BYTES(STRIP_BYTES, STRIPS)
#define PAGE_BYTES SEGRUNOV_PAGE_BYTES(STRIP_BYTES, STRIPS)

static uint8_t page[STRIP_BYTES * STRIPS * 6];

/* The page of the winding's temperature, in tenths of a degree. Three of them more or less do the trip program no harm. */
enum { BAND = 3 };

static uint8_t winding[SEGRUNOV_PAGE_BYTES(SEGRUNOV_BAND_BYTES, SEGRUNOV_BAND_STRIPS)];

/*
 * The images that wait, in RAM with a battery, in a section that the start-up code leaves alone: a ring of slots, and one word that says which slot
 * has the oldest and how many wait. The supply can be lost between any two stores, and the store of that word alone decides: before it the old state
 * holds, after it the new one. It is volatile, and an image is stored by volatile accesses before it: a compiler keeps the order of these. Where the
 * processor has a write buffer or a cache, its barrier or write-back goes into set_ring.
 */
enum { SLOTS = 16 }; /* one call takes 64 datas at most */
static uint8_t slots[SLOTS * STRIP_BYTES * STRIPS];
static volatile uint32_t ring; /* the slot of the oldest in the upper half, the number that wait in the lower */

static uint32_t oldest(void)
{
    return ring >> 16;
}

static uint32_t waiting(void)
{
    return ring & 0xffffu;
}

static void set_ring(uint32_t first, uint32_t count)
{
    /* here the processor's barrier: what was stored or programmed before is there before the word is */
    ring = (first % SLOTS) << 16 | count;
}

static uint8_t *slot_of(uint32_t number)
{
    return slots + number % SLOTS * IMAGE_BYTES;
}

/* After a battery that was flat or exchanged the RAM holds anything, and nothing waits. The word tells: of its 2^32 values a ring has 16 * 17. */
static void check_ring(void)
{
    if (oldest() >= SLOTS || waiting() > SLOTS) {
        set_ring(0, 0);
    }
}

/* The driver: the sectors of this example's flash are arrays. In a real one every access is volatile. */
static uint8_t image_flash[sizeof page];
static uint8_t winding_flash[sizeof winding];

/* A page in RAM, its L and S, and the sector that keeps it. */
struct sector {
    uint32_t bytes;
    uint32_t strips;
    uint8_t *page;
    uint8_t *flash;
};

static const struct sector IMAGE = {STRIP_BYTES, STRIPS, page, image_flash};
static const struct sector WINDING = {SEGRUNOV_BAND_BYTES, SEGRUNOV_BAND_STRIPS, winding, winding_flash};

static size_t length(const struct sector *s)
{
    return SEGRUNOV_PAGE_BYTES(s->bytes, s->strips);
}

static void flash_load(const struct sector *s)
{
    size_t i;
    for (i = 0; i < length(s); i++) {
        s->page[i] = (uint8_t)~s->flash[i];
    }
}

/* False where the flash does not hold the page afterwards: it failed, or a bit had to go from 0 to 1, which no write asks for. */
static bool flash_program(const struct sector *s)
{
    size_t i;
    for (i = 0; i < length(s); i++) {
        const uint8_t wanted = (uint8_t)~s->page[i];
        s->flash[i] &= wanted; /* all that programming can do */
        if (s->flash[i] != wanted) {
            return false;
        }
    }
    return true;
}

static void flash_erase(const struct sector *s)
{
    memset(s->flash, 0xff, length(s));
}

/* FAULT: the flash failed, or a constant of this file is wrong. */
enum store_result { STORED, ERASE_WANTED, FAULT };

/* Reads the image; false where a constant of this file is wrong, since only then a read is refused. */
static bool start(uint8_t *image)
{
    check_ring();
    flash_load(&IMAGE);
    return SEGRUNOV_NUMBER(segrunov_read(SEGRUNOV_LONG, STRIP_BYTES, STRIPS, page, sizeof page, image, IMAGE_BYTES)) == SEGRUNOV_DONE;
}

/* Stores an image. Nothing is programmed where the cost is 0, since the page holds the image already. */
static enum store_result store(const uint8_t *image)
{
    const uint64_t price = segrunov_price(SEGRUNOV_LONG, STRIP_BYTES, STRIPS, page, sizeof page, image, IMAGE_BYTES);
    switch (SEGRUNOV_NUMBER(price)) {
    case SEGRUNOV_DONE:
        if (SEGRUNOV_VALUE(price) != 0) {
            (void)segrunov_write(SEGRUNOV_LONG, STRIP_BYTES, STRIPS, page, sizeof page, image, IMAGE_BYTES);
            return flash_program(&IMAGE) ? STORED : FAULT;
        }
        return STORED;
    case SEGRUNOV_SPENT:
        return ERASE_WANTED;
    default:
        return FAULT;
    }
}

/* Erases a page; false where it is too cold or too warm, and the page stays as it is. */
static bool erase_page(const struct sector *s, int16_t tenths)
{
    if (SEGRUNOV_NUMBER(segrunov_erase(s->bytes, s->strips, s->page, length(s), tenths)) != SEGRUNOV_DONE) {
        return false;
    }
    flash_erase(s);
    return true;
}

/* Erases the page, and stores the image anew; false where it is too cold or too warm, and the old image stays, or where the flash failed. */
static bool erase(const uint8_t *image, int16_t tenths)
{
    return erase_page(&IMAGE, tenths) && store(image) == STORED;
}

/* Reads the temperature, which lies there low byte first; false where a constant of this file is wrong. */
static bool start_temperature(uint16_t *value)
{
    uint8_t data[SEGRUNOV_BAND_BYTES];
    flash_load(&WINDING);
    if (SEGRUNOV_NUMBER(segrunov_read(SEGRUNOV_LONG, WINDING.bytes, WINDING.strips, winding, sizeof winding, data, sizeof data)) != SEGRUNOV_DONE) {
        return false;
    }
    *value = (uint16_t)(data[0] | data[1] << 8);
    return true;
}

/* Stores a value that is at most the band away. A page that is spent keeps what it holds until it is erased, under the same certificate. */
static enum store_result store_temperature(uint16_t value, uint32_t band)
{
    const uint64_t answer = segrunov_write_band(SEGRUNOV_LONG, winding, sizeof winding, value, band);
    switch (SEGRUNOV_NUMBER(answer)) {
    case SEGRUNOV_DONE:
        return SEGRUNOV_VALUE(answer) == 0 || flash_program(&WINDING) ? STORED : FAULT;
    case SEGRUNOV_SPENT:
        return ERASE_WANTED;
    default:
        return FAULT;
    }
}

/* Keeps an image until the flash can be programmed again. While some wait, newer ones are put behind them. False where the ring is full. */
static bool enqueue(const uint8_t *image)
{
    volatile uint8_t *const slot = slot_of(oldest() + waiting());
    size_t i;
    if (waiting() == SLOTS) {
        return false;
    }
    for (i = 0; i < IMAGE_BYTES; i++) {
        slot[i] = image[i];
    }
    set_ring(oldest(), waiting() + 1);
    return true;
}

/*
 * Writes the images that wait, once start has loaded the page, which is then as if each had been stored in its time. The datas of a list lie one
 * after another: a list ends with the last slot at the latest, and the next one begins with slot 0. A list that stops with a 7 has written the images
 * before that one: they are programmed as those of a list that is done, their slots are free again, and the next list begins behind them, on the
 * erased page. Where it is too cold or too warm to erase it, the flash holds the last of them, and the others wait. An erased page takes every image,
 * so that each round gets on. Were the supply lost between programming and set_ring, they would be written once more, and the newest is last again.
 */
static enum store_result catch_up(int16_t tenths)
{
    while (waiting() != 0) {
        const uint32_t first = oldest(), to_the_end = SLOTS - first;
        const uint32_t count = waiting() < to_the_end ? waiting() : to_the_end;
        const uint64_t answer = segrunov_write_list(SEGRUNOV_LONG, STRIP_BYTES, STRIPS, SEGRUNOV_HOUSE_W1, SEGRUNOV_HOUSE_W2, SEGRUNOV_HOUSE_W3,
                                                    count, page, sizeof page, slot_of(first), count * IMAGE_BYTES);
        const uint32_t written = SEGRUNOV_WRITTEN(answer);
        if (SEGRUNOV_VALUE(answer) != 0 && !flash_program(&IMAGE)) {
            return FAULT;
        }
        set_ring(first + written, waiting() - written);
        if (SEGRUNOV_NUMBER(answer) == SEGRUNOV_SPENT) {
            if (!erase_page(&IMAGE, tenths)) {
                return ERASE_WANTED;
            }
        } else if (SEGRUNOV_NUMBER(answer) != SEGRUNOV_DONE) {
            return FAULT;
        }
    }
    return STORED;
}

/* Whether the flash holds this image: what a restart would read. */
static bool held(const uint8_t *image)
{
    uint8_t again[STRIP_BYTES * STRIPS];
    return start(again) && memcmp(again, image, sizeof again) == 0;
}

/* The supply is low: images queue up, and every byte changes, until there is no room. How many did; the image is then the newest of them. */
static unsigned queue_up(uint8_t *image)
{
    unsigned count = 0;
    for (;;) {
        uint8_t next[STRIP_BYTES * STRIPS];
        size_t i;
        for (i = 0; i < sizeof next; i++) {
            next[i] = (uint8_t)(image[i] * 5u + i + 1u);
        }
        if (!enqueue(next)) {
            return count;
        }
        memcpy(image, next, sizeof next);
        count++;
    }
}

/* A winding that warms up from 60.0 to 64.0 degrees and cools down, again and again. */
static uint16_t temperature(unsigned number)
{
    const unsigned phase = number % 40;
    return (uint16_t)(600 + 2 * (phase < 20 ? phase : 40 - phase));
}

/* How many of its temperatures are stored between erases; 0 where one that is read back is farther away than the band, or something else is wrong. */
static unsigned temperatures_stored(uint32_t band)
{
    unsigned stored;
    if (!erase_page(&WINDING, 250)) {
        return 0;
    }
    for (stored = 0; stored < 1000; stored++) {
        const uint16_t value = temperature(stored);
        const enum store_result result = store_temperature(value, band);
        uint16_t again = 0;
        if (result == ERASE_WANTED) {
            return stored;
        }
        if (result == FAULT || !start_temperature(&again) || again > value + band || value > again + band) {
            return 0;
        }
    }
    return 0;
}

int main(void)
{
    uint8_t image[STRIP_BYTES * STRIPS];
    unsigned stored = 0, written, in_band, exactly;
    flash_erase(&IMAGE); /* as a new part comes */
    ring = SLOTS + 1; /* as the RAM can be with a new battery: so many do not fit */
    if (!start(image) || waiting() != 0) {
        return 1;
    }
    ring = (uint32_t)SLOTS << 16 | 1u; /* or there is no such slot */
    if (!start(image) || waiting() != 0) {
        return 1;
    }
    /* The image of a feeder that warms up: a count in the first bytes. */
    for (;;) {
        enum store_result result;
        image[stored % IMAGE_BYTES] = (uint8_t)(image[stored % IMAGE_BYTES] + 37u);
        result = store(image);
        if (result == FAULT) {
            return 1;
        }
        if (result == ERASE_WANTED) {
            break;
        }
        stored++;
        if (stored > 8 * sizeof page) {
            return 1; /* each new image raises a bit, and a bit rises once */
        }
    }
    if (stored == 0) {
        return 1; /* an erased page takes every image */
    }
    printf("images stored between erases: %u\n", stored);
    if (erase(image, 450)) {
        return 1;
    }
    printf("at 45.0 degrees the erase is refused, and the page keeps the old image\n");
    if (!erase(image, 250)) {
        return 1;
    }
    printf("at 25.0 degrees the page is erased and the image stored\n");
    if (!held(image)) {
        return 1;
    }
    /* The supply is low for a while. What is written by the catch-up makes room for as many. */
    if (queue_up(image) != SLOTS || catch_up(450) != ERASE_WANTED || waiting() == SLOTS || !held(slot_of(oldest() + SLOTS - 1))) {
        return 1;
    }
    written = SLOTS - (unsigned)waiting();
    printf("images that queued up: %d, written by one call: %u; for the next the page is spent, and at 45.0 degrees not erased\n", SLOTS, written);
    if (queue_up(image) != written) {
        return 1;
    }
    printf("images that queue up behind those that wait: %u\n", written);
    if (catch_up(250) != STORED || waiting() != 0 || !held(image)) {
        return 1;
    }
    printf("at 25.0 degrees the page is erased and all of them are written\n");
    exactly = temperatures_stored(0);
    in_band = temperatures_stored(BAND);
    printf("temperatures of the winding stored between erases, exactly: %u\n", exactly);
    printf("the same temperatures, each at most 0.%d degrees off: %u\n", BAND, in_band);
    if (exactly == 0 || in_band < exactly) {
        return 1;
    }
    return PAGE_BYTES == sizeof page ? 0 : 1;
}
