/*
 * How many images a block takes between erases, in the mean over runs with random data, code 7 and the house's weights:
 * by segrunov_block_put, and beside it by a rule that is not in the library, 'stay until spent': the live page as long
 * as it takes the data, else the one with the lowest number that takes it and whose number the directory takes. One
 * page is written until it is spent. Beside each mean stands in how many of 100 runs the directory ran out: some page
 * would have taken the last data, and the directory the number of none such. In the others every page was spent for it.
 * Fails where a call is refused by anything but 7, or the block does not give back what was put.
 */
#include <stdbool.h>
#include <stdio.h>
#include <string.h>

#include "segrunov.h"

enum { RUNS = 1000, MOST_BYTES = 16, MOST_STRIPS = 4, MOST_PAGES = 16 };

static const uint64_t SEED = 20260117;
static const uint32_t SHAPES[][2] = {{2, 1}, {MOST_BYTES, MOST_STRIPS}}; /* L and S */

/* What the calls are made with; L, S and the pages say how much of the block and of the data is used. */
static uint32_t bytes, strips, pages;
static uint8_t block[6 + MOST_PAGES * MOST_BYTES * MOST_STRIPS * 6];
static uint8_t data[MOST_BYTES * MOST_STRIPS];

static bool failed;

static uint64_t random_state;

/* Numbers by splitmix64. Every rule and every number of pages is given the same datas in a run. */
static void seed_run(unsigned run)
{
    random_state = SEED * 1000000 + run;
}

static uint64_t random_number(void)
{
    uint64_t z;
    random_state += UINT64_C(0x9e3779b97f4a7c15);
    z = random_state;
    z = (z ^ z >> 30) * UINT64_C(0xbf58476d1ce4e5b9);
    z = (z ^ z >> 27) * UINT64_C(0x94d049bb133111eb);
    return z ^ z >> 31;
}

static size_t data_bytes(void)
{
    return SEGRUNOV_DATA_BYTES(bytes, strips);
}

static size_t page_bytes(void)
{
    return SEGRUNOV_PAGE_BYTES(bytes, strips);
}

static size_t block_bytes(void)
{
    return SEGRUNOV_BLOCK_BYTES(bytes, strips, pages);
}

static uint8_t *page(uint32_t number)
{
    return block + SEGRUNOV_BLOCK_PAGE(bytes, strips, number);
}

/* Whether it is done; a refusal by anything but 7 is a failure. */
static bool done(uint64_t answer)
{
    failed = failed || (SEGRUNOV_NUMBER(answer) != SEGRUNOV_DONE && SEGRUNOV_NUMBER(answer) != SEGRUNOV_SPENT);
    return SEGRUNOV_NUMBER(answer) == SEGRUNOV_DONE;
}

static bool page_takes(uint32_t number)
{
    return done(segrunov_price(SEGRUNOV_LONG, bytes, strips, page(number), page_bytes(), data, data_bytes()));
}

static bool directory_takes(uint32_t number)
{
    const uint8_t byte = (uint8_t)number;
    return done(segrunov_price(SEGRUNOV_SHORT, 1, 1, block, SEGRUNOV_DIRECTORY_BYTES, &byte, 1));
}

static bool write_page(uint32_t number)
{
    return done(segrunov_write(SEGRUNOV_LONG, bytes, strips, page(number), page_bytes(), data, data_bytes()));
}

static bool write_directory(uint32_t number)
{
    const uint8_t byte = (uint8_t)number;
    return done(segrunov_write(SEGRUNOV_SHORT, 1, 1, block, SEGRUNOV_DIRECTORY_BYTES, &byte, 1));
}

static bool put(void)
{
    return done(segrunov_block_put(SEGRUNOV_LONG, bytes, strips, pages, block, block_bytes(), data, data_bytes()));
}

static bool stay_until_spent(void)
{
    uint8_t live = 0;
    uint32_t number;
    (void)segrunov_read(SEGRUNOV_SHORT, 1, 1, block, SEGRUNOV_DIRECTORY_BYTES, &live, 1);
    if (page_takes(live)) {
        return write_page(live);
    }
    for (number = 0; number < pages; number++) {
        if (page_takes(number) && directory_takes(number)) {
            return write_page(number) && write_directory(number);
        }
    }
    return false;
}

/* A page alone: the block's page 0. */
static bool one_page(void)
{
    return write_page(0);
}

static bool given_back(void)
{
    uint8_t again[sizeof data];
    const uint64_t answer =
        segrunov_block_get(SEGRUNOV_LONG, bytes, strips, pages, block, block_bytes(), again, data_bytes());
    return done(answer) && memcmp(again, data, data_bytes()) == 0;
}

/* What the runs of a rule come to: the mean number of accepted datas, and in how many of 100 the directory ran out. */
struct mean {
    double accepted;
    double directory;
};

static struct mean runs_of(bool (*take)(void))
{
    unsigned long accepted = 0, by_directory = 0;
    struct mean mean;
    unsigned run;
    for (run = 0; run < RUNS; run++) {
        bool some_page = false;
        uint32_t number;
        seed_run(run);
        memset(block, 0, sizeof block);
        for (;;) {
            size_t i;
            for (i = 0; i < data_bytes(); i++) {
                data[i] = (uint8_t)random_number();
            }
            if (!take()) {
                break;
            }
            accepted++;
            failed = failed || !given_back();
        }
        for (number = 0; take != one_page && number < pages; number++) {
            some_page = some_page || page_takes(number);
        }
        by_directory += some_page;
    }
    mean.accepted = (double)accepted / RUNS;
    mean.directory = 100.0 * (double)by_directory / RUNS;
    return mean;
}

int main(void)
{
    size_t i;
    printf("datas accepted between erases, mean of %d runs, seed %lu, and runs in which the directory ran out\n", RUNS,
           (unsigned long)SEED);
    for (i = 0; i < sizeof SHAPES / sizeof SHAPES[0]; i++) {
        bytes = SHAPES[i][0];
        strips = SHAPES[i][1];
        pages = SEGRUNOV_MIN_PAGES;
        printf("L = %2lu, S = %lu, one page                      %5.1f\n", (unsigned long)bytes, (unsigned long)strips,
               runs_of(one_page).accepted);
        for (; pages <= MOST_PAGES; pages *= 2) {
            const struct mean cheapest = runs_of(put), staying = runs_of(stay_until_spent);
            printf("L = %2lu, S = %lu, %2lu pages  ", (unsigned long)bytes, (unsigned long)strips,
                   (unsigned long)pages);
            printf("segrunov_block_put %5.1f, %5.1f %%  stay until spent %5.1f, %5.1f %%\n", cheapest.accepted,
                   cheapest.directory, staying.accepted, staying.directory);
        }
    }
    return failed ? 1 : 0;
}
