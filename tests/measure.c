/*
 * Measures each call: the most stack that it needs, over both codes and the ends of L and S, and its time on the largest page and on that of
 * examples/relay.c. A list has two datas. A write in a band has one page, L = 2 and S = 1, and the widest band. A block has 16 pages, but 2 of the
 * largest.
 * Fails where a call is refused or needs more stack than SEGRUNOV_STACK says, and where a price needs more than PRICE_STACK, or not the
 * same for L = 1 and L = 64: it keeps no array with a place for each stage or cell.
 */
#define _POSIX_C_SOURCE 200809L
#define _XOPEN_SOURCE 700
#include <stdio.h>
#include <string.h>

#include "board.h"
#include "segrunov.h"

#ifndef PRICE_STACK
#define PRICE_STACK 2816 /* x86-64's; other processors have their own (tests/processors) */
#endif

enum { MOST = 64, LISTED = 2, LARGEST = 2, STACK = 1 << 16 };

static const uint8_t PAINT = 0xc3;
static const uint32_t CODES[] = {SEGRUNOV_SHORT, SEGRUNOV_LONG};
static const uint32_t STRIPS[] = {1, MOST};
static const uint32_t TIMED[][2] = {{MOST, MOST}, {8, 4}}; /* L and S */

/* What the calls are made with; L and S say how much of the page, of the map and of the data is used, and with the pages how much of the block. There
 * is data for a list, and a block for two of the largest pages. */
static uint32_t code, bytes, strips, pages;
static uint8_t page[SEGRUNOV_PAGE_BYTES(MOST, MOST)];
static uint8_t map[SEGRUNOV_MAP_BYTES(MOST, MOST)];
static uint8_t data[SEGRUNOV_LIST_BYTES(LISTED, MOST, MOST)];
static uint8_t block[SEGRUNOV_BLOCK_BYTES(MOST, MOST, LARGEST)];
static uint64_t answer;

static uint8_t stack[STACK];
static int failed;

static size_t page_bytes(void)
{
    return SEGRUNOV_PAGE_BYTES(bytes, strips);
}

static size_t map_bytes(void)
{
    return SEGRUNOV_MAP_BYTES(bytes, strips);
}

static size_t data_bytes(void)
{
    return SEGRUNOV_DATA_BYTES(bytes, strips);
}

static size_t list_bytes(void)
{
    return SEGRUNOV_LIST_BYTES(LISTED, bytes, strips);
}

static size_t block_bytes(void)
{
    return SEGRUNOV_BLOCK_BYTES(bytes, strips, pages);
}

static void no_call(void)
{
    answer = 0;
}

static void call_read(void)
{
    answer = segrunov_read(code, bytes, strips, page, page_bytes(), data, data_bytes());
}

static void call_price(void)
{
    answer = segrunov_price(code, bytes, strips, page, page_bytes(), data, data_bytes());
}

static void call_write(void)
{
    answer = segrunov_write(code, bytes, strips, page, page_bytes(), data, data_bytes());
}

/* With weights of which none is the house's. */
static void call_price_weighted(void)
{
    answer = segrunov_price_weighted(code, bytes, strips, 1, 254, 255, page, page_bytes(), data, data_bytes());
}

static void call_write_weighted(void)
{
    answer = segrunov_write_weighted(code, bytes, strips, 1, 254, 255, page, page_bytes(), data, data_bytes());
}

static void call_erase(void)
{
    answer = segrunov_erase(bytes, strips, page, page_bytes(), 200);
}

static void call_price_mapped(void)
{
    answer = segrunov_price_mapped(code, bytes, strips, 1, 254, 255, page, page_bytes(), map, map_bytes(), data, data_bytes());
}

static void call_write_mapped(void)
{
    answer = segrunov_write_mapped(code, bytes, strips, 1, 254, 255, page, page_bytes(), map, map_bytes(), data, data_bytes());
}

static void call_erase_mapped(void)
{
    answer = segrunov_erase_mapped(bytes, strips, page, page_bytes(), map, map_bytes(), 200);
}

static void call_write_list(void)
{
    answer = segrunov_write_list(code, bytes, strips, 1, 254, 255, LISTED, page, page_bytes(), data, list_bytes());
}

static void call_write_list_mapped(void)
{
    answer = segrunov_write_list_mapped(code, bytes, strips, 1, 254, 255, LISTED, page, page_bytes(), map, map_bytes(), data, list_bytes());
}

/* A value with eight on either side, so that each of the seventeen is priced. */
static void call_write_band(void)
{
    answer = segrunov_write_band(code, page, page_bytes(), (uint16_t)(256u + 255u * data[0]), SEGRUNOV_MAX_BAND);
}

/* What it may take the time of: the prices of the seventeen values, and a write of one of them. */
static void call_prices_and_write(void)
{
    uint32_t value = 256u + 255u * data[0] - SEGRUNOV_MAX_BAND;
    uint32_t i;
    for (i = 0; i <= 2 * SEGRUNOV_MAX_BAND; i++, value++) {
        data[0] = (uint8_t)(value % 256);
        data[1] = (uint8_t)(value / 256);
        answer = segrunov_price(code, bytes, strips, page, page_bytes(), data, data_bytes());
    }
    answer = segrunov_write(code, bytes, strips, page, page_bytes(), data, data_bytes());
}

/* On an erased block each page takes the data, so that each is priced to its end. */
static void call_block_put(void)
{
    answer = segrunov_block_put(code, bytes, strips, pages, block, block_bytes(), data, data_bytes());
}

static void call_block_get(void)
{
    answer = segrunov_block_get(code, bytes, strips, pages, block, block_bytes(), data, data_bytes());
}

static void call_block_erase(void)
{
    answer = segrunov_block_erase(bytes, strips, pages, block, block_bytes(), 200);
}

/* What a put may take the time of: the prices of every page and of every number, and a write of one page and one number. */
static void call_prices_and_writes(void)
{
    uint8_t number;
    for (number = 0; number < pages; number++) {
        const uint8_t *const at = block + SEGRUNOV_BLOCK_PAGE(bytes, strips, number);
        answer = segrunov_price(code, bytes, strips, at, page_bytes(), data, data_bytes());
        answer = segrunov_price(SEGRUNOV_SHORT, 1, 1, block, SEGRUNOV_DIRECTORY_BYTES, &number, 1);
    }
    number = 0;
    answer = segrunov_write(code, bytes, strips, block + SEGRUNOV_BLOCK_PAGE(bytes, strips, number), page_bytes(), data, data_bytes());
    answer = segrunov_write(SEGRUNOV_SHORT, 1, 1, block, SEGRUNOV_DIRECTORY_BYTES, &number, 1);
}

struct call {
    const char *name;
    void (*make)(void);
};

/* Every call of the header stands here (tests/header.py). */
static const struct call CALLS[] = {
    {"read", call_read},
    {"price", call_price},
    {"write", call_write},
    {"price_weighted", call_price_weighted},
    {"write_weighted", call_write_weighted},
    {"erase", call_erase},
    {"price_mapped", call_price_mapped},
    {"write_mapped", call_write_mapped},
    {"erase_mapped", call_erase_mapped},
    {"write_list", call_write_list},
    {"write_list_mapped", call_write_list_mapped},
    {"write_band", call_write_band},
    {"block_put", call_block_put},
    {"block_get", call_block_get},
    {"block_erase", call_block_erase},
};

/* Beside the write in a band, and beside the put. */
static const struct call BESIDE_BAND = {"band of prices", call_prices_and_write};
static const struct call BESIDE_PUT = {"block of prices", call_prices_and_writes};

static int is_price(const struct call *call)
{
    return strstr(call->name, "price") != NULL;
}

static int is_list(const struct call *call)
{
    return strstr(call->name, "list") != NULL;
}

static int is_band(const struct call *call)
{
    return strstr(call->name, "band") != NULL;
}

static int is_block(const struct call *call)
{
    return strstr(call->name, "block") != NULL;
}

/* What a time is of, beside the page. */
static const char *remark(const struct call *call)
{
    if (is_block(call)) {
        return pages == LARGEST ? ", 2 pages" : ", 16 pages";
    }
    return is_list(call) ? ", two datas" : is_band(call) ? ", the widest band" : "";
}

/* An erased page, an erased block, a map that marks at most one cell of a stage, and data that differs from round to round. A stage with a free cell
 * below level 3 can show either bit, so that the page takes every data, and every second one too: a write raises a cell by one level at most. */
static void renew(void)
{
    static uint64_t seed = 20261115;
    size_t i;
    memset(page, 0, sizeof page);
    memset(block, 0, sizeof block);
    memset(map, 0x92, sizeof map);
    for (i = 0; i < sizeof data; i++) {
        seed = seed * UINT64_C(6364136223846793005) + UINT64_C(1442695040888963407);
        data[i] = (uint8_t)(seed >> 56);
    }
}

/* How much of a painted stack a call touches. */
static size_t touched(void (*make)(void))
{
    size_t clean = 0;
    memset(stack, PAINT, sizeof stack);
    on_stack(make, stack, sizeof stack);
    while (clean < sizeof stack && stack[clean] == PAINT) {
        clean++;
    }
    return sizeof stack - clean;
}

/* Says what is wrong with a call, and with what it was made. */
static void fail(const struct call *call, const char *what)
{
    printf("measure: %s %s (code %u, L = %u, S = %u)\n", call->name, what, (unsigned)code, (unsigned)bytes, (unsigned)strips);
    failed = 1;
}

/* The arguments of a call. A band has its own L and S, and a block as many pages as there is room for. */
static void set_arguments(const struct call *call, uint32_t c, uint32_t l, uint32_t s)
{
    code = c;
    bytes = is_band(call) ? SEGRUNOV_BAND_BYTES : l;
    strips = is_band(call) ? SEGRUNOV_BAND_STRIPS : s;
    pages = SEGRUNOV_BLOCK_BYTES(bytes, strips, SEGRUNOV_MAX_PAGES) <= sizeof block ? SEGRUNOV_MAX_PAGES : LARGEST;
}

/* The stack of a call with these arguments, less what no call touches. */
static size_t needed(const struct call *call, uint32_t c, uint32_t l, uint32_t s)
{
    const size_t nothing = touched(no_call);
    size_t all;
    set_arguments(call, c, l, s);
    renew();
    all = touched(call->make);
    if (SEGRUNOV_NUMBER(answer) != SEGRUNOV_DONE) {
        fail(call, "is refused");
    }
    return all - nothing;
}

/* The least time of a call with these arguments. */
static double least_time(const struct call *call, uint32_t c, uint32_t l, uint32_t s)
{
    double least = 1e12;
    int i;
    set_arguments(call, c, l, s);
    for (i = 0; i < ROUNDS; i++) {
        double took;
        renew();
        took = elapsed(call->make);
        if (took < least) {
            least = took;
        }
    }
    return least;
}

static size_t greater(size_t a, size_t b)
{
    return a > b ? a : b;
}

/* The most stack that a call needs, over both codes and the ends of L and S. */
static size_t most_needed(const struct call *call)
{
    const size_t limit = is_price(call) ? PRICE_STACK : SEGRUNOV_STACK;
    size_t most = 0;
    size_t c, s;
    for (c = 0; c < 2; c++) {
        for (s = 0; s < 2; s++) {
            const size_t with_1 = needed(call, CODES[c], 1, STRIPS[s]);
            const size_t with_64 = needed(call, CODES[c], MOST, STRIPS[s]);
            if (is_price(call) && with_1 != with_64) {
                fail(call, "needs another stack for L = 1 than for L = 64");
            }
            most = greater(most, greater(with_1, with_64));
        }
    }
    if (most > limit) {
        fail(call, "needs more stack than its limit");
    }
    return most;
}

/* The time of a call on the n-th of its pages. */
static void print_time(const struct call *call, size_t n)
{
    const double with_short = least_time(call, SEGRUNOV_SHORT, TIMED[n][0], TIMED[n][1]);
    const double with_long = least_time(call, SEGRUNOV_LONG, TIMED[n][0], TIMED[n][1]);
    printf("   %2u strips of %2u bytes%s: code 3 " CLOCK ", code 7 " CLOCK, (unsigned)strips, (unsigned)bytes, remark(call), with_short, with_long);
}

int main(void)
{
    size_t i, s;
    for (i = 0; i < sizeof CALLS / sizeof *CALLS; i++) {
        const struct call *call = &CALLS[i];
        const size_t most = most_needed(call);
        printf("%-17s  stack %5u bytes", call->name, (unsigned)most);
        for (s = 0; ROUNDS > 0 && s < (is_band(call) ? 1u : 2u); s++) {
            print_time(call, s);
        }
        printf("\n");
    }
    if (ROUNDS > 0) {
        printf("17 prices and a write beside it  ");
        print_time(&BESIDE_BAND, 0);
        printf("\n");
        printf("prices of the pages and of their numbers and two writes beside a put  ");
        for (s = 0; s < 2; s++) {
            print_time(&BESIDE_PUT, s);
        }
        printf("\n");
    }
    return failed;
}
