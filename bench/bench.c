/*
 * The library, with and without weights and maps and by lists, beside three Rust programs and two decoders of the same trellis.
 *
 *   bench FILE [ROUNDS]        the table of one run, and a plot into FILE: how time grows with L and S
 *   bench --tried [ROUNDS]     the shapes that were tried in 16 and 8 bits
 *
 * Before each call the page is set anew, outside the time; a round makes every call once, by one program after the other; the least time of all rounds
 * counts. Every answer and every page is compared with the library's: the exit status is 1 where one differs. No time is judged.
 */
#define _POSIX_C_SOURCE 200809L
#include <stdio.h>
#include <stdlib.h>
#include <string.h>
#include <time.h>

#include "peers.h"
#include "plot.h"
#include "segrunov.h"

enum { MOST = 64, PAGE = 6 * MOST * MOST, DATA = MOST * MOST, CODES = 2, KINDS = 3, CALLS = 2, PROGRAMS = 16 };

static const uint32_t codes[CODES] = {SEGRUNOV_LONG, SEGRUNOV_SHORT};
static const char *const kinds[KINDS] = {"erased", "half-full", "random"};
static const char *const calls[CALLS] = {"price", "write"};

/* What a call is asked. */
static struct {
    uint32_t code, bytes, strips;
    uint8_t page[PAGE];
    uint8_t data[DATA];
} job;

static size_t page_length(void)
{
    return SEGRUNOV_PAGE_BYTES(job.bytes, job.strips);
}

static size_t data_length(void)
{
    return SEGRUNOV_DATA_BYTES(job.bytes, job.strips);
}

/* ---------------------------------------------------------------- programs */

typedef uint64_t price_call(uint32_t, uint32_t, uint32_t, const uint8_t *, size_t, const uint8_t *, size_t);
typedef uint64_t write_call(uint32_t, uint32_t, uint32_t, uint8_t *, size_t, const uint8_t *, size_t);

/* The calls with weights, given the house's, so that they answer as the others do. */
static uint64_t weighted_price(uint32_t code, uint32_t bytes, uint32_t strips, const uint8_t *page, size_t page_len, const uint8_t *data,
                               size_t data_len)
{
    return segrunov_price_weighted(code, bytes, strips, SEGRUNOV_HOUSE_W1, SEGRUNOV_HOUSE_W2, SEGRUNOV_HOUSE_W3, page, page_len, data, data_len);
}

static uint64_t weighted_write(uint32_t code, uint32_t bytes, uint32_t strips, uint8_t *page, size_t page_len, const uint8_t *data, size_t data_len)
{
    return segrunov_write_weighted(code, bytes, strips, SEGRUNOV_HOUSE_W1, SEGRUNOV_HOUSE_W2, SEGRUNOV_HOUSE_W3, page, page_len, data, data_len);
}

/* A program, and a page of its own. Its variant is the form of its stage or, where there are no calls, a shape that was tried. */
struct program {
    const char *name;
    price_call *price;
    write_call *write;
    size_t variant;
    uint8_t page[PAGE];
};

/* The library is the first. Compilers differ in which form of a stage they make best, so all of them run, and the fastest counts. */
enum { SEGRUNOV, WEIGHTED, ORDINARY, SHAPED, NARROW = SHAPED + FORMS };

static struct program programs[PROGRAMS] = {
    [SEGRUNOV] = {.name = "segrunov", .price = segrunov_price, .write = segrunov_write},
    [WEIGHTED] = {.name = "segrunov, with weights", .price = weighted_price, .write = weighted_write},
    [ORDINARY] = {.name = "ordinary", .price = ordinary_price, .write = ordinary_write},
    [SHAPED] = {.name = "shaped, in blocks", .price = shaped_price, .write = shaped_write, .variant = 0},
    [SHAPED + 1] = {.name = "shaped, in two loops", .price = shaped_price, .write = shaped_write, .variant = 1},
    [SHAPED + 2] = {.name = "shaped, in one loop", .price = shaped_price, .write = shaped_write, .variant = 2},
    [NARROW] = {.name = "narrow, in blocks", .price = narrow_price, .write = narrow_write, .variant = 0},
    [NARROW + 1] = {.name = "narrow, in two loops", .price = narrow_price, .write = narrow_write, .variant = 1},
    [NARROW + 2] = {.name = "narrow, in one loop", .price = narrow_price, .write = narrow_write, .variant = 2},
};
static int program_count = NARROW + FORMS;

/* The library and the shapes that were tried. */
static void take_shapes(void)
{
    program_count = 1;
    for (size_t shape = 0; tried_name(shape) != NULL && program_count < PROGRAMS; shape++) {
        programs[program_count] = (struct program){.name = tried_name(shape), .variant = shape};
        program_count++;
    }
}

static uint64_t called(struct program *p, int call)
{
    if (p->price == NULL) {
        return call == 0 ? tried_price(p->variant, job.bytes, p->page, page_length(), job.data, data_length())
                         : tried_write(p->variant, job.bytes, p->page, page_length(), job.data, data_length());
    }
    choose_form(p->variant);
    return call == 0 ? p->price(job.code, job.bytes, job.strips, p->page, page_length(), job.data, data_length())
                     : p->write(job.code, job.bytes, job.strips, p->page, page_length(), job.data, data_length());
}

static double seconds(void)
{
    struct timespec now;
    (void)clock_gettime(CLOCK_MONOTONIC, &now);
    return (double)now.tv_sec + 1e-9 * (double)now.tv_nsec;
}

/* The time of a call on the job's page and data. */
static double timed(struct program *p, int call, uint64_t *answer)
{
    memcpy(p->page, job.page, page_length());
    const double began = seconds();
    *answer = called(p, call);
    return seconds() - began;
}

/* ---------------------------------------------------------------- pages and data */

static uint64_t seed = 20261115;

static uint32_t below(uint32_t n)
{
    seed = seed * UINT64_C(6364136223846793005) + UINT64_C(1442695040888963407);
    return (uint32_t)(((seed >> 32) * n) >> 32);
}

static void new_data(void)
{
    for (size_t i = 0; i < data_length(); i++) {
        job.data[i] = (uint8_t)below(256);
    }
}

/* Puts a cell at a level as the library leaves it: its ones go round from the bit of its number in its strip mod 3. */
static void set_cell(size_t cell, uint32_t level)
{
    const size_t start = cell % ((size_t)16 * job.bytes);
    for (size_t i = 0; i < 3; i++) {
        const size_t k = 3 * cell + (start + i) % 3;
        const unsigned bit = 1U << (k % 8);
        job.page[k / 8] = (uint8_t)(i < level ? job.page[k / 8] | bit : job.page[k / 8] & ~bit);
    }
}

static size_t cells(void)
{
    return page_length() * 8 / 3;
}

/* The kinds of page that are timed: erased; even cells at level 1 and odd ones at 2; each cell at level 0 or 1. No write on them is spent. */
static void make_page(int kind)
{
    for (size_t cell = 0; cell < cells(); cell++) {
        set_cell(cell, kind == 0 ? 0 : kind == 1 ? 1 + (uint32_t)(cell % 2) : below(2));
    }
}

/* Pages that are not timed: levels up to a bound, any bits, mostly full. */
enum { ANY_KINDS = 6 };

static void make_any_page(uint32_t kind)
{
    for (size_t cell = 0; cell < cells(); cell++) {
        set_cell(cell, kind < 4 ? below(kind + 1) : 3 - (uint32_t)(below(64) == 0));
    }
    for (size_t i = 0; kind == 4 && i < page_length(); i++) {
        job.page[i] = (uint8_t)(below(256) & below(256));
    }
}

/* ---------------------------------------------------------------- comparison */

static unsigned long compared_calls, spent_calls;

static void print_bytes(const char *name, const uint8_t *bytes, size_t n)
{
    printf("%s:\n", name);
    for (size_t i = 0; i < n; i++) {
        printf("%02x", bytes[i]);
    }
    printf("\n");
}

static void fail(const struct program *p, int call, uint64_t wanted, uint64_t answer)
{
    printf("bench: %s of '%s' differs from the library's: code %u, L = %u, S = %u\n", calls[call], p->name, (unsigned)job.code, (unsigned)job.bytes,
           (unsigned)job.strips);
    printf("answer %u with %u, the library's is %u with %u\n", (unsigned)SEGRUNOV_NUMBER(answer), (unsigned)SEGRUNOV_VALUE(answer),
           (unsigned)SEGRUNOV_NUMBER(wanted), (unsigned)SEGRUNOV_VALUE(wanted));
    print_bytes("data", job.data, data_length());
    print_bytes("page before", job.page, page_length());
    print_bytes("page after", p->page, page_length());
    print_bytes("page after, the library's", programs[SEGRUNOV].page, page_length());
    exit(1);
}

/* One call by every program: same answers, same pages, and the page as it was after a price and where it is spent. Another program begins each time. */
static uint64_t compared(int call, double times[PROGRAMS])
{
    static int turn;
    uint64_t answers[PROGRAMS] = {0};
    turn++;
    for (int i = 0; i < program_count; i++) {
        const int p = (i + turn) % program_count;
        times[p] = timed(&programs[p], call, &answers[p]);
    }
    const int keeps = call == 0 || SEGRUNOV_NUMBER(answers[SEGRUNOV]) != SEGRUNOV_DONE;
    for (int p = 0; p < program_count; p++) {
        if (answers[p] != answers[SEGRUNOV] || memcmp(programs[p].page, keeps ? job.page : programs[SEGRUNOV].page, page_length()) != 0) {
            fail(&programs[p], call, answers[SEGRUNOV], answers[p]);
        }
    }
    compared_calls++;
    spent_calls += SEGRUNOV_NUMBER(answers[SEGRUNOV]) == SEGRUNOV_SPENT;
    return answers[SEGRUNOV];
}

/* Price and write of a page, four times one after the other. */
static void check_page(uint32_t code, uint32_t bytes, uint32_t strips, uint32_t kind)
{
    double times[PROGRAMS];
    job.code = code;
    job.bytes = bytes;
    job.strips = strips;
    make_any_page(kind);
    for (int i = 0; i < 4; i++) {
        new_data();
        const uint64_t price = compared(0, times);
        const uint64_t answer = compared(1, times);
        if (answer != price) {
            fail(&programs[SEGRUNOV], 1, price, answer);
        }
        memcpy(job.page, programs[SEGRUNOV].page, page_length());
    }
}

/* Every L and every S, the other one random and small enough to be quick, on pages of every kind in turn. */
static void check(int code_count)
{
    for (int c = 0; c < code_count; c++) {
        for (uint32_t n = 1; n <= MOST; n++) {
            const uint32_t most = n < 8 ? MOST : 256 / n;
            check_page(codes[c], n, 1 + below(most), n % ANY_KINDS);
            check_page(codes[c], 1 + below(most), n, n / ANY_KINDS % ANY_KINDS);
        }
    }
    printf("All programs agree on %lu calls of all L and S, %lu of them spent.\n\n", compared_calls, spent_calls);
}

/* ---------------------------------------------------------------- maps */

/* Calls without a map, with one that marks nothing, and with one that marks two of each sixteen cells: the first cell of each block of eight stages, and
 * the second cell of the block's fifth stage. So every block has marks, and none of the pages is spent. */
enum { NO_MAP, MAP_OF_ZEROS, WORN, MAPS };

static uint8_t map[SEGRUNOV_MAP_BYTES(MOST, MOST)];

static void make_map(int which)
{
    for (size_t i = 0; i < sizeof map; i++) {
        map[i] = (uint8_t)(which == WORN ? 1U << (i % 2) : 0U);
    }
}

static double timed_with(int which, int call, uint8_t *page, uint64_t *answer)
{
    const size_t map_length = SEGRUNOV_MAP_BYTES(job.bytes, job.strips);
    memcpy(page, job.page, page_length());
    make_map(which);
    const double began = seconds();
    if (which == NO_MAP) {
        *answer = call == 0 ? weighted_price(job.code, job.bytes, job.strips, page, page_length(), job.data, data_length())
                            : weighted_write(job.code, job.bytes, job.strips, page, page_length(), job.data, data_length());
    } else {
        *answer = call == 0 ? segrunov_price_mapped(job.code, job.bytes, job.strips, SEGRUNOV_HOUSE_W1, SEGRUNOV_HOUSE_W2, SEGRUNOV_HOUSE_W3, page,
                                                    page_length(), map, map_length, job.data, data_length())
                            : segrunov_write_mapped(job.code, job.bytes, job.strips, SEGRUNOV_HOUSE_W1, SEGRUNOV_HOUSE_W2, SEGRUNOV_HOUSE_W3, page,
                                                    page_length(), map, map_length, job.data, data_length());
    }
    return seconds() - began;
}

/* The three bits of a cell. */
static unsigned cell_bits(const uint8_t *page, size_t cell)
{
    unsigned bits = 0;
    for (size_t k = 3 * cell; k < 3 * cell + 3; k++) {
        bits = 2 * bits + ((unsigned)page[k / 8] >> (k % 8) & 1U);
    }
    return bits;
}

/* Whether a written page reads as the data and has the marked cells as they were. */
static int kept(const uint8_t *page)
{
    static uint8_t out[DATA];
    if (SEGRUNOV_NUMBER(segrunov_read(job.code, job.bytes, job.strips, page, page_length(), out, data_length())) != SEGRUNOV_DONE ||
        memcmp(out, job.data, data_length()) != 0) {
        return 0;
    }
    make_map(WORN);
    for (size_t cell = 0; cell < cells(); cell++) {
        if ((map[cell / 8] >> (cell % 8) & 1U) != 0 && cell_bits(page, cell) != cell_bits(job.page, cell)) {
            return 0;
        }
    }
    return 1;
}

/* One price and one write with each map, another one first each time: a map of zeros changes nothing, and what a marked page costs is what its price said. */
static void compared_maps(double times[CALLS][MAPS])
{
    static uint8_t pages[CALLS][MAPS][PAGE];
    static int turn;
    uint64_t answers[CALLS][MAPS];
    turn++;
    for (int call = 0; call < CALLS; call++) {
        for (int i = 0; i < MAPS; i++) {
            const int m = (i + turn) % MAPS;
            times[call][m] = timed_with(m, call, pages[call][m], &answers[call][m]);
        }
        if (answers[call][MAP_OF_ZEROS] != answers[call][NO_MAP] || memcmp(pages[call][MAP_OF_ZEROS], pages[call][NO_MAP], page_length()) != 0) {
            printf("bench: a %s with a map of zeros differs from one without a map\n", calls[call]);
            exit(1);
        }
    }
    if (SEGRUNOV_NUMBER(answers[1][WORN]) != SEGRUNOV_DONE || answers[0][WORN] != answers[1][WORN] || !kept(pages[1][WORN])) {
        printf("bench: a write with marked cells is spent, costs something else than its price, or does not keep the marked cells\n");
        exit(1);
    }
}

/* ---------------------------------------------------------------- times */

static double least(double x, double y)
{
    return x < y ? x : y;
}

/* Of the largest page, or of a decoder's blocks. */
static double nanoseconds_a_stage(double time)
{
    return time * 1e9 / (BLOCKS * STAGES);
}

/* Of a program's forms. */
static double fastest(const double times[FORMS])
{
    return least(times[0], least(times[1], times[2]));
}

static double best[CODES][KINDS][CALLS][PROGRAMS];

/* One round of the largest page. */
static void round_of_calls(int first_code, int code_count, int first_kind, int kind_count, int is_first)
{
    job.bytes = MOST;
    job.strips = MOST;
    for (int c = first_code; c < first_code + code_count; c++) {
        for (int k = first_kind; k < first_kind + kind_count; k++) {
            job.code = codes[c];
            make_page(k);
            new_data();
            for (int call = 0; call < CALLS; call++) {
                double times[PROGRAMS];
                double *b = best[c][k][call];
                (void)compared(call, times);
                for (int p = 0; p < program_count; p++) {
                    b[p] = is_first ? times[p] : least(b[p], times[p]);
                }
            }
        }
    }
}

static double best_mapped[CODES][KINDS][CALLS][MAPS];

/* One round of a page with maps. */
static void round_of_maps(uint32_t bytes, uint32_t strips, int is_first)
{
    job.bytes = bytes;
    job.strips = strips;
    for (int c = 0; c < CODES; c++) {
        for (int k = 0; k < KINDS; k++) {
            double times[CALLS][MAPS];
            job.code = codes[c];
            make_page(k);
            new_data();
            compared_maps(times);
            for (int call = 0; call < CALLS; call++) {
                for (int m = 0; m < MAPS; m++) {
                    double *b = &best_mapped[c][k][call][m];
                    *b = is_first ? times[call][m] : least(*b, times[call][m]);
                }
            }
        }
    }
}

static void measure_maps(uint32_t bytes, uint32_t strips, int rounds)
{
    for (int i = 0; i < rounds; i++) {
        round_of_maps(bytes, strips, i == 0);
    }
    for (int c = 0; c < CODES; c++) {
        for (int k = 0; k < KINDS; k++) {
            const double *price = best_mapped[c][k][0], *write = best_mapped[c][k][1];
            printf("| L = %u, S = %u | %u | %s | %.3f | %.3f | %.3f | %.3f |\n", (unsigned)bytes, (unsigned)strips, (unsigned)codes[c], kinds[k],
                   price[MAP_OF_ZEROS] / price[NO_MAP], price[WORN] / price[NO_MAP], write[MAP_OF_ZEROS] / write[NO_MAP], write[WORN] / write[NO_MAP]);
        }
    }
}

/* ---------------------------------------------------------------- lists */

enum { AS_WRITES, AS_LIST, WAYS };

/* The datas of a list: 64 of a byte, or two of the largest page. */
static uint8_t datas[2 * DATA];

static double timed_list(int way, uint32_t count, uint8_t *page, uint64_t *cost)
{
    memcpy(page, job.page, page_length());
    const double began = seconds();
    if (way == AS_LIST) {
        const uint64_t answer = segrunov_write_list(job.code, job.bytes, job.strips, SEGRUNOV_HOUSE_W1, SEGRUNOV_HOUSE_W2, SEGRUNOV_HOUSE_W3, count,
                                                    page, page_length(), datas, count * data_length());
        *cost = SEGRUNOV_WRITTEN(answer) == count ? SEGRUNOV_VALUE(answer) : UINT64_MAX;
    } else {
        *cost = 0;
        for (uint32_t i = 0; i < count; i++) {
            *cost += weighted_write(job.code, job.bytes, job.strips, page, page_length(), datas + i * data_length(), data_length());
        }
    }
    return seconds() - began;
}

/* A list beside its single writes, on a half-full page. Where L and S are 1 all datas are the same, since 64 that differ do not fit. */
static void measure_lists(uint32_t bytes, uint32_t strips, uint32_t count, int rounds)
{
    static uint8_t pages[WAYS][PAGE];
    job.bytes = bytes;
    job.strips = strips;
    for (int c = 0; c < CODES; c++) {
        double best_list[WAYS] = {0, 0};
        job.code = codes[c];
        for (int i = 0; i < rounds; i++) {
            uint64_t costs[WAYS];
            make_page(1);
            for (uint32_t n = 0; n < count; n++) {
                if (n == 0 || data_length() > 1) {
                    new_data();
                }
                memcpy(datas + n * data_length(), job.data, data_length());
            }
            for (int way = 0; way < WAYS; way++) {
                const double took = timed_list(way, count, pages[way], &costs[way]);
                best_list[way] = i == 0 ? took : least(best_list[way], took);
            }
            if (costs[AS_LIST] != costs[AS_WRITES] || memcmp(pages[AS_LIST], pages[AS_WRITES], page_length()) != 0) {
                printf("bench: a list of %u with code %u is not its single writes\n", (unsigned)count, (unsigned)job.code);
                exit(1);
            }
        }
        printf("| %u datas, L = %u, S = %u | %u | %.2f | %.2f | %.3f |\n", (unsigned)count, (unsigned)bytes, (unsigned)strips, (unsigned)codes[c],
               1e6 * best_list[AS_LIST], 1e6 * best_list[AS_WRITES], best_list[AS_LIST] / best_list[AS_WRITES]);
    }
}

static double decoded(void (*decode)(void), int (*right)(void), const char *name)
{
    const double began = seconds();
    decode();
    const double took = seconds() - began;
    if (!right()) {
        printf("bench: %s does not give the data back\n", name);
        exit(1);
    }
    return took;
}

static void print_decoder(const char *name, double time)
{
    printf("| %s | %.1f |", name, nanoseconds_a_stage(time));
    for (int k = 0; k < KINDS; k++) {
        printf(" %.2f |", best[0][k][1][SEGRUNOV] / time);
    }
    printf("\n");
}

static void measure(int rounds)
{
    double osmocore = 1e9, fec = 1e9;
    for (int i = 0; i < rounds; i++) {
        round_of_calls(0, CODES, 0, KINDS, i == 0);
        decoders_prepare(below(UINT32_MAX));
        osmocore = least(osmocore, decoded(libosmocore_decode, libosmocore_right, "libosmocore"));
        fec = least(fec, decoded(libfec_decode, libfec_right, "libfec"));
    }
    printf("| code | page | call | segrunov | shaped | ordinary | narrow | segrunov / shaped | segrunov / ordinary | segrunov / narrow |\n"
           "|---|---|---|---|---|---|---|---|---|---|\n");
    for (int c = 0; c < CODES; c++) {
        for (int k = 0; k < KINDS; k++) {
            for (int call = 0; call < CALLS; call++) {
                const double *b = best[c][k][call];
                const double library = b[SEGRUNOV], ordinary = b[ORDINARY], shaped = fastest(b + SHAPED), narrow = fastest(b + NARROW);
                printf("| %u | %s | %s | %.1f | %.1f | %.1f | %.1f | %.2f | %.2f | %.2f |\n", (unsigned)codes[c], kinds[k], calls[call],
                       nanoseconds_a_stage(library), nanoseconds_a_stage(shaped), nanoseconds_a_stage(ordinary), nanoseconds_a_stage(narrow),
                       library / shaped, library / ordinary, library / narrow);
            }
        }
    }
    printf("\n| code | page | price with weights / price | write with weights / write |\n|---|---|---|---|\n");
    for (int c = 0; c < CODES; c++) {
        for (int k = 0; k < KINDS; k++) {
            const double *price = best[c][k][0], *write = best[c][k][1];
            printf("| %u | %s | %.3f | %.3f |\n", (unsigned)codes[c], kinds[k], price[WEIGHTED] / price[SEGRUNOV], write[WEIGHTED] / write[SEGRUNOV]);
        }
    }
    printf("\n| with a map, over the same call without one | code | page | price, map of zeros | price, worn | write, map of zeros | write, worn |\n"
           "|---|---|---|---|---|---|---|\n");
    measure_maps(MOST, MOST, rounds);
    measure_maps(1, 1, 100 * rounds);
    printf("\n| list on a half-full page | code | microseconds of the list | of its single writes | the list over them |\n|---|---|---|---|---|\n");
    measure_lists(1, 1, MOST, 100 * rounds);
    measure_lists(MOST, MOST, 2, rounds);
    printf("\n| decoder | its time | segrunov's write, code 7, over it: erased | half-full | random |\n|---|---|---|---|---|\n");
    print_decoder("libosmocore", osmocore);
    print_decoder("libfec", fec);
}

static void measure_shapes(int rounds)
{
    for (int i = 0; i < rounds; i++) {
        round_of_calls(0, 1, 1, 1, i == 0);
    }
    printf("| shape, code 7, half-full page | price | write |\n|---|---|---|\n");
    for (int p = 1; p < program_count; p++) {
        printf("| %s | %.1f | %.1f |\n", programs[p].name, nanoseconds_a_stage(best[0][1][0][p]), nanoseconds_a_stage(best[0][1][1][p]));
    }
}

/* ---------------------------------------------------------------- growth with L and S */

/* The time of one call of the library on a half-full page, in microseconds. */
static double microseconds(uint32_t code, uint32_t bytes, uint32_t strips, int call)
{
    uint64_t answer;
    job.code = code;
    job.bytes = bytes;
    job.strips = strips;
    make_page(1);
    new_data();
    return 1e6 * timed(&programs[SEGRUNOV], call, &answer);
}

static void growth(const char *file, int rounds)
{
    static const struct plot_line lines[PLOT_LINES] = {
        {"code 7, write", "#c02020", 0}, {"code 7, price", "#c02020", 1}, {"code 3, write", "#2050b0", 0}, {"code 3, price", "#2050b0", 1}};
    static struct plot_panel panels[2] = {{.title = "One strip (S = 1)", .across = "L, bytes of data of a strip"},
                                          {.title = "Strips of 64 bytes (L = 64)", .across = "S, strips of the page"}};
    /* As many rounds as fit into some seconds, but a few at least. */
    const double until = seconds() + 15;
    for (int i = 0; i < rounds && (i < 5 || seconds() < until); i++) {
        for (uint32_t n = 1; n <= PLOT_POINTS; n++) {
            for (int l = 0; l < PLOT_LINES; l++) {
                for (int p = 0; p < 2; p++) {
                    double *value = &panels[p].values[l][n - 1];
                    const double took = microseconds(codes[l / 2], p == 0 ? n : MOST, p == 0 ? 1 : n, 1 - l % 2);
                    *value = i == 0 ? took : least(*value, took);
                }
            }
        }
    }
    printf("\n| microseconds of a call of segrunov |");
    for (int l = 0; l < PLOT_LINES; l++) {
        printf(" %s |", lines[l].name);
    }
    printf("\n|---|---|---|---|---|\n");
    for (int p = 0; p < 2; p++) {
        for (uint32_t n = 1; n <= PLOT_POINTS; n *= 4) {
            printf(p == 0 ? "| S = 1, L = %u |" : "| L = 64, S = %u |", (unsigned)n);
            for (int l = 0; l < PLOT_LINES; l++) {
                printf(" %.2f |", panels[p].values[l][n - 1]);
            }
            printf("\n");
        }
    }
    if (plot(file, "microseconds of a call", lines, panels) != 0) {
        printf("bench: cannot write %s\n", file);
        exit(1);
    }
}

int main(int argc, char **argv)
{
    const int rounds = argc > 2 ? atoi(argv[2]) : 100;
    const int tried = argc > 1 && strcmp(argv[1], "--tried") == 0;
    if (argc < 2 || argc > 3 || rounds < 1 || (argv[1][0] == '-' && !tried)) {
        fprintf(stderr, "usage: bench FILE [ROUNDS], or bench --tried [ROUNDS]\n");
        return 2;
    }
    if (tried) {
        take_shapes();
        check(1);
        measure_shapes(rounds);
        return 0;
    }
    check(CODES);
    measure(rounds);
    growth(argv[1], rounds);
    return 0;
}
