/*
 * The known cells of document 01, writes with other weights, writes on pages of an older release, writes and erases
 * with marked cells, lists of writes, the writes that are certain after an erase, writes in a band, and puts into a
 * block, through include/segrunov.h, as a firmware would call it: refusals in their order, nothing changed by them,
 * guard bytes around every buffer. The exit status is 0 where every check holds.
 *
 * With FREESTANDING it is built with no C library: it brings what the archive needs of one, and ends by the system's exit, on a bare board by
 * semihosting's. Where the processor does not divide 64 bits, the compiler's own library does it (libgcc).
 */
#include "segrunov.h"

/* The longest buffer between guards is for one data more than a list can have. A block of 16 pages of four bytes of data is as long. */
enum { GUARD = 8, PAGE = 36, MAP = 12, DATA = 6, MOST = 64, ROOM = (MOST + 1) * DATA };

static const uint8_t GUARD_BYTE = 0xa5;

/* A buffer between guard bytes. */
struct guarded {
    uint8_t bytes[GUARD + ROOM + GUARD];
};

static unsigned checks;
static unsigned failures;

static void report(const char *what, int holds);

static void check(const char *what, int holds)
{
    checks++;
    if (!holds) {
        failures++;
        report(what, holds);
    }
}

static uint8_t *inside(struct guarded *g)
{
    return g->bytes + GUARD;
}

static void fill(struct guarded *g, const uint8_t *from, size_t n)
{
    size_t i;
    for (i = 0; i < sizeof g->bytes; i++) {
        g->bytes[i] = GUARD_BYTE;
    }
    for (i = 0; i < n; i++) {
        inside(g)[i] = from[i];
    }
}

/* Whether a buffer has these bytes and its guards are whole. */
static int holds(const struct guarded *g, const uint8_t *expected, size_t n)
{
    size_t i;
    for (i = 0; i < sizeof g->bytes; i++) {
        const uint8_t want = i >= GUARD && i < GUARD + n ? expected[i - GUARD] : GUARD_BYTE;
        if (g->bytes[i] != want) {
            return 0;
        }
    }
    return 1;
}

static uint64_t answer(uint32_t number, uint32_t value)
{
    return ((uint64_t)number << 32) + value;
}

/* The answer of a list, in document 02's words: 'the low 32 bits are the summed cost', the number written 'times 2^40, a spent strip times 2^48'. */
static uint64_t list_answer(uint32_t number, uint32_t cost, uint32_t written, uint32_t strip)
{
    return answer(number, cost) + ((uint64_t)written << 40) + ((uint64_t)strip << 48);
}

/* A write: the page and data before, the answer, and the page after. */
struct known_write {
    const char *what;
    uint32_t code;
    uint32_t bytes;
    uint32_t strips;
    uint8_t before[PAGE];
    uint8_t data[DATA];
    uint32_t number;
    uint32_t value;
    uint8_t after[PAGE];
};

static const struct known_write KNOWN_WRITES[] = {
    {"erased, write 00", 3, 1, 1, {0}, {0x00}, 0, 0, {0}},
    {"erased, write 01", 3, 1, 1, {0}, {0x01}, 0, 48, {0x01, 0x03}},
    {"erased, write 40", 3, 1, 1, {0}, {0x40}, 0, 16, {0, 0, 0, 0, 0x10}},
    {"erased, write 80", 3, 1, 1, {0}, {0x80}, 0, 16, {0, 0, 0, 0, 0, 0x20}},
    {"erased, write 80 with code 7", 7, 1, 1, {0}, {0x80}, 0, 16, {0, 0, 0, 0, 0, 0x20}},
    {"full, write fe", 3, 1, 1, {0xff, 0xff, 0xff, 0xff, 0xff, 0xff}, {0xfe}, 0, 0, {0xff, 0xff, 0xff, 0xff, 0xff, 0xff}},
    {"full, write 1e with code 7", 7, 1, 1, {0xff, 0xff, 0xff, 0xff, 0xff, 0xff}, {0x1e}, 0, 0, {0xff, 0xff, 0xff, 0xff, 0xff, 0xff}},
    {"full, write 80", 3, 1, 1, {0xff, 0xff, 0xff, 0xff, 0xff, 0xff}, {0x80}, 7, 0, {0xff, 0xff, 0xff, 0xff, 0xff, 0xff}},
    {"two strips, write 80 40", 3, 1, 2, {0}, {0x80, 0x40}, 0, 32, {0, 0, 0, 0, 0, 0x20, 0, 0, 0, 0, 0x10, 0}},
    {"strip 1 full, write 80 00", 3, 1, 2, {0, 0, 0, 0, 0, 0, 0xff, 0xff, 0xff, 0xff, 0xff, 0xff}, {0x80, 0x00}, 7, 1,
     {0, 0, 0, 0, 0, 0, 0xff, 0xff, 0xff, 0xff, 0xff, 0xff}},
    {"strip 1 full, write 80 fe", 3, 1, 2, {0, 0, 0, 0, 0, 0, 0xff, 0xff, 0xff, 0xff, 0xff, 0xff}, {0x80, 0xfe}, 0, 16,
     {0, 0, 0, 0, 0, 0x20, 0xff, 0xff, 0xff, 0xff, 0xff, 0xff}},
    /*
     * Where L is not S: costs and pages by write_page, the model in tests/run.py. With L and S exchanged, which no length tells, the data costs
     * another amount, the page reads as other data, and another strip is spent.
     */
    {"erased, L = 2, S = 3", 3, 2, 3, {0}, {0x01, 0x23, 0x45, 0x67, 0x89, 0xab}, 0, 256,
     {0x01, 0x20, 0, 0x04, 0x10, 0, 0x40, 0, 0x08, 0, 0, 0, 0x01, 0, 0, 0, 0, 0x11,
      0, 0x40, 0, 0x10, 0, 0, 0x10, 0x02, 0, 0, 0, 0x20, 0, 0, 0x08, 0, 0, 0x40}},
    {"erased, L = 2, S = 3 with code 7", 7, 2, 3, {0}, {0x01, 0x23, 0x45, 0x67, 0x89, 0xab}, 0, 288,
     {0x01, 0x20, 0x40, 0x80, 0, 0, 0x02, 0, 0, 0, 0x20, 0, 0x01, 0, 0x40, 0x04, 0, 0x20,
      0, 0x80, 0x80, 0, 0, 0, 0x10, 0x01, 0x02, 0x80, 0, 0x20, 0, 0, 0, 0, 0, 0x40}},
    {"erased, L = 3, S = 2", 3, 3, 2, {0}, {0x01, 0x23, 0x45, 0x67, 0x89, 0xab}, 0, 240,
     {0x01, 0x20, 0, 0x04, 0x10, 0, 0x40, 0, 0x08, 0, 0, 0, 0x04, 0, 0, 0, 0x40, 0,
      0x10, 0, 0, 0, 0x08, 0x20, 0x40, 0, 0, 0, 0, 0x40, 0, 0, 0x10, 0, 0, 0x80}},
    {"erased, L = 3, S = 2 with code 7", 7, 3, 2, {0}, {0x01, 0x23, 0x45, 0x67, 0x89, 0xab}, 0, 240,
     {0x01, 0x20, 0x40, 0x80, 0, 0, 0x02, 0, 0, 0, 0x20, 0, 0, 0x08, 0, 0, 0x80, 0,
      0x01, 0x01, 0, 0x04, 0, 0, 0x20, 0, 0, 0, 0, 0x02, 0, 0, 0x20, 0, 0x80}},
    {"strip 2 full, L = 2, S = 3", 3, 2, 3,
     {0, 0, 0, 0, 0, 0, 0, 0, 0, 0, 0, 0, 0, 0, 0, 0, 0, 0, 0, 0, 0, 0, 0, 0,
      0xff, 0xff, 0xff, 0xff, 0xff, 0xff, 0xff, 0xff, 0xff, 0xff, 0xff, 0xff},
     {0x01, 0x23, 0x45, 0x67, 0x89, 0xab}, 7, 2,
     {0, 0, 0, 0, 0, 0, 0, 0, 0, 0, 0, 0, 0, 0, 0, 0, 0, 0, 0, 0, 0, 0, 0, 0,
      0xff, 0xff, 0xff, 0xff, 0xff, 0xff, 0xff, 0xff, 0xff, 0xff, 0xff, 0xff}},
    /*
     * Which bit a raise sets, by write_page again. Strips of the same data are alike, since a raise starts by the cell's number in its strip; by its
     * number in the page strip 1 would have other bits. A page of an older release, 41 02 where this one leaves 01 03, reads as it did, keeps its
     * ones and takes other data at the same cost.
     */
    {"strips alike, L = 1, S = 2", 3, 1, 2, {0}, {0x01, 0x01}, 0, 96, {0x01, 0x03, 0, 0, 0, 0, 0x01, 0x03, 0, 0, 0, 0}},
    {"strips alike, L = 2, S = 3 with code 7", 7, 2, 3, {0}, {0x01, 0x23, 0x01, 0x23, 0x01, 0x23}, 0, 288,
     {0x01, 0x20, 0x40, 0x80, 0, 0, 0x02, 0, 0, 0, 0x20, 0,
      0x01, 0x20, 0x40, 0x80, 0, 0, 0x02, 0, 0, 0, 0x20, 0,
      0x01, 0x20, 0x40, 0x80, 0, 0, 0x02, 0, 0, 0, 0x20, 0}},
    {"41 02, write 01", 3, 1, 1, {0x41, 0x02}, {0x01}, 0, 0, {0x41, 0x02}},
    {"01 03, write 01", 3, 1, 1, {0x01, 0x03}, {0x01}, 0, 0, {0x01, 0x03}},
    {"41 02, write 80", 3, 1, 1, {0x41, 0x02}, {0x80}, 0, 68, {0x51, 0x06, 0x04, 0x80}},
    {"01 03, write 80", 3, 1, 1, {0x01, 0x03}, {0x80}, 0, 68, {0x11, 0x07, 0x04, 0x80}},
};

/* Three weights. */
struct weights {
    uint8_t w1;
    uint8_t w2;
    uint8_t w3;
};

static const struct weights HOUSE = {SEGRUNOV_HOUSE_W1, SEGRUNOV_HOUSE_W2, SEGRUNOV_HOUSE_W3};

enum call { PRICE, WRITE };

/* A call on what is in the buffers, with weights where there are some, and with a map where there is one. */
static uint64_t made(enum call call, const struct known_write *k, const struct weights *w, struct guarded *page, struct guarded *map,
                     struct guarded *data)
{
    const size_t page_len = SEGRUNOV_PAGE_BYTES(k->bytes, k->strips);
    const size_t map_len = SEGRUNOV_MAP_BYTES(k->bytes, k->strips);
    const size_t data_len = SEGRUNOV_DATA_BYTES(k->bytes, k->strips);
    uint8_t *const p = inside(page);
    const uint8_t *const d = inside(data);
    if (map != NULL) {
        const uint8_t *const m = inside(map);
        return call == PRICE ? segrunov_price_mapped(k->code, k->bytes, k->strips, w->w1, w->w2, w->w3, p, page_len, m, map_len, d, data_len)
                             : segrunov_write_mapped(k->code, k->bytes, k->strips, w->w1, w->w2, w->w3, p, page_len, m, map_len, d, data_len);
    }
    if (w == NULL) {
        return call == PRICE ? segrunov_price(k->code, k->bytes, k->strips, p, page_len, d, data_len)
                             : segrunov_write(k->code, k->bytes, k->strips, p, page_len, d, data_len);
    }
    return call == PRICE ? segrunov_price_weighted(k->code, k->bytes, k->strips, w->w1, w->w2, w->w3, p, page_len, d, data_len)
                         : segrunov_write_weighted(k->code, k->bytes, k->strips, w->w1, w->w2, w->w3, p, page_len, d, data_len);
}

static const uint8_t NO_MARKS[MAP] = {0};

/* What a list is made with, beside its buffers. */
struct list {
    uint32_t code;
    uint32_t bytes;
    uint32_t strips;
    struct weights weights;
    uint32_t count;
};

/* A list of the datas in the buffer, with a map where there is one. */
static uint64_t listed(const struct list *l, uint8_t *page, const uint8_t *map, const uint8_t *data)
{
    const struct weights *const w = &l->weights;
    const size_t page_len = SEGRUNOV_PAGE_BYTES(l->bytes, l->strips);
    const size_t data_len = SEGRUNOV_LIST_BYTES(l->count, l->bytes, l->strips);
    return map == NULL ? segrunov_write_list(l->code, l->bytes, l->strips, w->w1, w->w2, w->w3, l->count, page, page_len, data, data_len)
                       : segrunov_write_list_mapped(l->code, l->bytes, l->strips, w->w1, w->w2, w->w3, l->count, page, page_len, map,
                                                    SEGRUNOV_MAP_BYTES(l->bytes, l->strips), data, data_len);
}

/* A list of one data is the single write, but for the fields of the answer. */
static void list_of_one(const struct known_write *k, const struct weights *w, const uint8_t *marks)
{
    const struct list l = {k->code, k->bytes, k->strips, *w, 1};
    const size_t page_len = SEGRUNOV_PAGE_BYTES(k->bytes, k->strips);
    const size_t map_len = SEGRUNOV_MAP_BYTES(k->bytes, k->strips);
    const size_t data_len = SEGRUNOV_DATA_BYTES(k->bytes, k->strips);
    const uint64_t expected = k->number == SEGRUNOV_DONE ? list_answer(k->number, k->value, 1, 0) : list_answer(k->number, 0, 0, k->value);
    struct guarded page, map, data;
    fill(&page, k->before, page_len);
    fill(&map, marks == NULL ? NO_MARKS : marks, map_len);
    fill(&data, k->data, data_len);
    check(k->what, listed(&l, inside(&page), marks == NULL ? NULL : inside(&map), inside(&data)) == expected);
    check(k->what, holds(&page, k->after, page_len));
    check(k->what, holds(&map, marks == NULL ? NO_MARKS : marks, map_len));
    check(k->what, holds(&data, k->data, data_len));
}

/* A price, a write and a read. Without marks the calls are those that take no map. */
static void known_write(const struct known_write *k, const struct weights *w, const uint8_t *marks)
{
    const size_t page_len = SEGRUNOV_PAGE_BYTES(k->bytes, k->strips);
    const size_t map_len = SEGRUNOV_MAP_BYTES(k->bytes, k->strips);
    const size_t data_len = SEGRUNOV_DATA_BYTES(k->bytes, k->strips);
    const uint64_t expected = answer(k->number, k->value);
    struct guarded page, map, data, back;
    struct guarded *const map_at = marks == NULL ? NULL : &map;
    fill(&page, k->before, page_len);
    fill(&map, marks == NULL ? NO_MARKS : marks, map_len);
    fill(&data, k->data, data_len);
    check(k->what, made(PRICE, k, w, &page, map_at, &data) == expected);
    check(k->what, holds(&page, k->before, page_len));
    check(k->what, made(WRITE, k, w, &page, map_at, &data) == expected);
    check(k->what, holds(&page, k->after, page_len));
    check(k->what, holds(&map, marks == NULL ? NO_MARKS : marks, map_len));
    check(k->what, holds(&data, k->data, data_len));
    if (k->number == SEGRUNOV_DONE) {
        fill(&back, k->data, 0);
        check(k->what, segrunov_read(k->code, k->bytes, k->strips, inside(&page), page_len, inside(&back), data_len) == 0);
        check(k->what, holds(&back, k->data, data_len));
        check(k->what, holds(&page, k->after, page_len));
    }
    list_of_one(k, w == NULL ? &HOUSE : w, marks);
}

/* Without weights, with the house's, and with a map that marks no cell. */
static void known_writes(void)
{
    size_t i;
    for (i = 0; i < sizeof KNOWN_WRITES / sizeof *KNOWN_WRITES; i++) {
        known_write(&KNOWN_WRITES[i], NULL, NULL);
        known_write(&KNOWN_WRITES[i], &HOUSE, NULL);
        known_write(&KNOWN_WRITES[i], &HOUSE, NO_MARKS);
    }
}

/* The page of L = 2 and S = 3 after the writes 01 23 45 67 89 ab, ba 98 76 54 32 10 and 0f 1e 2d 3c 4b 5a with code 3: cells at every level. */
#define WORN_BYTES \
    0x13, 0x20, 0x02, 0x8c, 0x10, 0x01, 0x68, 0x80, 0x08, 0, 0x01, 0x40, 0x13, 0x02, 0x06, 0x04, 0, 0x11, \
    0x20, 0xc0, 0x88, 0x11, 0, 0, 0x38, 0x06, 0x02, 0x88, 0, 0x20, 0x60, 0x80, 0x08, 0, 0x21, 0x40
#define WORN {WORN_BYTES}

/* A write with weights. */
struct known_weighted {
    struct weights weights;
    struct known_write write;
};

/* The first of these lead to another page than the house's weights do. */
enum { DECIDED = 5 };

/* Costs and pages by write_page, the model in tests/run.py. */
static const struct known_weighted KNOWN_WEIGHTED[] = {
    {{255, 1, 2},
     {"weights 255 1 2", 3, 2, 3, WORN, {0xfe, 0xed, 0xc0, 0xff, 0xee, 0x42}, 0, 1290,
      {0x17, 0x60, 0x02, 0x8c, 0x31, 0x01, 0xe8, 0x80, 0x18, 0x50, 0x01, 0x40, 0x17, 0x02, 0x0e, 0x04, 0x10, 0x15,
       0x20, 0xc0, 0x88, 0x11, 0, 0x02, 0x39, 0x06, 0x02, 0x88, 0x01, 0x20, 0x60, 0x80, 0x88, 0x40, 0x21, 0xc0}}},
    {{1, 255, 2},
     {"weights 1 255 2", 7, 2, 3, WORN, {0xfe, 0xed, 0xc0, 0xff, 0xee, 0x42}, 0, 25,
      {0x17, 0x23, 0x46, 0x8c, 0x10, 0x01, 0x6a, 0x80, 0x88, 0x01, 0x01, 0x44, 0x17, 0x02, 0x46, 0x04, 0x10, 0x31,
       0x62, 0xc0, 0x88, 0x11, 0x01, 0, 0x39, 0x06, 0x02, 0x88, 0x08, 0x21, 0x60, 0x84, 0x88, 0x10, 0x21, 0x42}}},
    {{2, 1, 255},
     {"weights 2 1 255", 3, 2, 3, WORN, {0xfe, 0xed, 0xc0, 0xff, 0xee, 0x42}, 0, 27,
      {0x33, 0x22, 0x42, 0x8c, 0x10, 0x03, 0x68, 0x84, 0x09, 0, 0x03, 0x40, 0x33, 0x86, 0x0e, 0x05, 0, 0x31,
       0x20, 0xc0, 0x88, 0x11, 0, 0x02, 0x39, 0x06, 0x02, 0x88, 0x01, 0x20, 0x60, 0x80, 0x88, 0x40, 0x21, 0xc0}}},
    {{3, 2, 1},
     {"weights 3 2 1", 3, 3, 2, WORN, {0xfe, 0xed, 0xc0, 0xff, 0xee, 0x42}, 0, 32,
      {0x17, 0x60, 0x02, 0x8c, 0x18, 0x01, 0x78, 0xc0, 0x08, 0, 0x03, 0x40, 0x13, 0x0a, 0x06, 0x04, 0x04, 0x11,
       0x20, 0xc0, 0x88, 0x11, 0, 0x01, 0x38, 0x86, 0x82, 0x88, 0, 0x60, 0x68, 0x80, 0x09, 0, 0x21, 0x40}}},
    {{255, 255, 255},
     {"weights 255 255 255", 7, 3, 2, WORN, {0xfe, 0xed, 0xc0, 0xff, 0xee, 0x42}, 0, 3825,
      {0x33, 0x22, 0x06, 0x8c, 0x10, 0x11, 0x78, 0x84, 0x08, 0x40, 0x01, 0x40, 0x13, 0x02, 0x06, 0x24, 0, 0x11,
       0x20, 0xc0, 0xc8, 0x19, 0, 0x10, 0x38, 0x0e, 0x02, 0x88, 0x21, 0x20, 0xe0, 0x80, 0x08, 0, 0x21, 0x40}}},
    {{1, 1, 1}, {"weights 1 1 1, erased, write 01", 3, 1, 1, {0}, {0x01}, 0, 3, {0x01, 0x03}}},
    {{255, 1, 1},
     {"weights 255 1 1, strip 1 full, write 80 00", 3, 1, 2, {0, 0, 0, 0, 0, 0, 0xff, 0xff, 0xff, 0xff, 0xff, 0xff}, {0x80, 0x00}, 7, 1,
      {0, 0, 0, 0, 0, 0, 0xff, 0xff, 0xff, 0xff, 0xff, 0xff}}},
};

static void known_weighted(void)
{
    size_t i;
    for (i = 0; i < sizeof KNOWN_WEIGHTED / sizeof *KNOWN_WEIGHTED; i++) {
        known_write(&KNOWN_WEIGHTED[i].write, &KNOWN_WEIGHTED[i].weights, NULL);
        known_write(&KNOWN_WEIGHTED[i].write, &KNOWN_WEIGHTED[i].weights, NO_MARKS);
    }
    for (i = 0; i < DECIDED; i++) {
        const struct known_write *k = &KNOWN_WEIGHTED[i].write;
        const size_t page_len = SEGRUNOV_PAGE_BYTES(k->bytes, k->strips);
        struct guarded page, data;
        fill(&page, k->before, page_len);
        fill(&data, k->data, SEGRUNOV_DATA_BYTES(k->bytes, k->strips));
        check(k->what, SEGRUNOV_NUMBER(made(WRITE, k, NULL, &page, NULL, &data)) == SEGRUNOV_DONE);
        check(k->what, !holds(&page, k->after, page_len));
    }
}

/* A write with weights and a map. */
struct known_mapped {
    struct weights weights;
    uint8_t map[MAP];
    struct known_write write;
};

/* The first of these lead to another page or answer than without marks. */
enum { MARKS_DECIDE = 20 };

#define HOUSE_WEIGHTS {SEGRUNOV_HOUSE_W1, SEGRUNOV_HOUSE_W2, SEGRUNOV_HOUSE_W3}

/*
 * Cell c of strip k is map bit 16*L*k + c: with L = 1 the cells 8 to 15 of strip 0 are the second byte, cell 15 its highest bit. The first writes are
 * document 01's tie: for the data 80 raising cell 14 costs as much as cell 15, which wins. Costs and pages of the others are by write_page, the model
 * in tests/run.py. The six on a worn page would come out otherwise with the bits of each byte of the map reversed, its bytes exchanged in pairs, the
 * marks of strip 0 for every strip, or L and S exchanged.
 */
static const struct known_mapped KNOWN_MAPPED[] = {
    {HOUSE_WEIGHTS, {0, 0x80}, {"cell 15 marked, write 80", 3, 1, 1, {0}, {0x80}, 0, 16, {0, 0, 0, 0, 0, 0x10}}},
    {HOUSE_WEIGHTS, {0, 0x80}, {"cell 15 marked, write 80 with code 7", 7, 1, 1, {0}, {0x80}, 0, 16, {0, 0, 0, 0, 0, 0x10}}},
    {HOUSE_WEIGHTS, {0, 0xc0}, {"cells 14 and 15 marked, write 80", 3, 1, 1, {0}, {0x80}, 0, 32, {0, 0, 0, 0, 0x10, 0x01}}},
    {HOUSE_WEIGHTS, {0, 0xc0}, {"cells 14 and 15 marked, write 80 with code 7", 7, 1, 1, {0}, {0x80}, 0, 32, {0, 0, 0, 0, 0x10, 0x01}}},
    {HOUSE_WEIGHTS, {0, 0, 0, 0x80},
     {"cell 15 of strip 1 marked, write 80 80", 3, 1, 2, {0}, {0x80, 0x80}, 0, 32, {0, 0, 0, 0, 0, 0x20, 0, 0, 0, 0, 0, 0x10}}},
    {HOUSE_WEIGHTS, {0, 0x80},
     {"cell 15 of strip 0 marked, write 80 80 with code 7", 7, 1, 2, {0}, {0x80, 0x80}, 0, 32, {0, 0, 0, 0, 0, 0x10, 0, 0, 0, 0, 0, 0x20}}},
    /* A marked cell that shows a one where a zero is wanted: its neighbour takes the other one, though the marked cell's next step is cheap. */
    {{255, 1, 1}, {0, 0x80}, {"cell 15 marked at level 1, write 00", 3, 1, 1, {0, 0, 0, 0, 0, 0x20}, {0}, 0, 255, {0, 0, 0, 0, 0, 0x30}}},
    {{255, 1, 1}, {0, 0x80}, {"cell 15 marked at level 1 by its second bit", 7, 1, 1, {0, 0, 0, 0, 0, 0x40}, {0}, 0, 255, {0, 0, 0, 0, 0, 0x50}}},
    {{255, 1, 1}, {0, 0x80}, {"cell 15 marked at level 2, write 80", 3, 1, 1, {0, 0, 0, 0, 0, 0xa0}, {0x80}, 0, 255, {0, 0, 0, 0, 0, 0xb0}}},
    /* Erased, and spent. */
    {HOUSE_WEIGHTS, {0x0f}, {"cells 0 to 3 marked, write 01", 3, 1, 1, {0}, {0x01}, 7, 0, {0}}},
    {HOUSE_WEIGHTS, {0, 0, 0xff, 0xff}, {"every cell of strip 1 marked, write 80 80", 3, 1, 2, {0}, {0x80, 0x80}, 7, 1, {0}}},
    {HOUSE_WEIGHTS, {0, 0, 0, 0, 0x61, 0xe6, 0x0c, 0x13},
     {"spent by marks in strip 1, L = 2, S = 3", 3, 2, 3, {0}, {0x01, 0x23, 0x45, 0x67, 0x89, 0xab}, 7, 1, {0}}},
    {{1, 2, 3}, {0, 0, 0, 0, 0, 0, 0, 0, 0xf9, 0x05, 0xf0, 0xb3},
     {"spent by marks in strip 2, L = 2, S = 3 with code 7", 7, 2, 3, {0}, {0x01, 0x23, 0x45, 0x67, 0x89, 0xab}, 7, 2, {0}}},
    /* Cells at every level, the marked ones too. */
    {HOUSE_WEIGHTS, {0x40, 0x08, 0x81, 0x06, 0, 0x30, 0x01, 0x4a, 0x0c, 0x40, 0x14, 0xc0},
     {"marks, L = 2, S = 3", 3, 2, 3, WORN, {0xfe, 0xed, 0xc0, 0xff, 0xee, 0x42}, 0, 304,
      {0x33, 0x22, 0x42, 0x8c, 0x10, 0x03, 0x68, 0x84, 0x09, 0, 0x03, 0x40, 0x17, 0x02, 0x46, 0x05, 0, 0x31,
       0x20, 0xc0, 0x88, 0x11, 0, 0x02, 0x39, 0x06, 0x02, 0x88, 0x18, 0x20, 0x62, 0x80, 0x09, 0, 0x21, 0x40}}},
    {{1, 255, 2}, {0x10, 0xc8, 0x08, 0x44, 0x0a, 0x20, 0x60, 0x02, 0, 0x40, 0x10, 0},
     {"marks, L = 2, S = 3 with code 7", 7, 2, 3, WORN, {0xfe, 0xed, 0xc0, 0xff, 0xee, 0x42}, 0, 26,
      {0x17, 0x23, 0x46, 0x8c, 0x10, 0x01, 0x6a, 0x80, 0x88, 0x10, 0x23, 0x40, 0x17, 0x02, 0x46, 0x04, 0x10, 0x31,
       0x62, 0xc0, 0x88, 0x11, 0x01, 0, 0x39, 0x06, 0x02, 0x88, 0x08, 0x21, 0x60, 0x84, 0x88, 0x10, 0x21, 0x42}}},
    {{2, 1, 255}, {0x08, 0x40, 0x10, 0, 0x04, 0x02, 0x42, 0x08, 0x12, 0x36, 0x02, 0x01},
     {"marks, L = 3, S = 2", 3, 3, 2, WORN, {0xfe, 0xed, 0xc0, 0xff, 0xee, 0x42}, 0, 25,
      {0x33, 0xa1, 0x02, 0x8c, 0x31, 0x01, 0x68, 0x84, 0x09, 0, 0x03, 0x40, 0x13, 0x0a, 0x06, 0x04, 0x04, 0x11,
       0x20, 0xc0, 0x88, 0x11, 0, 0x01, 0x38, 0x86, 0x82, 0x88, 0, 0x60, 0xe4, 0x90, 0x08, 0, 0x21, 0x40}}},
    {HOUSE_WEIGHTS, {0, 0x80, 0x09, 0xa3, 0x62, 0x50, 0x10, 0, 0xc5, 0xa2, 0x08, 0},
     {"marks, L = 3, S = 2 with code 7", 7, 3, 2, WORN, {0xfe, 0xed, 0xc0, 0xff, 0xee, 0x42}, 0, 292,
      {0x17, 0x60, 0x46, 0x9c, 0x10, 0x01, 0x68, 0x80, 0x08, 0, 0x21, 0x40, 0x13, 0x0a, 0x26, 0x04, 0, 0x11,
       0x20, 0xc0, 0xc8, 0x19, 0, 0x10, 0x38, 0x0e, 0x02, 0x88, 0x21, 0x20, 0xe0, 0x80, 0x08, 0, 0x21, 0x40}}},
    {HOUSE_WEIGHTS, {0, 0, 0, 0, 0xe4, 0xcd, 0x21, 0xa2, 0, 0, 0, 0},
     {"marks in strip 1 alone, L = 2, S = 3", 3, 2, 3, WORN, {0xfe, 0xed, 0xc0, 0xff, 0xee, 0x42}, 0, 388,
      {0x33, 0x22, 0x42, 0x8c, 0x30, 0x11, 0x68, 0x80, 0x08, 0x10, 0x01, 0x44, 0x33, 0x26, 0x06, 0x0c, 0x10, 0x13,
       0x28, 0xd0, 0x88, 0x13, 0, 0x04, 0x39, 0x06, 0x02, 0x88, 0x18, 0x20, 0x62, 0x80, 0x09, 0, 0x21, 0x40}}},
    {{255, 255, 255}, {0, 0, 0, 0, 0, 0, 0x80, 0x24, 0, 0x80, 0x01, 0x02},
     {"marks in strip 1 alone, L = 3, S = 2 with code 7", 7, 3, 2, WORN, {0xfe, 0xed, 0xc0, 0xff, 0xee, 0x42}, 0, 3825,
      {0x33, 0x22, 0x06, 0x8c, 0x10, 0x11, 0x78, 0x84, 0x08, 0x40, 0x01, 0x40, 0x13, 0x02, 0x06, 0x24, 0, 0x11,
       0x20, 0xe0, 0x8a, 0x11, 0, 0x10, 0x38, 0x06, 0x82, 0x88, 0, 0x20, 0x60, 0x88, 0x08, 0x02, 0x21, 0xc0}}},
    /* The second cell of every stage marked: the first ones alone take every data. */
    {HOUSE_WEIGHTS, {0xaa, 0xaa, 0xaa, 0xaa, 0xaa, 0xaa, 0xaa, 0xaa, 0xaa, 0xaa, 0xaa, 0xaa},
     {"every second cell marked, L = 3, S = 2 with code 7", 7, 3, 2, {0}, {0x01, 0x23, 0x45, 0x67, 0x89, 0xab}, 0, 496,
      {0x01, 0x20, 0x04, 0x84, 0x10, 0x10, 0x42, 0, 0, 0x01, 0x21, 0x04, 0x84, 0x10, 0, 0x40, 0x40, 0x08,
       0x01, 0x01, 0, 0x04, 0, 0, 0x42, 0, 0x08, 0x01, 0, 0x04, 0, 0, 0x10, 0x42, 0, 0x08}}},
    /* From here on the marks change nothing: other cells are marked, or what is marked shows what is wanted, and is kept for nothing. */
    {HOUSE_WEIGHTS, {0, 0x40}, {"cell 14 marked, write 80", 3, 1, 1, {0}, {0x80}, 0, 16, {0, 0, 0, 0, 0, 0x20}}},
    {HOUSE_WEIGHTS, {0, 0x30}, {"cells 12 and 13 marked, write 80: the tie goes to cell 15", 3, 1, 1, {0}, {0x80}, 0, 16, {0, 0, 0, 0, 0, 0x20}}},
    {HOUSE_WEIGHTS, {0, 0x20}, {"cell 13 marked, write 80 with code 7", 7, 1, 1, {0}, {0x80}, 0, 16, {0, 0, 0, 0, 0, 0x20}}},
    {HOUSE_WEIGHTS, {0, 0x01}, {"cell 8 marked, write 80", 3, 1, 1, {0}, {0x80}, 0, 16, {0, 0, 0, 0, 0, 0x20}}},
    {HOUSE_WEIGHTS, {0x80, 0}, {"cell 7 marked, write 80", 7, 1, 1, {0}, {0x80}, 0, 16, {0, 0, 0, 0, 0, 0x20}}},
    {HOUSE_WEIGHTS, {0xff, 0xff}, {"every cell marked, write 00", 3, 1, 1, {0}, {0}, 0, 0, {0}}},
    {HOUSE_WEIGHTS, {0, 0x80}, {"cell 15 marked at level 1, write 80", 3, 1, 1, {0, 0, 0, 0, 0, 0x20}, {0x80}, 0, 0, {0, 0, 0, 0, 0, 0x20}}},
    {HOUSE_WEIGHTS, {0, 0x80}, {"cell 15 marked by its third bit, write 80", 7, 1, 1, {0, 0, 0, 0, 0, 0x80}, {0x80}, 0, 0, {0, 0, 0, 0, 0, 0x80}}},
    {HOUSE_WEIGHTS, {0xff, 0xff, 0xff, 0xff},
     {"every cell marked, write of what is held", 3, 1, 2, {0, 0, 0, 0, 0, 0x20, 0xff, 0xff, 0xff, 0xff, 0xff, 0xff}, {0x80, 0xfe}, 0, 0,
      {0, 0, 0, 0, 0, 0x20, 0xff, 0xff, 0xff, 0xff, 0xff, 0xff}}},
    {HOUSE_WEIGHTS, {0xff, 0xff},
     {"every cell of strip 0 marked, write 80 40", 7, 1, 2, {0, 0, 0, 0, 0, 0x20}, {0x80, 0x40}, 0, 16, {0, 0, 0, 0, 0, 0x20, 0, 0, 0, 0, 0x10, 0}}},
    {HOUSE_WEIGHTS, {0xff, 0xff}, {"a full page with every cell marked", 3, 1, 1, {0xff, 0xff, 0xff, 0xff, 0xff, 0xff}, {0x80}, 7, 0,
                                   {0xff, 0xff, 0xff, 0xff, 0xff, 0xff}}},
};

static void known_mapped(void)
{
    size_t i;
    for (i = 0; i < sizeof KNOWN_MAPPED / sizeof *KNOWN_MAPPED; i++) {
        known_write(&KNOWN_MAPPED[i].write, &KNOWN_MAPPED[i].weights, KNOWN_MAPPED[i].map);
    }
    for (i = 0; i < MARKS_DECIDE; i++) {
        const struct known_write *k = &KNOWN_MAPPED[i].write;
        const size_t page_len = SEGRUNOV_PAGE_BYTES(k->bytes, k->strips);
        struct guarded page, map, data;
        fill(&page, k->before, page_len);
        fill(&map, NO_MARKS, SEGRUNOV_MAP_BYTES(k->bytes, k->strips));
        fill(&data, k->data, SEGRUNOV_DATA_BYTES(k->bytes, k->strips));
        check(k->what, SEGRUNOV_NUMBER(made(WRITE, k, &KNOWN_MAPPED[i].weights, &page, &map, &data)) == SEGRUNOV_DONE);
        check(k->what, !holds(&page, k->after, page_len));
    }
}

/* 'with every cell marked at level 0 it takes only zeros' */
static void only_zeros(void)
{
    static const uint8_t erased[6] = {0};
    static const uint8_t marks[2] = {0xff, 0xff};
    static const uint32_t codes[2] = {SEGRUNOV_SHORT, SEGRUNOV_LONG};
    const char *const what = "every cell marked at level 0";
    unsigned c, byte;
    for (c = 0; c < 2; c++) {
        for (byte = 0; byte < 256; byte++) {
            const uint8_t data = (uint8_t)byte;
            const uint64_t expected = answer(byte == 0 ? SEGRUNOV_DONE : SEGRUNOV_SPENT, 0);
            struct guarded page;
            fill(&page, erased, 6);
            check(what, segrunov_price_mapped(codes[c], 1, 1, 16, 20, 28, inside(&page), 6, marks, 2, &data, 1) == expected);
            check(what, segrunov_write_mapped(codes[c], 1, 1, 16, 20, 28, inside(&page), 6, marks, 2, &data, 1) == expected);
            check(what, holds(&page, erased, 6));
        }
    }
}

enum { LEDGER = 8 };

/* Writes one after another with steps of 1, so that a cost is the raises: the answers, and the page after the last. */
struct known_ledger {
    const char *what;
    uint32_t code;
    uint64_t answers[LEDGER];
    uint8_t last[6];
};

static unsigned sum_of_levels(const uint8_t *page)
{
    unsigned sum = 0;
    unsigned k;
    for (k = 0; k < 48; k++) {
        sum += (unsigned)page[k / 8] >> (k % 8) & 1u;
    }
    return sum;
}

/*
 * A page with cell 0 at level 1 and, marked, cell 3 at level 3 and cell 15 at level 2. The erase leaves 5, the sum of the marked cells, and the
 * raises are counted from there, those of a list as those of its writes. Answers and pages by the model in tests/run.py.
 */
static void ledger(void)
{
    static const uint8_t before[6] = {0x01, 0x0e, 0, 0, 0, 0x60};
    static const uint8_t emptied[6] = {0, 0x0e, 0, 0, 0, 0x60};
    static const uint8_t marks[2] = {0x08, 0x80};
    static const uint8_t data[LEDGER] = {0x01, 0x80, 0x33, 0xcc, 0x0f, 0x5a, 0xa5, 0x96};
    static const struct known_ledger KNOWN_LEDGERS[] = {
        {"raises after an erase", 3, {2, 4, 3, 3, 4, 2, (uint64_t)SEGRUNOV_SPENT << 32, 3}, {0x3f, 0xaf, 0xe3, 0xcc, 0x09, 0x61}},
        {"raises after an erase, code 7", 7, {2, 3, 3, 3, 4, 3, (uint64_t)SEGRUNOV_SPENT << 32, 2}, {0x3f, 0xaf, 0x43, 0x1d, 0x30, 0x63}},
    };
    size_t i, j;
    for (i = 0; i < sizeof KNOWN_LEDGERS / sizeof *KNOWN_LEDGERS; i++) {
        const struct known_ledger *k = &KNOWN_LEDGERS[i];
        const struct list l = {k->code, 1, 1, {1, 1, 1}, LEDGER};
        uint32_t raises = 0;
        unsigned levels = 5;
        struct guarded page, map, datas;
        fill(&page, before, 6);
        fill(&map, marks, 2);
        fill(&datas, data, LEDGER);
        check(k->what, segrunov_erase_mapped(1, 1, inside(&page), 6, marks, 2, 200) == 0);
        check(k->what, holds(&page, emptied, 6));
        check(k->what, sum_of_levels(inside(&page)) == levels);
        for (j = 0; j < LEDGER; j++) {
            check(k->what, segrunov_write_mapped(k->code, 1, 1, 1, 1, 1, inside(&page), 6, marks, 2, &data[j], 1) == k->answers[j]);
            levels += SEGRUNOV_VALUE(k->answers[j]);
            check(k->what, sum_of_levels(inside(&page)) == levels);
        }
        check(k->what, holds(&page, k->last, 6));
        check(k->what, segrunov_erase_mapped(1, 1, inside(&page), 6, marks, 2, 200) == 0);
        check(k->what, holds(&page, emptied, 6));
        for (j = 0; SEGRUNOV_NUMBER(k->answers[j]) == SEGRUNOV_DONE; j++) {
            raises += SEGRUNOV_VALUE(k->answers[j]);
        }
        check(k->what, listed(&l, inside(&page), inside(&map), inside(&datas)) == list_answer(SEGRUNOV_SPENT, raises, (uint32_t)j, 0));
        check(k->what, sum_of_levels(inside(&page)) == 5 + raises);
        check(k->what, holds(&map, marks, 2) && holds(&datas, data, LEDGER));
    }
}

enum { RUN = 7 };

/* Seven writes one after another on one page of code 3: two data by turns, and the answers. */
struct known_run {
    const char *what;
    uint8_t before[6];
    uint8_t data[2];
    uint64_t answers[RUN];
};

#define SPENT ((uint64_t)SEGRUNOV_SPENT << 32)

/* The last two start from the same levels, as an older release left them and as this one does: the same answers, by the model in tests/run.py. */
static const struct known_run KNOWN_RUNS[] = {
    {"80, 00, 80, .. from erased", {0}, {0x80, 0x00}, {16, 16, 20, 20, 28, 28, 32}},
    {"02, 01, 02, .. from 41 02", {0x41, 0x02}, {0x02, 0x01}, {56, 68, 80, 92, 116, SPENT, 0}},
    {"02, 01, 02, .. from 01 03", {0x01, 0x03}, {0x02, 0x01}, {56, 68, 80, 92, 116, SPENT, 0}},
};

static void known_runs(void)
{
    size_t i, j;
    for (i = 0; i < sizeof KNOWN_RUNS / sizeof *KNOWN_RUNS; i++) {
        const struct known_run *k = &KNOWN_RUNS[i];
        struct guarded page;
        fill(&page, k->before, 6);
        for (j = 0; j < RUN; j++) {
            check(k->what, segrunov_write(3, 1, 1, inside(&page), 6, &k->data[j % 2], 1) == k->answers[j]);
        }
    }
}

/* ---- lists of writes */

enum { LISTED = 7 };

/* A list, and what single writes in that order leave. */
struct known_list {
    const char *what;
    struct weights weights;
    uint8_t map[MAP];
    uint32_t code;
    uint32_t bytes;
    uint32_t strips;
    uint32_t count;
    uint8_t before[PAGE];
    uint8_t data[LISTED * DATA];
    uint32_t number;
    uint32_t cost;
    uint32_t written;
    uint32_t strip;
    uint8_t after[PAGE];
};

#define FULL {0xff, 0xff, 0xff, 0xff, 0xff, 0xff}
#define SEVEN \
    {0xfe, 0xed, 0xc0, 0xff, 0xee, 0x42, 0xc0, 0xff, 0xee, 0x15, 0x60, 0x0d, 0x5e, 0xed, 0x5e, 0xed, 0x5e, 0xed, 0xfa, 0xca, 0xde, \
     0x0f, 0xf1, 0xce, 0x01, 0x23, 0x45, 0x67, 0x89, 0xab, 0xba, 0x98, 0x76, 0x54, 0x32, 0x10, 0x0f, 0x1e, 0x2d, 0x3c, 0x4b, 0x5a}

/*
 * The first is document 01's run, 16 + 16 + 20 + 20 + 28 + 28 + 32. The others are by write_page, the model in tests/run.py, one data after another.
 * Where a list with L = 1 is spent for another data than its last, a later one would fit: of 02, 01, 02, .. the last
 * costs nothing after the fifth, and a full strip holds fe.
 */
static const struct known_list KNOWN_LISTS[] = {
    {"list 80, 00, 80, .. from erased", HOUSE_WEIGHTS, {0}, 3, 1, 1, 7, {0}, {0x80, 0, 0x80, 0, 0x80, 0, 0x80}, 0, 160, 7, 0,
     {0, 0, 0, 0, 0x10, 0xfd}},
    {"list fe, 80, fe on a full page", HOUSE_WEIGHTS, {0}, 3, 1, 1, 3, FULL, {0xfe, 0x80, 0xfe}, 7, 0, 1, 0, FULL},
    {"list 80, fe on a full page", HOUSE_WEIGHTS, {0}, 3, 1, 1, 2, FULL, {0x80, 0xfe}, 7, 0, 0, 0, FULL},
    {"list fe, fe, fe on a full page", HOUSE_WEIGHTS, {0}, 3, 1, 1, 3, FULL, {0xfe, 0xfe, 0xfe}, 0, 0, 3, 0, FULL},
    {"list 02, 01, 02, .. from 01 03", HOUSE_WEIGHTS, {0}, 3, 1, 1, 7, {0x01, 0x03}, {2, 1, 2, 1, 2, 1, 2}, 7, 412, 5, 0,
     {0xff, 0xff, 0x46, 0x05, 0x30, 0}},
    {"list, strip 1 full", HOUSE_WEIGHTS, {0}, 3, 1, 2, 4, {0, 0, 0, 0, 0, 0, 0xff, 0xff, 0xff, 0xff, 0xff, 0xff},
     {0x80, 0xfe, 0x00, 0xfe, 0x80, 0x00, 0x40, 0xfe}, 7, 32, 2, 1, {0, 0, 0, 0, 0, 0x30, 0xff, 0xff, 0xff, 0xff, 0xff, 0xff}},
    {"list, every cell marked at level 0", HOUSE_WEIGHTS, {0xff, 0xff}, 7, 1, 1, 4, {0}, {0, 0, 0x80, 0}, 7, 0, 2, 0, {0}},
    {"list, every cell of strip 1 marked", HOUSE_WEIGHTS, {0, 0, 0xff, 0xff}, 3, 1, 2, 4, {0}, {0x80, 0, 0x40, 0, 0x80, 0x80, 0x80, 0}, 7, 32, 2, 1,
     {0, 0, 0, 0, 0, 0x21}},
    {"seven from erased, L = 2, S = 3", HOUSE_WEIGHTS, {0}, 3, 2, 3, 7, {0}, SEVEN, 0, 1824, 7, 0,
     {0x31, 0xa7, 0x4f, 0x9c, 0x10, 0x73, 0x2a, 0xcc, 0x8b, 0, 0x03, 0x42, 0x13, 0x0e, 0x42, 0x85, 0x08, 0x35,
      0x22, 0x8c, 0xb8, 0x30, 0xa2, 0x42, 0x31, 0xa7, 0xce, 0x84, 0x18, 0x60, 0x60, 0xc4, 0x03, 0x53, 0x23, 0x40}},
    {"seven from erased, L = 3, S = 2 with code 7", {255, 1, 2}, {0}, 7, 3, 2, 7, {0}, SEVEN, 0, 12844, 7, 0,
     {0x38, 0xff, 0x0e, 0xc4, 0x81, 0x03, 0xc7, 0x7e, 0xb8, 0, 0x70, 0xcc, 0x3d, 0, 0x10, 0x2a, 0x8c, 0x03,
      0xff, 0x61, 0x1e, 0xdc, 0xff, 0x1f, 0xf8, 0x01, 0, 0x40, 0x03, 0xfc, 0, 0x78, 0x1c, 0, 0x8c, 0xa1}},
    {"seven from worn, L = 3, S = 2", {1, 255, 2}, {0}, 3, 3, 2, 7, WORN, SEVEN, 7, 9012, 6, 0,
     {0x3f, 0xef, 0xe7, 0xbd, 0x9e, 0xf3, 0xf8, 0xc4, 0x9b, 0x11, 0xa3, 0x4e, 0x97, 0x13, 0xfe, 0x64, 0x44, 0xb1,
      0x39, 0xe1, 0xe8, 0x95, 0x19, 0x73, 0x3e, 0x4e, 0xea, 0x89, 0x62, 0xe2, 0x64, 0xb8, 0x68, 0x62, 0xad, 0xc8}},
    {"seven from worn, L = 2, S = 3 with code 7", {255, 1, 2}, {0}, 7, 2, 3, 7, WORN, SEVEN, 7, 6757, 6, 0,
     {0x3f, 0xf6, 0x47, 0xff, 0xfb, 0x63, 0xe8, 0xd1, 0x1f, 0x41, 0x21, 0xe0, 0x3f, 0x86, 0x1f, 0x3f, 0x88, 0xff,
      0x2f, 0xd4, 0xff, 0x17, 0x02, 0x42, 0xff, 0xef, 0x43, 0xfd, 0x31, 0xe1, 0xfa, 0x85, 0x1d, 0xc0, 0x71, 0xc2}},
    {"seven from erased with marks, L = 2, S = 3", HOUSE_WEIGHTS,
     {0, 0x80, 0x09, 0xa3, 0x62, 0x50, 0x10, 0, 0xc5, 0xa2, 0x08, 0}, 3, 2, 3, 7, {0}, SEVEN, 7, 1540, 5, 2,
     {0x10, 0x67, 0x02, 0x9c, 0x31, 0x11, 0xe8, 0x50, 0xb8, 0, 0x22, 0x04, 0x01, 0x06, 0, 0x1d, 0x0a, 0x21,
      0x60, 0x0c, 0xa8, 0x11, 0x82, 0x42, 0x10, 0xee, 0x02, 0x85, 0x0b, 0x1c, 0xfe, 0x81, 0xa8, 0x10, 0x62, 0}},
    {"seven from erased with marks, L = 3, S = 2", {255, 1, 2},
     {0x08, 0x40, 0x10, 0, 0x04, 0x02, 0x42, 0x08, 0x12, 0x36, 0x02, 0x01}, 3, 3, 2, 7, {0}, SEVEN, 7, 11790, 5, 1,
     {0xd0, 0xf1, 0x42, 0, 0x0e, 0x61, 0xfa, 0x85, 0x83, 0, 0x06, 0, 0x04, 0x0a, 0, 0x06, 0x8c, 0x83,
      0x01, 0x77, 0xc2, 0x3c, 0x10, 0xf0, 0x47, 0x84, 0xe1, 0x07, 0x0e, 0x0c, 0x87, 0x09, 0x14, 0, 0x74, 0}},
    {"seven from erased with marks, L = 2, S = 3 with code 7", {1, 255, 2},
     {0x10, 0xc8, 0x08, 0x44, 0x0a, 0x20, 0x60, 0x02, 0, 0x40, 0x10, 0}, 7, 2, 3, 7, {0}, SEVEN, 7, 7749, 6, 1,
     {0x39, 0x8f, 0xcf, 0xbc, 0x31, 0x01, 0xe2, 0xd1, 0x89, 0, 0x22, 0xc2, 0xc3, 0xa1, 0x4e, 0xfc, 0x3f, 0x30,
      0x62, 0x50, 0x80, 0x03, 0x23, 0x02, 0x39, 0x63, 0xc6, 0x0c, 0x18, 0x23, 0x6a, 0x8e, 0x88, 0x17, 0xa3, 0x46}},
    {"seven from erased with marks, L = 3, S = 2 with code 7", HOUSE_WEIGHTS,
     {0x08, 0x40, 0x10, 0, 0x04, 0x02, 0x42, 0x08, 0x12, 0x36, 0x02, 0x01}, 7, 3, 2, 7, {0}, SEVEN, 0, 2140, 7, 0,
     {0x7b, 0xf1, 0xdf, 0x98, 0x19, 0, 0xe6, 0x85, 0x08, 0x31, 0x63, 0x46, 0x0d, 0x1a, 0x21, 0x42, 0x54, 0,
      0x43, 0xa7, 0xe2, 0xbd, 0xf1, 0x13, 0xc0, 0x8e, 0xb8, 0x07, 0, 0x44, 0x85, 0x1b, 0x73, 0x60, 0x80, 0xb8}},
    {"seven from worn with marks, L = 3, S = 2", {1, 255, 2},
     {0, 0x80, 0x09, 0xa3, 0x62, 0x50, 0x10, 0, 0xc5, 0xa2, 0x08, 0}, 3, 3, 2, 7, WORN, SEVEN, 7, 6437, 4, 1,
     {0x17, 0x6f, 0x46, 0x9f, 0x3f, 0x1d, 0x78, 0xc0, 0xfd, 0, 0x03, 0x40, 0x93, 0x1a, 0x06, 0x2c, 0x84, 0xb3,
      0x31, 0xc1, 0xc8, 0x91, 0x18, 0x33, 0x38, 0xce, 0x03, 0xcb, 0x23, 0x2c, 0xe4, 0x81, 0xf8, 0x22, 0xa5, 0x48}},
    {"seven from worn with marks, L = 2, S = 3 with code 7", {255, 255, 255},
     {0x10, 0xc8, 0x08, 0x44, 0x0a, 0x20, 0x60, 0x02, 0, 0x40, 0x10, 0}, 7, 2, 3, 7, WORN, SEVEN, 7, 17085, 4, 1,
     {0x33, 0xae, 0x0e, 0x9c, 0x31, 0x03, 0xfe, 0x81, 0xa9, 0x31, 0x21, 0xc0, 0x17, 0x23, 0x0e, 0x07, 0x18, 0x35,
      0x20, 0xf0, 0xa8, 0x17, 0x0e, 0x42, 0x7b, 0x2f, 0x42, 0x8d, 0x19, 0xe3, 0xe0, 0x84, 0x88, 0, 0xa3, 0xc2}},
    {"the first of seven spent by marks in strip 2, L = 2, S = 3", HOUSE_WEIGHTS,
     {0, 0x80, 0x09, 0xa3, 0x62, 0x50, 0x10, 0, 0xc5, 0xa2, 0x08, 0}, 3, 2, 3, 7, WORN, SEVEN, 7, 0, 0, 2,
     {0x13, 0x20, 0x02, 0x8c, 0x10, 0x01, 0x68, 0x80, 0x08, 0, 0x01, 0x40, 0x13, 0x02, 0x06, 0x04, 0, 0x11,
      0x20, 0xc0, 0x88, 0x11, 0, 0, 0x38, 0x06, 0x02, 0x88, 0, 0x20, 0x60, 0x80, 0x08, 0, 0x21, 0x40}},
    /*
     * No write after the certain ones is certain. Each of these fills the first two cells, on which data bit 0 rests
     * alone, and then asks for the other bit 0: the costs are 2 + 2 + 2, 3 + 3 + 3, 32 + 40 + 56 and 32 + 40 + 48 + 56.
     */
    {"list 02, 00, 02, 01 from erased, weights 1 1 1", {1, 1, 1}, {0}, 3, 1, 1, 4, {0}, {0x02, 0, 0x02, 0x01}, 7, 6,
     SEGRUNOV_CERTAIN_WRITES, 0, {0x3f}},
    {"list c2, 00, c2, 01 from erased, weights 1 1 1 with code 7", {1, 1, 1}, {0}, 7, 1, 1, 4, {0},
     {0xc2, 0, 0xc2, 0x01}, 7, 9, SEGRUNOV_CERTAIN_WRITES, 0, {0x3f, 0, 0, 0, 0x0e}},
    {"list 22 00, 00 00, 22 00, 01 00 from erased, L = 2 with code 7", HOUSE_WEIGHTS, {0}, 7, 2, 1, 4, {0},
     {0x22, 0, 0, 0, 0x22, 0, 0x01, 0}, 7, 128, SEGRUNOV_CERTAIN_WRITES, 0, {0x3f}},
    {"list 02, 00, 02, 00, 01 from erased", HOUSE_WEIGHTS, {0}, 3, 1, 1, 5, {0}, {0x02, 0, 0x02, 0, 0x01}, 7, 176,
     SEGRUNOV_CERTAIN_WRITES + 1, 0, {0x3f, 0x21, 0x02}},
};

/* Single writes in that order, and the answer that a list of them is to give. */
static uint64_t one_by_one(const struct list *l, uint8_t *page, const uint8_t *map, const uint8_t *data)
{
    const struct weights *const w = &l->weights;
    const size_t page_len = SEGRUNOV_PAGE_BYTES(l->bytes, l->strips);
    const size_t data_len = SEGRUNOV_DATA_BYTES(l->bytes, l->strips);
    uint32_t cost = 0;
    uint32_t j;
    for (j = 0; j < l->count; j++) {
        const uint8_t *const d = data + j * data_len;
        const uint64_t one = map == NULL ? segrunov_write_weighted(l->code, l->bytes, l->strips, w->w1, w->w2, w->w3, page, page_len, d, data_len)
                                         : segrunov_write_mapped(l->code, l->bytes, l->strips, w->w1, w->w2, w->w3, page, page_len, map,
                                                                 SEGRUNOV_MAP_BYTES(l->bytes, l->strips), d, data_len);
        if (SEGRUNOV_NUMBER(one) != SEGRUNOV_DONE) {
            return list_answer(SEGRUNOV_NUMBER(one), cost, j, SEGRUNOV_VALUE(one));
        }
        cost += SEGRUNOV_VALUE(one);
    }
    return list_answer(SEGRUNOV_DONE, cost, l->count, 0);
}

/* A list on this page: the answer, the page after it, and nothing else is changed. */
static void list_gives(const char *what, const struct list *l, const uint8_t *before, const uint8_t *marks, const uint8_t *datas, uint64_t expected,
                       const uint8_t *after)
{
    const size_t page_len = SEGRUNOV_PAGE_BYTES(l->bytes, l->strips);
    const size_t map_len = SEGRUNOV_MAP_BYTES(l->bytes, l->strips);
    const size_t data_len = SEGRUNOV_LIST_BYTES(l->count, l->bytes, l->strips);
    struct guarded page, map, data;
    fill(&page, before, page_len);
    fill(&map, marks == NULL ? NO_MARKS : marks, map_len);
    fill(&data, datas, data_len);
    check(what, listed(l, inside(&page), marks == NULL ? NULL : inside(&map), inside(&data)) == expected);
    check(what, holds(&page, after, page_len));
    check(what, holds(&map, marks == NULL ? NO_MARKS : marks, map_len));
    check(what, holds(&data, datas, data_len));
}

/* The same list as single writes. */
static void singles_give(const char *what, const struct list *l, const uint8_t *before, const uint8_t *marks, const uint8_t *datas, uint64_t expected,
                         const uint8_t *after)
{
    const size_t page_len = SEGRUNOV_PAGE_BYTES(l->bytes, l->strips);
    struct guarded page;
    fill(&page, before, page_len);
    check(what, one_by_one(l, inside(&page), marks, datas) == expected);
    check(what, holds(&page, after, page_len));
}

static int marks_none(const uint8_t *map)
{
    size_t i;
    for (i = 0; i < MAP; i++) {
        if (map[i] != 0) {
            return 0;
        }
    }
    return 1;
}

/* With the map, and where it marks no cell also without one. */
static void known_lists(void)
{
    size_t i;
    for (i = 0; i < sizeof KNOWN_LISTS / sizeof *KNOWN_LISTS; i++) {
        const struct known_list *k = &KNOWN_LISTS[i];
        const struct list l = {k->code, k->bytes, k->strips, k->weights, k->count};
        const uint64_t expected = list_answer(k->number, k->cost, k->written, k->strip);
        list_gives(k->what, &l, k->before, k->map, k->data, expected, k->after);
        singles_give(k->what, &l, k->before, k->map, k->data, expected, k->after);
        if (marks_none(k->map)) {
            list_gives(k->what, &l, k->before, NULL, k->data, expected, k->after);
            singles_give(k->what, &l, k->before, NULL, k->data, expected, k->after);
        }
        if (k->written > 0) {
            const size_t page_len = SEGRUNOV_PAGE_BYTES(k->bytes, k->strips);
            const size_t data_len = SEGRUNOV_DATA_BYTES(k->bytes, k->strips);
            struct guarded back;
            fill(&back, k->data, 0);
            check(k->what, segrunov_read(k->code, k->bytes, k->strips, k->after, page_len, inside(&back), data_len) == 0);
            check(k->what, holds(&back, k->data + (k->written - 1) * data_len, data_len));
        }
    }
}

/* A list of 64 datas of six bytes, in which each differs from the one before in one bit, and how far it gets. */
struct known_long_list {
    const char *what;
    uint32_t code;
    uint32_t bytes;
    uint32_t strips;
    uint32_t cost;
    uint32_t written;
};

/* By the model in tests/run.py; every one that stops does so in strip 0. */
static const struct known_long_list KNOWN_LONG_LISTS[] = {
    {"64 datas, L = 1, S = 6", 3, 1, 6, 2792, 64},
    {"64 datas, L = 1, S = 6 with code 7", 7, 1, 6, 2912, 64},
    {"64 datas, L = 2, S = 3", 3, 2, 3, 1908, 54},
    {"64 datas, L = 3, S = 2 with code 7", 7, 3, 2, 4732, 49},
    {"64 datas, L = 6, S = 1 with code 7", 7, 6, 1, 3812, 32},
};

/* Each of the long lists from an erased page, and every beginning of it: from 1 to 64 datas. */
static void known_long_lists(void)
{
    static const uint8_t erased[PAGE] = {0};
    uint8_t datas[MOST * DATA];
    size_t i, j, n;
    for (i = 0; i < DATA; i++) {
        datas[i] = i == 0;
    }
    for (i = DATA; i < sizeof datas; i++) {
        j = i / DATA;
        datas[i] = (uint8_t)(datas[i - DATA] ^ (i % DATA == j % DATA ? 1u << (j / DATA % 8) : 0u));
    }
    for (n = 0; n < sizeof KNOWN_LONG_LISTS / sizeof *KNOWN_LONG_LISTS; n++) {
        const struct known_long_list *k = &KNOWN_LONG_LISTS[n];
        struct list l = {k->code, k->bytes, k->strips, HOUSE_WEIGHTS, 1};
        uint64_t expected = 0;
        for (; l.count <= MOST; l.count++) {
            struct guarded page;
            fill(&page, erased, PAGE);
            expected = one_by_one(&l, inside(&page), NULL, datas);
            list_gives(k->what, &l, erased, NULL, datas, expected, inside(&page));
            list_gives(k->what, &l, erased, NO_MARKS, datas, expected, inside(&page));
        }
        check(k->what, expected == list_answer(k->written == MOST ? SEGRUNOV_DONE : SEGRUNOV_SPENT, k->cost, k->written, 0));
    }
}

/* The bytes of the largest page, its cells, and how far apart those of them are that rise with one data. */
enum { LARGE = 6 * MOST * MOST, LARGE_CELLS = 16 * MOST * MOST, STRIDE = 21 };

/*
 * The dearest list that there is: 64 datas for the largest page, from erased, and every cell climbs every step at 255. One cell in 21 rises with each
 * of the first 63 datas: so far apart, no other raises lead to the data as cheaply, but for a strip's last stage, whose two cells serve alike. The
 * last data is the one before it again, and costs nothing.
 */
static void dearest_lists(void)
{
    static const uint32_t codes[2] = {SEGRUNOV_SHORT, SEGRUNOV_LONG};
    static uint8_t page[LARGE], wanted[LARGE], data[MOST * MOST * MOST];
    static uint8_t map[2 * MOST * MOST];
    const char *const what = "64 datas for the largest page, every step at 255";
    const size_t one = SEGRUNOV_DATA_BYTES(MOST, MOST);
    size_t c, i, j;
    for (c = 0; c < 2; c++) {
        const struct list l = {codes[c], MOST, MOST, {255, 255, 255}, MOST};
        const uint64_t expected = list_answer(SEGRUNOV_DONE, SEGRUNOV_MAX_LIST_COST, MOST, 0);
        int with_map;
        for (i = 0; i < LARGE; i++) {
            wanted[i] = 0;
        }
        for (j = 0; j < MOST; j++) {
            for (i = j % STRIDE; j < 3 * STRIDE && i < LARGE_CELLS; i += STRIDE) {
                const size_t bit = 3 * i + j / STRIDE;
                wanted[bit / 8] = (uint8_t)(wanted[bit / 8] | 1u << (bit % 8));
            }
            check(what, segrunov_read(codes[c], MOST, MOST, wanted, LARGE, data + j * one, one) == 0);
        }
        for (with_map = 0; with_map < 2; with_map++) {
            unsigned others = 0;
            for (i = 0; i < LARGE; i++) {
                page[i] = 0;
            }
            check(what, listed(&l, page, with_map ? map : NULL, data) == expected);
            for (i = 0; i < LARGE; i++) {
                others += page[i] != 0xff;
            }
            check(what, others == 0);
        }
    }
}

/* Weights, and what a write costs with them. */
struct known_cost {
    struct weights weights;
    uint32_t cost;
};

/*
 * A write that raises every second cell of the largest page: of each stage one cell is full and the other at level 2, and no other raises lead to
 * what the full page reads as. Three edits in crates/page_promises/must-fail/ are false by these costs. As a price, and as a list of one.
 */
static void dearest_writes(void)
{
    static const struct known_cost KNOWN[] = {{HOUSE_WEIGHTS, 917504}, {{255, 255, 255}, 8355840}, {{1, 1, 255}, 8355840}};
    static const uint32_t codes[2] = {SEGRUNOV_SHORT, SEGRUNOV_LONG};
    static uint8_t page[LARGE], data[MOST * MOST];
    const char *const what = "every second cell of the largest page, from level 2";
    size_t c, i, n;
    for (c = 0; c < 2; c++) {
        for (n = 0; n < sizeof KNOWN / sizeof *KNOWN; n++) {
            const struct list l = {codes[c], MOST, MOST, KNOWN[n].weights, 1};
            const struct weights *const w = &l.weights;
            unsigned others = 0;
            for (i = 0; i < LARGE; i++) {
                page[i] = 0xff;
            }
            check(what, segrunov_read(codes[c], MOST, MOST, page, LARGE, data, sizeof data) == 0);
            for (i = 5; i < 8 * (size_t)LARGE; i += 6) {
                page[i / 8] = (uint8_t)(page[i / 8] & ~(1u << (i % 8)));
            }
            check(what, segrunov_price_weighted(codes[c], MOST, MOST, w->w1, w->w2, w->w3, page, LARGE, data, sizeof data) == KNOWN[n].cost);
            check(what, listed(&l, page, NULL, data) == list_answer(SEGRUNOV_DONE, KNOWN[n].cost, 1, 0));
            for (i = 0; i < LARGE; i++) {
                others += page[i] != 0xff;
            }
            check(what, others == 0);
        }
    }
}

/* A start that catches up: a list; where it stops, an erase, and the list goes on behind what is written. Beside it single writes with an erase
 * before each data that does not fit. */
static void catching_up(void)
{
    static const struct list KNOWN[] = {{3, 2, 3, {1, 2, 3}, MOST}, {7, 3, 2, HOUSE_WEIGHTS, MOST}, {7, 1, 1, {255, 1, 1}, MOST}};
    static const uint8_t erased[PAGE] = {0};
    const char *const what = "a list that goes on after an erase";
    uint8_t datas[MOST * DATA];
    uint32_t seed = 20261116;
    size_t i;
    for (i = 0; i < sizeof datas; i++) {
        seed = seed * 1664525u + 1013904223u;
        datas[i] = (uint8_t)(seed >> 24);
    }
    for (i = 0; i < sizeof KNOWN / sizeof *KNOWN; i++) {
        const uint32_t bytes = KNOWN[i].bytes, strips = KNOWN[i].strips;
        const size_t page_len = SEGRUNOV_PAGE_BYTES(bytes, strips);
        const size_t one = SEGRUNOV_DATA_BYTES(bytes, strips);
        struct list rest = KNOWN[i], single = KNOWN[i];
        const uint8_t *at = datas;
        uint32_t cost = 0, single_cost = 0;
        unsigned erases = 0, single_erases = 0;
        struct guarded page, beside;
        size_t j;
        fill(&page, erased, page_len);
        fill(&beside, erased, page_len);
        while (rest.count > 0 && erases < MOST) {
            const uint64_t got = listed(&rest, inside(&page), NULL, at);
            cost += SEGRUNOV_VALUE(got);
            at += SEGRUNOV_WRITTEN(got) * one;
            rest.count -= SEGRUNOV_WRITTEN(got);
            check(what, SEGRUNOV_NUMBER(got) == (rest.count == 0 ? SEGRUNOV_DONE : SEGRUNOV_SPENT));
            if (rest.count > 0) {
                check(what, segrunov_erase(bytes, strips, inside(&page), page_len, 200) == 0);
                erases++;
            }
        }
        single.count = 1;
        for (j = 0; j < MOST; j++) {
            uint64_t got = one_by_one(&single, inside(&beside), NULL, datas + j * one);
            if (SEGRUNOV_NUMBER(got) == SEGRUNOV_SPENT) {
                check(what, segrunov_erase(bytes, strips, inside(&beside), page_len, 200) == 0);
                single_erases++;
                got = one_by_one(&single, inside(&beside), NULL, datas + j * one);
            }
            single_cost += SEGRUNOV_VALUE(got);
        }
        check(what, erases > 0 && erases == single_erases && cost == single_cost);
        check(what, holds(&page, inside(&beside), page_len));
        check(what, at == datas + MOST * one);
    }
}

/* ---- writes that are certain after an erase */

/* The house's, and 1 and 255 in every place: the bound of a write goes by the greatest of the weights so far. */
static const struct weights CERTAIN_WEIGHTS[] = {{1, 1, 1},   HOUSE_WEIGHTS, {255, 255, 255},
                                                 {255, 1, 1}, {1, 255, 1},   {1, 1, 255}};

/* The datas of three writes: a first one, its complement, and it again; or bytes that count on. */
enum { ONES, ALTERNATING, COUNTING, COUNTING_ON, CERTAIN_DATAS };

/* Byte i of the nth data, from 0 on. */
static uint8_t certain_byte(unsigned kind, size_t nth, size_t data_len, size_t i)
{
    uint8_t first;
    switch (kind) {
    case ONES:
        first = 0xff;
        break;
    case ALTERNATING:
        first = i % 2 == 0 ? 0xaa : 0x55;
        break;
    case COUNTING:
        first = (uint8_t)(i + 1);
        break;
    default:
        return (uint8_t)(nth * data_len + i + 1);
    }
    return nth % 2 == 0 ? first : (uint8_t)~first;
}

/* Single writes of these datas after an erase of a worn page are done, each within its bound; so is a list of them. */
static void certain_writes(const struct list *l, const uint8_t *map, const uint8_t *datas)
{
    static const uint8_t worn[PAGE] = WORN;
    static const uint8_t erased[PAGE] = {0};
    const char *const what = "the first writes after an erase";
    const uint8_t weights[SEGRUNOV_CERTAIN_WRITES] = {l->weights.w1, l->weights.w2, l->weights.w3};
    const size_t page_len = SEGRUNOV_PAGE_BYTES(l->bytes, l->strips);
    const size_t data_len = SEGRUNOV_DATA_BYTES(l->bytes, l->strips);
    struct list single = *l;
    uint32_t greatest = 0, cost = 0, nth;
    struct guarded page;
    single.count = 1;
    fill(&page, worn, page_len);
    check(what, segrunov_erase(l->bytes, l->strips, inside(&page), page_len, 200) == 0);
    for (nth = 0; nth < l->count; nth++) {
        const uint64_t one = one_by_one(&single, inside(&page), map, datas + nth * data_len);
        greatest = weights[nth] > greatest ? weights[nth] : greatest;
        check(what, SEGRUNOV_NUMBER(one) == SEGRUNOV_DONE);
        check(what, SEGRUNOV_VALUE(one) <= SEGRUNOV_CERTAIN_COST(greatest, l->bytes, l->strips));
        cost += SEGRUNOV_VALUE(one);
    }
    list_gives(what, l, erased, map, datas, list_answer(SEGRUNOV_DONE, cost, l->count, 0), inside(&page));
}

/* Without a map, and with one that marks no cell. */
static void certain_lists(const struct list *l)
{
    const size_t data_len = SEGRUNOV_DATA_BYTES(l->bytes, l->strips);
    uint8_t datas[SEGRUNOV_CERTAIN_WRITES * DATA];
    unsigned kind;
    size_t i;
    for (kind = ONES; kind < CERTAIN_DATAS; kind++) {
        for (i = 0; i < l->count * data_len; i++) {
            datas[i] = certain_byte(kind, i / data_len, data_len, i % data_len);
        }
        certain_writes(l, NULL, datas);
        certain_writes(l, NO_MARKS, datas);
    }
}

/* The least answer to the 128 datas with this bit 0, and a data that has it. A 7 is above every cost, so that it is the
 * least only where all of them are spent. */
static uint64_t cheapest(uint32_t code, const struct weights *w, const uint8_t *page, unsigned bit, uint8_t *data)
{
    uint64_t least = UINT64_MAX;
    unsigned byte;
    for (byte = bit; byte < 256; byte += 2) {
        const uint8_t other = (uint8_t)byte;
        const uint64_t price = segrunov_price_weighted(code, 1, 1, w->w1, w->w2, w->w3, page, 6, &other, 1);
        if (price < least) {
            least = price;
            *data = other;
        }
    }
    return least;
}

/*
 * Data bit 0 is the sum of the first two cells alone, so that a change of it needs a raise of one of them. The cheapest
 * data raises that one by a step, and no other cell: after six changes both are full.
 */
static void first_bit_changes(uint32_t code, const struct weights *w)
{
    static const uint8_t erased[6] = {0};
    static const uint8_t both_full[6] = {0x3f};
    const char *const what = "changes of data bit 0";
    uint32_t cost = 0, changes;
    uint8_t data = 0;
    struct guarded page;
    fill(&page, erased, 6);
    for (changes = 0; changes < SEGRUNOV_FIRST_BIT_CHANGES; changes++) {
        const uint64_t price = cheapest(code, w, inside(&page), (changes + 1) % 2, &data);
        check(what, SEGRUNOV_NUMBER(price) == SEGRUNOV_DONE);
        check(what, segrunov_write_weighted(code, 1, 1, w->w1, w->w2, w->w3, inside(&page), 6, &data, 1) == price);
        cost += SEGRUNOV_VALUE(price);
    }
    check(what, cost == 2u * w->w1 + 2u * w->w2 + 2u * w->w3);
    check(what, holds(&page, both_full, 6));
    check(what, cheapest(code, w, inside(&page), (changes + 1) % 2, &data) == SPENT);
}

/* With both codes, every L and S that the buffers have room for. */
static void certain(void)
{
    static const uint32_t codes[2] = {SEGRUNOV_SHORT, SEGRUNOV_LONG};
    uint32_t bytes, strips;
    size_t c, i;
    for (c = 0; c < 2; c++) {
        for (i = 0; i < sizeof CERTAIN_WEIGHTS / sizeof *CERTAIN_WEIGHTS; i++) {
            for (bytes = 1; bytes <= DATA; bytes++) {
                for (strips = 1; bytes * strips <= DATA; strips++) {
                    const struct list l = {codes[c], bytes, strips, CERTAIN_WEIGHTS[i], SEGRUNOV_CERTAIN_WRITES};
                    certain_lists(&l);
                }
            }
            first_bit_changes(codes[c], &CERTAIN_WEIGHTS[i]);
        }
    }
}

/* ---- writes in a band */

/* The bytes of the page, and its L and S. */
enum { BAND_PAGE = 12, BAND_DATA = 2, BAND_STRIP = 1 };

/* A write in a band: what is given, the page before, the answer, the value stored, and the page after. */
struct known_band {
    const char *what;
    uint32_t code;
    uint16_t value;
    uint32_t band;
    uint8_t before[BAND_PAGE];
    uint32_t number;
    uint32_t cost;
    uint16_t stored; /* where it is done */
    uint8_t after[BAND_PAGE];
};

/*
 * The worn page is what the writes 0123, 4567, 89ab, ba98, 7654, 3210, 0f1e and 2d3c leave with code 7, and the nearly
 * spent one what 4b5a, 8796 and 0f1e leave after these. In the last one a cell of each stage is full and the other at
 * level 2.
 */
#define WORN_PAGE {0xf3, 0xef, 0xc6, 0x04, 0, 0x31, 0x7a, 0x84, 0x88, 0x51, 0x01, 0xc6}
#define NEARLY_SPENT {0xff, 0xff, 0xe7, 0x9d, 0, 0x35, 0xfe, 0xcc, 0x88, 0x73, 0x23, 0xc6}
#define FULL_PAGE {0xff, 0xff, 0xff, 0xff, 0xff, 0xff, 0xff, 0xff, 0xff, 0xff, 0xff, 0xff}
#define STEEP {0xdf, 0xf7, 0x7d, 0xdf, 0xf7, 0x7d, 0xdf, 0xf7, 0x7d, 0xdf, 0xf7, 0x7d}

/* By write_page, the model in tests/run.py, of every value of the band: the least by the cost, then by the distance, then by the value. */
static const struct known_band KNOWN_BANDS[] = {
    /* On an erased page; its zeros are held, and cost nothing. */
    {"erased, 0 in a band of 0", 3, 0, 0, {0}, 0, 0, 0, {0}},
    {"erased, 8 in a band of 8", 7, 8, 8, {0}, 0, 0, 0, {0}},
    {"erased, 8 in a band of 7", 3, 8, 7, {0}, 0, 16, 7, {0x10}},
    /* In a band of 0 a value is a plain write: of the tie of the last two cells the second wins. The low byte goes first. */
    {"erased, 8000 in a band of 0", 3, 0x8000, 0, {0}, 0, 16, 32768, {0, 0, 0, 0, 0, 0, 0, 0, 0, 0, 0, 0x40}},
    {"erased, 8000 in a band of 0 with code 7", 7, 0x8000, 0, {0}, 0, 16, 32768, {0, 0, 0, 0, 0, 0, 0, 0, 0, 0, 0, 0x40}},
    {"erased, 0001 in a band of 0", 3, 0x0001, 0, {0}, 0, 48, 1, {0x01, 0x03}},
    {"erased, 0100 in a band of 0", 3, 0x0100, 0, {0}, 0, 32, 256, {0, 0, 0, 0, 0, 0x30}},
    {"erased, 0001 in a band of 0 with code 7", 7, 0x0001, 0, {0}, 0, 96, 1, {0x10, 0x02, 0, 0x04, 0, 0, 0, 0x04, 0x80, 0, 0x02}},
    {"erased, 0100 in a band of 0 with code 7", 7, 0x0100, 0, {0}, 0, 48, 256, {0, 0, 0, 0, 0, 0, 0x20, 0x04, 0, 0x01}},
    /* 5 and 7 cost the same, and 6 costs more: the lower of the two. */
    {"erased, 6 in a band of 1", 3, 6, 1, {0}, 0, 16, 5, {0x01}},
    {"erased, 6 in a band of 1 with code 7", 7, 6, 1, {0}, 0, 80, 5, {0x01, 0, 0x04, 0, 0, 0, 0x02, 0x04, 0, 0x10}},
    /* The band ends at 65,535: 0 would cost nothing. */
    {"erased, 65535 in a band of 8", 3, 65535, 8, {0}, 0, 80, 65534, {0, 0x02, 0, 0x08, 0, 0x20, 0, 0x80, 0, 0, 0x02}},
    {"erased, 65535 in a band of 8 with code 7", 7, 65535, 8, {0}, 0, 48, 65528, {0, 0, 0x40, 0, 0, 0x20, 0x40}},
    /* A cheaper value, across the border of the two bytes, downwards and upwards. */
    {"worn, 256 in a band of 0", 3, 256, 0, WORN_PAGE, 0, 104, 256, {0xf3, 0xff, 0xce, 0x04, 0, 0x71, 0x7a, 0x84, 0x98, 0x51, 0x21, 0xc6}},
    {"worn, 256 in a band of 4", 3, 256, 4, WORN_PAGE, 0, 76, 252, {0xf3, 0xef, 0xc6, 0x04, 0, 0x73, 0x7a, 0x84, 0x98, 0x51, 0x21, 0xc6}},
    {"worn, 256 in a band of 4 with code 7", 7, 256, 4, WORN_PAGE, 0, 36, 252,
     {0xf3, 0xef, 0xc6, 0x04, 0x10, 0x35, 0x7a, 0x84, 0x88, 0x51, 0x01, 0xc6}},
    {"worn, 255 in a band of 1", 3, 255, 1, WORN_PAGE, 0, 104, 256, {0xf3, 0xff, 0xce, 0x04, 0, 0x71, 0x7a, 0x84, 0x98, 0x51, 0x21, 0xc6}},
    {"worn, 255 in a band of 1 with code 7", 7, 255, 1, WORN_PAGE, 0, 64, 256, {0xf3, 0xef, 0xc7, 0x04, 0, 0x31, 0x7e, 0x84, 0x88, 0x51, 0x21, 0xc6}},
    /* The nearest of those that cost the same. The farther one is the lower, then the higher; then the value itself costs as much. */
    {"worn, 57093 in a band of 5: 57088 costs the same as 57096", 3, 57093, 5, WORN_PAGE, 0, 100, 57096,
     {0xf3, 0xff, 0xc6, 0x84, 0, 0x31, 0x7e, 0x84, 0x88, 0x53, 0x03, 0xc6}},
    {"worn, 3 in a band of 3 with code 7: 0 costs the same as 4", 7, 3, 3, WORN_PAGE, 0, 80, 4,
     {0xf3, 0xef, 0xe6, 0x04, 0x10, 0x31, 0x7a, 0xc4, 0x88, 0x51, 0x01, 0xce}},
    {"worn, 65527 in a band of 4: 65531 costs the same as 65529", 3, 65527, 4, WORN_PAGE, 0, 80, 65529,
     {0xf7, 0xef, 0xc6, 0x04, 0x10, 0x31, 0x7a, 0xc4, 0x88, 0x51, 0x01, 0xce}},
    {"worn, 1 in a band of 3 with code 7: 4 costs the same as 0", 7, 1, 3, WORN_PAGE, 0, 80, 0,
     {0xf3, 0xef, 0xc7, 0x04, 0, 0x31, 0x7a, 0xc4, 0xa8, 0x51, 0x03, 0xc6}},
    {"worn, 254 in a band of 1: 253 and 255 cost the same", 3, 254, 1, WORN_PAGE, 0, 132, 254,
     {0xff, 0xef, 0xc6, 0x04, 0, 0x73, 0x7a, 0x84, 0x98, 0x51, 0x21, 0xc6}},
    {"worn, 4 in a band of 4 with code 7: 0 costs the same", 7, 4, 4, WORN_PAGE, 0, 80, 4,
     {0xf3, 0xef, 0xe6, 0x04, 0x10, 0x31, 0x7a, 0xc4, 0x88, 0x51, 0x01, 0xce}},
    /* The lower of those that are as near. */
    {"worn, 2 in a band of 1: 1 and 3 cost the same", 3, 2, 1, WORN_PAGE, 0, 112, 1,
     {0xf7, 0xef, 0xe6, 0x04, 0, 0x35, 0x7a, 0x84, 0x98, 0x51, 0x21, 0xc6}},
    {"worn, 2 in a band of 2 with code 7: 0 and 4 cost the same", 7, 2, 2, WORN_PAGE, 0, 80, 0,
     {0xf3, 0xef, 0xc7, 0x04, 0, 0x31, 0x7a, 0xc4, 0xa8, 0x51, 0x03, 0xc6}},
    /* The cheapest is as far away as the widest band allows, on either side; a narrower band does not have it. */
    {"worn, 10788 in a band of 8", 3, 10788, 8, WORN_PAGE, 0, 32, 10780, {0xf3, 0xef, 0xc6, 0x84, 0, 0x31, 0x7a, 0x84, 0x88, 0x51, 0x21, 0xc6}},
    {"worn, 10788 in a band of 7", 3, 10788, 7, WORN_PAGE, 0, 60, 10788, {0xf3, 0xef, 0xe6, 0x84, 0, 0x31, 0x7a, 0x84, 0x88, 0x51, 0x21, 0xc6}},
    {"worn, 10388 in a band of 8", 3, 10388, 8, WORN_PAGE, 0, 52, 10396, {0xf3, 0xef, 0xc6, 0x84, 0, 0x35, 0x7a, 0x84, 0x88, 0x51, 0x21, 0xc6}},
    {"worn, 29028 in a band of 8 with code 7", 7, 29028, 8, WORN_PAGE, 0, 72, 29020,
     {0xf3, 0xef, 0xc6, 0x84, 0x10, 0x71, 0x7e, 0x84, 0x88, 0x51, 0x01, 0xc6}},
    {"worn, 29028 in a band of 7 with code 7", 7, 29028, 7, WORN_PAGE, 0, 76, 29032,
     {0xf3, 0xff, 0xc6, 0x04, 0x08, 0x31, 0x7a, 0xc4, 0x88, 0x51, 0x03, 0xc6}},
    {"worn, 4 in a band of 8 with code 7", 7, 4, 8, WORN_PAGE, 0, 72, 12, {0xf3, 0xef, 0xc6, 0x0c, 0, 0x33, 0xfa, 0x84, 0x88, 0x51, 0x03, 0xc6}},
    /* Beyond 0 and beyond 65,535 there would be cheaper ones. */
    {"worn, 0 in a band of 8", 3, 0, 8, WORN_PAGE, 0, 84, 4, {0xf3, 0xef, 0xe6, 0x04, 0, 0x35, 0x7a, 0x84, 0x98, 0x51, 0x21, 0xc6}},
    {"worn, 0 in a band of 8 with code 7", 7, 0, 8, WORN_PAGE, 0, 80, 0, {0xf3, 0xef, 0xc7, 0x04, 0, 0x31, 0x7a, 0xc4, 0xa8, 0x51, 0x03, 0xc6}},
    {"worn, 65535 in a band of 2", 3, 65535, 2, WORN_PAGE, 0, 108, 65534, {0xff, 0xef, 0xc6, 0x04, 0x10, 0x31, 0x7a, 0xc4, 0x88, 0x51, 0x01, 0xce}},
    {"worn, 65535 in a band of 2 with code 7", 7, 65535, 2, WORN_PAGE, 0, 124, 65535,
     {0xfb, 0xef, 0xc7, 0x0c, 0x10, 0x31, 0x7a, 0xc4, 0xa8, 0x51, 0x01, 0xc6}},
    /* Spent for the value itself: first for its neighbours too, then another is stored, then a cheaper one that is farther away. */
    {"nearly spent, 63900 in a band of 1", 3, 63900, 1, NEARLY_SPENT, 7, 0, 0, NEARLY_SPENT},
    {"nearly spent, 63900 in a band of 2", 3, 63900, 2, NEARLY_SPENT, 0, 68, 63902,
     {0xff, 0xff, 0xe7, 0x9d, 0x01, 0x37, 0xff, 0xcc, 0x88, 0x73, 0x23, 0xc6}},
    {"nearly spent, 63900 in a band of 6", 3, 63900, 6, NEARLY_SPENT, 0, 64, 63894,
     {0xff, 0xff, 0xef, 0x9d, 0x10, 0x35, 0xff, 0xcc, 0x88, 0x73, 0x23, 0xc6}},
    {"nearly spent, 42260 in a band of 1 with code 7", 7, 42260, 1, NEARLY_SPENT, 7, 0, 0, NEARLY_SPENT},
    {"nearly spent, 42260 in a band of 2 with code 7", 7, 42260, 2, NEARLY_SPENT, 0, 112, 42262,
     {0xff, 0xff, 0xef, 0x9d, 0x18, 0x37, 0xfe, 0xcc, 0x98, 0x73, 0xa3, 0xc6}},
    {"nearly spent, 42260 in a band of 6 with code 7", 7, 42260, 6, NEARLY_SPENT, 0, 104, 42254,
     {0xff, 0xff, 0xe7, 0xbd, 0x11, 0x35, 0xfe, 0xcc, 0xa8, 0x73, 0xa3, 0xc6}},
    /* Few values are left, and the two at the ends of the band cost the same. */
    {"nearly spent, 58118 in a band of 7", 3, 58118, 7, NEARLY_SPENT, 0, 96, 58118,
     {0xff, 0xff, 0xef, 0x9f, 0, 0x3d, 0xfe, 0xcc, 0x89, 0x73, 0x23, 0xc6}},
    {"nearly spent, 58118 in a band of 8", 3, 58118, 8, NEARLY_SPENT, 0, 76, 58110,
     {0xff, 0xff, 0xe7, 0x9d, 0, 0x35, 0xff, 0xde, 0x88, 0x73, 0x23, 0xc6}},
    {"nearly spent, 63030 in a band of 7 with code 7", 7, 63030, 7, NEARLY_SPENT, 0, 112, 63030,
     {0xff, 0xff, 0xef, 0x9d, 0x10, 0x7d, 0xfe, 0xcc, 0x88, 0x7b, 0x23, 0xc6}},
    {"nearly spent, 63030 in a band of 8 with code 7", 7, 63030, 8, NEARLY_SPENT, 0, 92, 63022,
     {0xff, 0xff, 0xe7, 0x9f, 0x08, 0x35, 0xfe, 0xce, 0x98, 0x73, 0x23, 0xc6}},
    /* A full page takes what it holds, 65,534 with code 3 and 30 with code 7, and nothing else: 0 is not two away from 65,534. */
    {"full, 65526 in a band of 8", 3, 65526, 8, FULL_PAGE, 0, 0, 65534, FULL_PAGE},
    {"full, 65525 in a band of 8", 3, 65525, 8, FULL_PAGE, 7, 0, 0, FULL_PAGE},
    {"full, 65535 in a band of 1", 3, 65535, 1, FULL_PAGE, 0, 0, 65534, FULL_PAGE},
    {"full, 65535 in a band of 0", 3, 65535, 0, FULL_PAGE, 7, 0, 0, FULL_PAGE},
    {"full, 0 in a band of 8", 3, 0, 8, FULL_PAGE, 7, 0, 0, FULL_PAGE},
    {"full, 22 in a band of 8 with code 7", 7, 22, 8, FULL_PAGE, 0, 0, 30, FULL_PAGE},
    {"full, 21 in a band of 8 with code 7", 7, 21, 8, FULL_PAGE, 7, 0, 0, FULL_PAGE},
    {"full, 38 in a band of 8 with code 7", 7, 38, 8, FULL_PAGE, 0, 0, 30, FULL_PAGE},
    {"full, 39 in a band of 8 with code 7", 7, 39, 8, FULL_PAGE, 7, 0, 0, FULL_PAGE},
    /* Sixteen cells rise from level 2, one in each stage. */
    {"every second cell from level 2", 3, 65534, 0, STEEP, 0, 448, 65534, FULL_PAGE},
    {"every second cell from level 2 with code 7", 7, 30, 0, STEEP, 0, 448, 30, FULL_PAGE},
};

static void low_byte_first(uint16_t value, uint8_t *data)
{
    data[0] = (uint8_t)(value & 0xffu);
    data[1] = (uint8_t)(value >> 8);
}

/* A write in a band on this page: the answer, and the page after it. */
static void band_gives(const char *what, uint32_t code, const uint8_t *before, uint16_t value, uint32_t band, uint64_t expected, const uint8_t *after)
{
    struct guarded page;
    fill(&page, before, BAND_PAGE);
    check(what, segrunov_write_band(code, inside(&page), BAND_PAGE, value, band) == expected);
    check(what, holds(&page, after, BAND_PAGE));
    check(what, SEGRUNOV_VALUE(expected) <= SEGRUNOV_MAX_BAND_COST);
}

/* What a plain write of a value leaves of this page. */
static uint64_t plain(uint32_t code, const uint8_t *before, uint16_t value, struct guarded *page)
{
    uint8_t data[BAND_DATA];
    fill(page, before, BAND_PAGE);
    low_byte_first(value, data);
    return segrunov_write(code, BAND_DATA, BAND_STRIP, inside(page), BAND_PAGE, data, BAND_DATA);
}

/* Where it is done, the page reads as the value stored, the low byte first, and a plain write of this one is the same. */
static void known_bands(void)
{
    size_t i;
    for (i = 0; i < sizeof KNOWN_BANDS / sizeof *KNOWN_BANDS; i++) {
        const struct known_band *k = &KNOWN_BANDS[i];
        band_gives(k->what, k->code, k->before, k->value, k->band, answer(k->number, k->cost), k->after);
        if (k->number == SEGRUNOV_DONE) {
            const uint32_t away = k->value < k->stored ? (uint32_t)k->stored - k->value : (uint32_t)k->value - k->stored;
            uint8_t data[BAND_DATA];
            struct guarded page, back;
            low_byte_first(k->stored, data);
            fill(&back, data, 0);
            check(k->what, segrunov_read(k->code, BAND_DATA, BAND_STRIP, k->after, BAND_PAGE, inside(&back), BAND_DATA) == 0);
            check(k->what, holds(&back, data, BAND_DATA));
            check(k->what, away <= k->band);
            check(k->what, plain(k->code, k->before, k->stored, &page) == k->cost);
            check(k->what, holds(&page, k->after, BAND_PAGE));
        }
    }
}

/* The value for the one found so far, where its price is less. */
static void cheaper(uint32_t code, const uint8_t *page, uint16_t value, uint64_t *least, uint16_t *stored)
{
    uint8_t data[BAND_DATA];
    uint64_t price;
    low_byte_first(value, data);
    price = segrunov_price(code, BAND_DATA, BAND_STRIP, page, BAND_PAGE, data, BAND_DATA);
    if (price < *least) {
        *least = price;
        *stored = value;
    }
}

/*
 * Each band from 0 to the widest on this page, beside single prices. A wider one has two values more at most, and takes them only where they are
 * cheaper, the lower before the higher: so it never costs more. A 7 is above every cost, and is the least only where all of them are spent. The band
 * 0 is the plain write. Gives the page that the asked one of the bands leaves, and its answer.
 */
static uint64_t bands_by_prices(const char *what, uint32_t code, const uint8_t *before, uint16_t value, uint32_t asked, uint8_t *after)
{
    uint64_t least = UINT64_MAX, given = 0;
    uint16_t stored = value;
    uint32_t band;
    size_t i;
    for (band = 0; band <= SEGRUNOV_MAX_BAND; band++) {
        struct guarded page;
        if (band <= value) {
            cheaper(code, before, (uint16_t)(value - band), &least, &stored);
        }
        if (value + band <= UINT16_MAX) {
            cheaper(code, before, (uint16_t)(value + band), &least, &stored);
        }
        check(what, plain(code, before, stored, &page) == least);
        band_gives(what, code, before, value, band, least, inside(&page));
        if (band == asked) {
            given = least;
            for (i = 0; i < BAND_PAGE; i++) {
                after[i] = inside(&page)[i];
            }
        }
    }
    return given;
}

/* Bytes and values from the same numbers on every machine. */
static uint32_t drawn(uint32_t *seed)
{
    *seed = *seed * 1664525u + 1013904223u;
    return *seed >> 16;
}

/* Pages with few ones, with half of them and with most of them, and with each a value near 0, one near 65,535 and any one. */
static void bands_on_many_pages(void)
{
    static const uint32_t codes[2] = {SEGRUNOV_SHORT, SEGRUNOV_LONG};
    const char *const what = "bands by single prices";
    uint32_t seed = 20261118;
    unsigned round;
    size_t c, i;
    for (c = 0; c < 2; c++) {
        for (round = 0; round < 9; round++) {
            uint8_t before[BAND_PAGE], after[BAND_PAGE];
            for (i = 0; i < BAND_PAGE; i++) {
                const uint32_t bits = drawn(&seed), more = drawn(&seed);
                before[i] = (uint8_t)(round % 3 == 0 ? bits & more : round % 3 == 1 ? bits : bits | more);
            }
            (void)bands_by_prices(what, codes[c], before, (uint16_t)(drawn(&seed) % 9), 0, after);
            (void)bands_by_prices(what, codes[c], before, (uint16_t)(UINT16_MAX - drawn(&seed) % 9), 0, after);
            (void)bands_by_prices(what, codes[c], before, (uint16_t)drawn(&seed), 0, after);
        }
    }
}

/* More temperatures than any page below takes. */
enum { TEMPERATURES = 40 };

/*
 * A winding that warms and cools, from an erased page until it is spent in this band; each page on the way is tried with every band. The first three
 * writes are certain, as those of the values stored are. Gives how many are done.
 */
static unsigned winding(uint32_t code, uint32_t band)
{
    static const uint8_t weights[SEGRUNOV_CERTAIN_WRITES] = {SEGRUNOV_HOUSE_W1, SEGRUNOV_HOUSE_W2, SEGRUNOV_HOUSE_W3};
    const char *const what = "a winding's temperature";
    uint8_t page[BAND_PAGE] = {0};
    uint32_t seed = 20261119;
    uint16_t value = 900;
    unsigned done;
    for (done = 0; done < TEMPERATURES; done++) {
        uint8_t after[BAND_PAGE];
        uint64_t given;
        size_t i;
        value = (uint16_t)(value + drawn(&seed) % 25 - 12);
        given = bands_by_prices(what, code, page, value, band, after);
        if (done < SEGRUNOV_CERTAIN_WRITES) {
            check(what, SEGRUNOV_NUMBER(given) == SEGRUNOV_DONE);
            check(what, SEGRUNOV_VALUE(given) <= SEGRUNOV_CERTAIN_COST(weights[done], SEGRUNOV_BAND_BYTES, SEGRUNOV_BAND_STRIPS));
        }
        if (SEGRUNOV_NUMBER(given) != SEGRUNOV_DONE) {
            break;
        }
        for (i = 0; i < BAND_PAGE; i++) {
            page[i] = after[i];
        }
    }
    return done;
}

/* How many of the same temperatures a page takes in a band, by the model in tests/run.py. */
struct known_winding {
    uint32_t code;
    uint32_t band;
    unsigned done;
};

static void windings(void)
{
    static const struct known_winding KNOWN[] = {{3, 0, 9}, {3, 3, 27}, {7, 0, 10}, {7, 3, 26}};
    size_t i;
    for (i = 0; i < sizeof KNOWN / sizeof *KNOWN; i++) {
        check("temperatures that a page takes", winding(KNOWN[i].code, KNOWN[i].band) == KNOWN[i].done);
    }
}

/* ---- blocks of pages */

/* The bytes of a directory, and of the longest block of a known put. */
enum { DIRECTORY = 6, KNOWN_BLOCK = DIRECTORY + 2 * PAGE };

/* What a block is made of. */
struct shape {
    uint32_t code;
    uint32_t bytes;
    uint32_t strips;
    uint32_t pages;
};

/* A put: the block before, the answer, the number of the page that takes the data, and the directory and that page after. */
struct known_put {
    const char *what;
    struct shape shape;
    uint8_t before[KNOWN_BLOCK];
    uint8_t data[DATA];
    uint32_t number;
    uint32_t cost;
    uint8_t live; /* this and what follows where it is done */
    uint8_t directory[DIRECTORY];
    uint8_t page[PAGE];
};

#define NO_STRIP 0, 0, 0, 0, 0, 0
#define FOUR_STRIPS NO_STRIP, NO_STRIP, NO_STRIP, NO_STRIP
#define FULL_STRIP 0xff, 0xff, 0xff, 0xff, 0xff, 0xff

/* What the writes fe dc ba 98 76 54 and 0f 1e 2d 3c 4b 5a leave with code 7 and L = 2, S = 3. */
#define OTHER_BYTES \
    0x10, 0x23, 0, 0x0d, 0x10, 0, 0, 0, 0, 0, 0x80, 0x02, 0x10, 0x01, 0x40, 0, 0x1a, 0x20, \
    0, 0x44, 0x08, 0, 0x20, 0, 0x01, 0x02, 0x04, 0x04, 0x10, 0x21, 0, 0, 0, 0x10, 0, 0x40

/* By write_page, the model in tests/run.py, of every page and of its number in the directory: the least by the sum, then by the number. */
static const struct known_put KNOWN_PUTS[] = {
    /* All pages cost the same, and the number 0 costs nothing. */
    {"put 00, erased", {3, 1, 1, 2}, {0}, {0}, 0, 0, 0, {0}, {0}},
    {"put 80, erased", {3, 1, 1, 2}, {0}, {0x80}, 0, 16, 0, {0}, {0, 0, 0, 0, 0, 0x20}},
    {"put 80, erased, 8 pages with code 7", {7, 1, 1, 8}, {0}, {0x80}, 0, 16, 0, {0}, {0, 0, 0, 0, 0, 0x20}},
    /* A full page takes what it holds. The directory has code 3 also where the pages have code 7: with that one the number 1 would cost 96. */
    {"put 80, page 0 full", {3, 1, 1, 2}, {NO_STRIP, FULL_STRIP}, {0x80}, 0, 64, 1, {0x01, 0x03}, {0, 0, 0, 0, 0, 0x20}},
    {"put fe, page 0 full", {3, 1, 1, 2}, {NO_STRIP, FULL_STRIP}, {0xfe}, 0, 0, 0, {0}, {FULL_STRIP}},
    {"put 80, page 0 full with code 7", {7, 1, 1, 2}, {NO_STRIP, FULL_STRIP}, {0x80}, 0, 64, 1, {0x01, 0x03}, {0, 0, 0, 0, 0, 0x20}},
    {"put 1e, page 0 full with code 7", {7, 1, 1, 2}, {NO_STRIP, FULL_STRIP}, {0x1e}, 0, 0, 0, {0}, {FULL_STRIP}},
    /* What page 1 holds costs nothing there, and the number 1 costs 48: more than page 0 does, then as much, then less. */
    {"put 80, page 1 holds it", {3, 1, 1, 2}, {NO_STRIP, NO_STRIP, 0, 0, 0, 0, 0, 0x20}, {0x80}, 0, 16, 0, {0}, {0, 0, 0, 0, 0, 0x20}},
    {"put 01, page 1 holds it", {3, 1, 1, 2}, {NO_STRIP, NO_STRIP, 0x01, 0x03}, {0x01}, 0, 48, 0, {0}, {0x01, 0x03}},
    {"put 71, page 1 holds it", {3, 1, 1, 2}, {NO_STRIP, NO_STRIP, 0x10, 0x02, 0x40, 0, 0x10}, {0x71},
     0, 48, 1, {0x01, 0x03}, {0x10, 0x02, 0x40, 0, 0x10}},
    /* The lower number of two equals, whichever of its two costs is the greater. */
    {"put 80, pages 1 and 2 at 16 + 48 and 32 + 32", {3, 1, 1, 3}, {NO_STRIP, FULL_STRIP, NO_STRIP, 0x01, 0x02, 0x02, 0, 0, 0x01}, {0x80},
     0, 64, 1, {0x01, 0x03}, {0, 0, 0, 0, 0, 0x20}},
    {"put 80, pages 2 and 3 at 32 + 32 and 16 + 48", {3, 1, 1, 4}, {NO_STRIP, FULL_STRIP, FULL_STRIP, 0x01, 0x02, 0x02, 0, 0, 0x01}, {0x80},
     0, 64, 2, {0x11}, {0x11, 0x02, 0x02, 0x04, 0, 0x01}},
    {"put 80, pages 1 and 2 at 16 + 48 and 32 + 32 with code 7", {7, 1, 1, 3}, {NO_STRIP, FULL_STRIP, NO_STRIP, 0, 0, 0, 0x08, 0x08}, {0x80},
     0, 64, 1, {0x01, 0x03}, {0, 0, 0, 0, 0, 0x20}},
    {"put 80, pages 5 and 7 at 16 + 16", {3, 1, 1, 8},
     {NO_STRIP, FULL_STRIP, FULL_STRIP, FULL_STRIP, FULL_STRIP, FULL_STRIP, NO_STRIP, FULL_STRIP}, {0x80}, 0, 32, 5, {0x01}, {0, 0, 0, 0, 0, 0x20}},
    /* The number 2 is cheaper than 1, and 5 than both. */
    {"put 80, pages 1 and 2 erased", {3, 1, 1, 3}, {NO_STRIP, FULL_STRIP}, {0x80}, 0, 48, 2, {0x11}, {0, 0, 0, 0, 0, 0x20}},
    {"put 80, pages 1 to 5 erased with code 7", {7, 1, 1, 6}, {NO_STRIP, FULL_STRIP}, {0x80}, 0, 32, 5, {0x01}, {0, 0, 0, 0, 0, 0x20}},
    /* From page 1 back to page 0. */
    {"put 80, live page 1, page 0 passed over before", {3, 1, 1, 2},
     {0x01, 0x03, 0, 0, 0, 0, 0, 0, 0, 0, 0, 0x20, 0x79, 0x67, 0x44, 0x04, 0x10}, {0x80}, 0, 60, 0, {0x43, 0x07}, {0, 0, 0, 0, 0, 0x20}},
    /* An erased page does not help where the directory does not take its number, nor a directory where the page is full. */
    {"put 80, a full directory", {3, 1, 1, 2}, {FULL_STRIP}, {0x80}, 7, 0, 0, {0}, {0}},
    {"put 80, data bit 0 of the directory stuck", {3, 1, 1, 2}, {0x3f, 0, 0, 0, 0, 0, FULL_STRIP}, {0x80}, 7, 0, 0, {0}, {0}},
    {"put 80, data bit 0 of the directory stuck, 3 pages", {3, 1, 1, 3}, {0x3f, 0, 0, 0, 0, 0, FULL_STRIP}, {0x80},
     0, 16, 2, {0x3f}, {0, 0, 0, 0, 0, 0x20}},
    {"put 80, both pages full", {3, 1, 1, 2}, {NO_STRIP, FULL_STRIP, FULL_STRIP}, {0x80}, 7, 0, 0, {0}, {0}},
    {"put 80, page 0 full with a stuck directory, page 2 full", {7, 1, 1, 3}, {0x3f, 0, 0, 0, 0, 0, FULL_STRIP, NO_STRIP, FULL_STRIP}, {0x80},
     7, 0, 0, {0}, {0}},
    /* A directory that names no page is made to name one. */
    {"put 40, the directory names page 128", {3, 1, 1, 2}, {0, 0, 0, 0, 0, 0x20}, {0x40}, 0, 32, 0, {0, 0, 0, 0, 0, 0x30}, {0, 0, 0, 0, 0x10}},
    {"put 40, the directory names page 2 of 2", {7, 1, 1, 2}, {0x11}, {0x40}, 0, 56, 0, {0x33}, {0, 0, 0, 0, 0x10}},
    /* Where L is not S, by pages that are worn. */
    {"worn pages, L = 2, S = 3", {3, 2, 3, 2}, {NO_STRIP, WORN_BYTES, OTHER_BYTES}, {0xfe, 0xed, 0xc0, 0xff, 0xee, 0x42},
     0, 300, 0, {0}, {0x33, 0x22, 0x42, 0x8c, 0x30, 0x11, 0x68, 0x80, 0x08, 0x10, 0x01, 0x44, 0x17, 0x02, 0x46, 0x05, 0, 0x31, 0x20, 0xc0, 0x88,
     0x11, 0, 0x02, 0x39, 0x06, 0x02, 0x88, 0x18, 0x20, 0x62, 0x80, 0x09, 0, 0x21, 0x40}},
    {"worn pages, L = 3, S = 2", {3, 3, 2, 2}, {NO_STRIP, WORN_BYTES, OTHER_BYTES}, {0xfe, 0xed, 0xc0, 0xff, 0xee, 0x42},
     0, 260, 0, {0}, {0x33, 0x22, 0x42, 0x8c, 0x10, 0x03, 0x68, 0x84, 0x09, 0, 0x03, 0x40, 0x13, 0x0a, 0x06, 0x04, 0x04, 0x11, 0x20, 0xc0, 0x88,
     0x11, 0, 0x01, 0x38, 0x86, 0x82, 0x88, 0, 0x24, 0x60, 0x98, 0x08, 0, 0x21, 0x40}},
    {"worn pages, L = 2, S = 3 with code 7", {7, 2, 3, 2}, {0x01, 0x03, 0, 0, 0, 0, OTHER_BYTES, WORN_BYTES}, {0xfe, 0xed, 0xc0, 0xff, 0xee, 0x42},
     0, 288, 1, {0x01, 0x03}, {0x33, 0x22, 0x06, 0x8c, 0x10, 0x21, 0x68, 0x80, 0x08, 0, 0x03, 0x44, 0x33, 0x03, 0x06, 0x84, 0x08, 0x11, 0x22,
     0xc0, 0x88, 0x11, 0x20, 0, 0x39, 0x06, 0x02, 0x88, 0x01, 0x60, 0x60, 0x84, 0x88, 0, 0x21, 0x40}},
    {"worn pages, L = 3, S = 2 with code 7", {7, 3, 2, 2}, {0x01, 0x03, 0, 0, 0, 0, OTHER_BYTES, WORN_BYTES}, {0xfe, 0xed, 0xc0, 0xff, 0xee, 0x42},
     0, 264, 1, {0x01, 0x03}, {0x33, 0x22, 0x06, 0x8c, 0x10, 0x21, 0x68, 0x80, 0x08, 0x11, 0x01, 0x46, 0x93, 0x02, 0x06, 0x04, 0, 0x11, 0x20,
     0xc0, 0x8c, 0x91, 0x10, 0x10, 0x3a, 0x06, 0x02, 0x88, 0, 0x20, 0x60, 0x90, 0x28, 0, 0x21, 0x40}},
    /* Spent in one strip, a page is passed over; spent in both pages, the value is 0 and no strip. */
    {"strip 2 of page 0 full, L = 2, S = 3", {3, 2, 3, 2}, {NO_STRIP, FOUR_STRIPS, FULL_STRIP, FULL_STRIP}, {0x01, 0x23, 0x45, 0x67, 0x89, 0xab},
     0, 304, 1, {0x01, 0x03}, {0x01, 0x20, 0, 0x04, 0x10, 0, 0x40, 0, 0x08, 0, 0, 0, 0x01, 0, 0, 0, 0, 0x11, 0, 0x40, 0, 0x10, 0, 0, 0x10, 0x02,
     0, 0, 0, 0x20, 0, 0, 0x08, 0, 0, 0x40}},
    {"strip 2 of both pages full, L = 2, S = 3 with code 7", {7, 2, 3, 2},
     {NO_STRIP, FOUR_STRIPS, FULL_STRIP, FULL_STRIP, FOUR_STRIPS, FULL_STRIP, FULL_STRIP}, {0x01, 0x23, 0x45, 0x67, 0x89, 0xab}, 7, 0, 0, {0}, {0}},
};

static size_t block_bytes(const struct shape *b)
{
    return SEGRUNOV_BLOCK_BYTES(b->bytes, b->strips, b->pages);
}

static void copy(uint8_t *to, const uint8_t *from, size_t n)
{
    size_t i;
    for (i = 0; i < n; i++) {
        to[i] = from[i];
    }
}

static uint64_t put(const struct shape *b, uint8_t *block, const uint8_t *data)
{
    return segrunov_block_put(b->code, b->bytes, b->strips, b->pages, block, block_bytes(b), data, SEGRUNOV_DATA_BYTES(b->bytes, b->strips));
}

static uint64_t got(const struct shape *b, const uint8_t *block, uint8_t *data)
{
    return segrunov_block_get(b->code, b->bytes, b->strips, b->pages, block, block_bytes(b), data, SEGRUNOV_DATA_BYTES(b->bytes, b->strips));
}

/* The number that a block's directory reads as. */
static uint8_t named(const uint8_t *block)
{
    uint8_t number = 0;
    check("a directory reads", segrunov_read(SEGRUNOV_SHORT, 1, 1, block, DIRECTORY, &number, 1) == 0);
    return number;
}

static unsigned level_of(const uint8_t *block, size_t cell)
{
    unsigned level = 0;
    size_t k;
    for (k = 3 * cell; k < 3 * cell + 3; k++) {
        level += (unsigned)block[k / 8] >> (k % 8) & 1u;
    }
    return level;
}

/* What the cells of these bytes have climbed, in the house's weights. A cell that is lowered makes it more than any put costs. */
static uint32_t climbed(const uint8_t *before, const uint8_t *after, size_t n)
{
    static const uint32_t up_to[4] = {0, SEGRUNOV_HOUSE_W1, SEGRUNOV_HOUSE_W1 + SEGRUNOV_HOUSE_W2,
                                      SEGRUNOV_HOUSE_W1 + SEGRUNOV_HOUSE_W2 + SEGRUNOV_HOUSE_W3};
    uint32_t cost = 0;
    size_t c;
    for (c = 0; c < 8 * n / 3; c++) {
        const unsigned from = level_of(before, c), to = level_of(after, c);
        cost += to < from ? SEGRUNOV_MAX_PUT_COST + 1 : up_to[to] - up_to[from];
    }
    return cost;
}

/* A put into this block: the answer, the block after it, and nothing else is changed. The cells have climbed what it costs. Where it is done, a get
 * gives the data. */
static void put_gives(const char *what, const struct shape *b, const uint8_t *before, const uint8_t *data, uint64_t expected, const uint8_t *after)
{
    const size_t block_len = block_bytes(b);
    const size_t data_len = SEGRUNOV_DATA_BYTES(b->bytes, b->strips);
    struct guarded block, given, back;
    fill(&block, before, block_len);
    fill(&given, data, data_len);
    check(what, put(b, inside(&block), inside(&given)) == expected);
    check(what, holds(&block, after, block_len));
    check(what, holds(&given, data, data_len));
    check(what, SEGRUNOV_VALUE(expected) <= SEGRUNOV_MAX_PUT_COST);
    check(what, climbed(before, inside(&block), block_len) == SEGRUNOV_VALUE(expected));
    if (SEGRUNOV_NUMBER(expected) == SEGRUNOV_DONE) {
        fill(&back, data, 0);
        check(what, got(b, inside(&block), inside(&back)) == 0);
        check(what, holds(&back, data, data_len));
        check(what, holds(&block, after, block_len));
    }
}

/* Where a put is done, the directory and the page of its number are changed, and no other byte. */
static void known_puts(void)
{
    size_t i;
    for (i = 0; i < sizeof KNOWN_PUTS / sizeof *KNOWN_PUTS; i++) {
        const struct known_put *k = &KNOWN_PUTS[i];
        uint8_t after[KNOWN_BLOCK];
        copy(after, k->before, KNOWN_BLOCK);
        if (k->number == SEGRUNOV_DONE) {
            const size_t page_len = SEGRUNOV_PAGE_BYTES(k->shape.bytes, k->shape.strips);
            copy(after, k->directory, DIRECTORY);
            copy(after + SEGRUNOV_BLOCK_PAGE(k->shape.bytes, k->shape.strips, k->live), k->page, page_len);
            check(k->what, named(after) == k->live);
        }
        put_gives(k->what, &k->shape, k->before, k->data, answer(k->number, k->cost), after);
    }
}

/*
 * A put beside single prices: of every page for the data, and of its number for the directory. The least sum is taken, of equals that with the lowest
 * number, and two single writes leave what the put is to leave. A 7 is above every cost, so that the put is spent where each page has one. Gives the
 * answer, and makes the block that after the put.
 */
static uint64_t put_by_prices(const char *what, const struct shape *b, uint8_t *block, const uint8_t *data)
{
    const size_t page_len = SEGRUNOV_PAGE_BYTES(b->bytes, b->strips);
    const size_t data_len = SEGRUNOV_DATA_BYTES(b->bytes, b->strips);
    uint64_t least = SPENT;
    uint8_t before[ROOM];
    uint8_t number, live = 0;
    copy(before, block, block_bytes(b));
    for (number = 0; number < b->pages; number++) {
        const uint8_t *const page = before + SEGRUNOV_BLOCK_PAGE(b->bytes, b->strips, number);
        const uint64_t sum = segrunov_price(b->code, b->bytes, b->strips, page, page_len, data, data_len) +
                             segrunov_price(SEGRUNOV_SHORT, 1, 1, before, DIRECTORY, &number, 1);
        if (sum < least) {
            least = sum;
            live = number;
        }
    }
    if (least < SPENT) {
        uint8_t *const page = block + SEGRUNOV_BLOCK_PAGE(b->bytes, b->strips, live);
        const uint64_t of_page = segrunov_write(b->code, b->bytes, b->strips, page, page_len, data, data_len);
        const uint64_t of_directory = segrunov_write(SEGRUNOV_SHORT, 1, 1, block, DIRECTORY, &live, 1);
        check(what, of_page + of_directory == least);
        check(what, named(block) == live);
    }
    put_gives(what, b, before, data, least, block);
    return least;
}

/* Blocks with few ones, with half of them and with most of them, and a directory that is any, or names any page. The data is any, or what a page
 * holds: that one costs nothing, but its number may. */
static void puts_on_many_blocks(void)
{
    static const struct shape KNOWN[] = {{3, 1, 1, 2}, {7, 1, 1, 3}, {3, 2, 1, 5}, {7, 1, 2, 4}, {7, 2, 3, 2}, {3, 3, 2, 2}, {3, 1, 4, 16}};
    const char *const what = "puts by single prices";
    uint32_t seed = 20261121;
    unsigned round;
    size_t i, n;
    for (n = 0; n < sizeof KNOWN / sizeof *KNOWN; n++) {
        const struct shape *b = &KNOWN[n];
        const size_t data_len = SEGRUNOV_DATA_BYTES(b->bytes, b->strips);
        for (round = 0; round < 12; round++) {
            const uint8_t number = (uint8_t)(drawn(&seed) % b->pages);
            uint8_t block[ROOM], data[DATA];
            for (i = 0; i < block_bytes(b); i++) {
                const uint32_t bits = drawn(&seed), more = drawn(&seed);
                block[i] = (uint8_t)(round % 3 == 0 ? bits & more : round % 3 == 1 ? bits : bits | more);
            }
            if (round % 2 == 0) {
                for (i = 0; i < DIRECTORY; i++) {
                    block[i] = 0;
                }
                check(what, segrunov_write(SEGRUNOV_SHORT, 1, 1, block, DIRECTORY, &number, 1) < SPENT);
            }
            for (i = 0; i < data_len; i++) {
                data[i] = (uint8_t)drawn(&seed);
            }
            if (round < 6) {
                const uint8_t *const page = block + SEGRUNOV_BLOCK_PAGE(b->bytes, b->strips, (number + 1) % b->pages);
                check(what, segrunov_read(b->code, b->bytes, b->strips, page, SEGRUNOV_PAGE_BYTES(b->bytes, b->strips), data, data_len) == 0);
            }
            (void)put_by_prices(what, b, block, data);
        }
    }
}

/* Images one after another into an erased block, until it is spent: how many it takes and what they cost, by the model in tests/run.py. */
struct known_images {
    struct shape shape;
    unsigned done;
    uint32_t cost;
};

/* Where the page is programmed and the directory not yet, a get gives the data before, unless the live page itself took the put. */
static void cut_between(const struct shape *b, const uint8_t *before, const uint8_t *after, const uint8_t *last, const uint8_t *data)
{
    const char *const what = "a cut between page and directory";
    const size_t data_len = SEGRUNOV_DATA_BYTES(b->bytes, b->strips);
    uint8_t block[ROOM];
    struct guarded back;
    copy(block, after, block_bytes(b));
    copy(block, before, DIRECTORY);
    fill(&back, data, 0);
    check(what, got(b, block, inside(&back)) == 0);
    check(what, holds(&back, named(before) == named(after) ? data : last, data_len));
}

/*
 * The first four puts are certain. The lowest bit of the live page's number changes at most six times. In all but the first of these a page is used
 * again that another followed: a put tries every page.
 */
static void known_images(void)
{
    static const struct known_images KNOWN[] = {
        {{3, 1, 1, 2}, 22, 1356}, {{7, 1, 1, 16}, 76, 4204}, {{7, 2, 1, 4}, 44, 4312},
        {{3, 2, 2, 2}, 18, 3032}, {{7, 1, 3, 3}, 29, 4552},  {{3, 3, 1, 5}, 46, 6036},
    };
    const char *const what = "images that a block takes";
    size_t i, n;
    for (n = 0; n < sizeof KNOWN / sizeof *KNOWN; n++) {
        const struct shape *b = &KNOWN[n].shape;
        uint8_t block[ROOM] = {0}, before[ROOM], last[DATA] = {0}, data[DATA];
        unsigned used[SEGRUNOV_MAX_PAGES] = {0};
        unsigned again = 0, changes = 0, done = 0;
        uint32_t seed = 20261120, cost = 0;
        uint8_t live = 0;
        while (done <= KNOWN[n].done) {
            uint64_t given;
            uint8_t next;
            for (i = 0; i < SEGRUNOV_DATA_BYTES(b->bytes, b->strips); i++) {
                data[i] = (uint8_t)drawn(&seed);
            }
            copy(before, block, block_bytes(b));
            given = put_by_prices(what, b, block, data);
            if (given == SPENT) {
                break;
            }
            cut_between(b, before, block, last, data);
            copy(last, data, SEGRUNOV_DATA_BYTES(b->bytes, b->strips));
            next = named(block);
            changes += ((unsigned)live ^ next) & 1u;
            again += next != live && used[next] > 0;
            used[next]++;
            live = next;
            cost += SEGRUNOV_VALUE(given);
            done++;
        }
        check(what, done == KNOWN[n].done && cost == KNOWN[n].cost);
        check(what, done >= SEGRUNOV_CERTAIN_PUTS);
        check(what, changes <= SEGRUNOV_FIRST_BIT_CHANGES);
        check(what, (again > 0) == (n > 0));
    }
}

/*
 * The directory runs out: of two pages the live one is full and the other erased, so that each put needs the other number. It takes five of them, by
 * the model in tests/run.py; then the block is spent, with a page erased.
 */
static void directory_runs_out(void)
{
    static const struct shape b = {7, 1, 1, 2};
    static const uint8_t data = 0x80;
    const char *const what = "the directory runs out";
    uint8_t block[DIRECTORY + 12] = {0};
    unsigned changes;
    uint64_t given = 0;
    for (changes = 0; changes <= SEGRUNOV_FIRST_BIT_CHANGES; changes++) {
        const uint8_t live = named(block);
        size_t i;
        for (i = 0; i < 6; i++) {
            block[SEGRUNOV_BLOCK_PAGE(1, 1, live) + i] = 0xff;
            block[SEGRUNOV_BLOCK_PAGE(1, 1, 1 - live) + i] = 0;
        }
        given = put_by_prices(what, &b, block, &data);
        if (given == SPENT) {
            break;
        }
        check(what, named(block) == 1 - live);
    }
    check(what, given == SPENT && changes == 5);
}

/* The datas of KNOWN_LISTS for which a page is spent at the fourth write; with the house's weights only the last, with code 7. */
static const uint8_t FOUR_SHORT[SEGRUNOV_CERTAIN_PUTS] = {0x02, 0, 0x02, 0x01};
static const uint8_t FOUR_LONG[SEGRUNOV_CERTAIN_PUTS] = {0xc2, 0, 0xc2, 0x01};
static const uint8_t FOUR_OF_TWO[2 * SEGRUNOV_CERTAIN_PUTS] = {0x22, 0, 0, 0, 0x22, 0, 0x01, 0};

/* Four puts after an erase of a worn block are done, whatever the data. Gives the number of the live page. */
static uint8_t certain_puts(const struct shape *b, const uint8_t *datas)
{
    const char *const what = "the first puts after an erase";
    const size_t data_len = SEGRUNOV_DATA_BYTES(b->bytes, b->strips);
    uint8_t block[ROOM];
    uint32_t nth;
    size_t i;
    for (i = 0; i < block_bytes(b); i++) {
        block[i] = (uint8_t)(0x5a + i);
    }
    check(what, segrunov_block_erase(b->bytes, b->strips, b->pages, block, block_bytes(b), 200) == 0);
    for (nth = 0; nth < SEGRUNOV_CERTAIN_PUTS; nth++) {
        uint8_t back[DATA];
        const uint8_t *const data = datas + nth * data_len;
        unsigned others = 0;
        check(what, SEGRUNOV_NUMBER(put(b, block, data)) == SEGRUNOV_DONE);
        check(what, got(b, block, back) == 0);
        for (i = 0; i < data_len; i++) {
            others += back[i] != data[i];
        }
        check(what, others == 0);
    }
    return named(block);
}

/*
 * With both codes, 2 and 16 pages, and every L and S that the buffers have room for. Where page 0 takes the first three puts and is spent for the
 * fourth, this one goes to page 1. With 16 pages the second put goes to page 5, whose number is cheap.
 */
static void certain_blocks(void)
{
    static const uint32_t codes[2] = {SEGRUNOV_SHORT, SEGRUNOV_LONG};
    static const uint32_t pages[2] = {SEGRUNOV_MIN_PAGES, SEGRUNOV_MAX_PAGES};
    size_t c, p, i;
    for (c = 0; c < 2; c++) {
        for (p = 0; p < 2; p++) {
            struct shape b = {codes[c], 1, 1, pages[p]};
            (void)certain_puts(&b, FOUR_SHORT);
            (void)certain_puts(&b, FOUR_LONG);
            for (b.bytes = 1; b.bytes <= DATA; b.bytes++) {
                for (b.strips = 1; b.bytes * b.strips <= DATA && block_bytes(&b) <= ROOM; b.strips++) {
                    const size_t data_len = SEGRUNOV_DATA_BYTES(b.bytes, b.strips);
                    uint8_t datas[SEGRUNOV_CERTAIN_PUTS * DATA];
                    unsigned kind;
                    for (kind = ONES; kind < CERTAIN_DATAS; kind++) {
                        for (i = 0; i < SEGRUNOV_CERTAIN_PUTS * data_len; i++) {
                            datas[i] = certain_byte(kind, i / data_len, data_len, i % data_len);
                        }
                        (void)certain_puts(&b, datas);
                    }
                }
            }
            b.bytes = 2;
            b.strips = 1;
            check("the page of the fourth put", certain_puts(&b, FOUR_OF_TWO) == (b.code == SEGRUNOV_LONG && b.pages == 2 ? 1 : 0));
        }
    }
}

/* What is certain of four puts is not of seven: page 0 takes three, then page 1 and page 0 by turns, until neither is left and the directory
 * takes no other number. */
static void seven_puts(void)
{
    static const struct shape b = {SEGRUNOV_LONG, 2, 2, 2};
    static const uint8_t datas[7][4] = {{0x22}, {0}, {0x22}, {0x01, 0, 0x22}, {0x01}, {0x01, 0, 0x22}, {0x01, 0, 0x01}};
    uint8_t block[DIRECTORY + 48] = {0};
    unsigned nth;
    for (nth = 0; nth < 7; nth++) {
        const uint64_t given = put_by_prices("seven puts after an erase", &b, block, datas[nth]);
        check("the seventh put is spent, and no earlier one", (given == SPENT) == (nth == 6));
    }
}

/* The put of what dearest_writes writes: both pages are as that one's, and page 0 takes it. An edit in crates/block_promises/must-fail/ is false by
 * this cost. */
static void dearest_puts(void)
{
    static const uint32_t codes[2] = {SEGRUNOV_SHORT, SEGRUNOV_LONG};
    static uint8_t block[SEGRUNOV_BLOCK_BYTES(MOST, MOST, 2)], data[MOST * MOST];
    const char *const what = "a put that raises every second cell of the largest page, from level 2";
    const size_t second = SEGRUNOV_BLOCK_PAGE(MOST, MOST, 1);
    size_t c, i;
    for (c = 0; c < 2; c++) {
        const struct shape b = {codes[c], MOST, MOST, 2};
        unsigned others = 0;
        for (i = 0; i < sizeof block; i++) {
            block[i] = i < DIRECTORY ? 0 : 0xff;
        }
        check(what, got(&b, block, data) == 0);
        for (i = 8 * DIRECTORY + 5; i < 8 * sizeof block; i += 6) {
            block[i / 8] = (uint8_t)(block[i / 8] & ~(1u << (i % 8)));
        }
        check(what, put(&b, block, data) == 917504);
        for (i = 0; i < second; i++) {
            others += block[i] != (i < DIRECTORY ? 0 : 0xff);
        }
        for (i = 8 * second + 5; i < 8 * sizeof block; i += 6) {
            others += ((unsigned)block[i / 8] >> (i % 8) & 1u) != 0;
        }
        check(what, others == 0);
    }
}

/* A get by every number that a directory can hold: the page of that number, or none that is there. The erased directory has the number 0. */
static void gets_by_number(void)
{
    static const uint32_t pages[] = {2, 3, 9, 15, 16};
    const char *const what = "gets by the number in the directory";
    size_t n;
    for (n = 0; n < sizeof pages / sizeof *pages; n++) {
        const struct shape b = {n % 2 == 0 ? SEGRUNOV_SHORT : SEGRUNOV_LONG, 1, 2, pages[n]};
        uint8_t block[ROOM] = {0};
        unsigned number;
        for (number = 1; number < b.pages; number++) {
            const uint8_t data[2] = {(uint8_t)number, (uint8_t)(0xf0 - number)};
            check(what, segrunov_write(b.code, 1, 2, block + SEGRUNOV_BLOCK_PAGE(1, 2, number), 12, data, 2) < SPENT);
        }
        for (number = 0; number < 256; number++) {
            static const uint8_t kept[2] = {0xc3, 0x3c};
            const uint8_t held[2] = {(uint8_t)number, (uint8_t)(number == 0 ? 0 : 0xf0 - number)};
            const uint8_t live = (uint8_t)number;
            struct guarded at, back;
            size_t i;
            for (i = 0; i < DIRECTORY; i++) {
                block[i] = 0;
            }
            check(what, segrunov_write(SEGRUNOV_SHORT, 1, 1, block, DIRECTORY, &live, 1) < SPENT);
            fill(&at, block, block_bytes(&b));
            fill(&back, kept, 2);
            check(what, got(&b, inside(&at), inside(&back)) == answer(number < b.pages ? SEGRUNOV_DONE : SEGRUNOV_NO_PAGE, 0));
            check(what, holds(&back, number < b.pages ? held : kept, 2));
            check(what, holds(&at, block, block_bytes(&b)));
        }
    }
}

/* The largest block: every page but the last is full, and takes nothing but what it holds. Neither its length nor a place in it fits into 16 bits. */
static void largest_block(void)
{
    static const struct shape b = {SEGRUNOV_SHORT, MOST, MOST, SEGRUNOV_MAX_PAGES};
    static uint8_t block[SEGRUNOV_BLOCK_BYTES(MOST, MOST, SEGRUNOV_MAX_PAGES)], data[MOST * MOST], back[MOST * MOST];
    static uint8_t beside[LARGE];
    const char *const what = "the largest block";
    const size_t last = SEGRUNOV_BLOCK_PAGE(MOST, MOST, SEGRUNOV_MAX_PAGES - 1);
    const uint8_t number = SEGRUNOV_MAX_PAGES - 1;
    const uint64_t too_short = sizeof block - 65536;
    uint8_t directory[DIRECTORY] = {0};
    uint64_t expected;
    unsigned others = 0;
    size_t i;
    check(what, sizeof block == last + LARGE);
    for (i = DIRECTORY; i < last; i++) {
        block[i] = 0xff;
    }
    for (i = 0; i < sizeof data; i++) {
        data[i] = (uint8_t)(i + i / MOST);
    }
    expected = segrunov_write(b.code, MOST, MOST, beside, LARGE, data, sizeof data);
    expected += segrunov_write(SEGRUNOV_SHORT, 1, 1, directory, DIRECTORY, &number, 1);
    check(what, segrunov_block_put(b.code, MOST, MOST, b.pages, block, too_short, data, sizeof data) == answer(SEGRUNOV_PAGE_LENGTH, 0));
    check(what, segrunov_block_get(b.code, MOST, MOST, b.pages, block, too_short, back, sizeof back) == answer(SEGRUNOV_PAGE_LENGTH, 0));
    check(what, put(&b, block, data) == expected && expected < SPENT);
    check(what, got(&b, block, back) == 0);
    for (i = 0; i < sizeof block; i++) {
        others += block[i] != (i < DIRECTORY ? directory[i] : i < last ? 0xff : beside[i - last]);
    }
    for (i = 0; i < sizeof data; i++) {
        others += back[i] != data[i];
    }
    check(what, others == 0);
    check(what, segrunov_block_erase(MOST, MOST, b.pages, block, too_short, 400) == answer(SEGRUNOV_PAGE_LENGTH, 0));
    check(what, segrunov_block_erase(MOST, MOST, b.pages, block, sizeof block, 49) == answer(SEGRUNOV_TEMPERATURE, 0));
    check(what, segrunov_block_erase(MOST, MOST, b.pages, block, sizeof block, 400) == 0);
    for (i = 0; i < sizeof block; i++) {
        others += block[i] != 0;
    }
    check(what, others == 0);
}

/* A word, and the fields that the header's macros give of it. */
struct known_word {
    const char *what;
    uint64_t word;
    uint32_t value;
    uint32_t number;
    uint32_t written;
    uint32_t strip;
};

/* Each field at its largest does not run into the next one; then answers as there can be. */
static const struct known_word KNOWN_WORDS[] = {
    {"nothing", 0, 0, 0, 0, 0},
    {"the largest value", UINT64_C(0x00000000ffffffff), UINT32_MAX, 0, 0, 0},
    {"the largest number", UINT64_C(0x000000ff00000000), 0, 255, 0, 0},
    {"the largest number written", UINT64_C(0x0000ff0000000000), 0, 0, 255, 0},
    {"the largest strip", UINT64_C(0xffff000000000000), 0, 0, 0, 65535},
    {"every field at its largest", UINT64_MAX, UINT32_MAX, 255, 255, 65535},
    {"the least of each field", UINT64_C(0x0001010100000001), 1, 1, 1, 1},
    {"a list of 64 at the bound of its cost", UINT64_C(0x0000400002fd0000), SEGRUNOV_MAX_LIST_COST, SEGRUNOV_DONE, 64, 0},
    {"a list that stops at the last data, in strip 63", UINT64_C(0x003f3f0700000001), 1, SEGRUNOV_SPENT, 63, 63},
    {"a list that is refused", UINT64_C(0x0000000a00000000), 0, SEGRUNOV_COUNT, 0, 0},
    {"a write at the bound of its cost", UINT64_C(0x0000000000ff0000), SEGRUNOV_MAX_WEIGHTED_COST, SEGRUNOV_DONE, 0, 0},
    {"a write spent in strip 63", UINT64_C(0x000000070000003f), 63, SEGRUNOV_SPENT, 0, 0},
    {"a write in a band at the bound of its cost", UINT64_C(0x0000000000000380), SEGRUNOV_MAX_BAND_COST, SEGRUNOV_DONE, 0, 0},
    {"a band that is refused", UINT64_C(0x0000000c00000000), 0, SEGRUNOV_BAND, 0, 0},
    {"a put at the bound of its cost", UINT64_C(0x00000000001c01c0), SEGRUNOV_MAX_PUT_COST, SEGRUNOV_DONE, 0, 0},
    {"a number of pages that is refused", UINT64_C(0x0000000d00000000), 0, SEGRUNOV_PAGES, 0, 0},
    {"a get of no page", UINT64_C(0x0000000e00000000), 0, SEGRUNOV_NO_PAGE, 0, 0},
};

static void known_words(void)
{
    size_t i;
    for (i = 0; i < sizeof KNOWN_WORDS / sizeof *KNOWN_WORDS; i++) {
        const struct known_word *k = &KNOWN_WORDS[i];
        check(k->what, SEGRUNOV_VALUE(k->word) == k->value && SEGRUNOV_NUMBER(k->word) == k->number);
        check(k->what, SEGRUNOV_WRITTEN(k->word) == k->written && SEGRUNOV_SPENT_STRIP(k->word) == k->strip);
    }
    check("the bytes of a list", SEGRUNOV_LIST_BYTES(64, 64, 64) == 262144 && SEGRUNOV_LIST_BYTES(2, 3, 5) == 30);
    check("the bytes of a list, of sums", SEGRUNOV_LIST_BYTES(1 + 1, 1 + 2, 2 + 3) == 30);
    check("the bound of a list", 255u * 3u * LARGE_CELLS == SEGRUNOV_MAX_LIST_COST);
    check("the bound of a write in a band", 16u * BAND_DATA * BAND_STRIP * SEGRUNOV_HOUSE_W3 == SEGRUNOV_MAX_BAND_COST);
    check("the page of a band", SEGRUNOV_PAGE_BYTES(SEGRUNOV_BAND_BYTES, SEGRUNOV_BAND_STRIPS) == BAND_PAGE);
    check("the shape of a band", SEGRUNOV_BAND_BYTES == BAND_DATA && SEGRUNOV_BAND_STRIPS == BAND_STRIP && SEGRUNOV_MAX_BAND == 8);
    check("the bytes of a directory", SEGRUNOV_DIRECTORY_BYTES == SEGRUNOV_PAGE_BYTES(1, 1) && SEGRUNOV_DIRECTORY_BYTES == DIRECTORY);
    check("the bytes of a block", SEGRUNOV_BLOCK_BYTES(64, 64, 16) == 393222 && SEGRUNOV_BLOCK_BYTES(2, 3, 5) == 186);
    check("the bytes of a block, of sums", SEGRUNOV_BLOCK_BYTES(1 + 1, 1 + 2, 2 + 3) == 186 && 2 * SEGRUNOV_BLOCK_BYTES(2, 3, 5) == 372);
    check("the place of a page", SEGRUNOV_BLOCK_PAGE(2, 3, 0) == DIRECTORY && SEGRUNOV_BLOCK_PAGE(2, 3, 4) == 150);
    check("the place of a page, of sums", SEGRUNOV_BLOCK_PAGE(1 + 1, 1 + 2, 2 + 2) == 150);
    check("the pages of a block", SEGRUNOV_MIN_PAGES == 2 && SEGRUNOV_MAX_PAGES == 16 && SEGRUNOV_CERTAIN_PUTS == 4);
    check("the bound of a put", SEGRUNOV_MAX_COST + 16u * SEGRUNOV_HOUSE_W3 == SEGRUNOV_MAX_PUT_COST);
    check("the bound of the first write", SEGRUNOV_CERTAIN_COST(SEGRUNOV_HOUSE_W1, 1, 1) == 128);
    check("the bound of the second write", SEGRUNOV_CERTAIN_COST(SEGRUNOV_HOUSE_W2, 1, 1) == 160);
    check("the bound of the third write", SEGRUNOV_CERTAIN_COST(SEGRUNOV_HOUSE_W3, 1, 1) == 224);
    check("the bound of a certain write", SEGRUNOV_CERTAIN_COST(UINT8_C(255), 64, 64) == 8355840);
    check("the bound of a certain write, of sums", SEGRUNOV_CERTAIN_COST(1 + 1, 1 + 2, 2 + 3) == 240);
}

/* A refusal from the input, for read, price and write alike, the calls with weights and a list of one data included. */
struct known_refusal {
    const char *what;
    uint32_t code;
    uint32_t bytes;
    uint32_t strips;
    size_t page_len;
    size_t data_len;
    uint32_t number;
};

static const struct known_refusal KNOWN_REFUSALS[] = {
    {"code 4", 4, 1, 1, 6, 1, 1},
    {"code 4 before L = 0", 4, 0, 1, 6, 1, 1},
    {"code 0", 0, 1, 1, 6, 1, 1},
    {"the largest code", UINT32_MAX, 1, 1, 6, 1, 1},
    {"L = 0", 3, 0, 1, 6, 1, 2},
    {"L = 65", 3, 65, 1, 6, 1, 2},
    {"L = 0 before S = 0", 3, 0, 0, 6, 1, 2},
    {"the largest L", 3, UINT32_MAX, 1, 6, 1, 2},
    {"S = 0", 3, 1, 0, 6, 1, 3},
    {"S = 65", 3, 1, 65, 6, 1, 3},
    {"S = 65 before the page", 7, 1, 65, 5, 1, 3},
    {"the largest S", 3, 1, UINT32_MAX, 6, 1, 3},
    {"a page of 5 bytes", 3, 1, 1, 5, 1, 4},
    {"a page of 7 bytes", 7, 1, 1, 7, 1, 4},
    {"a page of 7 bytes before the data", 7, 1, 1, 7, 2, 4},
    {"no page", 3, 1, 1, 0, 1, 4},
    {"no data", 3, 1, 1, 6, 0, 5},
    {"two bytes of data", 3, 1, 1, 6, 2, 5},
};

static void known_refusals(void)
{
    static const uint8_t bytes[PAGE] = {1, 2, 3, 4, 5, 6, 7, 8, 9, 10, 11, 12};
    size_t i;
    for (i = 0; i < sizeof KNOWN_REFUSALS / sizeof *KNOWN_REFUSALS; i++) {
        const struct known_refusal *k = &KNOWN_REFUSALS[i];
        const uint64_t expected = answer(k->number, 0);
        struct guarded page, data;
        uint8_t *const page_at = k->page_len == 0 ? NULL : inside(&page);
        uint8_t *const data_at = k->data_len == 0 ? NULL : inside(&data);
        fill(&page, bytes, k->page_len);
        fill(&data, bytes, k->data_len);
        check(k->what, segrunov_read(k->code, k->bytes, k->strips, page_at, k->page_len, data_at, k->data_len) == expected);
        check(k->what, segrunov_price(k->code, k->bytes, k->strips, page_at, k->page_len, data_at, k->data_len) == expected);
        check(k->what, segrunov_write(k->code, k->bytes, k->strips, page_at, k->page_len, data_at, k->data_len) == expected);
        check(k->what, segrunov_price_weighted(k->code, k->bytes, k->strips, 1, 2, 3, page_at, k->page_len, data_at, k->data_len) == expected);
        check(k->what, segrunov_write_weighted(k->code, k->bytes, k->strips, 1, 2, 3, page_at, k->page_len, data_at, k->data_len) == expected);
        check(k->what, segrunov_write_list(k->code, k->bytes, k->strips, 1, 2, 3, 1, page_at, k->page_len, data_at, k->data_len) == expected);
        check(k->what, holds(&page, bytes, k->page_len));
        check(k->what, holds(&data, bytes, k->data_len));
    }
}

/* A refusal of the calls with weights, a list of one data included, on a page whose bytes are all the same. */
struct known_weight_refusal {
    const char *what;
    struct weights weights;
    uint32_t code;
    uint32_t bytes;
    uint32_t strips;
    size_t page_len;
    size_t data_len;
    uint8_t filled;
    uint32_t number;
};

/* Each weight by itself, then 9 with every other ground, before or after it: the order is 1, 2, 3, 9, 4, 5, 7. */
static const struct known_weight_refusal KNOWN_WEIGHT_REFUSALS[] = {
    {"w1 = 0", {0, 1, 1}, 3, 1, 1, 6, 1, 0, 9},
    {"w2 = 0", {1, 0, 1}, 7, 1, 1, 6, 1, 0, 9},
    {"w3 = 0", {255, 255, 0}, 3, 1, 1, 6, 1, 0, 9},
    {"all weights 0", {0, 0, 0}, 7, 1, 1, 6, 1, 0, 9},
    {"code 4 before w1 = 0", {0, 1, 1}, 4, 1, 1, 6, 1, 0, 1},
    {"L = 65 before w2 = 0", {1, 0, 1}, 3, 65, 1, 6, 1, 0, 2},
    {"S = 0 before w3 = 0", {1, 1, 0}, 3, 1, 0, 6, 1, 0, 3},
    {"w1 = 0 before a page of 5 bytes", {0, 1, 1}, 3, 1, 1, 5, 1, 0, 9},
    {"w2 = 0 before two bytes of data", {1, 0, 1}, 3, 1, 1, 6, 2, 0, 9},
    {"w3 = 0 before no data", {1, 1, 0}, 3, 1, 1, 6, 0, 0, 9},
    {"w3 = 0 before a spent page", {1, 1, 0}, 3, 1, 1, 6, 1, 0xff, 9},
    {"w1 = 0 before both lengths, L = 2, S = 3", {0, 1, 1}, 7, 2, 3, 35, 5, 0, 9},
    {"a spent page", {1, 1, 1}, 3, 1, 1, 6, 1, 0xff, 7},
    {"a page of 5 bytes before a spent one", {1, 1, 1}, 3, 1, 1, 5, 1, 0xff, 4},
    {"two bytes of data", {255, 255, 255}, 3, 1, 1, 6, 2, 0xff, 5},
};

static void known_weight_refusals(void)
{
    static const uint8_t bytes[DATA] = {0x80, 0x80};
    size_t i, j;
    for (i = 0; i < sizeof KNOWN_WEIGHT_REFUSALS / sizeof *KNOWN_WEIGHT_REFUSALS; i++) {
        const struct known_weight_refusal *k = &KNOWN_WEIGHT_REFUSALS[i];
        const struct weights *w = &k->weights;
        const uint64_t expected = answer(k->number, 0);
        uint8_t before[PAGE];
        struct guarded page, data;
        uint8_t *const data_at = k->data_len == 0 ? NULL : inside(&data);
        for (j = 0; j < PAGE; j++) {
            before[j] = k->filled;
        }
        fill(&page, before, k->page_len);
        fill(&data, bytes, k->data_len);
        check(k->what, expected == segrunov_price_weighted(k->code, k->bytes, k->strips, w->w1, w->w2, w->w3, inside(&page), k->page_len, data_at,
                                                           k->data_len));
        check(k->what, expected == segrunov_write_weighted(k->code, k->bytes, k->strips, w->w1, w->w2, w->w3, inside(&page), k->page_len, data_at,
                                                           k->data_len));
        check(k->what, expected == segrunov_write_list(k->code, k->bytes, k->strips, w->w1, w->w2, w->w3, 1, inside(&page), k->page_len, data_at,
                                                       k->data_len));
        check(k->what, holds(&page, before, k->page_len));
        check(k->what, holds(&data, bytes, k->data_len));
    }
}

/* An erase of a page whose bytes are all 0x5a. */
struct known_erase {
    const char *what;
    uint32_t bytes;
    uint32_t strips;
    size_t page_len;
    int16_t tenths;
    uint32_t number;
};

static const struct known_erase KNOWN_ERASES[] = {
    {"erase at 49", 1, 1, 6, 49, 8},
    {"erase at 50", 1, 1, 6, 50, 0},
    {"erase at 400", 1, 2, 12, 400, 0},
    {"erase at 401", 1, 1, 6, 401, 8},
    {"erase at -1", 1, 1, 6, -1, 8},
    {"erase at -32768", 1, 1, 6, INT16_MIN, 8},
    {"erase at 32767", 1, 1, 6, INT16_MAX, 8},
    {"erase, L = 2, S = 3", 2, 3, 36, 200, 0},
    {"erase, L = 3, S = 2", 3, 2, 36, 200, 0},
    {"erase, L = 3, S = 2, at 401", 3, 2, 36, 401, 8},
    {"erase, L = 0 before 401", 0, 1, 6, 401, 2},
    {"erase, L = 65", 65, 1, 6, 200, 2},
    {"erase, S = 65", 1, 65, 6, 200, 3},
    {"erase, a page of 5 bytes before 49", 1, 1, 5, 49, 4},
};

static void known_erases(void)
{
    size_t i;
    for (i = 0; i < sizeof KNOWN_ERASES / sizeof *KNOWN_ERASES; i++) {
        const struct known_erase *k = &KNOWN_ERASES[i];
        uint8_t before[PAGE];
        uint8_t erased[PAGE];
        struct guarded page;
        size_t j;
        for (j = 0; j < PAGE; j++) {
            before[j] = 0x5a;
            erased[j] = 0;
        }
        fill(&page, before, k->page_len);
        check(k->what, segrunov_erase(k->bytes, k->strips, inside(&page), k->page_len, k->tenths) == answer(k->number, 0));
        check(k->what, holds(&page, k->number == SEGRUNOV_DONE ? erased : before, k->page_len));
    }
}

/* An erase with a map: the page before and after. */
struct known_mapped_erase {
    const char *what;
    uint32_t bytes;
    uint32_t strips;
    uint8_t map[MAP];
    int16_t tenths;
    uint32_t number;
    uint8_t before[PAGE];
    uint8_t after[PAGE];
};

/* Cell 2 is in two bytes, and cell 5 too; 5a has cells at level 1 and 2 by any of their bits. */
static const struct known_mapped_erase KNOWN_MAPPED_ERASES[] = {
    {"erase, no cell marked", 1, 1, {0}, 50, 0, {0x5a, 0x5a, 0x5a, 0x5a, 0x5a, 0x5a}, {0}},
    {"erase, every cell marked", 1, 1, {0xff, 0xff}, 400, 0, {0x5a, 0x5a, 0x5a, 0x5a, 0x5a, 0x5a}, {0x5a, 0x5a, 0x5a, 0x5a, 0x5a, 0x5a}},
    {"erase, cells 0 and 15 marked", 1, 1, {0x01, 0x80}, 200, 0, {0x5a, 0x5a, 0x5a, 0x5a, 0x5a, 0x5a}, {0x02, 0, 0, 0, 0, 0x40}},
    {"erase, cells 1 and 14 marked", 1, 1, {0x02, 0x40}, 200, 0, {0x5a, 0x5a, 0x5a, 0x5a, 0x5a, 0x5a}, {0x18, 0, 0, 0, 0, 0x18}},
    {"erase, cell 2 marked at level 3", 1, 1, {0x04, 0}, 200, 0, {0xff, 0xff, 0xff, 0xff, 0xff, 0xff}, {0xc0, 0x01}},
    {"erase, cell 5 marked at level 3", 1, 1, {0x20, 0}, 200, 0, {0xff, 0xff, 0xff, 0xff, 0xff, 0xff}, {0, 0x80, 0x03}},
    {"erase, cell 7 marked at level 0", 1, 1, {0x80, 0}, 200, 0, {0xff, 0xff, 0x1f, 0xff, 0xff, 0xff}, {0}},
    {"erase, cells 0 to 7 of strip 1 marked", 1, 2, {0, 0, 0xff, 0}, 200, 0,
     {0xff, 0xff, 0xff, 0xff, 0xff, 0xff, 0xff, 0xff, 0xff, 0xff, 0xff, 0xff}, {0, 0, 0, 0, 0, 0, 0xff, 0xff, 0xff, 0, 0, 0}},
    {"erase with marks, L = 2, S = 3", 2, 3, {0x40, 0x08, 0x81, 0x06, 0, 0x30, 0x01, 0x4a, 0x0c, 0x40, 0x14, 0xc0}, 200, 0, WORN,
     {0, 0, 0, 0, 0, 0, 0, 0, 0, 0, 0x01, 0, 0, 0, 0, 0, 0, 0x01,
      0, 0, 0, 0x10, 0, 0, 0, 0x06, 0, 0, 0, 0, 0x40, 0, 0, 0, 0, 0x40}},
    {"erase with marks, L = 3, S = 2", 3, 2, {0, 0x80, 0x09, 0xa3, 0x62, 0x50, 0x10, 0, 0xc5, 0xa2, 0x08, 0}, 200, 0, WORN,
     {0, 0, 0, 0, 0, 0, 0, 0, 0, 0, 0, 0x40, 0x10, 0, 0x06, 0, 0, 0x10,
      0, 0x40, 0, 0, 0, 0, 0, 0, 0, 0x08, 0, 0x20, 0, 0, 0, 0, 0, 0}},
    {"erase with marks at 49", 1, 1, {0x01, 0x80}, 49, 8, {0x5a, 0x5a, 0x5a, 0x5a, 0x5a, 0x5a}, {0x5a, 0x5a, 0x5a, 0x5a, 0x5a, 0x5a}},
    {"erase with marks at 401", 1, 1, {0xff, 0xff}, 401, 8, {0xff, 0xff, 0xff, 0xff, 0xff, 0xff}, {0xff, 0xff, 0xff, 0xff, 0xff, 0xff}},
    {"erase with no marks at -32768", 1, 1, {0}, INT16_MIN, 8, {0x5a, 0x5a, 0x5a, 0x5a, 0x5a, 0x5a}, {0x5a, 0x5a, 0x5a, 0x5a, 0x5a, 0x5a}},
};

static void known_mapped_erases(void)
{
    size_t i;
    for (i = 0; i < sizeof KNOWN_MAPPED_ERASES / sizeof *KNOWN_MAPPED_ERASES; i++) {
        const struct known_mapped_erase *k = &KNOWN_MAPPED_ERASES[i];
        const size_t page_len = SEGRUNOV_PAGE_BYTES(k->bytes, k->strips);
        const size_t map_len = SEGRUNOV_MAP_BYTES(k->bytes, k->strips);
        struct guarded page, map;
        fill(&page, k->before, page_len);
        fill(&map, k->map, map_len);
        check(k->what, segrunov_erase_mapped(k->bytes, k->strips, inside(&page), page_len, inside(&map), map_len, k->tenths) == answer(k->number, 0));
        check(k->what, holds(&page, k->after, page_len));
        check(k->what, holds(&map, k->map, map_len));
    }
}

/* What the calls with a map, the lists, the band and the calls on a block are made with. A length of 0 goes with NULL. */
struct arguments {
    uint32_t code;
    uint32_t bytes;
    uint32_t strips;
    uint8_t w2;
    uint32_t count;
    size_t page_len; /* or that of the block */
    size_t map_len;
    size_t data_len;
    uint8_t filled; /* every byte of the page, or of the block */
    int16_t tenths;
    uint32_t band;
    uint32_t pages;
};

static uint8_t *at(struct guarded *g, size_t length)
{
    return length == 0 ? NULL : inside(g);
}

/* The calls that are refused alike: price and write with a map, the erase with a map, the list, the list with a map, the write in a band, and the
 * put, the get and the erase of a block. */
enum refused_calls { MAPPED, MAPPED_ERASE, LIST, MAPPED_LIST, BAND, PUT, GET, BLOCK_ERASE };

/* These calls are refused so, and nothing is changed by them. */
static void refused(const char *what, const struct arguments *a, enum refused_calls calls, uint32_t number)
{
    static const uint8_t marks[PAGE] = {0x21, 0x84, 0x5a, 0x0f};
    const uint64_t expected = answer(number, 0);
    uint8_t before[ROOM];
    uint8_t bytes[ROOM];
    struct guarded page, map, data;
    size_t i;
    for (i = 0; i < ROOM; i++) {
        before[i] = a->filled;
        bytes[i] = 0x80;
    }
    fill(&page, before, a->page_len);
    fill(&map, marks, a->map_len);
    fill(&data, bytes, a->data_len);
    switch (calls) {
    case MAPPED:
        check(what, expected == segrunov_price_mapped(a->code, a->bytes, a->strips, 1, a->w2, 3, at(&page, a->page_len), a->page_len,
                                                      at(&map, a->map_len), a->map_len, at(&data, a->data_len), a->data_len));
        check(what, expected == segrunov_write_mapped(a->code, a->bytes, a->strips, 1, a->w2, 3, at(&page, a->page_len), a->page_len,
                                                      at(&map, a->map_len), a->map_len, at(&data, a->data_len), a->data_len));
        break;
    case MAPPED_ERASE:
        check(what, expected == segrunov_erase_mapped(a->bytes, a->strips, at(&page, a->page_len), a->page_len, at(&map, a->map_len), a->map_len,
                                                      a->tenths));
        break;
    case LIST:
        check(what, expected == segrunov_write_list(a->code, a->bytes, a->strips, 1, a->w2, 3, a->count, at(&page, a->page_len), a->page_len,
                                                    at(&data, a->data_len), a->data_len));
        break;
    case MAPPED_LIST:
        check(what, expected == segrunov_write_list_mapped(a->code, a->bytes, a->strips, 1, a->w2, 3, a->count, at(&page, a->page_len), a->page_len,
                                                           at(&map, a->map_len), a->map_len, at(&data, a->data_len), a->data_len));
        break;
    case BAND:
        check(what, expected == segrunov_write_band(a->code, at(&page, a->page_len), a->page_len, 0x8080, a->band));
        break;
    case PUT:
        check(what, expected == segrunov_block_put(a->code, a->bytes, a->strips, a->pages, at(&page, a->page_len), a->page_len,
                                                   at(&data, a->data_len), a->data_len));
        break;
    case GET:
        check(what, expected == segrunov_block_get(a->code, a->bytes, a->strips, a->pages, at(&page, a->page_len), a->page_len,
                                                   at(&data, a->data_len), a->data_len));
        break;
    case BLOCK_ERASE:
        check(what, expected == segrunov_block_erase(a->bytes, a->strips, a->pages, at(&page, a->page_len), a->page_len, a->tenths));
        break;
    }
    check(what, holds(&page, before, a->page_len));
    check(what, holds(&map, marks, a->map_len));
    check(what, holds(&data, bytes, a->data_len));
}

/* Gives a call this ground. A full page does not take the data 80, nor a value near 8080; a full directory names the page fe, and takes no other. */
static void spoil(struct arguments *a, uint32_t number)
{
    switch (number) {
    case SEGRUNOV_CODE:
        a->code = 11;
        break;
    case SEGRUNOV_BYTES:
        a->bytes = 65;
        break;
    case SEGRUNOV_STRIPS:
        a->strips = 0;
        break;
    case SEGRUNOV_WEIGHT:
        a->w2 = 0;
        break;
    case SEGRUNOV_COUNT:
        a->count = 65;
        break;
    case SEGRUNOV_BAND:
        a->band = 9;
        break;
    case SEGRUNOV_PAGES:
        a->pages = 17;
        break;
    case SEGRUNOV_PAGE_LENGTH:
        a->page_len = 7;
        break;
    case SEGRUNOV_MAP_LENGTH:
        a->map_len = 3;
        break;
    case SEGRUNOV_DATA_LENGTH:
        a->data_len = 2;
        break;
    case SEGRUNOV_SPENT:
    case SEGRUNOV_NO_PAGE:
        a->filled = 0xff;
        break;
    default:
        a->tenths = 401;
        break;
    }
}

/* A list of three datas where the calls are lists, and an erased block of two pages where they are on a block. */
static struct arguments in_order(enum refused_calls calls)
{
    const struct arguments single = {7, 1, 1, 2, 1, 6, 2, 1, 0x11, 250, 0, 0};
    const struct arguments list = {7, 1, 1, 2, 3, 6, 2, 3, 0x11, 250, 0, 0};
    const struct arguments band = {7, BAND_DATA, BAND_STRIP, 2, 1, BAND_PAGE, 4, BAND_DATA, 0x11, 250, 3, 0};
    const struct arguments block = {7, 1, 1, 2, 1, DIRECTORY + 12, 2, 1, 0, 250, 0, 2};
    return calls >= PUT ? block : calls == BAND ? band : calls == LIST || calls == MAPPED_LIST ? list : single;
}

/* Each ground by itself, and every two of them: the answer is the one that is tested first. */
static void grounds_in_order(const uint32_t *order, size_t n, enum refused_calls calls)
{
    size_t i, j;
    for (i = 0; i < n; i++) {
        for (j = i; j < n; j++) {
            struct arguments a = in_order(calls);
            spoil(&a, order[j]);
            spoil(&a, order[i]);
            refused("grounds of a call, in their order", &a, calls, order[i]);
        }
    }
}

/* Lengths of the map that another item, another shape or another layout would have. */
struct known_map_length {
    const char *what;
    uint32_t bytes;
    uint32_t strips;
    size_t map_len;
};

static const struct known_map_length KNOWN_MAP_LENGTHS[] = {
    {"no map", 1, 1, 0},
    {"a map of 1 byte", 1, 1, 1},
    {"a map of 3 bytes", 1, 1, 3},
    {"a map of 4 bytes", 1, 1, 4},
    {"a map as long as the page", 1, 1, 6},
    {"no map, L = 2, S = 3", 2, 3, 0},
    {"a map of one strip, L = 2, S = 3", 2, 3, 4},
    {"a map as long as the data, L = 2, S = 3", 2, 3, 6},
    {"a map of 11 bytes, L = 2, S = 3", 2, 3, 11},
    {"a map of 13 bytes, L = 3, S = 2", 3, 2, 13},
    {"a map as long as the page, L = 3, S = 2", 3, 2, 36},
};

static void known_mapped_refusals(void)
{
    static const uint32_t of_writes[] = {1, 2, 3, 9, 4, 11, 5, 7};
    static const uint32_t of_erases[] = {2, 3, 4, 11, 8};
    size_t i;
    grounds_in_order(of_writes, sizeof of_writes / sizeof *of_writes, MAPPED);
    grounds_in_order(of_erases, sizeof of_erases / sizeof *of_erases, MAPPED_ERASE);
    for (i = 0; i < sizeof KNOWN_MAP_LENGTHS / sizeof *KNOWN_MAP_LENGTHS; i++) {
        const struct known_map_length *k = &KNOWN_MAP_LENGTHS[i];
        struct arguments a = in_order(MAPPED);
        a.bytes = k->bytes;
        a.strips = k->strips;
        a.page_len = SEGRUNOV_PAGE_BYTES(k->bytes, k->strips);
        a.map_len = k->map_len;
        a.data_len = SEGRUNOV_DATA_BYTES(k->bytes, k->strips);
        refused(k->what, &a, MAPPED, SEGRUNOV_MAP_LENGTH);
        refused(k->what, &a, MAPPED_ERASE, SEGRUNOV_MAP_LENGTH);
        refused(k->what, &a, MAPPED_LIST, SEGRUNOV_MAP_LENGTH);
    }
}

/* A list on an erased page that is refused for its count or for the length of its data: the right length is count*L*S. */
struct known_list_refusal {
    const char *what;
    uint32_t bytes;
    uint32_t strips;
    uint32_t count;
    size_t data_len;
    uint32_t number;
};

/* Counts whose lower byte or half is one that is allowed are refused as well. */
static const struct known_list_refusal KNOWN_LIST_REFUSALS[] = {
    {"count 0 and no data", 1, 1, 0, 0, 10},
    {"count 0 and one data", 1, 1, 0, 1, 10},
    {"count 0 and no data, L = 2, S = 3", 2, 3, 0, 0, 10},
    {"count 65 and 65 datas", 1, 1, 65, 65, 10},
    {"count 65 and 64 datas", 1, 1, 65, 64, 10},
    {"count 65 and 65 datas, L = 3, S = 2", 3, 2, 65, 390, 10},
    {"count 256 and 256 datas", 1, 1, 256, 256, 10},
    {"count 257 and one data", 1, 1, 257, 1, 10},
    {"count 2^16 + 2 and two datas", 1, 1, 65538, 2, 10},
    {"count 2^31 + 1 and one data", 1, 1, UINT32_C(0x80000001), 1, 10},
    {"the largest count and no data", 1, 1, UINT32_MAX, 0, 10},
    {"the largest count and 64 datas", 1, 1, UINT32_MAX, 64, 10},
    {"no data for a list of one", 2, 3, 1, 0, 5},
    {"a byte less for a list of one", 2, 3, 1, 5, 5},
    {"a byte more for a list of one", 2, 3, 1, 7, 5},
    {"no data for a list of three", 2, 3, 3, 0, 5},
    {"count*L bytes", 2, 3, 3, 6, 5},
    {"count*S bytes", 2, 3, 3, 9, 5},
    {"two datas for a list of three", 2, 3, 3, 12, 5},
    {"a byte less for a list of three", 2, 3, 3, 17, 5},
    {"a byte more for a list of three", 2, 3, 3, 19, 5},
    {"four datas for a list of three", 2, 3, 3, 24, 5},
    {"as many bytes as the page", 2, 3, 3, 36, 5},
    {"a byte less for a list of two, L = 3, S = 2", 3, 2, 2, 11, 5},
    {"a byte more for a list of two, L = 3, S = 2", 3, 2, 2, 13, 5},
    {"a byte for each of 64, L = 2, S = 3", 2, 3, 64, 64, 5},
    {"a byte less for a list of 64, L = 2, S = 3", 2, 3, 64, 383, 5},
    {"a byte more for a list of 64, L = 2, S = 3", 2, 3, 64, 385, 5},
    {"63 datas for a list of 64", 1, 1, 64, 63, 5},
    {"65 datas for a list of 64", 1, 1, 64, 65, 5},
};

static void known_list_refusals(void)
{
    static const uint32_t of_lists[] = {1, 2, 3, 9, 10, 4, 5, 7};
    static const uint32_t of_mapped_lists[] = {1, 2, 3, 9, 10, 4, 11, 5, 7};
    size_t i;
    grounds_in_order(of_lists, sizeof of_lists / sizeof *of_lists, LIST);
    grounds_in_order(of_mapped_lists, sizeof of_mapped_lists / sizeof *of_mapped_lists, MAPPED_LIST);
    for (i = 0; i < sizeof KNOWN_LIST_REFUSALS / sizeof *KNOWN_LIST_REFUSALS; i++) {
        const struct known_list_refusal *k = &KNOWN_LIST_REFUSALS[i];
        struct arguments a = in_order(LIST);
        a.bytes = k->bytes;
        a.strips = k->strips;
        a.count = k->count;
        a.page_len = SEGRUNOV_PAGE_BYTES(k->bytes, k->strips);
        a.map_len = SEGRUNOV_MAP_BYTES(k->bytes, k->strips);
        a.data_len = k->data_len;
        a.filled = 0;
        refused(k->what, &a, LIST, k->number);
        refused(k->what, &a, MAPPED_LIST, k->number);
    }
}

/* A write in a band that is refused. */
struct known_band_refusal {
    const char *what;
    uint32_t code;
    uint32_t band;
    size_t page_len;
    uint8_t filled;
    uint32_t number;
};

/* Bands whose lower byte or half is one that is allowed are refused as well; so is the widest that there is, which has what a full page holds. */
static const struct known_band_refusal KNOWN_BAND_REFUSALS[] = {
    {"code 0 of a band", 0, 0, 12, 0, 1},
    {"code 5 of a band", 5, 8, 12, 0, 1},
    {"the largest code of a band", UINT32_MAX, 3, 12, 0, 1},
    {"a band of 9", 3, 9, 12, 0, 12},
    {"a band of 9 with code 7", 7, 9, 12, 0, 12},
    {"a band of 10", 3, 10, 12, 0x5a, 12},
    {"a band of 255", 3, 255, 12, 0, 12},
    {"a band of 256", 7, 256, 12, 0, 12},
    {"a band of 264", 3, 264, 12, 0, 12},
    {"a band of 2^16", 7, 65536, 12, 0, 12},
    {"a band of 2^16 + 3", 3, 65539, 12, 0, 12},
    {"a band of 2^31 + 1", 3, UINT32_C(0x80000001), 12, 0, 12},
    {"the widest band that there is", 3, UINT32_MAX, 12, 0, 12},
    {"the widest band that there is, on a full page", 7, UINT32_MAX, 12, 0xff, 12},
    {"a band of 9 and no page", 3, 9, 0, 0, 12},
    {"no page for a band", 3, 3, 0, 0, 4},
    {"a page of 1 byte for a band", 7, 3, 1, 0, 4},
    {"a page of L = 1 for a band", 3, 0, 6, 0, 4},
    {"a page of 11 bytes for a band", 3, 3, 11, 0, 4},
    {"a page of 11 full bytes for a band", 7, 8, 11, 0xff, 4},
    {"a page of 13 bytes for a band", 7, 3, 13, 0, 4},
    {"a page of two strips for a band", 3, 8, 24, 0, 4},
    {"a page of three strips for a band", 7, 3, 36, 0xff, 4},
    {"a full page for a band of 0", 3, 0, 12, 0xff, 7},
    {"a full page for the widest band", 3, 8, 12, 0xff, 7},
    {"a full page for the widest band with code 7", 7, 8, 12, 0xff, 7},
};

static void known_band_refusals(void)
{
    static const uint32_t of_bands[] = {1, 12, 4, 7};
    size_t i;
    grounds_in_order(of_bands, sizeof of_bands / sizeof *of_bands, BAND);
    for (i = 0; i < sizeof KNOWN_BAND_REFUSALS / sizeof *KNOWN_BAND_REFUSALS; i++) {
        const struct known_band_refusal *k = &KNOWN_BAND_REFUSALS[i];
        struct arguments a = in_order(BAND);
        a.code = k->code;
        a.band = k->band;
        a.page_len = k->page_len;
        a.filled = k->filled;
        refused(k->what, &a, BAND, k->number);
    }
}

/* A refusal of the calls on a block, whose bytes are all the same. */
struct known_block_refusal {
    const char *what;
    struct shape shape;
    size_t block_len;
    size_t data_len;
    uint8_t filled;
    uint32_t number;
};

/*
 * The right lengths are 18 and 1 with L = 1, S = 1 and 2 pages, and 78 and 6 with L = 2, S = 3 and 2 pages. Numbers of pages whose lower byte or half
 * is one that is allowed are refused as well. A full block does not take the data 80, and its directory names the page fe.
 */
static const struct known_block_refusal KNOWN_BLOCK_REFUSALS[] = {
    {"code 4 of a block", {4, 1, 1, 2}, 18, 1, 0, 1},
    {"code 5 of a block, and no pages", {5, 1, 1, 0}, 6, 1, 0xff, 1},
    {"the largest code of a block", {UINT32_MAX, 1, 1, 2}, 18, 1, 0, 1},
    {"L = 0 of a block", {3, 0, 1, 2}, 18, 1, 0, 2},
    {"L = 0 of a block of 6 bytes, and no data", {3, 0, 1, 2}, 6, 0, 0, 2},
    {"L = 65 of a block, and 17 pages", {7, 65, 1, 17}, 18, 1, 0xff, 2},
    {"the largest L of a block", {3, UINT32_MAX, 1, 2}, 18, 1, 0, 2},
    {"S = 0 of a block", {3, 1, 0, 2}, 18, 1, 0, 3},
    {"S = 65 of a block, and 1 page", {7, 1, 65, 1}, 18, 1, 0xff, 3},
    {"the largest S of a block", {3, 1, UINT32_MAX, 2}, 18, 1, 0, 3},
    {"no pages", {3, 1, 1, 0}, 6, 1, 0, 13},
    {"no pages in a block of 18 bytes", {7, 1, 1, 0}, 18, 1, 0, 13},
    {"1 page", {3, 1, 1, 1}, 12, 1, 0, 13},
    {"1 page in a full block", {7, 1, 1, 1}, 12, 1, 0xff, 13},
    {"17 pages", {3, 1, 1, 17}, 108, 1, 0, 13},
    {"17 pages in a full block, and no data", {7, 1, 1, 17}, 108, 0, 0xff, 13},
    {"17 pages, L = 2, S = 1", {7, 2, 1, 17}, 210, 2, 0, 13},
    {"32 pages", {3, 1, 1, 32}, 198, 1, 0, 13},
    {"255 pages", {3, 1, 1, 255}, 18, 1, 0, 13},
    {"258 pages in a block for 2", {3, 1, 1, 258}, 18, 1, 0, 13},
    {"2^16 + 2 pages in a block for 2", {7, 1, 1, 65538}, 18, 1, 0, 13},
    {"2^31 + 2 pages in a block for 2", {3, 1, 1, UINT32_C(0x80000002)}, 18, 1, 0, 13},
    {"the largest number of pages", {7, 1, 1, UINT32_MAX}, 18, 1, 0, 13},
    {"the largest number of pages and no block", {3, 1, 1, UINT32_MAX}, 0, 1, 0, 13},
    {"no block", {3, 1, 1, 2}, 0, 1, 0, 4},
    {"a directory alone", {3, 1, 1, 2}, 6, 1, 0, 4},
    {"a block with no directory", {7, 1, 1, 2}, 12, 1, 0, 4},
    {"a block of 17 bytes", {3, 1, 1, 2}, 17, 1, 0, 4},
    {"a block of 17 full bytes, and no data", {7, 1, 1, 2}, 17, 0, 0xff, 4},
    {"a block of 19 bytes", {3, 1, 1, 2}, 19, 1, 0, 4},
    {"a block of 19 bytes, and two bytes of data", {7, 1, 1, 2}, 19, 2, 0, 4},
    {"a page more", {3, 1, 1, 2}, 24, 1, 0, 4},
    {"a page less", {3, 1, 1, 3}, 18, 1, 0, 4},
    {"a byte less, L = 2, S = 3", {3, 2, 3, 2}, 77, 6, 0, 4},
    {"a byte more, L = 3, S = 2", {7, 3, 2, 2}, 79, 6, 0, 4},
    {"no directory, L = 2, S = 3", {7, 2, 3, 2}, 72, 6, 0, 4},
    {"a page as the directory, L = 3, S = 2", {3, 3, 2, 2}, 108, 6, 0, 4},
    {"a page of one strip, L = 2, S = 3", {7, 2, 3, 2}, 30, 6, 0, 4},
    {"a byte less, 16 pages", {3, 2, 2, 16}, 389, 4, 0, 4},
    {"15 pages in a block for 16", {7, 2, 2, 15}, 390, 4, 0, 4},
    {"no data for a block", {3, 1, 1, 2}, 18, 0, 0, 5},
    {"no data for a full block", {7, 1, 1, 2}, 18, 0, 0xff, 5},
    {"data for two pages", {3, 1, 1, 2}, 18, 2, 0, 5},
    {"a byte of data less, L = 2, S = 3", {3, 2, 3, 2}, 78, 5, 0, 5},
    {"a byte of data more, L = 3, S = 2", {7, 3, 2, 2}, 78, 7, 0, 5},
    {"data for every page, L = 2, S = 3", {3, 2, 3, 2}, 78, 12, 0xff, 5},
};

/* An erase has neither code nor data. */
static void known_block_refusals(void)
{
    static const uint32_t of_puts[] = {1, 2, 3, 13, 4, 5, 7};
    static const uint32_t of_gets[] = {1, 2, 3, 13, 4, 5, 14};
    static const uint32_t of_erases[] = {2, 3, 13, 4, 8};
    size_t i;
    grounds_in_order(of_puts, sizeof of_puts / sizeof *of_puts, PUT);
    grounds_in_order(of_gets, sizeof of_gets / sizeof *of_gets, GET);
    grounds_in_order(of_erases, sizeof of_erases / sizeof *of_erases, BLOCK_ERASE);
    for (i = 0; i < sizeof KNOWN_BLOCK_REFUSALS / sizeof *KNOWN_BLOCK_REFUSALS; i++) {
        const struct known_block_refusal *k = &KNOWN_BLOCK_REFUSALS[i];
        struct arguments a = in_order(PUT);
        a.code = k->shape.code;
        a.bytes = k->shape.bytes;
        a.strips = k->shape.strips;
        a.pages = k->shape.pages;
        a.page_len = k->block_len;
        a.data_len = k->data_len;
        a.filled = k->filled;
        refused(k->what, &a, PUT, k->number);
        refused(k->what, &a, GET, k->number);
        if (k->number != SEGRUNOV_CODE && k->number != SEGRUNOV_DATA_LENGTH) {
            refused(k->what, &a, BLOCK_ERASE, k->number);
        }
    }
}

/* An erase of a block whose bytes are all 0x5a. */
struct known_block_erase {
    const char *what;
    struct shape shape;
    int16_t tenths;
    uint32_t number;
};

static const struct known_block_erase KNOWN_BLOCK_ERASES[] = {
    {"erase of a block at 49", {3, 1, 1, 2}, 49, 8},
    {"erase of a block at 50", {3, 1, 1, 2}, 50, 0},
    {"erase of a block at 400", {7, 1, 1, 16}, 400, 0},
    {"erase of a block at 401", {7, 1, 1, 16}, 401, 8},
    {"erase of a block at -1", {3, 1, 1, 2}, -1, 8},
    {"erase of a block at -32768", {3, 1, 1, 2}, INT16_MIN, 8},
    {"erase of a block at 32767", {3, 1, 1, 2}, INT16_MAX, 8},
    {"erase of a block, L = 2, S = 3", {3, 2, 3, 2}, 200, 0},
    {"erase of a block, L = 3, S = 2", {7, 3, 2, 10}, 200, 0},
    {"erase of a block, L = 3, S = 2, at 401", {7, 3, 2, 10}, 401, 8},
    {"erase of a block, L = 1, S = 4", {3, 1, 4, 16}, 200, 0},
};

/* An erased block has live page 0, and a get gives zeros. */
static void known_block_erases(void)
{
    static const uint8_t zeros[ROOM] = {0};
    size_t i;
    for (i = 0; i < sizeof KNOWN_BLOCK_ERASES / sizeof *KNOWN_BLOCK_ERASES; i++) {
        const struct known_block_erase *k = &KNOWN_BLOCK_ERASES[i];
        const struct shape *b = &k->shape;
        const size_t block_len = block_bytes(b);
        uint8_t before[ROOM];
        struct guarded block, back;
        size_t j;
        for (j = 0; j < ROOM; j++) {
            before[j] = 0x5a;
        }
        fill(&block, before, block_len);
        check(k->what, segrunov_block_erase(b->bytes, b->strips, b->pages, inside(&block), block_len, k->tenths) == answer(k->number, 0));
        check(k->what, holds(&block, k->number == SEGRUNOV_DONE ? zeros : before, block_len));
        if (k->number == SEGRUNOV_DONE) {
            fill(&back, before, SEGRUNOV_DATA_BYTES(b->bytes, b->strips));
            check(k->what, got(b, inside(&block), inside(&back)) == 0);
            check(k->what, holds(&back, zeros, SEGRUNOV_DATA_BYTES(b->bytes, b->strips)));
        }
    }
}

static void all(void)
{
    known_writes();
    known_weighted();
    known_mapped();
    only_zeros();
    ledger();
    known_runs();
    known_refusals();
    known_weight_refusals();
    known_erases();
    known_mapped_erases();
    known_mapped_refusals();
    known_lists();
    known_long_lists();
    dearest_lists();
    dearest_writes();
    catching_up();
    certain();
    known_bands();
    bands_on_many_pages();
    windings();
    known_puts();
    puts_on_many_blocks();
    known_images();
    directory_runs_out();
    certain_blocks();
    seven_puts();
    dearest_puts();
    gets_by_number();
    largest_block();
    known_words();
    known_list_refusals();
    known_band_refusals();
    known_block_refusals();
    known_block_erases();
}

#ifdef FREESTANDING

/* What goes by the names of ARM's EABI there, without an operating system. */
#if defined(__arm__) && !defined(__linux__)
#define BARE_ARM
#endif

#ifdef __cplusplus
extern "C" {
#endif
void *memcpy(void *to, const void *from, size_t n);
void *memset(void *to, int value, size_t n);
#ifdef BARE_ARM
void __aeabi_memcpy(void *to, const void *from, size_t n);
void __aeabi_memcpy4(void *to, const void *from, size_t n);
void __aeabi_memclr(void *to, size_t n);
void __aeabi_memclr4(void *to, size_t n);
#endif
void _start(void);
#ifdef __cplusplus
}
#endif

void *memcpy(void *to, const void *from, size_t n)
{
    volatile uint8_t *t = (volatile uint8_t *)to;
    const uint8_t *f = (const uint8_t *)from;
    while (n-- > 0) {
        *t++ = *f++;
    }
    return to;
}

void *memset(void *to, int value, size_t n)
{
    volatile uint8_t *t = (volatile uint8_t *)to;
    while (n-- > 0) {
        *t++ = (uint8_t)value;
    }
    return to;
}

#ifdef BARE_ARM
void __aeabi_memcpy(void *to, const void *from, size_t n)
{
    (void)memcpy(to, from, n);
}

void __aeabi_memcpy4(void *to, const void *from, size_t n)
{
    (void)memcpy(to, from, n);
}

void __aeabi_memclr(void *to, size_t n)
{
    (void)memset(to, 0, n);
}

void __aeabi_memclr4(void *to, size_t n)
{
    (void)memset(to, 0, n);
}
#endif

static void report(const char *what, int result)
{
    (void)what;
    (void)result;
}

static void leave(long status)
{
#if defined(__x86_64__)
    __asm__ volatile("syscall" : : "a"(60L), "D"(status) : "rcx", "r11", "memory");
#elif defined(__aarch64__)
    register long number __asm__("x8") = 93, first __asm__("x0") = status;
    __asm__ volatile("svc #0" : : "r"(number), "r"(first) : "memory");
#elif defined(__powerpc__)
    register long number __asm__("r0") = 1, first __asm__("r3") = status;
    __asm__ volatile("sc" : : "r"(number), "r"(first) : "memory");
#elif defined(__riscv)
    register long number __asm__("a7") = 93, first __asm__("a0") = status;
    __asm__ volatile("ecall" : : "r"(number), "r"(first) : "memory");
#elif defined(BARE_ARM)
    register long number __asm__("r0") = 0x18, reason __asm__("r1") = status == 0 ? 0x20026 : 0x20023;
    __asm__ volatile("bkpt 0xab" : : "r"(number), "r"(reason) : "memory");
#endif
}

void _start(void)
{
#ifdef __x86_64__
    /* The system enters with the stack at a multiple of 16, where a function expects it eight below. */
    __asm__ volatile("andq $-16, %rsp");
#endif
    all();
    leave(failures == 0 && checks > 0 ? 0 : 1);
    for (;;) {
    }
}

#else

#include <stdio.h>

static void report(const char *what, int result)
{
    (void)fprintf(stderr, "client: %s: %d\n", what, result);
}

int main(void)
{
    all();
    if (failures != 0) {
        (void)printf("client: %u of %u checks failed\n", failures, checks);
        return 1;
    }
    (void)printf("client: %u checks hold\n", checks);
    return 0;
}

#endif
