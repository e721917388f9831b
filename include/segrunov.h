/*
 * Segrunov: rewriting a flash page by coset codes.
 *
 * A page has S strips of 6*L bytes each, one after another. Three bits are a cell; its level, 0 to 3, is how many of
 * them are one, and only an erase lowers it. A strip holds L bytes of data. A write raises cells so that the page reads
 * as the data: it picks the cheapest of all pages that read as the data with no cell lowered, and among equals the one
 * with the lower level at the first cell that differs. What a page costs is the sum of the steps that its cells climb.
 * A step from level 0 to 1 costs 16, from 1 to 2 costs 20, from 2 to 3 costs 28: the house's weights. The calls that
 * end in _weighted, price and write with a map, and the two calls for a list of writes take three others, from the
 * flash part's data sheet: with them cheapest is meant in these. Whether a page is spent does not depend on them, and
 * calls with any weights may follow each other on one page. segrunov_write_band stores a number that need not be exact.
 * The three calls on a block keep one data on several pages.
 *
 * ARGUMENTS, the same in every call
 *   code      SEGRUNOV_SHORT (3) or SEGRUNOV_LONG (7)
 *   bytes     L, the data bytes of a strip, 1 to 64
 *   strips    S, the strips of the page, 1 to 64
 *   w1 w2 w3  the weights of the steps from level 0 to 1, 1 to 2 and 2 to 3, each 1 to 255
 *   count     the datas of a list, 1 to 64
 *   page      6*L*S bytes, page_len of them
 *   map       2*L*S bytes, map_len of them: a bit for each cell of the page, and a one marks the cell
 *   data      L*S bytes, data_len of them, strip 0 first; of a list count*L*S bytes, one data after another
 *   tenths    the temperature in tenths of a degree Celsius
 *   value     the number of a write in a band
 *   band      M, how far the number stored may be from it, 0 to 8
 *   pages     P, the pages of a block, 2 to 16
 *   block     6 + P*6*L*S bytes, block_len of them: its directory, then its pages, number 0 first
 * Every value of the types is allowed and answered; no call asks anything of a number. A length has 64 bits on every
 * processor, also where size_t has fewer. A pointer must lead to as many bytes as its length says; with length 0 it may
 * be NULL. Buffers of one call must not overlap, the map and the page neither, and nobody else may write to them during
 * the call.
 *
 * THE ANSWER is one number. SEGRUNOV_NUMBER, 8 bits of it, is 0 where the call is done, else the number of the refusal.
 * SEGRUNOV_VALUE, its lower half, is the cost of a write, price or put that is done, the strip's number where the page
 * is spent, and 0 in every other case. The one exception is a list's answer: where the page is spent, its value is the
 * cost of what was written before, and the strip has a field of its own. The grounds that a call has are tested in the
 * order 1, 12, 2, 3, 13, 9, 10, 4, 11, 5, 7, 8, 14, and the first that applies is the answer. With any refusal no byte
 * is changed: not the page, not the block, not the data, not the buffer, also not the strips before a spent one. The
 * one exception is a list with a 7: the page keeps what was written before. No call changes a map, and none but a read
 * and a get changes data.
 *
 * LISTS. segrunov_write_list and segrunov_write_list_mapped write from 1 to 64 datas into one page, one after another.
 * The page afterwards, the number written and the summed cost are those of single writes in that order, by
 * segrunov_write_weighted and segrunov_write_mapped. A list stops before the first data for which the page is spent,
 * also where a later one would fit. Its answer has four fields:
 *   SEGRUNOV_VALUE        the summed cost of the datas written, also where the page is spent
 *   SEGRUNOV_NUMBER       0 where all of them are written, else the number of the refusal
 *   SEGRUNOV_WRITTEN      the number written: the count with a 0, less than it with a 7, 0 with every other refusal
 *   SEGRUNOV_SPENT_STRIP  with a 7 the lowest strip that takes no pattern, else 0
 * After a 7 with some written, the page reads as the last of these and is to be programmed. Once it is erased, the list
 * goes on with the data at byte SEGRUNOV_WRITTEN*L*S, and its count is less by SEGRUNOV_WRITTEN (examples/relay.c). No
 * field can run into the next one: no write lowers a cell, so a list costs at most 16*L*S*(w1 + w2 + w3), each step of
 * each cell once, and never more than SEGRUNOV_MAX_LIST_COST. The answers of all other calls have 0 in the last two
 * fields. Before version 1.3.0 SEGRUNOV_NUMBER was the whole upper half. Whoever kept that macro must not use it on a
 * list's answer; on the answers of the calls that there were it gives what this one gives, and nothing changes for
 * their callers.
 *
 * A BAND. segrunov_write_band stores a number of 16 bits, as a winding's temperature, low byte first, on a page of 12
 * bytes: L = 2, S = 1. It may store any number from 0 to 65,535 that is at most M away from the one given, and takes
 * the cheapest of all pages that read as one of these with no cell lowered. Among equals the nearest number is
 * stored, then the lower; then the tie goes as in every write. Nothing goes round: near 0 and 65,535 the band ends
 * there. The page is spent, with strip 0, only where no number of the band can be stored. Its cost is what the write of
 * the number stored costs; segrunov_read says which that is. With M = 0 it is segrunov_write with L = 2 and S = 1. A
 * wider band never costs more, and is never spent where a narrower one is not; so the first three writes after an erase
 * are certain here too.
 *
 * A BLOCK keeps one data on from 2 to 16 pages of one shape, for sites where one page is spent too soon. It begins with
 * a directory of 6 bytes, a strip with code 3 and L = 1, whose data byte is the number of the live page. The pages
 * follow, number 0 first, page i from byte SEGRUNOV_BLOCK_PAGE(L, S, i) on. No cell is marked, and the weights are the
 * house's.
 *
 * segrunov_block_put writes the data into one page and that page's number into the directory, and answers as a write
 * does, with the cost of both. It picks among ALL blocks of the same length whose directory reads as the number of a
 * page that is there, and whose page of that number reads as the data, with no cell of the block lowered: it takes the
 * cheapest of these. Among equals it takes the lowest number, then the lower level at the first cell that differs, the
 * directory's cells first. The other pages keep every byte. Every page is tried at every put, so that one passed over
 * earlier can be used again. The time is at most that of a price of each page and of each number, and of two writes.
 * The block is spent exactly where there is no such block: then the value is 0, and the block is unchanged.
 *
 * segrunov_block_get reads the live page. An erased block has live page 0. Where the directory names a page that is not
 * there, which no put makes it do, a get is refused by 14. segrunov_block_erase erases the block whole. The first
 * SEGRUNOV_CERTAIN_PUTS (4) puts after an erase are never spent, whatever the data, the code, the size and the number
 * of pages. With more than a few pages it is the directory that runs out: the lowest bit of a page's number is its data
 * bit 0, and changes at most SEGRUNOV_FIRST_BIT_CHANGES (6) times between erases.
 *
 * Program the page first, then the directory. Where the supply is cut in between, the directory still names the page
 * before, and a get reads the data before, unless the put went to the live page itself: then the directory is as it
 * was, and only the page is to be programmed. A page that was cut halfway reads as anything, so a checksum belongs in
 * the data. A directory that was cut halfway can name any page, also one with older data, or none: 14.
 *
 * WHICH BITS. Bit k of a strip is bit k mod 8 of its byte k div 8, bit 0 being worth 1, and its cell c is the bits 3*c,
 * 3*c+1 and 3*c+2. A raise of the cell turns one zero into a one: it starts at bit c mod 3 of these three, c being the
 * cell's number in its strip, and goes round them until it meets a zero, so that neighbouring bits wear evenly. A cell
 * that isn't raised keeps its bits. Versions before 1.1.1 took the lowest zero of every cell. What a page reads as,
 * what a write costs, which levels it leaves and whether it is spent go by the levels alone: a page written by an older
 * version needs nothing, and an older version reads and writes the pages of this one.
 *
 * MARKED CELLS. Old parts have cells that hold their level through writes and erases. The calls that end in _mapped
 * take a map of them: cell c of strip k is map bit 16*L*k + c, and bit n of the map is bit n mod 8 of its byte n div 8,
 * bit 0 being worth 1; a one marks the cell. A marked cell keeps its three bits, in a write and in an erase, whatever
 * they are. Cheapest, ties and spent are judged among the pages that also leave every marked cell at its level: one
 * that shows the bit that is wanted serves as it is and costs nothing. So an erased page can be spent, and another
 * erase does not help: with every cell marked at level 0 it takes only zeros. A call without a map means a map with no
 * cell marked: with a map of zeros a call that takes one is the call that takes none, answer and page. Marking more
 * cells never makes a write cheaper, and never makes a spent page take the data. The map may be another one in each
 * call, as cells wear out; examples/worn.c finds them, and keeps the map beside the page. What a page reads as goes by
 * all its cells, so segrunov_read takes no map.
 *
 * CERTAIN WRITES. With no cell marked, the first SEGRUNOV_CERTAIN_WRITES (3) writes after an erase are never spent,
 * whatever the data, the code, the size and the weights; so a list of three is written whole. The k-th of them costs at
 * most SEGRUNOV_CERTAIN_COST(w, L, S), which is 8*w*L*S, with w the greatest of the first k weights: 128*L*S, 160*L*S
 * and 224*L*S with the house's. No fourth is certain: there are datas for which it is spent. What no weights can help:
 * data bit 0 of a strip, which is bit 0 of its first byte, changes at most SEGRUNOV_FIRST_BIT_CHANGES (6) times between
 * erases. Bits that change often belong late in a strip.
 *
 * THE FLASH. An erased page is zeros here, and a write turns zeros into ones. Nearly every NOR part has it the other
 * way: an erase makes ones, and programming turns ones into zeros. Its driver complements every byte, on load and on
 * program (examples/relay.c); the calls need not know. No bit has to go back before the next erase, but words are
 * programmed again: a part that takes a word once only, as with error correction over each word, does not serve.
 *
 * RESOURCES. No heap, no global state, no lock: calls on different buffers may run at the same time. Every call
 * returns. Stack: SEGRUNOV_STACK bytes at most, on each processor that is tested. The C library must supply memcpy and
 * memset, on a bare ARM by the names of its EABI (__aeabi_memcpy, __aeabi_memclr, __aeabi_memclr4). Where the processor
 * does not divide 64 bits, the compiler's own library must (libgcc or compiler-rt: __aeabi_uldivmod or __udivdi3), and
 * on a Cortex-M0 also shift and multiply. Nothing else is needed; docs/PROCESSORS.md has the list by processor.
 */
#ifndef SEGRUNOV_H
#define SEGRUNOV_H

#include <stddef.h>
#include <stdint.h>

#ifdef __cplusplus
extern "C" {
#endif

/* The version: its first number changes where a caller has to change, its second where there is more to call, else its
 * third. */
#define SEGRUNOV_VERSION "1.5.0"

/* The two codes. */
#define SEGRUNOV_SHORT UINT32_C(3)
#define SEGRUNOV_LONG UINT32_C(7)

/* The bytes of a page, of its map, of its data and of a list of datas, for L, S and the count within their limits. */
#define SEGRUNOV_PAGE_BYTES(bytes, strips) ((size_t)6 * (size_t)(bytes) * (size_t)(strips))
#define SEGRUNOV_MAP_BYTES(bytes, strips) ((size_t)2 * (size_t)(bytes) * (size_t)(strips))
#define SEGRUNOV_DATA_BYTES(bytes, strips) ((size_t)(bytes) * (size_t)(strips))
#define SEGRUNOV_LIST_BYTES(count, bytes, strips) ((size_t)(count) * SEGRUNOV_DATA_BYTES(bytes, strips))

/* The bytes of a block's directory, of a block, and those before its page of this number, for L, S and the pages within
 * their limits. */
#define SEGRUNOV_DIRECTORY_BYTES ((size_t)6)
#define SEGRUNOV_BLOCK_BYTES(bytes, strips, pages) (SEGRUNOV_DIRECTORY_BYTES + SEGRUNOV_PAGE_BYTES(bytes, strips) * (size_t)(pages))
#define SEGRUNOV_BLOCK_PAGE(bytes, strips, number) SEGRUNOV_BLOCK_BYTES(bytes, strips, number)

/* The fields of an answer, a uint64_t: the first two of any, the last two of a list's. */
#define SEGRUNOV_VALUE(answer) ((uint32_t)((answer) & UINT64_C(0xffffffff)))
#define SEGRUNOV_NUMBER(answer) ((uint32_t)((answer) >> 32 & UINT64_C(0xff)))
#define SEGRUNOV_WRITTEN(answer) ((uint32_t)((answer) >> 40 & UINT64_C(0xff)))
#define SEGRUNOV_SPENT_STRIP(answer) ((uint32_t)((answer) >> 48))

/* The numbers of an answer: 1 to 5 and 9 to 13 from the input, tested in the order 1, 12, 2, 3, 13, 9, 10, 4, 11, 5; 7,
 * 8 and 14 from the state, after those. 6 belongs to the run program. */
#define SEGRUNOV_DONE UINT32_C(0)
#define SEGRUNOV_CODE UINT32_C(1)        /* the code is neither 3 nor 7 */
#define SEGRUNOV_BYTES UINT32_C(2)       /* L is not from 1 to 64 */
#define SEGRUNOV_STRIPS UINT32_C(3)      /* S is not from 1 to 64 */
#define SEGRUNOV_PAGE_LENGTH UINT32_C(4) /* the page is not 6*L*S bytes long; of a block: not 6 + pages*6*L*S */
#define SEGRUNOV_DATA_LENGTH UINT32_C(5) /* the data, or the buffer for it, is not L*S bytes long; of a list: not count*L*S */
#define SEGRUNOV_SPENT UINT32_C(7)       /* no page reads as the data with no cell lowered and the marked ones kept: erase it; with a map that may not help; of a block: none of its pages does with the directory */
#define SEGRUNOV_TEMPERATURE UINT32_C(8) /* an erase outside 50 to 400 tenths of a degree */
#define SEGRUNOV_WEIGHT UINT32_C(9)      /* a weight is 0 */
#define SEGRUNOV_COUNT UINT32_C(10)      /* the count of a list is not from 1 to 64 */
#define SEGRUNOV_MAP_LENGTH UINT32_C(11) /* the map is not 2*L*S bytes long */
#define SEGRUNOV_BAND UINT32_C(12)       /* the band is above 8 */
#define SEGRUNOV_PAGES UINT32_C(13)      /* the number of pages is not from 2 to 16 */
#define SEGRUNOV_NO_PAGE UINT32_C(14)    /* the directory names a page that is not there */

/* The house's weights, which the calls without weights go by. */
#define SEGRUNOV_HOUSE_W1 UINT8_C(16)
#define SEGRUNOV_HOUSE_W2 UINT8_C(20)
#define SEGRUNOV_HOUSE_W3 UINT8_C(28)

/* The most datas of a list. */
#define SEGRUNOV_MAX_LIST UINT32_C(64)

/* The page of a write in a band, and its widest band. */
#define SEGRUNOV_BAND_BYTES UINT32_C(2)
#define SEGRUNOV_BAND_STRIPS UINT32_C(1)
#define SEGRUNOV_MAX_BAND UINT32_C(8)

/* The pages of a block. */
#define SEGRUNOV_MIN_PAGES UINT32_C(2)
#define SEGRUNOV_MAX_PAGES UINT32_C(16)

/* What one write costs at most, with the house's weights, with any and in a band, what a list and a put cost at most,
 * and the stack that a call needs at most, in bytes. */
#define SEGRUNOV_MAX_COST UINT32_C(1835008)
#define SEGRUNOV_MAX_WEIGHTED_COST UINT32_C(16711680)
#define SEGRUNOV_MAX_BAND_COST UINT32_C(896)
#define SEGRUNOV_MAX_LIST_COST UINT32_C(50135040)
#define SEGRUNOV_MAX_PUT_COST UINT32_C(1835456)
#define SEGRUNOV_STACK 12288

/* With no cell marked: the writes after an erase that are certain, and what the k-th of them costs at most, by the
 * greatest of the first k weights; how often data bit 0 of a strip can change between erases. */
#define SEGRUNOV_CERTAIN_WRITES UINT32_C(3)
#define SEGRUNOV_CERTAIN_COST(weight, bytes, strips) (UINT32_C(8) * (weight) * (bytes) * (strips))
#define SEGRUNOV_FIRST_BIT_CHANGES UINT32_C(6)

/* The puts into a block after its erase that are certain. */
#define SEGRUNOV_CERTAIN_PUTS UINT32_C(4)

/* Fills the buffer with what the page reads as. Refused by 1 to 5. */
uint64_t segrunov_read(uint32_t code, uint32_t bytes, uint32_t strips, const uint8_t *page, uint64_t page_len, uint8_t *data, uint64_t data_len);

/* The answer that segrunov_write gives on the same input. Nothing is changed. Refused by 1 to 5 and 7. */
uint64_t segrunov_price(uint32_t code, uint32_t bytes, uint32_t strips, const uint8_t *page, uint64_t page_len, const uint8_t *data, uint64_t data_len);

/* Writes the data into the page at the least cost. Refused by 1 to 5 and 7; the value of a 7 is the lowest strip that
 * takes no pattern. The first three writes after an erase are not refused by 7, and cost at most 128*L*S, 160*L*S and
 * 224*L*S: CERTAIN WRITES, above. */
uint64_t segrunov_write(uint32_t code, uint32_t bytes, uint32_t strips, uint8_t *page, uint64_t page_len, const uint8_t *data, uint64_t data_len);

/* The answer that segrunov_write_weighted gives on the same input. Nothing is changed. Refused by 1, 2, 3, 9, 4, 5 and
 * 7, tested in this order. */
uint64_t segrunov_price_weighted(uint32_t code, uint32_t bytes, uint32_t strips, uint8_t w1, uint8_t w2, uint8_t w3, const uint8_t *page, uint64_t page_len, const uint8_t *data, uint64_t data_len);

/* Writes the data into the page at the least cost in the weights given. Refused by 1, 2, 3, 9, 4, 5 and 7, tested in
 * this order. With the house's weights it is segrunov_write. */
uint64_t segrunov_write_weighted(uint32_t code, uint32_t bytes, uint32_t strips, uint8_t w1, uint8_t w2, uint8_t w3, uint8_t *page, uint64_t page_len, const uint8_t *data, uint64_t data_len);

/* Writes the datas one after another, each as segrunov_write_weighted, and stops before the first for which the page is
 * spent. Refused by 1, 2, 3, 9, 10, 4, 5 and 7, tested in this order; a 7 leaves what was written before it. */
uint64_t segrunov_write_list(uint32_t code, uint32_t bytes, uint32_t strips, uint8_t w1, uint8_t w2, uint8_t w3, uint32_t count, uint8_t *page, uint64_t page_len, const uint8_t *data, uint64_t data_len);

/* Writes the cheapest number that is at most the band away from the value, the nearest of equals, then the lower, into
 * a page of 12 bytes. Refused by 1, 12, 4 and 7, tested in this order; the value of a 7 is 0. */
uint64_t segrunov_write_band(uint32_t code, uint8_t *page, uint64_t page_len, uint16_t value, uint32_t band);

/* Makes every byte of the page 0. Refused by 2 to 4 and 8. */
uint64_t segrunov_erase(uint32_t bytes, uint32_t strips, uint8_t *page, uint64_t page_len, int16_t tenths);

/* The four calls with a map of the cells that no longer move: cell c of strip k is map bit 16*L*k + c. The map must not
 * overlap the page, and is not changed. A map of another length is refused by 11, so also (NULL, 0): where no cell is
 * marked, the map is zeros or the call one without a map. */

/* The answer that segrunov_write_mapped gives on the same input. Nothing is changed. Refused by 1, 2, 3, 9, 4, 11, 5
 * and 7, tested in this order. */
uint64_t segrunov_price_mapped(uint32_t code, uint32_t bytes, uint32_t strips, uint8_t w1, uint8_t w2, uint8_t w3, const uint8_t *page, uint64_t page_len, const uint8_t *map, uint64_t map_len, const uint8_t *data, uint64_t data_len);

/* Writes the data into the page at the least cost in the weights given, and raises no marked cell. Refused by 1, 2, 3,
 * 9, 4, 11, 5 and 7, tested in this order. An erased page can be spent too, and another erase does not help it. With a
 * map of zeros it is segrunov_write_weighted. */
uint64_t segrunov_write_mapped(uint32_t code, uint32_t bytes, uint32_t strips, uint8_t w1, uint8_t w2, uint8_t w3, uint8_t *page, uint64_t page_len, const uint8_t *map, uint64_t map_len, const uint8_t *data, uint64_t data_len);

/* Writes the datas one after another, each as segrunov_write_mapped with this map, and stops before the first for which
 * the page is spent. Refused by 1, 2, 3, 9, 10, 4, 11, 5 and 7, tested in this order; a 7 leaves what was written
 * before it. An erased page can be spent too: a 7 with nothing written right after an erase says that another does not
 * help. With a map of zeros it is segrunov_write_list. */
uint64_t segrunov_write_list_mapped(uint32_t code, uint32_t bytes, uint32_t strips, uint8_t w1, uint8_t w2, uint8_t w3, uint32_t count, uint8_t *page, uint64_t page_len, const uint8_t *map, uint64_t map_len, const uint8_t *data, uint64_t data_len);

/* Makes the three bits of every cell 0 that is not marked, and leaves those of the marked ones. Refused by 2, 3, 4, 11
 * and 8, tested in this order. With a map of zeros it is segrunov_erase. */
uint64_t segrunov_erase_mapped(uint32_t bytes, uint32_t strips, uint8_t *page, uint64_t page_len, const uint8_t *map, uint64_t map_len, int16_t tenths);

/* The three calls on a block. The code is that of its pages. */

/* Writes the data into the page for which the cost of that page and of the directory is least, the lowest number of
 * equals, and this number into the directory. Refused by 1, 2, 3, 13, 4, 5 and 7, tested in this order; the value of a
 * 7 is 0. The first four puts after an erase are not refused by 7. Program the page first: A BLOCK, above. */
uint64_t segrunov_block_put(uint32_t code, uint32_t bytes, uint32_t strips, uint32_t pages, uint8_t *block, uint64_t block_len, const uint8_t *data, uint64_t data_len);

/* Fills the buffer with what the live page reads as: after a put that is done, its data. Refused by 1, 2, 3, 13, 4, 5
 * and 14, tested in this order. */
uint64_t segrunov_block_get(uint32_t code, uint32_t bytes, uint32_t strips, uint32_t pages, const uint8_t *block, uint64_t block_len, uint8_t *data, uint64_t data_len);

/* Makes every byte of the block 0. Refused by 2, 3, 13, 4 and 8, tested in this order. */
uint64_t segrunov_block_erase(uint32_t bytes, uint32_t strips, uint32_t pages, uint8_t *block, uint64_t block_len, int16_t tenths);

#ifdef __cplusplus
}
#endif

#endif
