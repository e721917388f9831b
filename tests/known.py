#!/usr/bin/env python3
"""Fails where crates/known/stdout is not, line by line, what a model of the papers gives for the inputs of crates/known/src/main.rt.

The writes are those of the model in tests/run.py. The refusals, reading, erases, the census, blocks, strips and states are here, each from its
sentence. The functions whose names begin with show_ have the inputs of those there.
"""
import difflib

from repository import finish, read
from run import CODES, HOUSE, bit, climb, level, part, raised, write_list, write_page

EMPTY, FULL = bytes(6), b"\xff" * 6
OLD = b"\x5a" * 6  # a page that is to stay, or to be erased
EIGHTY = b"\x80"
MAP = bytes.fromhex("000000008004000000000000")

rows = []


# ---- the calls


def ground(length, strips, page, code=None, weights=None, count=None, marks=None, data=None, tenths=None):
    """The refusal of a call that has these items, or 0: 'tested in this order, as far as a call has the item', with 9, 10 and 11 where document 02
    puts them."""
    datas = 1 if count is None else count
    tests = [
        (1, code is not None and code not in CODES),
        (2, not 1 <= length <= 64),
        (3, not 1 <= strips <= 64),
        (9, weights is not None and 0 in weights),
        (10, count is not None and not 1 <= count <= 64),
        (4, len(page) != 6 * length * strips),
        (11, marks is not None and len(marks) != 2 * length * strips),
        (5, data is not None and len(data) != datas * length * strips),
        (8, tenths is not None and not 50 <= tenths <= 400),
    ]
    return next((number for number, applies in tests if applies), 0)


def packed(bits):
    """'Bit number k is bit k mod 8 of byte k div 8, bit 0 being worth 1.'"""
    return sum(value << k for k, value in enumerate(bits)).to_bytes(len(bits) // 8, "little")


def read_strip(code, strip):
    """'Data bit t is the sum, mod 2, over i from 0 to m of G2's digit i times a(t-i) plus G1's digit i times b(t-i)': a are the even cells, b the odd
    ones, and before stage 0 there is none."""
    memory, g1, g2 = CODES[code]
    digits = [(g2 >> (memory - i) & 1, g1 >> (memory - i) & 1) for i in range(memory + 1)]
    levels = [level(strip, c) for c in range(8 * len(strip) // 3)]
    pairs = list(zip(levels[::2], levels[1::2]))
    return packed([sum(x * a + y * b for (x, y), (a, b) in zip(digits, pairs[t::-1])) % 2 for t in range(len(pairs))])


def successor(code, state, digit):
    """'The state that follows, (2·s + d mod 2) mod 2^m, for every s and d.'"""
    memory = CODES[code][0]
    return (2 * state + digit % 2) % 2**memory


def strip_place(size, length, k):
    """Where strip k begins and ends in a page of this many bytes. 'L outside its limits, or a strip beyond the page's end, gives the empty part.'"""
    start, end = 6 * length * k, 6 * length * (k + 1)
    return (start, end) if 1 <= length <= 64 and end <= size else (0, 0)


# ---- a row, or those of a call


def show_next(code, state, digit):
    rows.append(f"code {code} state {state} digit {digit} next {successor(code, state, digit)}")


def show_raise(strip, cell):
    before, after = sum(level(strip, c) for c in range(16)), bytearray(strip)
    full = level(strip, cell) == 3
    if not full:
        raised(after, cell)
    rows.append(f"{after.hex()} levels {before} to {sum(level(after, c) for c in range(16))} {'full' if full else 'raised'}")
    return after


def show_strip(length, k):
    page = bytearray(b"ABCDEFGHIJKLMNOPQRSTUVWXYZabcdefghijklmnopqrstuvwxyz0123456789+-*/=<>.,:")
    start, end = strip_place(len(page), length, k)
    if start < end:
        page[end - 1] = 0xEE
    rows.append(f"L = {length}, strip {k}: {end - start} bytes, page {page.hex()}")


def show_census(length, strips, page):
    """The first four rows: 'the rows from S to 63 are zero', and 'with any refusal the census is all zeros'."""
    number = ground(length, strips, page)
    rows.append(f"census {number}")
    for k in range(4):
        levels = [level(part(page, 6 * length, k), c) for c in range(16 * length)] if not number and k < strips else []
        rows.append("  " + " ".join(str(levels.count(n)) for n in range(4)))


def show_erase(name, length, strips, page, tenths=200, marks=None):
    """'An erase empties every other cell and leaves the marked ones' bits.'"""
    number = ground(length, strips, page, marks=marks, tenths=tenths)
    if not number:
        page = packed([bit(page, k) * bit(marks or bytes(len(page)), k // 3) for k in range(8 * len(page))])
    rows.extend([f"{name} {number} 0", f"  page {page.hex()}"])
    return page


def show_calls_on(name, code, length, strips, page, data, weights=HOUSE, marks=None):
    """A price, a write and a read. The result is the page after them."""
    number, value = ground(length, strips, page, code, weights, None, marks, data), 0
    if not number:
        page, number, value = write_page(code, length, strips, page, data, weights, marks)
    rows.extend([name, f"  price {number} {value}", f"  write {number} {value}"])
    number = ground(length, strips, page, code, data=data)
    if not number:
        data = b"".join(read_strip(code, part(page, 6 * length, k)) for k in range(strips))
    rows.extend([f"  read {number} 0", f"  page {page.hex()} data {data.hex()}"])
    return page


def band_ground(code, page, band):
    """'12, M above 8, tested after 1 and before 4', of a page with L = 2 and S = 1."""
    tests = (1, code not in CODES), (12, band > 8), (4, len(page) != 12)
    return next((number for number, applies in tests if applies), 0)


def show_band(name, code, page, given, band):
    """'It takes the cheapest page over all of these. Between values at the same cost it takes the nearest, then the lower.'"""
    number, value, stored = band_ground(code, page, band), 0, ""
    if not number:
        values = range(max(0, given - band), min(65535, given + band) + 1)
        writes = [(*write_page(code, 2, 1, page, v.to_bytes(2, "little")), v) for v in values]
        offers = [(cost, abs(v - given), v, after) for after, spent, cost, v in writes if not spent]
        if offers:
            value, _, v, page = min(offers)
            stored = f" stored {v}"
        else:
            number = 7
    rows.append(f"{name}: answer {number} {value}{stored} page {page.hex()}")


def block_ground(length, strips, pages, block, code=None, data=None, tenths=None):
    """'13, the number of pages is not 2 to 16, tested after 3', and 'refusal 4 compares with the whole block's length'."""
    tests = [
        (1, code is not None and code not in CODES),
        (2, not 1 <= length <= 64),
        (3, not 1 <= strips <= 64),
        (13, not 2 <= pages <= 16),
        (4, len(block) != 6 + 6 * length * strips * pages),
        (5, data is not None and len(data) != length * strips),
        (8, tenths is not None and not 50 <= tenths <= 400),
    ]
    return next((number for number, applies in tests if applies), 0)


def page_in(block, size, i):
    """'A directory strip (code 3, L = 1, 6 bytes) and then 2 to 16 pages of one shape.'"""
    return part(block[6:], size, i)


def show_block(name, number, value, block):
    rows.extend([f"{name} {number} {value}", f"  block {block.hex()}"])
    return block


def show_put(name, code, length, strips, pages, block, data):
    """'It chooses the page for which page cost plus directory cost is least, lowest number first.' 'Spent means that no page takes the data together
    with a directory that takes its number; the whole block is then unchanged and the strip reported is 0.'"""
    number, value, size = block_ground(length, strips, pages, block, code, data), 0, 6 * length * strips
    if not number:
        offers = []
        for i in range(pages):
            page, spent, cost = write_page(code, length, strips, page_in(block, size, i), data)
            directory, no_number, directory_cost = write_page(3, 1, 1, block[:6], bytes([i]))
            if not spent and not no_number:
                offers.append((cost + directory_cost, i, directory, page))
        if offers:
            value, i, directory, page = min(offers)
            block = directory + block[6 : 6 + size * i] + page + block[6 + size * (i + 1) :]
        else:
            number = 7
    return show_block(name, number, value, block)


def show_get(name, code, length, strips, pages, block, data):
    """'A get reads the live page.' '14, from the state, a get whose directory names a page that isn't there.'"""
    number, size = block_ground(length, strips, pages, block, code, data), 6 * length * strips
    if not number:
        (live,) = read_strip(3, block[:6])
        number = 0 if live < pages else 14
        if not number:
            page = page_in(block, size, live)
            data = b"".join(read_strip(code, part(page, 6 * length, k)) for k in range(strips))
    rows.extend([f"{name} {number} 0", f"  data {data.hex()}"])


def show_block_erase(name, length, strips, pages, block, tenths):
    """'The block is erased whole, under the certificate.'"""
    number = block_ground(length, strips, pages, block, tenths=tenths)
    return show_block(name, number, 0, block if number else bytes(len(block)))


def show_list(name, code, length, strips, weights, count, page, data, marks=None):
    number, written, strip, cost = ground(length, strips, page, code, weights, count, marks, data), 0, 0, 0
    if not number:
        datas = [part(data, length * strips, n) for n in range(count)]
        page, number, written, strip, cost = write_list(code, length, strips, page, datas, weights, marks)
    rows.append(f"{name}: answer {number} written {written} strip {strip} cost {cost} page {page.hex()}")
    return page


# ---- the inputs


def show_readings():
    for code, texts in (
        (3, "000000000000 010000000000 080000000000 010300000000 410200000000 ffffffffffff"),
        (7, "010000000000 080000000000 ffffffffffff"),
    ):
        for text in texts.split():
            rows.append(f"code {code} {text} reads {read_strip(code, bytes.fromhex(text)).hex()}")


def show_states():
    for state, digit in (0, 1), (1, 0), (2, 1), (3, 2), (5, 4), (4294967295, 6), (6, 4294967295):
        show_next(3, state, digit)
    for state, digit in (0, 1), (1, 0), (37, 1), (63, 10), (100, 7), (4294967295, 6), (6, 4294967295):
        show_next(7, state, digit)


def show_raises():
    for cell in 0, 1, 3:
        show_raise(EMPTY, cell)
    strip = EMPTY
    for _ in range(4):
        strip = show_raise(strip, 2)
    show_raise(bytes.fromhex("800100000000"), 2)
    rows.append(str(climb(HOUSE, 0, 3)))


def show_calls():
    for name, code, length, strips, page in (
        ("code 3", 3, 1, 1, EMPTY),
        ("code 7", 7, 1, 1, EMPTY),
        ("code 4", 4, 1, 1, EMPTY),
        ("L = 0", 3, 0, 1, EMPTY),
        ("L = 65", 3, 65, 1, EMPTY),
        ("S = 0", 3, 1, 0, EMPTY),
        ("S = 65", 3, 1, 65, EMPTY),
        ("a page of 5 bytes", 3, 1, 1, bytes(5)),
        ("a page of 7 bytes", 3, 1, 1, bytes(7)),
    ):
        show_calls_on(name, code, length, strips, page, EIGHTY)


def show_erases():
    for tenths in 49, 50, 400, 401, -1, -32768:
        show_erase(f"erase at {tenths}", 1, 1, OLD, tenths)


def show_counts():
    for text in "010300000000", "410200000000", "ffffffffffff":
        show_census(1, 1, bytes.fromhex(text))


def show_shapes():
    data = bytes.fromhex("8001c3405aff")
    page = show_calls_on("L = 2, S = 3, code 3", 3, 2, 3, bytes(36), data)
    show_census(2, 3, page)
    show_census(3, 2, page)
    page = show_calls_on("L = 3, S = 2, code 7", 7, 3, 2, page, data)
    show_census(3, 2, page)
    show_erase("erase, L = 65, S = 1", 65, 1, page)
    show_erase("erase, L = 1, S = 65", 1, 65, page)
    show_census(65, 1, page)
    show_census(1, 65, page)
    show_erase("erase, L = 3, S = 2", 3, 2, page)


def show_strips():
    for length, k in (3, 2), (3, 3), (4, 1), (2, 1), (1, 2), (3, 4), (5, 2), (3, 18446744073709551615), (0, 0), (65, 0):
        show_strip(length, k)


def show_one_strip():
    page = show_calls_on("L = 4, S = 2, code 3", 3, 4, 2, bytes(48), bytes.fromhex("8001c3405aff0f1e"))
    show_calls_on("the same, strip 1", 3, 4, 2, page, bytes.fromhex("8001c3405a3c0f1e"))


def show_weights():
    page = bytes(36)
    for name, code, length, strips, weights, text in (
        ("weights 1 2 3, L = 2, S = 3, code 3", 3, 2, 3, (1, 2, 3), "0123456789ab"),
        ("weights 255 1 2, L = 2, S = 3, code 3", 3, 2, 3, (255, 1, 2), "ba9876543210"),
        ("weights 2 255 1, L = 3, S = 2, code 7", 7, 3, 2, (2, 255, 1), "0f1e2d3c4b5a"),
        ("weights 255 255 255, L = 3, S = 2, code 3", 3, 3, 2, (255, 255, 255), "feedc0ffee42"),
    ):
        page = show_calls_on(name, code, length, strips, page, bytes.fromhex(text), weights)
    show_census(3, 2, page)


def show_zero_weights():
    for weights in (0, 1, 1), (1, 0, 1), (1, 1, 0):
        show_calls_on("weights {} {} {}".format(*weights), 3, 1, 1, EMPTY, EIGHTY, weights)


def show_maps():
    page = show_erase("erase, map of strip 1, L = 2, S = 3", 2, 3, b"\x5a" * 36, marks=MAP)
    page = show_calls_on("map of strip 1, L = 2, S = 3, code 7", 7, 2, 3, page, bytes.fromhex("617b0feda7e1"), (3, 1, 2), MAP)
    page = show_calls_on("the same map, L = 3, S = 2, code 3", 3, 3, 2, page, bytes.fromhex("6ab37820db5c"), HOUSE, MAP)
    show_calls_on("a map of 11 bytes", 3, 3, 2, page, bytes(6), HOUSE, bytes(11))
    show_erase("erase, a map of 11 bytes", 3, 2, page, marks=bytes(11))


def show_marked():
    show_calls_on("every cell marked at level 0", 3, 1, 1, EMPTY, EIGHTY, HOUSE, b"\xff\xff")
    show_calls_on("the same, zeros", 3, 1, 1, EMPTY, b"\x00", HOUSE, b"\xff\xff")


def show_lists():
    show_list("seven writes", 3, 1, 1, HOUSE, 7, EMPTY, bytes.fromhex("80008000800080"))
    show_list("spent at the third", 3, 1, 2, HOUSE, 4, EMPTY + FULL, bytes.fromhex("80fe00fe818040fe"))
    page = show_list("L = 2, S = 3, code 3", 3, 2, 3, (1, 2, 3), 3, bytes(36), bytes.fromhex("0123456789abba98765432100f1e2d3c4b5a"))
    show_list("L = 3, S = 2, code 7", 7, 3, 2, (255, 1, 2), 2, page, bytes.fromhex("feedc0ffee42617b0feda7e1"))
    show_list("64 writes", 3, 1, 1, HOUSE, 64, EMPTY, EIGHTY * 64)


def show_refused_lists():
    seven = bytes.fromhex("80008000800080")
    show_list("65 writes", 3, 1, 1, HOUSE, 65, OLD, EIGHTY * 65)
    show_list("no write", 3, 1, 1, HOUSE, 0, OLD, b"")
    show_list("a weight of 0", 3, 1, 1, (1, 0, 1), 0, OLD, seven)
    show_list("a byte less", 3, 1, 1, HOUSE, 8, OLD, seven)


def show_mapped_lists():
    page, datas = bytes(14) + b"\x40\x40" + bytes(20), bytes.fromhex("617b0feda7e16ab37820db5c")
    page = show_list("map of strip 1, code 7", 7, 2, 3, (3, 1, 2), 2, page, datas, MAP)
    show_list("a map of 11 bytes", 7, 2, 3, (3, 1, 2), 2, page, datas, MAP[:11])
    show_list("every cell marked", 3, 1, 1, HOUSE, 3, EMPTY, bytes.fromhex("000080"), b"\xff\xff")


def show_bands():
    show_band("a band of 0, code 3", 3, bytes(12), 256, 0)
    show_band("a band of 8, code 7", 7, bytes(12), 300, 8)
    show_band("near 0, code 3", 3, bytes(12), 3, 8)
    show_band("near 65535, code 7", 7, bytes(12), 65533, 8)
    show_band("the lower of two, code 3", 3, bytes.fromhex("886809110008092280631481"), 1781, 8)
    show_band("the lower of two, code 7", 7, bytes.fromhex("161041100410871240802800"), 8450, 8)
    show_band("spent for the exact value, code 3", 3, bytes.fromhex("7f8f07880030000000000000"), 483, 3)
    show_band("spent for all, code 3", 3, bytes.fromhex("ffffffff1b74000000000000"), 474, 3)


def show_refused_bands():
    show_band("a band of 9", 3, OLD * 2, 300, 9)
    show_band("a band of 9, a page of 11 bytes", 3, (OLD * 2)[:11], 300, 9)
    show_band("code 4, a band of 9", 4, OLD * 2, 300, 9)
    show_band("a page of 11 bytes", 3, (OLD * 2)[:11], 300, 8)


def show_blocks():
    block = show_put("put, an erased block", 7, 1, 1, 2, EMPTY + EMPTY + EMPTY, EIGHTY)
    show_get("get, page 0 live", 7, 1, 1, 2, block, b"\x5a")
    show_block_erase("erase of a block", 1, 1, 2, block, 400)
    block = show_put("put, a full block", 7, 1, 1, 2, FULL + FULL + FULL, EIGHTY)
    show_get("get, a full block", 7, 1, 1, 2, block, b"\x5a")
    show_put("put, 1 page", 7, 1, 1, 1, block, EIGHTY)


def main():
    for show in (
        *(show_readings, show_states, show_raises, show_calls, show_erases, show_counts, show_shapes, show_strips, show_one_strip, show_weights),
        *(show_zero_weights, show_maps, show_marked, show_lists, show_refused_lists, show_mapped_lists, show_bands),
        *(show_refused_bands, show_blocks),
    ):
        show()
    there, bad = read("crates/known/stdout").splitlines(), []
    for kind, first, last, start, end in difflib.SequenceMatcher(None, there, rows, autojunk=False).get_opcodes():
        if kind != "equal":
            bad += [f"crates/known/stdout:{n + 1}: the model has no row '{there[n]}' here" for n in range(first, last)]
            bad += [f"crates/known/stdout:{first + 1}: there is no row '{row}'" for row in rows[start:end]]
    finish(bad, f"crates/known/stdout: {len(rows)} rows, each as the model has it")


main()
