#!/usr/bin/env python3
"""run.py PROGRAM [SEED]: the run program on many inputs, well formed and broken, compared with an independent model of document 01's text.

The model judges lines and writes pages by the paper alone: levels on the branches, every level not below the old one, no digits and no cosets.
The program has to print exactly what the model does, nothing on standard error, and to end with status 0, however its reads cut the input.
"""
import fcntl
import functools
import os
import random
import subprocess
import sys
import tempfile
import termios
import threading
import time

CODES = {3: (2, 0o7, 0o5), 7: (6, 0o171, 0o133)}
HOUSE = (16, 20, 28)
HEAD = b"code bytes strips"
EXAMPLE = b"code bytes strips\n3 1 1\ndata\n80\n00\n80\n"
EXAMPLE_OUT = b"write answer cost levels\n1 0 16 1\n2 0 16 2\n3 0 20 3\n"
# L and S of pages with long data lines, where the two must not be mistaken for each other
LONG = (64, 64), (64, 63), (64, 1), (1, 64), (3, 17), (17, 3), (20, 1), (1, 19)


# ---- cells and codes


def bit(data, k):
    return data[k // 8] >> (k % 8) & 1


def level(page, c):
    return sum(bit(page, 3 * c + i) for i in range(3))


def raised(strip, c):
    """Sets the first zero of cell c of a strip, from the bit of the cell's number there mod 3 on and going round the three (document 02, K7)."""
    k = next(k for k in (3 * c + (c + i) % 3 for i in range(3)) if not bit(strip, k))
    strip[k // 8] |= 1 << (k % 8)


def climb(weights, old, new):
    return sum(weights[old:new])


def sums_of(generator, memory):
    """Bit i is set where a cell's bit is in the sum for the data bit i stages after the cell's own: by the generator's digit i, leftmost first."""
    return sum((generator >> (memory - i) & 1) << i for i in range(memory + 1))


def highest(strip, marks, c):
    """The highest level that cell c of a strip may take: its own where the strip's part of a map marks it (document 02, K3)."""
    return level(strip, c) if bit(marks, c) else 3


@functools.cache
def choices(weights, old_a, old_b, top_a, top_b):
    """For each pair of bits that the cells of a stage can show, of all levels not below the old ones nor above the tops: the least cost, then the
    lowest levels."""
    best = {}
    for x in range(old_a, top_a + 1):
        for y in range(old_b, top_b + 1):
            way = climb(weights, old_a, x) + climb(weights, old_b, y), bytes((x, y))
            shown = x % 2, y % 2
            best[shown] = min(way, best.get(shown, way))
    return best


@functools.cache
def write_strip(code, weights, strip, marks, data):
    """The strip after the write and its cost, or None: the least cost, then the lowest levels at the first cell that differs.

    All that the rest of a strip depends on is what the cells so far add to the data bits to come: of the ways that add the same, the best is kept.
    """
    memory, g1, g2 = CODES[code]
    sums_a, sums_b = sums_of(g2, memory), sums_of(g1, memory)
    best = {0: (0, b"")}
    for t in range(8 * len(data)):
        pair = 2 * t, 2 * t + 1
        ways = choices(weights, *(level(strip, c) for c in pair), *(highest(strip, marks, c) for c in pair))
        steps = [(a * sums_a ^ b * sums_b, *way) for (a, b), way in ways.items()]
        data_bit = bit(data, t)
        following = {}
        for so_far, (cost, levels) in best.items():
            for added, step_cost, step_levels in steps:
                sums = so_far ^ added
                if sums & 1 != data_bit:
                    continue
                way = cost + step_cost, levels + step_levels
                to_come = sums >> 1
                if to_come not in following or way < following[to_come]:
                    following[to_come] = way
        best = following
    if not best:
        return None
    cost, levels = min(best.values())
    after = bytearray(strip)
    for c, wanted in enumerate(levels):
        for _ in range(level(strip, c), wanted):
            raised(after, c)
    return bytes(after), cost


def part(data, size, k):
    return data[size * k : size * (k + 1)]


def write_page(code, length, strips, page, data, weights=HOUSE, marks=None):
    """The page after, the answer's number and its value: the cost, or the strip that is spent. The run program writes with the house's weights and
    no map."""
    marks = marks or bytes(2 * length * strips)
    after, cost = b"", 0
    for k in range(strips):
        found = write_strip(code, weights, part(page, 6 * length, k), part(marks, 2 * length, k), part(data, length, k))
        if found is None:
            return page, 7, k
        after, cost = after + found[0], cost + found[1]
    return after, 0, cost


def write_list(code, length, strips, page, datas, weights=HOUSE, marks=None):
    """A list of writes (document 02, K2) as single writes in turn: the page after, the answer's number, how many are written, the strip that is spent
    and the summed cost. The run program has no such list."""
    total = 0
    for written, data in enumerate(datas):
        page, number, found = write_page(code, length, strips, page, data, weights, marks)
        if number:
            return page, number, written, found, total
        total += found
    return page, 0, len(datas), 0, total


# ---- the text


def value(text):
    """A value of line 2, or None."""
    in_form = 1 <= len(text) <= 5 and all(48 <= c <= 57 for c in text) and (text[0] != 48 or len(text) == 1)
    return int(text) if in_form else None


def values(line):
    fields = [value(f) for f in line.split(b" ")]
    return fields if len(fields) == 3 and None not in fields else None


def fault(refusal, line):
    return b"refusal line\n%d %d\n" % (refusal, line)


def model(text):
    lines = text.split(b"\n")
    unended = lines.pop()  # what follows the last byte 10
    if len(lines) < 1 or lines[0] != HEAD:
        return fault(6, 1)
    given = values(lines[1]) if len(lines) > 1 else None
    if given is None:
        return fault(6, 2)
    code, length, strips = given
    for refusal, wrong in ((1, code not in CODES), (2, not 1 <= length <= 64), (3, not 1 <= strips <= 64)):
        if wrong:
            return fault(refusal, 2)
    if len(lines) < 3 or lines[2] != b"data":
        return fault(6, 3)
    out = b"write answer cost levels\n"
    page = bytes(6 * length * strips)
    levels = 0
    for number, line in enumerate(lines[3:], 1):
        if number > 1000 or len(line) != 2 * length * strips or any(c not in b"0123456789abcdef" for c in line):
            return out + fault(6, number + 3)
        page_after, answer, found = write_page(code, length, strips, page, bytes.fromhex(line.decode()))
        if page_after != page:
            page = page_after
            levels = sum(bin(byte).count("1") for byte in page)
        out += b"%d %d %d %d\n" % (number, answer, 0 if answer else found, levels)
    if unended:
        out += fault(6, len(lines) + 1)
    return out


# ---- inputs


def text_of(code, length, strips, rows):
    return HEAD + b"\n%d %d %d\ndata\n" % (code, length, strips) + b"".join(row.hex().encode() + b"\n" for row in rows)


def well_formed(rng):
    code, length, strips = rng.choice((3, 7)), rng.randint(1, 3), rng.randint(1, 3)
    few = [bytes(rng.randrange(256) for _ in range(length * strips)) for _ in range(3)]
    return text_of(code, length, strips, [rng.choice(few) for _ in range(rng.randint(0, 12))])


def broken(rng):
    """A text with one to three bytes changed, put in or taken out, or cut short."""
    text = bytearray(well_formed(rng))
    for _ in range(rng.randint(1, 3)):
        at = rng.randrange(len(text) + 1)
        byte = rng.choice(b"\n \r\0" + b"0123456789abcdefABCDEFxX-+." + bytes([rng.randrange(256)]))
        kind = rng.randrange(4)
        if kind == 0:
            text.insert(at, byte)
        elif kind == 1 and at < len(text):
            text[at] = byte
        elif kind == 2 and at < len(text):
            del text[at]
        else:
            del text[at:]
    return bytes(text)


def special():
    ended = text_of(3, 1, 1, [])
    yield EXAMPLE
    for cut in range(len(EXAMPLE)):
        yield EXAMPLE[:cut]
    for line_2 in (b"03 1 1", b"3 01 1", b"3 1 00", b"3 1", b"3 1 1 ", b" 3 1 1", b"3  1 1", b"3\t1 1", b"3 1 1\r", b"3 1 -1", b"3 1 100000", b"99999 1 1",
                   b"000003 1 1", b"4 0 0", b"0 1 1", b"7 0 0", b"3 65 65", b"3 64 65", b"3 1 0", b"3 0 1", b"", b"3 1 1 1", b"3 1 \xb9", b"99999 99999 99999"):
        yield HEAD + b"\n" + line_2 + b"\ndata\n80\n"
    for line_4 in (b"8", b"800", b"8g", b"8A", b"FF", b"", b" 80", b"80 ", b"80\r", b"8\0", b"\0\0", b"0x", b"8" * 8192, b"8" * 8193, b"8" * 8194, b"8" * 100000):
        yield ended + line_4 + b"\n"
        yield ended + line_4
    yield HEAD + b"x\n" + b"3 1 1\ndata\n"
    yield HEAD + b"\n3 1 1\nDATA\n"
    yield HEAD + b"\n3 1 1\ndata \n"
    yield b"\n" * 5
    yield b"\0" * 100
    row = bytes([0x80]), bytes([0x00])
    thousand = [row[i % 2] for i in range(1000)]
    yield text_of(3, 1, 1, thousand)
    yield text_of(3, 1, 1, thousand) + b"80\n"
    yield text_of(3, 1, 1, thousand) + b"8"
    yield text_of(3, 1, 1, thousand) + b"\n"
    # a line of 8 MB, and 8 MB of lines
    yield ended + b"0" * 8000000
    yield text_of(7, 64, 64, [bytes(4096)] * 1000)


def filled(rng, size):
    """Data without a zero byte, so that a byte that is lost or blanked shows in the cost."""
    return bytes(rng.randint(1, 255) for _ in range(size))


def long_lines(rng):
    """Long data: the last byte alone, then every byte, then another last byte. The longest page also until it is spent."""
    shapes = *LONG, *((rng.randint(1, 64), rng.randint(1, 64)) for _ in range(10))
    for code in CODES:
        for length, strips in shapes:
            size = length * strips
            whole = filled(rng, size)
            other_last = whole[:-1] + bytes([whole[-1] % 255 + 1])
            yield text_of(code, length, strips, [bytes(size - 1) + whole[-1:], whole, other_last])
        yield text_of(code, 64, 64, [filled(rng, 4096) for _ in range(9)])


def cut(text, places):
    ends = [0, *sorted(places), len(text)]
    return [text[start:end] for start, end in zip(ends, ends[1:])]


def in_pieces(rng):
    """Inputs that the program reads in pieces: the example cut everywhere, long lines cut around their ends, others anywhere."""
    for place in range(1, len(EXAMPLE)):
        yield cut(EXAMPLE, [place])
    yield cut(EXAMPLE, range(1, len(EXAMPLE)))
    start = len(text_of(3, 64, 64, []))
    rows = text_of(3, 64, 64, [filled(rng, 4096) for _ in range(3)])
    yield cut(rows, [start, start + 1, start + 8191])
    yield cut(rows, [start + 19, start + 4096, start + 8192, start + 8193])
    for _ in range(20):
        for text in rows, well_formed(rng), broken(rng):
            yield cut(text, [rng.randrange(len(text) + 1) for _ in range(4)])


# ---- the program


def unread(pipe):
    return int.from_bytes(fcntl.ioctl(pipe, termios.FIONREAD, bytes(4)), sys.byteorder)


def answer(program, pieces):
    """Exit status, standard output and standard error. A piece is written once the one before is read, so that no read has bytes of two."""
    with tempfile.TemporaryFile() as out, tempfile.TemporaryFile() as err:
        source, pipe = os.pipe()
        with subprocess.Popen([program], stdin=source, stdout=out, stderr=err) as process:
            os.close(source)
            limit = threading.Timer(60, process.kill)  # a program that never ends is at fault too
            limit.start()
            try:
                for piece in pieces:
                    while unread(pipe) and process.poll() is None:
                        time.sleep(0.0002)
                    os.write(pipe, piece)
            except BrokenPipeError:
                pass  # it stopped at a fault and left the rest
            os.close(pipe)
            process.wait()
            limit.cancel()
        out.seek(0)
        err.seek(0)
        return process.returncode, out.read(), err.read()


def main():
    program, seed = sys.argv[1], int(sys.argv[2]) if len(sys.argv) > 2 else 20261115
    rng = random.Random(seed)
    if model(EXAMPLE) != EXAMPLE_OUT:
        print("run: the model does not give the paper's example")
        return 1
    whole = [*special(), *long_lines(rng), *(well_formed(rng) for _ in range(60)), *(broken(rng) for _ in range(600))]
    inputs = [*([text] for text in whole), *in_pieces(rng)]
    faults = spent = 0
    for number, pieces in enumerate(inputs):
        text = b"".join(pieces)
        expected = model(text)
        faults += b"refusal line\n" in expected
        spent += b" 7 0 " in expected
        got = answer(program, pieces)
        if got != (0, expected, b""):
            print(f"run: input {number} of seed {seed}\n{text[:400]!r}\nin {len(pieces)} pieces; expected\n{expected[-400:]!r}")
            print(f"got exit status {got[0]}\n{got[1][-400:]!r}\nand on standard error\n{got[2][-400:]!r}")
            return 1
    if not 0 < faults < len(inputs) or not spent:
        print("run: the inputs were not of every kind")
        return 1
    print(f"run: {len(inputs)} inputs agree with the model, {faults} of them at fault, {spent} with a spent page (seed {seed})")
    return 0


if __name__ == "__main__":
    sys.exit(main())
