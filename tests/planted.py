#!/usr/bin/env python3
"""Plants faults in a copy of the repository, one at a time, and fails where the check that is to find one passes, or does not name it: for all
checks, or for those that are given (`tests/planted.py edits.py contracts.py`).

What rt says of the must-fail edits is made up, in its own forms and the prover's, since it is there only after rt ci; tests/measure.c measures
a library whose calls do nothing; and what the gate runs beside the checks is a stand-in that passes.
"""
import os
import pathlib
import re
import shutil
import signal
import subprocess
import sys
import tempfile

from edits import FUNCTIONS, first_named, proofs_of
from repository import ROOT, edits, finish, floor, read
from repository import declared as is_declared

# The edit that faults are planted in.
CRATE, NAME = edits()[0]
EDIT = f"crates/{CRATE}/must-fail/{NAME}.edit"
LOG = "target/ci.log"
OLD = re.search(r"^old: (.*)$", read(EDIT), re.M)[1]

# Files that faults are planted in; most of them price.
FIRMWARE = "crates/firmware/src/lib.rt"
EXPORTS = "crates/firmware_c/src/lib.rt"
HEADER = "include/segrunov.h"
REFUSALS = "crates/refusals/specs/Refusals.antt"
ENUM = "crates/refusals/src/lib.rt"
BAND = "crates/page_promises/specs/Band.antt"
BLOCK = "crates/block_promises/specs/Block.antt"
STDOUT = "crates/known/stdout"
WRITING = "crates/page/src/writing.rt"
REWRITING = "crates/page_rewriting/src/lib.rt"
BACKWARD = "crates/trellis/src/backward.rt"
READING = "crates/page_reading/src/lib.rt"
ROWS = "crates/rows/src/lib.rt"
PARTS = "crates/page_parts/src/lib.rt"
STRIP = "self.code, &rows, strip(page, self.bytes, k), marked, data_part(self.data, self.bytes, k)"
KEPT = "let mut kept = [0u8; 64]; kept[0] = 1;"

# Where rt cuts the first line of the prover.
CUT = 160

# What rt ci is to count.
PROVED = floor()["crates"] + floor()["edits"]


# A fault gives each file that it is planted in as a function from its text to the planted one. None is the text of no file.
def append(path, text):
    return {path: lambda old: (old or "") + text}


def change(path, pattern, text):
    """Another text where the pattern first fits."""
    return {path: lambda old: re.sub(pattern, lambda _: text, old, count=1, flags=re.M)}


def instead(path, old, new):
    """Another text for the first that is literally so."""
    return change(path, re.escape(old), new)


def before(path, line, text):
    """A text before the first line that begins so."""
    return change(path, rf"^(?={re.escape(line)})", text)


def delete(path):
    return {path: lambda old: None}


def function(crate, signature, *clauses):
    """A function in front of one that has a contract. Without clauses its brace stands on the signature's line."""
    head = "\n    ".join([signature, *clauses]) + ("\n{" if clauses else " {")
    other = "pub fn after(n: u32) -> u32\n    ensures { result ≡ n }\n{\n    n\n}"
    return append(f"crates/{crate}/src/lib.rt", f"\n{head}\n    0\n}}\n\n{other}\n")


def row(cells):
    """A row in a table of its own."""
    return append("docs/TRACE.md", f"\n| sentence | contract | must-fail |\n|---|---|---|\n{cells}\n")


def number(name, more):
    return change("tests/floor.txt", rf"^{name} .*", f"{name} {floor()[name] + more}")


def said_of(crate, name, what):
    """The line in which rt says what an edit came to."""
    return f"rt: must-fail {crate}/{name}.edit: {what}"


def said(what, crate=CRATE, name=NAME):
    """Another such line of an edit, or none."""
    return change(LOG, rf"^{re.escape(said_of(crate, name, ''))}.*\n", said_of(crate, name, what) + "\n" if what else "")


def refused(report, only="", of=(CRATE, NAME)):
    """An edit as refused, with another first line of the prover."""
    return said(f"refused, as it must be{only}: {report[:CUT]}", *of)


def named_line(crate, name):
    """What rt says of an edit that fails first at the statement that it names."""
    statement, _, place = (first_named(crate, name) or "").partition(" of ")
    report = None
    for path in (path for path in proofs_of(place) if (ROOT / path).is_file()):
        text, file = read(path), path.removeprefix(f"crates/{crate}/")
        if is_declared(path, statement):
            report = f"./{file}:1:1: error: `{statement}`: expected type `P`, but this has type `Q`"
        elif inner := re.search(rf"\blet {re.escape(statement)} :", text):
            before = text[: inner.end()].split("\n")
            report = report or f"./{file}:{len(before)}:{len(before[-1]) + 2}: error: `planted`: `omega`: the goal does not follow"
    if not report and place in FUNCTIONS:
        function = FUNCTIONS[place]
        clauses = function.names["ensures"]
        whole = statement.startswith("returns") and "-clause-" not in statement and len(clauses) > 1
        goal = f"{statement}-clause-{clauses[-1]}" if whole else statement
        file = function.where.rpartition(":")[0].removeprefix(f"crates/{crate}/")
        report = f"note: {file}:{function.lines[-1]}:5: it is not proved that what the function ensures holds when it returns (`{goal}`)"
    return said_of(crate, name, f"refused, as it must be: {(report or '')[:CUT]}")


def in_price_strip(line, item=""):
    """price_strip with a line more in front of its loop, and the crate rows with an item more, for the line to use."""
    return {**before(BACKWARD, "    for q in (0..data.len()).rev()", f"    {line}\n"), **append(ROWS, f"\n{item}\n")}


def each(count, text):
    """A text for each number below this, which stands in it for #."""
    return " ".join(text.replace("#", str(n)) for n in range(count))


def struct(name, count, kind, value):
    """A struct with so many fields of a type, and a value of it by the value of a field."""
    return f"#[derive(Clone, Copy)]\npub struct {name} {{ {each(count, f'pub a#: {kind},')} }}", f"rows::{name} {{ {each(count, f'a#: {value},')} }}"


def in_strip_mut(line, item=""):
    """strip_mut with a line more before it returns the part, and an item more beside it, for the line to use."""
    return {PARTS: lambda old: re.sub(r"^(?=    &mut page\[)", f"    {line}\n", old, flags=re.M) + f"\n{item}\n"}


def priced_by(call):
    """price_strips with another call for the price of a strip, and an array that it may use."""
    return change(REWRITING, r"let price = price_strip\([^;]*;", f"let mut kept = [0u8; 64]; let price = {call};")


def used(call, result):
    """Another result of a call of the library that does nothing."""
    return change("planted.c", rf"done\(64\)(?=; /\* segrunov_{call} )", result)


def declared(call, old, new):
    """Another text in the header's declaration of a call."""
    return {HEADER: lambda text: re.sub(rf"^(uint64_t segrunov_{call}\(.*?){re.escape(old)}", rf"\1{new}", text, flags=re.M)}


def refused_by(call, old, new):
    """Other numbers in the header's comment on a call."""
    comment = rf"{re.escape(old)}(?=(?:(?!/\*).)*\*/\nuint64_t segrunov_{call}\()"
    return {HEADER: lambda text: re.sub(rf"(?<=Refused by ){comment}", new, text, flags=re.S)}


SEARCH = "`search`: no proof of `P` was found. It stopped 2 lemmas deep, with lemmas still to try"
LINE = next(f.lines[0] for f in FUNCTIONS.values() if f.where.startswith(f"crates/{CRATE}/src/lib.rt:"))
NOTE = f"note: src/lib.rt:{LINE}:1: it is not proved that P (`planted`)"
WITHIN, INSIDE = ("codes", "bit_by_the_wrong_parity"), "proofs/strips/read_byte/Answers.antt"
PROOF = "./proofs/planted/Answers.antt:1:1:"
BY_A_LIMIT = " (only by a limit of the prover, which gave no verdict, so this says less of the contract: choose a change that it refuses sooner)"
BY_A_NAME = " (only because a proof file names what the edit took away, so this says little of the contract: change a value and keep the names)"
ASKS = "requires { Unit }"
STORE = "if page.len() > 0 { page[0] = 0; }"
FLAG = "#[derive(Clone, Copy)]\npub enum Flag { No, Yes }"
FIELDS, FIELDS_VALUE = struct("Fields", 64, "u32", "0")
BITS, BITS_VALUE = struct("Bits", 8, "u64", "0")  # a bit for each stage
OUTER, OUTER_VALUE = struct("Outer", 8, "Bits", BITS_VALUE)
FLAGS, FLAGS_VALUE = struct("Flags", 64, "Flag", "rows::Flag::No")
ROOMS, ROOMS_VALUE = struct("Rooms", 8, "[u32; 4]", "[0; 4]")

# For each check, what it is to say, and the fault.
FAULTS = {
    "listed.py": [
        ("crates/known is not listed", change("crates.txt", r"^known:.*\n", "")),
    ],
    "contracts.py": [
        ("page::planted is public and has no ensures", function("page", "pub fn planted(n: u32) -> u32")),
        ("page::planted is public and has no ensures", function("page", "pub fn planted<'a>(x: &'a [u8], y: &'a [u8]) -> u32")),
        ("page::planted has a result of which", function("page", "pub fn planted(n: u32) -> u32", "ensures { n ≡ n + 0 }")),
        ("page::planted has a result of which", function("page", "pub fn planted(n: u32) -> u32", "ensures { All (λ result. result ≡ n) }")),
        ("page::planted has a result of which", function("page", "pub fn planted(n: u32) -> u32", "ensures { (result : ℕ) → result ≡ n }")),
        ("page::planted has a result of which", function("page", "pub fn planted(n: u32) -> u32", "ensures { let result = n in result ≡ n }")),
        ("may change x,", function("text", "fn planted(x: &mut [u8]) -> u32", "ensures { result ≡ length x.old }")),
        ("may change data,", function("text", "fn planted(data: &mut [u8]) -> u32", "ensures { result ≡ length («data».old) }")),
        ("page::planted is to take every input", function("page", "pub fn planted()", ASKS, "ensures { Unit }")),
        ("page::planted is to take every input", function("page", "pub fn planted()", "requires first { Unit }", "ensures* { Unit }")),
        ("text::planted is to take every input", function("text", 'extern "C" fn planted()', ASKS, "ensures { Unit }")),
        ("page_reading::read is to take every input", before(READING, "    ensures value { result ≡ completion_of (ground", f"    {ASKS}\n")),
        ("refusals::planted is to take every input", function("refusals", "pub fn planted()", ASKS, "ensures { Unit }")),
        ("BEHIND has refusals::judge_sizes, which", change("tests/contracts.py", r"(?<=refusals::)judge_page", "judge_sizes")),
        ("hands on page_reading::planted, which", append("crates/page/src/reading.rt", "pub use page_reading::planted;\n")),
        ("hands on page_reading::planted, which", append("crates/page/src/reading.rt", "pub use page_reading::{\n    read, planted,\n};\n")),
        ("both sides of ≡", function("page", "pub fn planted(n: u32) -> u32", "ensures { result ≡ result }")),
        ("both sides of ≡", function("page", "pub fn planted(n: u32) -> u32", "ensures value { result ≡ n }", "ensures same { result ≡ result }")),
        ("both sides of ≡", function("page", "pub fn planted(n: u32) -> u32", "ensures { n + result ≡ (n + (result)) }")),
        ("both sides of ≤", function("page", "pub fn planted(n: u32) -> u32", "ensures { result ≤ result }")),
        ("both sides of ≤", function("page", "pub fn planted(n: u32) -> u32", "ensures { (n ≤ 4294967295) × (result ≤ result) }")),
        ("both sides of ↔", function("page", "pub fn planted(n: u32) -> bool", "ensures { IsTrue result ↔ IsTrue result }")),
        ("both sides of ≡", function("page", "pub fn planted(n: u32) -> u32", "ensures { n < 4294967296 × result ≡ result }")),
        ("both sides of ≡", function("page", "pub fn planted(n: u32) -> u32", "ensures { (k : ℕ) → k < n → result ≡ result }")),
        ("both sides of ≡", function("page", "pub fn planted(n: u32) -> u32", "ensures { All (λ k. result + k ≡ result + k) }")),
        ("both sides of ≡", function("page", "pub fn planted(n: u32) -> u32", "ensures { let k = n in result + k ≡ result + k }")),
        ("both sides of ≡", function("page", "pub fn planted(n: u32) -> u32", "ensures* { ⌜ result ≡ result ⌝ ∗ ⌜ result < n ⌝ }")),
        ("both sides of ≡", function("page", "pub fn planted(x: &[u8]) -> &[u8]", "ensures { length result.now ≡ length result.now }")),
        ("both sides of ≡", function("text", "fn planted(data: &mut [u8])", "ensures { «data».new ≡ (data.new) }")),
        ("both sides of ≡", function("text", "fn planted(x: &mut [u8])", "ensures { (x.exit).now ≡ (x.exit).now }")),
        ("1 public constants PLANTED, and 0 ensures", append("crates/text/src/lib.rt", "\npub const PLANTED: usize = 1;\n")),
        ("2 public constants CLOSED, and 1 ensures", append("crates/text/src/lib.rt", "\npub const CLOSED: usize = 1;\n")),
        ("1 public constants LOWEST, and 0 ensures", change(ROWS, r"LOWEST(?= ≡)", "1")),
        ("1 public constants LOWEST, and 0 ensures", change(ROWS, r"LOWEST ≡ .*(?= \})", "result ≡ LOWEST")),
        ("segrunov_price has another contract than", instead(FIRMWARE, "result % 4294967296 ≤ largest_cost", "result % 4294967296 ≤ largest_list_cost")),
        ("segrunov_write has another contract than", instead(EXPORTS, "page.new ≡ page_of house", "page.new ≡ page_by house")),
        ("segrunov_erase has another contract than", change(EXPORTS, r"(?<=_erase\(bytes: u32, strips: u32, page: &mut \[u8\], tenths: )i16", "u16")),
        ("segrunov_read is another call than", instead(EXPORTS, "read(code, bytes, strips,", "read(code, strips, bytes,")),
        ("segrunov_write is another call than", instead(EXPORTS, "firmware::segrunov_write(", "firmware::segrunov_price(")),
        ("no function of the name of firmware_c::segrunov_planted", append(EXPORTS, '\npub extern "C" fn segrunov_planted() {\n}\n')),
        ("firmware::segrunov_planted is not exported", function("firmware", "pub fn segrunov_planted(n: u32) -> u32", "ensures { result ≡ 0 }")),
        ("firmware::segrunov_read is exported, and not", change(FIRMWARE, r"^pub (?=fn segrunov_read\()", 'pub extern "C" ')),
        ("fn planted is not understood", append("crates/text/src/lib.rt", "\nfn planted(n: u32) -> u32;\n")),
        ("the word fn stands there", append("crates/text/src/lib.rt", "\nconst PLANTED: fn(u32) -> u32 = planted;\n")),
        ("is not understood", append("crates/text/src/lib.rt", "\n/* fn planted() {} */\n")),
    ],
    "trace.py": [
        ("there is no text/specs/Text:planted", row("| planted | `text/specs/Text:planted` | none: planted |")),
        ("there is no page::write", row("| planted | `page::write` | none: it stands in the module writing |")),
        ("there is no text/must-fail/planted", row("| planted | | `text/must-fail/planted` |")),
        ("no must-fail edit, and no", row("| planted | | |")),
        ("no must-fail edit, and no", row("| planted | | none: |")),
        ("2 cells in a table of 3 columns", row("| planted | |")),
        ("no row names text/must-fail/planted", append("crates/text/must-fail/planted.edit", "")),
    ],
    "prose.py": [
        ("README.md:", append("README.md", "word " * 25 + "\n")),
        ("docs/changes/K8.md:", append("docs/changes/K8.md", "- " + "word " * 24 + "\n")),
        ("include/segrunov.h:", change("include/segrunov.h", r"^ \* THE FLASH\.", " * " + "word " * 25)),
    ],
    "header.py": [
        ("SEGRUNOV_MAX_COST is 1835007,", change("include/segrunov.h", "1835008", "1835007")),
        ("SEGRUNOV_MAX_COST is 1835008,", change("crates/page_promises/specs/Writes.antt", r"^largest_cost = .*", "largest_cost = 1835009")),
        ("SEGRUNOV_MAX_WEIGHTED_COST is 16711679,", change("include/segrunov.h", "16711680", "16711679")),
        ("SEGRUNOV_HOUSE_W2 is 28,", change("include/segrunov.h", r"UINT8_C\(20\)", "UINT8_C(28)")),
        ("SEGRUNOV_HOUSE_W3 is 28,", change("crates/cells/specs/Climbs.antt", r"^house = .*", "house = 16 ∷ 20 ∷ 24 ∷ []")),
        ("SEGRUNOV_SHORT is 7,", change("include/segrunov.h", r"SEGRUNOV_SHORT UINT32_C\(3\)", "SEGRUNOV_SHORT UINT32_C(7)")),
        ("SEGRUNOV_MAP_LENGTH is 10,", change("include/segrunov.h", r"UINT32_C\(11\)", "UINT32_C(10)")),
        ("SEGRUNOV_COUNT is 12,", change("include/segrunov.h", r"UINT32_C\(10\)", "UINT32_C(12)")),
        ("SEGRUNOV_MAX_LIST is 63,", change("include/segrunov.h", r"UINT32_C\(64\)", "UINT32_C(63)")),
        ("SEGRUNOV_MAX_LIST_COST is 50135039,", change("include/segrunov.h", "50135040", "50135039")),
        ("SEGRUNOV_MAX_LIST_COST is 50135040,", change("crates/page_promises/specs/Lists.antt", r"^largest_list_cost = .*", "largest_list_cost = 1")),
        ("SEGRUNOV_MAX_BAND is 7,", change("include/segrunov.h", r"(?<=MAX_BAND UINT32_C\()8", "7")),
        ("SEGRUNOV_MAX_BAND_COST is 896,", change(BAND, r"^largest_band_cost = .*", "largest_band_cost = 1792")),
        ("SEGRUNOV_BAND_BYTES is 2,", change(REFUSALS, r"^band_bytes = .*", "band_bytes = 1")),
        ("SEGRUNOV_PAGES is 14,", change("include/segrunov.h", r"UINT32_C\(13\)", "UINT32_C(14)")),
        ("SEGRUNOV_NO_PAGE is 14,", change(REFUSALS, r"(?<=PageMissing = )14", "13")),
        ("SEGRUNOV_MIN_PAGES is 1,", change("include/segrunov.h", r"(?<=MIN_PAGES UINT32_C\()2", "1")),
        ("SEGRUNOV_MAX_PAGES is 16,", instead(REFUSALS, "leb P 16", "leb P 15")),
        ("SEGRUNOV_MAX_PUT_COST is 1835456,", change(BLOCK, r"^largest_put_cost = .*", "largest_put_cost = 1835008")),
        ("SEGRUNOV_CERTAIN_PUTS is 5,", change("include/segrunov.h", r"(?<=CERTAIN_PUTS UINT32_C\()4", "5")),
        ("SEGRUNOV_DIRECTORY_BYTES is 6,", change(REFUSALS, r"^directory_size = .*", "directory_size = 12")),
        ("does not define SEGRUNOV_DIRECTORY_BYTES", instead(HEADER, "DIRECTORY_BYTES ((size_t)6)", "DIRECTORY_BYTES 6")),
        ("does not define SEGRUNOV_BLOCK_BYTES(", instead(HEADER, "(SEGRUNOV_DIRECTORY_BYTES + SEGRUNOV_PAGE", "(SEGRUNOV_PAGE")),
        ("does not define SEGRUNOV_BLOCK_PAGE(", instead(HEADER, "SEGRUNOV_BLOCK_BYTES(bytes, strips, number)", "(number)")),
        ("has no line 'block_size L S P = ", change(REFUSALS, r"^block_size L S P = .*", "block_size L S P = page_bytes L S * P")),
        ("has no line 'page_in L S i block = ", instead(BLOCK, "(drop (directory_size + ", "(drop (")),
        ("has no line 'answer_word a = number_of a * 2 ^ 31 +", change("include/segrunov.h", r">> 32(?= & UINT64_C\(0xff\))", ">> 31")),
        ("has no line 'list_word a = ", change("crates/words/specs/Words.antt", r"(?<=a\.written \* 2 \^ )40", "41")),
        ("has no line 'list_word a = ", change("crates/words/specs/Words.antt", r"(?<=list_strip a \* 2 \^ )48", "47")),
        ("SEGRUNOV_NUMBER does not end where SEGRUNOV_WRITTEN begins", change("include/segrunov.h", r"(?<=>> 32 & UINT64_C\(0xff)", "f")),
        ("SEGRUNOV_WRITTEN does not end where SEGRUNOV_SPENT_STRIP begins", change("include/segrunov.h", r"(?<=>> 40) & UINT64_C\(0xff\)", "")),
        ("has the fields VALUE, NUMBER, WRITTEN of an answer", change("include/segrunov.h", r"(?<=SEGRUNOV_SPENT_STRIP)\(answer\)", "(word)")),
        ("SEGRUNOV_MAP_BYTES is 3,", change("include/segrunov.h", r"(?<=MAP_BYTES\(bytes, strips\) \(\(size_t\))2", "3")),
        ("SEGRUNOV_PAGE_BYTES is 6,", change("crates/codes/src/lib.rt", r"(?<=STRIP_BYTES: usize = )6", "3")),
        ("does not define SEGRUNOV_MAP_BYTES", change("include/segrunov.h", r"(?<=\(size_t\)2 \* \(size_t\)\()bytes", "strips")),
        ("SEGRUNOV_CERTAIN_WRITES is 4,", change("include/segrunov.h", r"(?<=CERTAIN_WRITES UINT32_C\()3", "4")),
        ("SEGRUNOV_CERTAIN_COST is 8,", change("crates/certain/specs/Certain.antt", r"(?<=^certain_most L S k W = )8", "4")),
        ("does not define SEGRUNOV_CERTAIN_COST", change("include/segrunov.h", r"(?<=\(weight\) \* \(bytes\)) \* \(strips\)", "")),
        ("SEGRUNOV_FIRST_BIT_CHANGES is 7,", change("include/segrunov.h", r"(?<=FIRST_BIT_CHANGES UINT32_C\()6", "7")),
        ("SEGRUNOV_PLANTED has no definition", append("include/segrunov.h", "#define SEGRUNOV_PLANTED UINT32_C(1)\n")),
        ("segrunov_planted, and tests/measure.c does not", append("include/segrunov.h", "uint64_t segrunov_planted(uint32_t code);\n")),
        ("segrunov_price, and tests/measure.c does not", change("tests/measure.c", r'\{"price", call_price\}', '{"quote", call_price}')),
        ("does not define SEGRUNOV_SPENT", change("include/segrunov.h", "SEGRUNOV_SPENT UINT32_C", "SEGRUNOV_SPENT UINT64_C")),
        ("does not declare 'uint64_t segrunov_price(", declared("price", "uint32_t bytes, uint32_t strips", "uint32_t strips, uint32_t bytes")),
        ("does not declare 'uint64_t segrunov_write_list(", declared("write_list", "w1, uint8_t w2, uint8_t w3", "w3, uint8_t w2, uint8_t w1")),
        ("does not declare 'uint64_t segrunov_write_mapped(", declared("write_mapped", "uint64_t map_len", "size_t map_len")),
        ("does not declare 'uint64_t segrunov_write_band(", declared("write_band", "uint16_t value, uint32_t band", "uint32_t band, uint16_t value")),
        ("does not declare 'uint64_t segrunov_block_put(", declared("block_put", "uint32_t pages, uint8_t *block", "uint8_t *block, uint32_t pages")),
        ("does not declare 'uint64_t segrunov_block_get(", declared("block_get", "const uint8_t *block", "uint8_t *block")),
        ("does not declare 'uint64_t segrunov_block_erase(", declared("block_erase", "uint32_t pages", "uint64_t pages")),
        ("does not declare 'uint64_t segrunov_erase(", declared("erase", "int16_t tenths", "uint16_t tenths")),
        ("does not declare 'uint64_t segrunov_read(", declared("read", "const uint8_t *page", "uint8_t *page")),
        ("declares 'uint64_t segrunov_write(", declared("write", "uint8_t *page", "const uint8_t *page")),
        ("does not declare 'uint64_t segrunov_erase(", change(HEADER, r"^uint64_t segrunov_erase\(.*\n", "")),
        ("does not declare 'uint64_t segrunov_read(", instead(EXPORTS, "bytes: u32,\n    strips: u32", "strips: u32,\n    bytes: u32")),
        ("does not declare 'uint64_t segrunov_read_planted(", append(EXPORTS, '\npub extern "C" fn segrunov_read_planted() -> u64 {\n    0\n}\n')),
        ("segrunov_price is not exported by its own name", change(EXPORTS, r"#\[unsafe\(no_mangle\)\]\n(?=pub extern \"C\" fn segrunov_price\()", "")),
        ("segrunov_read is not exported by its own name", instead(EXPORTS, "#[unsafe(no_mangle)]", "#[no_mangle]")),
        ("declares 'extern int segrunov_planted', and no", append(HEADER, "extern int segrunov_planted;\n")),
        ("does not say 'The grounds that a call has are tested in", instead(HEADER, "9, 10, 4, 11, 5, 7, 8", "9, 10, 4, 11, 5, 8, 7")),
        ("does not say '1 to 5 and 9 to 13 from the input", instead(HEADER, "9, 10, 4, 11, 5; 7", "10, 9, 4, 11, 5; 7")),
        ("has the order 2, 1, which is none", append(HEADER, "/* tested in the order 2, 1 */\n")),
        ("README.md does not say 'the order of the tests", instead("README.md", "9, 10, 4, 11, 5, 7, 8", "9, 10, 11, 4, 5, 7, 8")),
        *(
            (f"segrunov_{call} is refused by", refused_by(call, old, new))
            for call, old, new in (
                ("read", "1 to 5", "1 to 4"),
                ("price", "1 to 5 and 7", "1 to 5, 7 and 8"),
                ("write", "1 to 5 and 7", "1 to 5"),
                ("price_weighted", "1, 2, 3, 9, 4, 5 and\n * 7", "1 to 5, 7 and 9"),
                ("write_weighted", "1, 2, 3, 9, 4, 5 and 7", "1, 2, 3, 4, 9, 5 and 7"),
                ("write_list", "1, 2, 3, 9, 10, 4, 5 and 7", "1, 2, 3, 10, 9, 4, 5 and 7"),
                ("erase", "2 to 4 and 8", "2, 3, 8 and 4"),
                ("price_mapped", "1, 2, 3, 9, 4, 11, 5\n * and 7", "1, 2, 3, 9, 11, 4, 5 and 7"),
                ("write_mapped", "1, 2, 3,\n * 9, 4, 11, 5 and 7", "1, 2, 3, 9, 4, 5, 11 and 7"),
                ("write_list_mapped", "1, 2, 3, 9, 10, 4, 11, 5 and 7", "2, 1, 3, 9, 10, 4, 11, 5 and 7"),
                ("erase_mapped", "2, 3, 4, 11\n * and 8", "2, 3, 4, 8 and 11"),
                ("write_band", "1, 12, 4 and 7", "1, 4, 12 and 7"),
                ("block_put", "1, 2, 3, 13, 4, 5 and 7", "1, 2, 13, 3, 4, 5 and 7"),
                ("block_get", "1, 2, 3, 13, 4, 5\n * and 14", "1, 2, 3, 13, 4, 5 and 7"),
                ("block_erase", "2, 3, 13, 4 and 8", "2, 3, 4, 13 and 8"),
            )
        ),
        *(
            (words, instead(REFUSALS, f"first_of {one} {other}", f"first_of {other} {one}"))
            for words, one, other in (
                ("the enum is not that of ground,", "(bytes_ground L)", "(strips_ground S)"),
                ("is not that of list_ground,", "(weights_ground W)", "(first_of (count_ground count) (lengths_ground count map L S page content))"),
                ("of list_ground,", "(page_ground one_bit L S page)", "(first_of (map_ground one_bit L S map) (datas_ground count L S content))"),
                ("segrunov_read is refused by 4, 5, 1,", "(sizes_ground code L S)", "(lengths_ground none none L S page content)"),
                ("segrunov_erase_mapped is refused by 2, 3, 4, 8, 11,", "(map_ground one_bit L S map)", "(erase_ground tenths)"),
                ("is not that of value_ground,", "(band_ground M)", "(page_ground one_bit band_bytes band_strips page)"),
                ("is not that of put_ground,", "(block_ground L S P block)", "(datas_ground none L S content)"),
                ("segrunov_block_get is refused by 1, 2, 3, 13, 5, 4, 14,", "(block_ground L S P block)", "(datas_ground none L S content)"),
                ("is not that of block_erasing,", "(pages_ground P)", "(first_of (block_ground L S P block) (erase_ground tenths))"),
            )
        ),
        ("the order of the enum is not that of value_ground,", instead(ENUM, "CodeUnknown,\n    BandOutside,", "BandOutside,\n    CodeUnknown,")),
        ("has no line 'first_of (some r) later", instead(REFUSALS, "first_of (some r) later = some r", "first_of (some r) later = later")),
        ("has no line 'call_answer (some r) w k", instead("crates/page_promises/specs/Writes.antt", "(some r) w k", "(some r) none k")),
        ("is not that of ground_of_get, 14, 1,", change(BLOCK, r"(?<== first_of )(\(put_ground .*?\) buffer\)) (.*)$", "(live_ground P 0) (put_ground)")),
        ("has no line '  put_answer_by (some r) o", instead(BLOCK, "put_answer_by (some r) o = A.Refused r", "put_answer_by (some r) o = A.Spent 0")),
        ("has no line '  band_answer_by (some r) o", instead(BAND, "band_answer_by (some r) o = B.Refused r", "band_answer_by (some r) o = B.Spent")),
        ("has no line 'unless_refused (some r) c", instead("crates/page_promises/specs/Lists.antt", "answer = refused_list r", "answer = c.answer")),
    ],
    "changes.py": [
        ("does not list K0.md", append("docs/changes/K0.md", "# K0\n\n## The check's time\n\n## Moved\n\n## Stayed\n")),
        ("lists K0.md, and there is none", append("docs/changes/README.md", "| [K0](K0.md) | planted |\n")),
        ("K8.md has a command that does not name two commits", change("docs/changes/K8.md", r"(?<=git diff \w{7}) \w{7}", "")),
        ("K4.md has no part '## Moved'", change("docs/changes/K4.md", r"^## Moved$", "## Planted")),
        ("quotes what stands in no crate: pub fn price(", change(WRITING, r"value_of result ≤ largest_cost", "value_of result ≤ value_of result")),
        ("quotes what stands in no crate: pub extern", change("docs/changes/K4.md", r"result % 4294967296", "result % 4294967295")),
    ],
    "pricing.py": [
        ("segrunov_price is lent", change(FIRMWARE, r"(?<=_price\(code: u32, bytes: u32, strips: u32, page: &)", "mut ")),
        ("segrunov2_price is lent", append(FIRMWARE, "\npub fn segrunov2_price(page: &mut [u8]) {}\n")),
        (
            "price_planted is lent",
            append(WRITING, "\n#[derive(Drop)]\npub struct Lent<'a> {\n    pub kept: &'a mut [u8],\n}\n\npub fn price_planted(lent: Lent) {}\n"),
        ),
        ("price_planted calls itself", append(WRITING, "\npub fn price_planted(n: u32) {\n    price_planted(n / 2);\n}\n")),
        (
            "price_strip is lent",
            {**priced_by(f"price_strip({STRIP}, &mut kept)"), **change(BACKWARD, r"(?<=data: &\[u8\],)(?=\n\) -> Option)", " kept: &mut [u8; 64],")},
        ),
        ("price_strips makes a &mut of its own [u8; 64]", before(REWRITING, "        let mut total", f"{KEPT} self.code.read_strip(page, &mut kept[0..1]);\n")),
        ("price_strip makes a &mut of its own u64", in_price_strip("let mut size = data.len(); rows::planted(&mut size);", "pub fn planted(q: &mut usize) {}")),
        ("price_strip keeps [u8; 512] 1 times, and 0 are named", in_price_strip(KEPT.replace("64", "512"))),
        ("price_strip keeps [u32; 64] 2 times, and 1 are named", in_price_strip(KEPT.replace("u8", "u32"))),
        ("last_labels keeps [u8; 64] 1 times, and 0 are named", before(BACKWARD, "    let mut labels", f"{KEPT}\n")),
        ("plan_strip keeps [u8; 4096] 1 times, and 0 are named", priced_by(f"plan_strip({STRIP}, &mut kept[0..self.bytes])")),
        (
            "census keeps [page_counting::Row; 64] 1 times, and 0 are named",
            append(WRITING, "\npub fn price_planted(page: &[u8]) -> crate::Census {\n    crate::counting::census(1, 1, page)\n}\n"),
        ),
        (
            "planted has [u8; 512], the type of nothing that is named",
            in_price_strip("rows::planted([0; 512]);", "pub fn planted(kept: [u8; 512]) {}"),
        ),
        ("price_strip has rows::Fields, the type of nothing that is named", in_price_strip(f"let kept = {FIELDS_VALUE};", FIELDS)),
        ("price_strip has rows::Bits, the type of nothing that is named", in_price_strip(f"let kept = {BITS_VALUE};", BITS)),
        ("price_strip has rows::Outer, the type of nothing that is named", in_price_strip(f"let kept = {OUTER_VALUE};", f"{BITS}\n{OUTER}")),
        ("price_strip has rows::Flags, the type of nothing that is named", in_price_strip(f"let kept = {FLAGS_VALUE};", f"{FLAG}\n{FLAGS}")),
        ("price_strip has rows::Rooms, the type of nothing that is named", in_price_strip(f"let kept = {ROOMS_VALUE};", ROOMS)),
        (
            "rows::planted has rows::Bits, the type of nothing that is named",
            in_price_strip(f"rows::planted({BITS_VALUE});", f"{BITS}\npub fn planted(kept: Bits) {{}}"),
        ),
        (
            "price_strip has rows::Kept, the type of nothing that is named",
            in_price_strip(f"let kept = rows::Kept::Some({each(8, '0,')});", f"#[derive(Clone, Copy)]\npub enum Kept {{ None, Some({each(8, 'u64,')}) }}"),
        ),
        (
            "price_strip keeps rows::Bits 1 times, and 0 are named",
            in_price_strip(f"let kept = {BITS_VALUE}; rows::planted(&kept);", f"{BITS}\npub fn planted(kept: &Bits) {{}}"),
        ),
        (
            "price_strip keeps [rows::Bits; 64] 1 times, and 0 are named",
            in_price_strip(f"let kept = [{BITS_VALUE}; 64]; let bit = kept[data.len() % 64].a0;", BITS),
        ),
        ("numbers, and a strip has 64 blocks", in_price_strip(each(64, "let a# = 0u32;"))),
        ("numbers, and a strip has 64 blocks", in_price_strip(each(64, "let a# = [0u32; 4];"))),
        ("cells::bit keeps [u8; 3] 0 times, and 1 are named", change("tests/pricing.py", r'"cells::weight"', '"cells::bit"')),
        ("has no place for a word", change("tests/pricing.py", r'(?<="\[u32; 64\]"\): \(1, )"a state"', '"a word"')),
        ("the source is rejected", append(ROWS, "\npub fn planted() -> u32 {}\n")),
    ],
    "parts.py": [
        ("page_parts::strip_mut stores through a reference", in_strip_mut(STORE)),
        ("page_parts::strip_mut stores through a reference", in_strip_mut("let mut i = 0; while i < page.len() { page[i] = 0; i += 1; }")),
        ("page_parts::strip_mut lends page_parts::planted", in_strip_mut("planted(page);", f"fn planted(page: &mut [u8]) {{ {STORE} }}")),
        ("page_parts::strip_mut lends cells::raise", in_strip_mut("cells::raise(page, 0);")),
        ("page_parts::strip_mut lends core::iter", in_strip_mut("page.iter_mut().for_each(|byte| *byte = 0);")),
        (
            "has a call that is not understood",
            in_strip_mut(
                "let page = planted(page, |part: &mut [u8]| part[0] = 0);",
                "fn planted<F: FnMut(&mut [u8])>(page: &mut [u8], mut f: F) -> &mut [u8] { f(page); page }",
            ),
        ),
        (
            "page_parts::planted stores through a reference",
            in_strip_mut("let page = planted(page);", f"fn planted(page: &mut [u8]) -> &mut [u8] {{ {STORE} page }}"),
        ),
        (
            "rows::planted stores through a reference",
            append(ROWS, "\npub fn planted(n: &mut u32) -> &mut u32 {\n    *n = 0;\n    n\n}\n"),
        ),
        (
            "rows::planted stores through a reference",
            append(
                ROWS,
                "\npub struct Part<'a> {\n    pub part: &'a mut [u8],\n}\n\n"
                f"pub fn planted(page: &mut [u8]) -> Part {{\n    {STORE}\n    Part {{ part: page }}\n}}\n",
            ),
        ),
        ("no function hands out a &mut", {PARTS: lambda old: old.replace("-> &mut [u8]", "-> &[u8]").replace("&mut page[", "&page[")}),
        ("the source is rejected", append(ROWS, "\npub fn planted() -> u32 {}\n")),
    ],
    "measured": [
        ("price needs another stack for L = 1 than for L = 64", used("price", "done(8 * bytes)")),
        ("price needs more stack than its limit", used("price", "done(2816)")),
        ("write needs more stack than its limit", used("write", "done(12288)")),
        ("price_weighted needs another stack for L = 1 than for L = 64", used("price_weighted", "done(8 * bytes)")),
        ("price_mapped needs another stack for L = 1 than for L = 64", used("price_mapped", "done(8 * bytes)")),
        ("price_mapped needs more stack than its limit", used("price_mapped", "done(2816)")),
        ("write_mapped needs more stack than its limit", used("write_mapped", "done(12288)")),
        ("write_list needs more stack than its limit", used("write_list", "done(12288)")),
        ("write_list_mapped needs more stack than its limit", used("write_list_mapped", "done(12288)")),
        ("write_list is refused", used("write_list", "UINT64_C(5) << 32")),
        ("write_band needs more stack than its limit", used("write_band", "done(12288)")),
        ("write_band is refused", used("write_band", "UINT64_C(4) << 32")),
        ("block_put needs more stack than its limit", used("block_put", "done(12288)")),
        ("block_put is refused", used("block_put", "UINT64_C(7) << 32")),
        ("block_get is refused", used("block_get", "UINT64_C(14) << 32")),
        ("block_erase is refused", used("block_erase", "UINT64_C(8) << 32")),
        ("read is refused", used("read", "UINT64_C(4) << 32")),
    ],
    "edits.py": [
        ("its old text stands 0 times", change(EDIT, r"^old: .*", "old: planted")),
        ("it changes nothing", change(EDIT, r"^new: .*", f"new: {OLD}")),
        ("proofs/Lib.antt is not below src/ or specs/", change(EDIT, r"^file: .*", "file: proofs/Lib.antt")),
        ("there is no src/planted.rt", change(EDIT, r"^file: .*", "file: src/planted.rt")),
        ("its comment has no line `# first:", change(EDIT, r"^# first: .*\n", "")),
        ("has no returns of", change(EDIT, r"^# first: .*", f"# first: returns of {CRATE}::planted")),
        ("has no planted of", change(EDIT, r"^# first: .*", f"# first: planted of {CRATE}/proofs/Lib")),
        *(
            (f"has no {goal} of", change(EDIT, r"^# first: \S+", f"# first: {goal}"))
            for goal in ("planted", "returns-clause-planted", "loop-planted-preserved", "loop-k-init", "planted-requires")
        ),
        ("its comment does not say what must hold", change(EDIT, r"\A(?:# (?!first: ).*\n)+", "")),
        ("it is not comment lines, then", append(EDIT, "# planted\n")),
    ],
    f"edits.py --logs {LOG}": [
        ("no line says what it came to", said("")),
        ("the prover did not refuse it", said("NOT REFUSED: the crate is still proved with this edit")),
        ("it was not tried", said("NOT TRIED: its check was killed, most likely for memory")),
        ("BAD EDIT: it did not reach the prover", said("BAD EDIT: it did not reach the prover; the first lines of what it said:")),
        ("no statement is named", said("refused, as it must be")),
        ("no statement is named", refused("fn planted: no proof")),
        ("no statement: specs/Planted.antt", refused("./specs/Planted.antt:1:1: error: `planted`: the numeral `1` is checked")),
        ("no statement: src/lib.rt", refused("src/lib.rt:1:1: error: `ensures-1`: expected type `Type 0`")),
        ("no statement: src/lib.rt", refused("note: src/lib.rt:100000:1: it is not proved that P (`planted`)")),
        ("no statement: src/lib.rt", refused("note: src/lib.rt:1:1: a goal may be false even if its line does not say so")),
        ("no statement: proofs/planted/Answers.antt", refused(f"{PROOF} error: this line starts at column 1")),
        ("first at planted of", refused("./proofs/Planted.antt:1:1: error: `planted`: the goal does not follow")),
        ("first at planted of", refused(f"{PROOF} error: `planted`: the goal does not follow")),
        ("first at planted of", refused(NOTE)),
        ("first at planted-clause-value of", refused(NOTE.replace("`planted`", "`planted-clause-value`"))),
        ("first at plan… of", refused(NOTE.replace("P (`", "P" * (CUT - NOTE.index("planted") - 3) + " (`"))),
        ("stopped at a limit", refused(f"{PROOF} error: `planted`: antt ran out of stack", BY_A_LIMIT)),
        ("stopped at a limit", refused(f"{PROOF} error: `planted`: {SEARCH}")),
        ("a goal or a name is missing", refused(f"{PROOF} error: `planted`: `c.loop-i` is not in scope", BY_A_NAME)),
        ("a goal or a name is missing", refused(f"{PROOF} error: `planted`: module `Goals` has no `planted`")),
        ("the proof no longer fits the code", refused(f"{PROOF} error: `planted`: record `Start` has no field `before`")),
        ("is not determined", refused(f"{PROOF} `planted` is not admitted: unsolved")),
        ("bit_by_the_wrong_parity fails first at planted of", refused(f"./{INSIDE}:1:1: error: `planted`: P", of=WITHIN)),
        ("bit_by_the_wrong_parity fails first at planted of", refused(f"./{INSIDE}:100000:1: error: `planted`: P", of=WITHIN)),
    ],
    "known.py": [
        ("there is no row 'seven writes", change(STDOUT, r"(?<=^seven writes: answer 0 written 7 strip 0 cost )160", "32")),
        ("there is no row 'spent at the third", change(STDOUT, r"(?<=^spent at the third: answer 7 written 2 strip )1", "0")),
        ("there is no row 'code 7 state 37 digit 1 next 11'", instead(STDOUT, "state 37 digit 1 next 11", "state 37 digit 1 next 3")),
        ("there is no row 'L = 4, strip 1: 24 bytes", instead(STDOUT, "L = 4, strip 1: 24", "L = 4, strip 1: 6")),
        ("there is no row 'L = 3, strip 4: 0 bytes, page 41", change(STDOUT, r"(?<=^L = 3, strip 4: 0 bytes, page )41", "ee")),
        ("there is no row 'code 3 080000000000 reads 07'", change(STDOUT, r"^code 3 080000000000 reads .*\n", "")),
        ("there is no row 'erase at 401 8 0'", instead(STDOUT, "erase at 401 8 0", "erase at 401 0 0")),
        ("there is no row 'a weight of 0: answer 9 ", instead(STDOUT, "a weight of 0: answer 9 ", "a weight of 0: answer 10 ")),
        ("there is no row 'the lower of two, code 3: answer 0 60 stored 1775", instead(STDOUT, "60 stored 1775", "60 stored 1787")),
        ("there is no row 'put, an erased block 0 16'", instead(STDOUT, "put, an erased block 0 16", "put, an erased block 0 32")),
        ("there is no row '  block 000000000000000000000020", instead(STDOUT, "block 000000000000000000000020", "block 010300000000000000000020")),
        ("there is no row 'get, a full block 14 0'", instead(STDOUT, "get, a full block 14 0", "get, a full block 0 0")),
        ("there is no row 'put, 1 page 13 0'", instead(STDOUT, "put, 1 page 13 0", "put, 1 page 4 0")),
        ("there is no row '  13 3 0 0'", instead(STDOUT, "  13 3 0 0", "  13 2 1 0")),
        ("the model has no row 'planted' here", append(STDOUT, "planted\n")),
        ("the model has no row '64' here", change(STDOUT, r"^64\n", "64\n64\n")),
        ("the model has no row 'erase at 400 0 0' here", change(STDOUT, r"^erase at 50 0 0\n(?=(.*\n)erase)", "erase at 400 0 0\n")),
    ],
    "floor.py": [
        ("edits, and tests/floor.txt says", {**delete(EDIT), **change("docs/TRACE.md", rf"^.*`{CRATE}/must-fail/{NAME}`.*\n", "")}),
        ("edits, and tests/floor.txt says", number("edits", -1)),
        ("edits, and tests/floor.txt says", number("edits", 1)),
        ("crates, and tests/floor.txt says", change("crates.txt", r"^known:.*\n", "")),
        ("rows, and tests/floor.txt says", change("docs/TRACE.md", r"^\| .*\n(?=\| )", "")),
        ("steps, and tests/floor.txt says", change("tests/gate", r'^step ".*\n', "")),
        ("says None", change("tests/floor.txt", r"^rows .*\n", "")),
    ],
    f"floor.py {PROVED} crates edits": [
        (f"{PROVED} passed, and tests/floor.txt says", number("edits", 1)),
    ],
    "gate": [
        ("FAILED: every crate is listed", change("crates.txt", r"^known:.*\n", "")),
        ("FAILED: the hint for a missing kit", change("README.md", r"^## The kit$", "## Planted")),
        ("FAILED: rt ci\n", append("bin/rt", "exit 1\n")),
        ("FAILED: rt ci ended in", instead(LOG, "passed, 0 failed", "passed, 1 failed")),
        ("FAILED: no must-fail edit is bad", change(LOG, r"(?<= refused); every", ", 1 bad; every")),
        ("FAILED: rt ci tried every crate and every edit", instead(LOG, f"{PROVED} passed", f"{PROVED - 1} passed")),
        ("FAILED: every must-fail edit is refused", said("")),
        ("FAILED: these checks find planted faults", append("tests/planted.py", "raise SystemExit(1)\n")),
        ("FAILED: the clients on a PowerPC", append("tests/clients", '[ "$1" != powerpc-linux-gnu ] || exit 1\n')),
        ("FAILED: these clients find planted faults", append("tests/planted_on", "exit 1\n")),
        ("FAILED: the run program against a model", append("tests/run.py", 'if __name__ == "__main__":\n    sys.exit(1)\n')),
        ("FAILED: comparison with Boost.Graph", append("tests/build", '[ "$1" != compare ] || exit 1\n')),
        ("FAILED: the count", change("tests/gate", r"^    passed=.*", "    :")),
    ],
}

# A library whose calls are done at once, with this much stack.
DONE = """
#include "segrunov.h"

static uint64_t done(size_t bytes)
{
    volatile uint8_t kept[bytes];
    for (size_t i = 0; i < bytes; i++) {
        kept[i] = 0;
    }
    return SEGRUNOV_DONE;
}
"""
CALLS = re.findall(r"^(uint64_t (segrunov\w+)\(.*\));$", read("include/segrunov.h"), re.M)

# How rt ci ends where nothing fails.
ENDED = [
    f"rt: ok; handles allowed: none; must-fail edits: {floor()['edits']} refused; every proof and must-fail edit was done in this run",
    f"{PROVED} passed, 0 failed",
]

STAND_INS = {
    LOG: "".join(f"{line}\n" for line in [*(named_line(*edit) for edit in edits()), *ENDED]),
    "bin/rt": f'#!/bin/sh\n[ "$1" != doc ] || exec {shutil.which("rt")} doc\n[ "$1" = ci ] || exit 0\ncat {LOG}\n',
    "cross/build": '#!/bin/sh\nmkdir -p "$(dirname "$1")" && : > "$1"\n',
    "tests/build": '#!/bin/sh\nmkdir -p target/tests && echo "#!/bin/sh" > "target/tests/$1" && chmod +x "target/tests/$1"\n',
    "planted.c": DONE + "".join(f"\n{call}\n{{\n    return done(64); /* {name} */\n}}\n" for call, name in CALLS),
    "tests/measured": 'cd "$(dirname "$0")/.." && gcc -Iinclude tests/measure.c planted.c -o target/measured && target/measured\n',
    "tests/install": "#!/bin/sh\n",
    "tests/clients": "#!/bin/sh\n",
    "tests/planted_on": "#!/bin/sh\n",
    "tests/planted.py": "",
    "tests/run.py": read("tests/run.py").replace("    sys.exit(main())\n", "    pass\n"),  # the model is there, the run program is not tried
}


def wrong(root, check, words):
    """What is wrong where a check is to fail and say these words, or, with no words, to pass."""
    script, *arguments = check.split()
    command = [sys.executable if script.endswith(".py") else "bash", root / "tests" / script, *arguments]
    path = {**os.environ, "PATH": f"{root / 'bin'}:{os.environ['PATH']}"}
    done = subprocess.run(command, cwd=root, env=path, capture_output=True, encoding="utf-8")
    said = done.stdout + done.stderr
    if (done.returncode == 0) == (words is None) and (words or "") in said:
        return []
    wanted = f"to fail and say '{words}'" if words else "to pass, with nothing planted"
    return [f"{check} is {wanted}; it ends with status {done.returncode}:", *said.splitlines()[-5:]]


def put(path, text):
    """Makes this a file's text."""
    if text is None:
        path.unlink()
        return
    path.parent.mkdir(parents=True, exist_ok=True)
    path.write_text(text, encoding="utf-8")


def main():
    bad, wanted = [], {check: faults for check, faults in FAULTS.items() if check.split()[0] in sys.argv[1:] or not sys.argv[1:]}
    # the gate stops it where another test fails: the copy goes with it
    signal.signal(signal.SIGTERM, lambda *_: sys.exit("planted: stopped"))
    with tempfile.TemporaryDirectory() as folder:
        copy = pathlib.Path(folder, "copy")
        shutil.copytree(ROOT, copy, ignore=shutil.ignore_patterns("target", "out", ".git", "__pycache__"))
        for path, text in STAND_INS.items():
            put(copy / path, text)
        # the forms of the libraries that no fault is planted in are those of this checkout (tests/mir.py)
        for built in ROOT.glob("crates/*/out"):
            (copy / built.relative_to(ROOT)).symlink_to(built.resolve())
        for path in "bin/rt", "cross/build":
            (copy / path).chmod(0o755)
        for check, faults in wanted.items():
            bad += wrong(copy, check, None)
            for words, fault in faults:
                before = {path: (copy / path).read_text(encoding="utf-8") if (copy / path).is_file() else None for path in fault}
                for path, planted in fault.items():
                    put(copy / path, planted(before[path]))
                bad += wrong(copy, check, words)
                for path, text in before.items():
                    put(copy / path, text)
    finish(bad, f"planted: {sum(map(len, wanted.values()))} faults, each found by its check")


main()
