#!/usr/bin/env python3
"""Fails where a number that include/segrunov.h defines is another one than in the definitions, or stands in none of
them, where the bytes that a page or its map has for each byte of data are others than in the code, where the bytes of a
block or the place of a page in it are other sums than in the definitions, where what a certain write costs at most is
another product, where the fields of an answer are not those of the definitions, where a call is declared otherwise than
crates/firmware_c exports it, or is exported without its own name, where the header or README.md has the grounds of a
call, or the order in which they are tested, otherwise than the definitions, where the enum of the refusals has another
order, and where tests/measure.c lacks a call that the header declares.

The stack is no number of the definitions: tests/measure.c holds it against the calls.
"""
import re

import rattle
from repository import finish, read

CLIMBS = "crates/cells/specs/Climbs.antt"
REFUSALS = "crates/refusals/specs/Refusals.antt"
ANSWERS = "crates/page_answers/specs/Answers.antt"
WRITES = "crates/page_promises/specs/Writes.antt"
LISTS = "crates/page_promises/specs/Lists.antt"
BAND = "crates/page_promises/specs/Band.antt"
BLOCK = "crates/block_promises/specs/Block.antt"
WORDS = "crates/words/specs/Words.antt"
CODES = "crates/codes/src/lib.rt"
ENUM = "crates/refusals/src/lib.rt"
CERTAIN = "crates/certain/specs/Certain.antt"
CHANGES = "crates/certain/specs/Changes.antt"
PUTS = "crates/certain/specs/Puts.antt"

# For each number, the definition that has it.
DEFINED = {
    "SHORT": (REFUSALS, "numbered code = cond (eqb code {}) short long"),
    "LONG": (REFUSALS, "is_code n = eqb n 3 || eqb n {}"),
    "DONE": (ANSWERS, "number_of (A.Done cost) = {}"),
    "CODE": (REFUSALS, "refusal_number CodeUnknown = {}"),
    "BYTES": (REFUSALS, "refusal_number BytesOutside = {}"),
    "STRIPS": (REFUSALS, "refusal_number StripsOutside = {}"),
    "PAGE_LENGTH": (REFUSALS, "refusal_number PageLength = {}"),
    "DATA_LENGTH": (REFUSALS, "refusal_number DataLength = {}"),
    "SPENT": (ANSWERS, "number_of (A.Spent strip) = {}"),
    "TEMPERATURE": (REFUSALS, "refusal_number EraseTemperature = {}"),
    "WEIGHT": (REFUSALS, "refusal_number WeightZero = {}"),
    "COUNT": (REFUSALS, "refusal_number CountOutside = {}"),
    "MAP_LENGTH": (REFUSALS, "refusal_number MapLength = {}"),
    "BAND": (REFUSALS, "refusal_number BandOutside = {}"),
    "PAGES": (REFUSALS, "refusal_number PagesOutside = {}"),
    "NO_PAGE": (REFUSALS, "refusal_number PageMissing = {}"),
    "HOUSE_W1": (CLIMBS, "house = {} ∷ 20 ∷ 28 ∷ []"),
    "HOUSE_W2": (CLIMBS, "house = 16 ∷ {} ∷ 28 ∷ []"),
    "HOUSE_W3": (CLIMBS, "house = 16 ∷ 20 ∷ {} ∷ []"),
    "MAX_COST": (WRITES, "largest_cost = {}"),
    "MAX_WEIGHTED_COST": (WRITES, "largest_weighted_cost = {}"),
    "MAX_LIST": (REFUSALS, "one_to_64 n = leb 1 n && leb n {}"),
    "MAX_LIST_COST": (LISTS, "largest_list_cost = {}"),
    "BAND_BYTES": (REFUSALS, "band_bytes = {}"),
    "BAND_STRIPS": (REFUSALS, "band_strips = {}"),
    "MAX_BAND": (REFUSALS, "band_ground M = cond (leb M {}) none (some BandOutside)"),
    "MAX_BAND_COST": (BAND, "largest_band_cost = {}"),
    "MIN_PAGES": (REFUSALS, "pages_ground P = cond (leb {} P && leb P 16) none (some PagesOutside)"),
    "MAX_PAGES": (REFUSALS, "pages_ground P = cond (leb 2 P && leb P {}) none (some PagesOutside)"),
    "MAX_PUT_COST": (BLOCK, "largest_put_cost = {}"),
    "DIRECTORY_BYTES": (REFUSALS, "directory_size = {}"),
    "PAGE_BYTES": (CODES, "pub const STRIP_BYTES: usize = {};"),
    "MAP_BYTES": (CODES, "pub const MAP_BYTES: usize = {};"),
    "CERTAIN_WRITES": (CERTAIN, "certain_writes = {}"),
    "CERTAIN_COST": (CERTAIN, "certain_most L S k W = {} * L * S * dearest k W"),
    "FIRST_BIT_CHANGES": (CHANGES, "most_changes = {}"),
    "CERTAIN_PUTS": (PUTS, "certain_puts = {}"),
}

# What the bytes for each byte of data are multiplied by, and the cost of a certain write.
TIMES = re.escape("(size_t)(bytes) * (size_t)(strips)")
WEIGHED = re.escape("(weight) * (bytes) * (strips)")

# The sums of a block: the macro, and the definition that it is.
SUMS = [
    (
        "BLOCK_BYTES(bytes, strips, pages) (SEGRUNOV_DIRECTORY_BYTES + SEGRUNOV_PAGE_BYTES(bytes, strips) * (size_t)(pages))",
        (REFUSALS, "block_size L S P = directory_size + page_bytes L S * P"),
    ),
    (
        "BLOCK_PAGE(bytes, strips, number) SEGRUNOV_BLOCK_BYTES(bytes, strips, number)",
        (BLOCK, "page_in L S i block = take (page_bytes L S) (drop (directory_size + page_bytes L S * i) block)"),
    ),
]

# The fields of an answer, the lowest first, and the definitions that say at which power of two each but the first begins.
FIELDS = ["VALUE", "NUMBER", "WRITTEN", "SPENT_STRIP"]
PLACES = [
    "answer_word a = number_of a * 2 ^ {NUMBER} + value_of a",
    "completion_word c = completion_number c * 2 ^ {NUMBER}",
    "list_word a = a.cost + list_number a * 2 ^ {NUMBER} + a.written * 2 ^ {WRITTEN} + list_strip a * 2 ^ {SPENT_STRIP}",
]

# What the types of the calls are to C. A slice is a pointer and a length.
TYPES = {"u8": "uint8_t", "u16": "uint16_t", "u32": "uint32_t", "u64": "uint64_t", "i16": "int16_t"}
SLICES = {"&[u8]": "const uint8_t *", "&mut [u8]": "uint8_t *"}

# The definition that has the grounds of a call, by its name or else by the verb of it, and the parameter that each ground is about: 'as far as a
# call has the item'. Those of a block stand with a block's definitions.
GROUNDS = {
    **{"read": "ground", "price": "list_ground", "write": "list_ground", "write_band": "value_ground", "erase": "erasing_ground"},
    **{"block_put": "put_ground", "block_get": "ground_of_get", "block_erase": "block_erasing"},
}
ITEMS = {
    **{1: "code", 12: "band", 2: "bytes", 3: "strips", 13: "pages", 9: "w1", 10: "count", 4: "page or block", 11: "map", 5: "data"},
    **{8: "tenths", 14: "block"},
}

# The calls that can be spent, in the same way.
SPENDING = {"price", "write", "block_put"}

# That of two grounds the one that stands first is tested first, and spent after all from the input.
IN_TURN = [
    (REFUSALS, "first_of (some r) later = some r"),
    (WRITES, "call_answer (some r) w k = A.Refused r"),
    (LISTS, "unless_refused (some r) c before = record { page = before; answer = refused_list r }"),
    (BAND, "  band_answer_by (some r) o = B.Refused r"),
    (BLOCK, "  put_answer_by (some r) o = A.Refused r"),
]

# Numbers in a sentence.
NUMBERS = r"(\d+(?: to \d+)?(?:(?:, | and )\d+(?: to \d+)?)*)"

# The sentences about the order of the tests: of all grounds, and of those from the input.
ORDERS = [
    ("include/segrunov.h", "The grounds that a call has are tested in the order {all}, and the first that applies is the answer."),
    ("include/segrunov.h", "1 to 5 and 9 to 13 from the input, tested in the order {input}; 7, 8 and 14 from the state, after those."),
    ("README.md", "the order of the tests ({all})"),
]


def wrong(name, number):
    """What is wrong with a number of the header."""
    if name not in DEFINED:
        return [f"include/segrunov.h: SEGRUNOV_{name} has no definition in tests/header.py"]
    path, line = DEFINED[name]
    return [] if line.format(number) in read(path).splitlines() else [f"include/segrunov.h: SEGRUNOV_{name} is {number}, and not so in {path}"]


def missummed(header):
    """What is wrong with the sums of a block."""
    lines = header.splitlines()
    bad = [f"include/segrunov.h does not define SEGRUNOV_{macro}" for macro, _ in SUMS if f"#define SEGRUNOV_{macro}" not in lines]
    return bad + [f"{path} has no line '{line}'" for _, (path, line) in SUMS if line not in read(path).splitlines()]


def unmeasured(function):
    """What is wrong where tests/measure.c does not make a call, or has no row of its name."""
    name, code = function.removeprefix("segrunov_"), read("tests/measure.c")
    there = f"= {function}(" in code and f'{{"{name}", call_{name}}},' in code
    return [] if there else [f"include/segrunov.h declares {function}, and tests/measure.c does not measure it"]


def misplaced(header):
    """What is wrong with the fields of an answer: where they begin, and that each but the last ends where the next begins."""
    macro = r"^#define SEGRUNOV_(\w+)\(answer\) \(\(uint32_t\)\(\(answer\)(?: >> (\d+))?(?: & UINT64_C\(0x(f+)\))?\)\)$"
    found = {name: (int(begins or 0), 4 * len(digits)) for name, begins, digits in re.findall(macro, header, re.M)}
    if list(found) != FIELDS:
        return [f"include/segrunov.h has the fields {', '.join(found)} of an answer, and not {', '.join(FIELDS)}"]
    places = {name: begins for name, (begins, _) in found.items()}
    lines = read(WORDS).splitlines()
    bad = [f"include/segrunov.h: {WORDS} has no line '{line.format(**places)}'" for line in PLACES if line.format(**places) not in lines]
    for name, following in zip(FIELDS, FIELDS[1:]):
        begins, bits = found[name]
        if begins + bits != places[following]:
            bad.append(f"include/segrunov.h: SEGRUNOV_{name} does not end where SEGRUNOV_{following} begins")
    return bad


def named(function):
    """What a function is called in C."""
    return function.name.split("::")[-1]


def prototype(function):
    """How a function is to be declared to C."""
    parameters = []
    for name, kind in function.parameters:
        parameters += [f"{SLICES[kind]}{name}", f"uint64_t {name}_len"] if kind in SLICES else [f"{TYPES[kind]} {name}"]
    return f"{TYPES[function.result]} {named(function)}({', '.join(parameters)})"


def declarations(header):
    """What the header declares, each in one line: all of it but comments, directives and the braces for C++."""
    code = re.sub(r"/\*.*?\*/", "", header, flags=re.S)
    code = re.sub(r'^(?:#.*|extern "C" \{|\})$', "", code, flags=re.M)
    return [" ".join(text.split()) for text in code.split(";") if text.strip()]


def misdeclared(header, exported):
    """What is wrong with the declarations: names, types and order of the parameters, a call that is missing, and what else there is."""
    wanted, there = [prototype(f) for f in exported], declarations(header)
    bad = [f"{f.where}: {f.name} is not exported by its own name" for f in exported if not f.named]
    bad += [f"include/segrunov.h does not declare '{line}'" for line in wanted if line not in there]
    return bad + [f"include/segrunov.h declares '{line}', and no function is exported so" for line in there if line not in wanted]


def prose(path):
    """A file's text in one line."""
    return re.sub(r"\n \* |\s+", " ", read(path))


def listed(numbers):
    return ", ".join(map(str, numbers))


def spelled(text):
    """The numbers in words such as '1 to 5, 7 and 9'."""
    spans = [span.split(" to ") for span in re.split(", | and ", text)]
    return [number for span in spans for number in range(int(span[0]), int(span[-1]) + 1)]


def tested(definition):
    """The numbers of a definition's grounds in the order in which they are tested: that in which they stand."""
    numbers = dict(re.findall(r"^refusal_number (\w+) = (\d+)$", read(REFUSALS), re.M))
    order = []
    for equation in re.findall(rf"^{definition} .*?=(.*(?:\n +\S.*)*)", read(REFUSALS) + read(BLOCK), re.M):
        for word in re.findall(r"\w+", equation):
            order += [int(numbers[word])] if word in numbers else tested(word) if word.endswith("_ground") else []
    return order


def grounds(function):
    """The numbers of a call's refusals in the order in which they are tested."""
    name, items = named(function).removeprefix("segrunov_"), [name for name, _ in function.parameters]
    verb = name.split("_")[0]
    given = [number for number in tested(GROUNDS[name if name in GROUNDS else verb]) if set(ITEMS[number].split(" or ")) & set(items)]
    return given + ([7] if SPENDING & {name, verb} else [])


def in_enum():
    """The numbers of all grounds in the order of the enum, which is said to be that of the tests."""
    numbers = dict(re.findall(r"^refusal_number (\w+) = (\d+)$", read(REFUSALS), re.M))
    members = re.search(r"^pub enum Refusal \{\n(.*?)^\}", read(ENUM), re.M | re.S)[1]
    return [int(numbers[name]) for name in re.findall(r"\w+", members)]


def misordered(exported):
    """What is wrong with the sentences about the order of the tests, and with what each call is said to be refused by, in that order."""
    bad = [f"{path} has no line '{line}'" for path, line in IN_TURN if line not in read(path).splitlines()]
    whole, state, header = in_enum(), tested("erase_ground") + tested("live_ground"), prose("include/segrunov.h")
    for definition in GROUNDS.values():
        order = tested(definition)
        if [number for number in whole if number in order] != order:
            bad.append(f"{ENUM}: the order of the enum is not that of {definition}, {listed(order)}")
    given = [number for number in whole if number not in state]
    orders = {"input": listed(given), "all": listed([*given, 7, *state])}
    for path, sentence in ORDERS:
        wanted = sentence.format(**orders)
        bad += [] if wanted in prose(path) else [f"{path} does not say '{wanted}'"]
    for said in re.findall(r"in the order (\d+(?:, \d+)*)", header):
        bad += [] if said in orders.values() else [f"include/segrunov.h has the order {said}, which is none of the definitions'"]
    for function in exported:
        said = re.findall(rf"Refused by {NUMBERS}(?=(?:(?!/\*).)*\*/ \w+ {named(function)}\()", header)
        if [spelled(text) for text in said] != [grounds(function)]:
            bad.append(f"include/segrunov.h: {named(function)} is refused by {listed(grounds(function))}, tested in this order, and not as it says")
    return bad


def main():
    calls = re.findall(r"^uint64_t (segrunov\w+)\(", read("include/segrunov.h"), re.M)
    numbers = dict(re.findall(r"^#define SEGRUNOV_(\w+) UINT(?:8|32)_C\((\d+)\)", read("include/segrunov.h"), re.M))
    numbers |= re.findall(rf"^#define SEGRUNOV_(\w+)\(bytes, strips\) \(\(size_t\)(\d+) \* {TIMES}\)$", read("include/segrunov.h"), re.M)
    weighed = rf"^#define SEGRUNOV_(\w+)\(weight, bytes, strips\) \(UINT32_C\((\d+)\) \* {WEIGHED}\)$"
    numbers |= re.findall(weighed, read("include/segrunov.h"), re.M)
    numbers |= re.findall(r"^#define SEGRUNOV_(\w+) \(\(size_t\)(\d+)\)$", read("include/segrunov.h"), re.M)
    bad = [line for name, number in numbers.items() for line in wrong(name, number)]
    bad += [f"include/segrunov.h does not define SEGRUNOV_{name}" for name in DEFINED if name not in numbers]
    exported = [function for function in rattle.functions() if function.exported]
    bad += missummed(read("include/segrunov.h"))
    bad += misplaced(read("include/segrunov.h"))
    bad += misdeclared(read("include/segrunov.h"), exported)
    bad += misordered(exported)
    bad += [line for call in calls for line in unmeasured(call)]
    seen = f"{len(numbers)} numbers and {len(FIELDS)} fields, each as in the definitions; {len(calls)} calls"
    finish(bad, f"include/segrunov.h: {seen}, each declared as it is exported, refused in the order of the tests, and measured")


main()
