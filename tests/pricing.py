#!/usr/bin/env python3
"""Fails where a price does more than work out the cost (document 02, K4). Held to it is every function with the word `price` in its name,
and all that these call.

1. What has the word in its name is lent nothing that it may change: no parameter of it has a `&mut`.
2. A `&mut` leads to an array that `price_strip` itself keeps, and to nothing else.
3. The arrays that are kept in memory are those of KEPT, and those that are only passed by value have the types of these. KEPT says of each
   array what it has a place for, one of PLACES: a stage or a cell is not among them. A struct or an enum with room for more than SMALL
   numbers is an array under another name, and is named in the same way.
4. No function calls itself, directly or by others: the frames of such calls would be an array too.
5. The locals of a function, its temporaries among them, are room for fewer numbers than a strip has blocks of eight stages; an array counts
   as one here.
"""
import collections
import re

import mir
from repository import finish

# What an array of a price can have a place for, and how many of it there are.
PLACES = {
    "a code": 2,
    "a step": 3,  # from level 0, 1 or 2
    "a kind of cell": 8,  # its level, and 4 more where it is marked
    "a word": 4,  # the code bits of a stage
    "a word of a row": 4 * 64,  # by the kind of the first cell, the level of the second and a label
    "a state": 64,
    "a byte of a value": 2,  # in a band
    "the number of a page": 1,  # in a block
    "a number of a job": 10,  # its code, three weights, L and S, a map and a data, each slice two
}

# The numbers of an answer, the largest that a price has: a cost, a strip, a refusal, and which of the three it is.
SMALL = 4

# The blocks of eight stages of the longest strip; its stages and its cells are more.
BLOCKS = 64

# The arrays that the functions keep: how many of a type, and what each has a place for.
KEPT = {
    ("block::price_put", "[u8; 1]"): (1, "the number of a page"),
    ("cells::weight", "[u8; 3]"): (1, "a step"),
    ("codes::Code::generators", "[codes::CodeRow; 2]"): (2, "a code"),  # the table stands in each arm
    ("refusals::free_step", "[u8; 3]"): (1, "a step"),
    ("page::writing::price", "[u8; 3]"): (1, "a step"),
    ("page::writing::price_if", "[u8; 3]"): (1, "a step"),  # of the job
    ("page::writing::price_if", "page_rewriting::Job"): (1, "a number of a job"),
    ("page_band::price_value", "[u8; 2]"): (1, "a byte of a value"),
    ("page_band::price_value", "[u8; 3]"): (1, "a step"),  # of the job
    ("page_band::price_value", "page_rewriting::Job"): (1, "a number of a job"),
    ("page_rewriting::Job::price_strips", "[u32; 256]"): (1, "a word of a row"),
    ("prices::row_prices", "[u32; 8]"): (1, "a kind of cell"),
    ("prices::rows_of", "[u32; 256]"): (1, "a word of a row"),
    ("prices::rows_of", "[u32; 4]"): (1, "a word"),
    ("stage_blocks::run_long", "[u8; 64]"): (1, "a state"),
    ("stage_blocks::run_short", "[u32; 4]"): (1, "a word"),
    ("stages::stage::price_of", "[u32; 4]"): (1, "a word"),
    ("stages::stage::stage", "[u32; 4]"): (1, "a word"),
    ("stages::stage::stage", "[u32; 64]"): (1, "a state"),
    ("trellis::backward::price_strip", "[u32; 64]"): (1, "a state"),
}


def is_price(name):
    return re.search(r"(?:^|_)price(?:_|$)", name.split("::")[-1])


def is_array(kind):
    return kind[0] == "tyArray"


def places(kind, types):
    """How many places a type has that is to be named: an array its elements, a struct or an enum its numbers. 0 where it is not to be."""
    room = types.numbers(kind)
    return int(kind[2][1]) if is_array(kind) else room if room > SMALL else 0


def reached(functions, names):
    """These functions and all that they call."""
    seen, new = set(), set(names)
    while new:
        seen |= new
        new = {name for caller in new for name in functions[caller].calls} - seen
    return [functions[name] for name in sorted(seen)]


def lent(f, types):
    """Faults by rule 1."""
    for n in range(1, f.parameters + 1):
        if types.mutable(f.locals[n]):
            yield f"{f.name} is lent something that it may change, its parameter {n} (rule 1)"


def led_elsewhere(f, types):
    """Faults by rule 2. Where a `&mut` leads that was lent is judged in the caller, and rule 1 says that the first caller is lent none."""
    keeper = f.name.split("::")[-1] == "price_strip"
    targets = {n for local, kind in enumerate(f.locals) if types.mutable(kind) for how, n in f.leads[local] if how == "own"}
    for n in sorted(targets):
        if not keeper or not is_array(f.locals[n]):
            yield f"{f.name} makes a &mut of its own {mir.text(f.locals[n])}: only price_strip does so, and of an array (rule 2)"


def unnamed(held, types):
    """Faults by rule 3."""
    types_named = {text for _, text in KEPT}
    found, sizes = collections.Counter(), {}
    for f in held:
        kinds = [(n, kind) for n, local in enumerate(f.locals) for kind in types.held(local) if places(kind, types)]
        sizes |= {mir.text(kind): places(kind, types) for _, kind in kinds}
        found.update((f.name, mir.text(kind)) for n, kind in kinds if n in f.in_memory)
        passed = {mir.text(kind) for n, kind in kinds if n not in f.in_memory}
        yield from (f"{f.name} has {text}, the type of nothing that is named (rule 3)" for text in sorted(passed - types_named))
    for name, text in sorted(found.keys() | KEPT.keys()):
        count, place = KEPT.get((name, text), (0, None))
        if found[name, text] != count:
            yield f"{name} keeps {text} {found[name, text]} times, and {count} are named (rule 3)"
        elif sizes[text] != PLACES[place]:
            yield f"{name}: {text} has no place for {place}, of which there are {PLACES[place]} (rule 3)"


def roomy(f, types):
    """Faults by rule 5."""
    room = sum(1 if is_array(kind) else types.numbers(kind) for kind in f.locals)
    if room >= BLOCKS:
        yield f"{f.name} has locals for {room} numbers, and a strip has {BLOCKS} blocks (rule 5)"


def main():
    functions, types = mir.functions()
    prices = [f for name, f in functions.items() if is_price(name)]
    held = reached(functions, (f.name for f in prices))
    bad = [f"{f.name} is called, and its form is not understood: {f.unknown}" for f in held if f.unknown]
    bad += [line for f in prices for line in lent(f, types)]
    bad += [line for f in held for line in led_elsewhere(f, types)]
    bad += unnamed(held, types)
    bad += [f"{f.name} calls itself (rule 4)" for f in held if f in reached(functions, f.calls)]
    bad += [line for f in held for line in roomy(f, types)]
    named = sum(count for count, _ in KEPT.values())
    finish(bad, f"pricing: {len(prices)} functions that price, {len(held)} with what they call; {named} arrays, each named")


main()
