#!/usr/bin/env python3
"""Fails where the contract of a function says too little or asks too much, or where no contract speaks of a public constant.

1. 'Every public call has a contract on its result' (document 01): every public function of a library has an `ensures`, and where it has a
   result, one that names the result and speaks of it.
2. Every function of a library says what becomes of each buffer that it is lent to change: an `ensures` speaks of it at the return, as `x.new`.
   Where the function returns a part of the buffer to be written, nothing can be said of that (docs/DECISIONS.md); tests/parts.py is for these.
3. The public functions of the crates in TAKE_ALL but those of BEHIND, those that the crate `page` hands on, and what is exported to C take
   every input: they have no `requires`.
4. No `ensures` has the same text on both sides of ≡ or ≤, alone or beside others: that is true whatever the function does. So what the rules
   above take for a word about a result or a buffer is one.
5. Every public constant of a library is tied to its definition: an `ensures` says what it is equal to, as `CLOSED ≡ closed`.
6. What is exported to C, by EXPORTS, promises word for word what the function of its name in CALLS promises, and is no other call than that.
"""
import collections
import re

import rattle
from repository import ROOT, finish

# The cells, the judgement of the input, the calls and the C interface. Rooms that also have a loop behind the refusals are not among them: of
# these the calls are held to it, which `page` hands on.
TAKE_ALL = {"cells", "refusals", "judges", "page_answers", "page_counting", "page_erasing", "page"}
TAKE_ALL |= {"block_shape", "block_reading", "block", "firmware"}

# The crate that a C compiler links, and the one that it hands on.
EXPORTS, CALLS = "firmware_c", "firmware"

# What is called only where L and S are within their limits: each has a `requires`.
BEHIND = {"refusals::judge_page", "refusals::judge_map", "refusals::judge_data", "block_shape::page_size", "block_shape::page_start"}


# What stands between two facts, or before one.
BETWEEN = ("×", "⊎", "→", "¬", "in", "then", "else", "∗")

# The relations that hold of anything and itself.
REFLEXIVE = ("≡", "≤", "≤ℤ", "↔")


def words(clause):
    """The words of a clause's text, without the marks of a name that is also a keyword."""
    return re.findall(r"[^\s(){}⌜⌝,;]+", re.sub("[«»]", "", clause))


def bare(said):
    """Words without the brackets around all of them."""
    return said[0] if len(said) == 1 else said


def nested(clause):
    """The words of a clause, those in brackets as a list of their own."""
    open_lists = [[]]
    for word in re.findall(r"[(){}⌜⌝]|[^\s(){}⌜⌝]+", re.sub("[«»]", "", clause)):
        if word in "({⌜":
            open_lists.append([])
        elif word in ")}⌝":
            closed = open_lists.pop()
            open_lists[-1].append(bare(closed))
        else:
            open_lists[-1].append(word)
    return open_lists[0]


def facts(said, between):
    """The facts that words are made of, each as its words: a fact ends at a word of `between`, and begins after the names that λ binds. Those in
    brackets come by themselves."""
    parts = [[]]
    for word in said:
        if isinstance(word, list):
            yield from facts(word, between)
        if word in between or word[-1:] == ".":
            parts.append([])
        else:
            parts[-1].append(word)
    yield from parts


def empty_claims(said):
    """The relations with the same words on both sides."""
    found = set()
    for part in [*facts(said, BETWEEN), *facts(said, (*BETWEEN, "↔"))]:
        found |= {word for n, word in enumerate(part) if word in REFLEXIVE and bare(part[:n]) == bare(part[n + 1 :])} if part else set()
    return sorted(found)


def tied(said):
    """The names that are said to be equal to something other than the result: those that stand alone on one side of ≡."""
    for part in facts(said, (*BETWEEN, "↔")):
        for n in (n for n, word in enumerate(part) if word == "≡"):
            sides = [bare(part[:n]), bare(part[n + 1 :])]
            yield from (side.split(".")[-1] for side in sides if isinstance(side, str) and "result" not in sides)


def bound(said):
    """The names that a clause binds: after λ up to the point, before a colon, after let."""
    for n, word in enumerate(said):
        if word == "λ":
            end = next((m for m in range(n, len(said)) if said[m][-1:] == "."), len(said))
            yield from (name.rstrip(".") for name in said[n + 1 : end + 1])
        elif said[n + 1 : n + 2] == [":"] or said[n - 1 : n] == ["let"]:
            yield word


def speaks_of_result(clause):
    """Whether a clause speaks of the result, and not of a name of its own that is written so."""
    said = words(clause)
    return "result" not in bound(said) and any(word.split(".")[0] == "result" for word in said)


def speaks_of_exit(clause, name):
    """Whether a clause speaks of what a parameter leads to at the return."""
    return any(word.split(".")[:2] in ([name, "new"], [name, "exit"]) for word in words(clause))


def lent(function):
    """The parameters that a function may change and of which its contract can speak: not those that it returns a part of, to be written."""
    mutable = re.compile(r"&\s*('\w+)?\s*mut\b")
    part = mutable.match(function.result)
    kinds = ((name, mutable.match(kind)) for name, kind in function.parameters)
    return [name for name, kind in kinds if kind and not (part and part[1] == kind[1])]


def promise(function):
    """What a function takes and promises, in one text."""
    clauses = [(kind, name, " ".join(text.split())) for kind in ("requires", "ensures") for name, text in zip(function.names[kind], getattr(function, kind))]
    return function.parameters, function.result, clauses


def misdelivered(everything):
    """Faults by rule 6."""
    exports = [(f.name.split("::")[-1], f) for f in everything if f.exported]
    calls = {f.name.split("::")[-1]: f for f in everything if f.crate == CALLS and f.public}
    for name, f in exports:
        if f.crate != EXPORTS:
            yield f"{f.where}: {f.name} is exported, and not by {EXPORTS} (rule 6)"
        elif name not in calls:
            yield f"{f.where}: {CALLS} has no function of the name of {f.name} (rule 6)"
        elif promise(f) != promise(calls[name]):
            yield f"{f.where}: {f.name} has another contract than {calls[name].name} (rule 6)"
        elif re.sub(r"\s|,(?=\s*\))", "", f.body) != f"{calls[name].name}({','.join(name for name, _ in f.parameters)})":
            yield f"{f.where}: {f.name} is another call than that of {calls[name].name} (rule 6)"
    yield from (f"{f.where}: {f.name} is not exported by {EXPORTS} (rule 6)" for name, f in calls.items() if name not in dict(exports))


def main():
    bad = []
    libraries = {path.parent.parent.name for path in ROOT.glob("crates/*/src/lib.rt")}
    everything = rattle.functions()
    public = [f for f in everything if f.crate in libraries and f.public]
    lenders = [f for f in everything if f.crate in libraries and lent(f)]
    handed_on = rattle.handed_on("page")
    entries = [f for f in everything if f.exported or f.public and (f.crate in TAKE_ALL or f.name in handed_on)]
    total = [f for f in entries if f.name not in BEHIND]
    for f in public:
        if not f.ensures:
            bad.append(f"{f.where}: {f.name} is public and has no ensures (rule 1)")
        elif f.result and not any(map(speaks_of_result, f.ensures)):
            bad.append(f"{f.where}: {f.name} has a result of which no ensures speaks (rule 1)")
    for f in lenders:
        for name in lent(f):
            if not any(speaks_of_exit(clause, name) for clause in f.ensures):
                bad.append(f"{f.where}: {f.name} may change {name}, and no ensures speaks of {name}.new (rule 2)")
    for f in total:
        if f.requires:
            bad.append(f"{f.where}: {f.name} is to take every input and has a requires (rule 3)")
    for f in everything:
        for claim in (claim for clause in f.ensures for claim in empty_claims(nested(clause))):
            bad.append(f"{f.where}: {f.name} has an ensures with the same on both sides of {claim} (rule 4)")
    constants = [constant for crate in sorted(libraries) for constant in rattle.constants(crate)]
    named = collections.Counter(name for f in everything for clause in f.ensures for name in tied(nested(clause)))
    for name, count in collections.Counter(name for _, name in constants).items():
        if named[name] < count:
            at = ", ".join(where for where, constant in constants if constant == name)
            bad.append(f"{at}: {count} public constants {name}, and {named[name]} ensures that say what it is (rule 5)")
    bad += misdelivered(everything)
    bad += [f"BEHIND has {name}, which asks nothing" for name in sorted(BEHIND - {f.name for f in entries if f.requires})]
    bad += [f"crates/page hands on {name}, which is no function" for name in sorted(handed_on - {f.name for f in everything})]
    if not (public and lenders and total and handed_on and constants):
        bad.append("a rule found no function that it is about")
    finish(
        bad,
        f"contracts: {len(everything)} functions, {len(public)} public ones of a library, {len(lenders)} that are lent a buffer, "
        f"{len(total)} that take every input; {len(constants)} public constants",
    )


main()
