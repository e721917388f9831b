#!/usr/bin/env python3
"""Fails where a must-fail edit does not test what its comment says.

An edit is comment lines, then `file:`, `old:` and `new:` lines. The comment says what must hold and what the edit makes of it, and names
the statement that must fail first:
    # first: returns of cells::raise                  a goal of that function: all that it promises where it returns
    # first: returns-clause-value of words::packed    one of its clauses
    # first: long-g1 of codes/proofs/Generators       a law
    # first: byte_next of codes::strips::read_byte    a statement within a proof, as `let byte_next : .. =`

tests/edits.py                       before rt ci: each edit is of src/ or specs/, fits the file, and names a statement that exists
tests/edits.py --logs FILE CRATE..   after rt ci, or after rt must-fail CRATE..; FILE has what it said. Prints the statement that failed first,
                                     for each edit of these crates (of all, where none is given), and fails where it is another one than the
                                     edit names, or none

`rt` says of each edit, in one line, what it came to, and the first line in which the prover refused something, cut at 160 characters.
"""
import pathlib
import re
import sys

import rattle
from repository import ROOT, declared, edits, finish, read

FUNCTIONS = {function.name: function for function in rattle.functions()}

EDIT = re.compile(r"((?:# .+\n)+)((?:file: .+\n(?:old: .+\nnew:.*\n)+)+)")
FIRST = re.compile(r"^# first: (\S+ of \S+)$", re.M)

# The files that the statements of a function stand in, where it has one; the others the prover makes.
OF_FUNCTION = ("Answers", "Invariants", "Proof")

# What rt says of an edit, and the first words of the prover that it shows.
SAID = r"^rt: must-fail {}\.edit: (.*)$"
REFUSED = re.compile(r"refused, as it must be(?: \((?P<only>only [^)]*)\))?(?:: (?P<first>.*))?")
REPORT = re.compile(r"(?P<note>note: )?(?:\./)?(?P<file>\S+?):(?P<line>\d+):(?P<column>\d+): (?P<said>.*)")

# What opens a statement within a proof, and what ends it.
LET = re.compile(r"(?<![\w'.-])(?:let(?:\s+(?P<name>[\w'-]+)\s+:)?|(?P<end>in))(?![\w'-])")

# What rt and the prover say where the prover did not come to judge a statement.
NOT_JUDGED = {
    r"is not admitted: |was not determined": "something in it is not determined",
    r"has no `|is not in scope(?! here)|only because a proof file names": "a goal or a name is missing",
    r"has no field": "the proof no longer fits the code",
    r"stopped at|stopped after|still to try|broke off|a bound of its own|ran out of|only by a limit": "the prover stopped at a limit",
}


def text_of(crate, name):
    return read(f"crates/{crate}/must-fail/{name}.edit")


def first_named(crate, name):
    """The statement that an edit names, if it names one."""
    named = FIRST.findall(text_of(crate, name))
    return named[0] if len(named) == 1 else None


def proofs_of(place):
    """The files that statements of this place may stand in: those of a function, or the one of laws."""
    crate, *path = place.split("::")
    return [f"crates/{'/'.join([crate, 'proofs', *path])}/{name}.antt" for name in OF_FUNCTION] if path else [f"crates/{place}.antt"]


def is_goal(function, statement):
    """Whether the prover can make a goal of this name for a function: of what it returns, by one of its clauses or by all; of a loop that it has; of
    what a function asks that it calls."""
    names, body = function.names["ensures"], function.body
    if goal := re.fullmatch(r"returns(?:-(?!clause-)[\w-]+?)??(?:-clause-(\w+))?", statement):
        return bool(names) and (goal[1] is None or len(names) > 1 and goal[1] in names)
    if goal := re.fullmatch(r"loop(?:-(\w+?))??(?:-\d+)?-(?:init|preserved|smaller)", statement):
        return bool(re.search(r"\b(?:while|for|loop)\b", body)) and (goal[1] is None or bool(re.search(rf"\b{goal[1]}\b", body)))
    goal = re.fullmatch(r"(\w+)(?:-\w+)*-requires(?:-\d+)?(?:-clause-\w+)?", statement)
    return bool(goal and re.search(rf"\b{goal[1]}\(", body))


def within(text):
    """The names of the statements within a proof that are open where a text ends, the outermost first."""
    names = []
    for word in LET.finditer(re.sub(r"--.*", "", text.rpartition("\n\n")[2])):
        if not word["end"]:
            names.append(word["name"])
        elif names:
            names.pop()
    return [name for name in names if name]


def stands(crate, statement, place):
    """Whether a crate has this statement."""
    if not re.match(rf"{crate}(?:::|/proofs/)", place):
        return False
    files = [path for path in proofs_of(place) if (ROOT / path).is_file()]
    there = any(declared(path, statement) or re.search(rf"\blet {re.escape(statement)} :", read(path)) for path in files)
    return there or place in FUNCTIONS and is_goal(FUNCTIONS[place], statement)


def faults(crate, name):
    """What is wrong with an edit before it is tried."""
    parts = EDIT.fullmatch(text_of(crate, name))
    if not parts:
        yield "it is not comment lines, then file:, old: and new: lines"
        return
    named = first_named(crate, name)
    if not named:
        yield "its comment has no line `# first: STATEMENT of PLACE`, or several"
    elif not stands(crate, *named.split(" of ")):
        yield f"{crate} has no {named}"
    if not FIRST.sub("", parts[1]).strip():
        yield "its comment does not say what must hold"
    edited = {}
    for key, value in re.findall(r"^(file|old|new): ?(.*)$", parts[2], re.M):
        if key == "file":
            file = value
            if not re.match(r"(?:src|specs)/(?!.*\.\.)", file):
                yield f"{file} is not below src/ or specs/"
            elif not (ROOT / "crates" / crate / file).is_file():
                yield f"there is no {file}"
            else:
                edited.setdefault(file, read(f"crates/{crate}/{file}"))
        elif file in edited and key == "old":
            old = value
            if edited[file].count(old) != 1:
                yield f"its old text stands {edited[file].count(old)} times in {file}: {old}"
        elif file in edited:
            if old == value:
                yield f"it changes nothing: {old}"
            # rt makes one replacement after the other
            edited[file] = edited[file].replace(old, value)


def not_judged(said):
    """Why the prover did not judge a statement, if it did not."""
    return next((why for words, why in NOT_JUDGED.items() if re.search(words, said)), None)


def function_at(crate, file, line):
    """The function whose text has this line. An edit replaces a line by a line, so that the number is that of the file as it stands."""
    at = (f.name for f in FUNCTIONS.values() if f.where.rpartition(":")[0] == f"crates/{crate}/{file}" and line in f.lines)
    return next(at, None)


def first_failed(crate, name, log):
    """The statement that failed first, as its names, the outermost first, and its place, if one did, and what is wrong with the refusal, if anything
    is. A name ends in … where the line is cut within it."""
    lines = re.findall(SAID.format(re.escape(f"{crate}/{name}")), log, re.M)
    if not lines:
        return None, "it was not tried: no line says what it came to"
    verdict = REFUSED.fullmatch(lines[-1])
    if not verdict:
        return None, {"NOT REFUSED": "the prover did not refuse it", "NOT TRIED": "it was not tried"}.get(lines[-1].split(":")[0], lines[-1])
    report = REPORT.fullmatch(verdict["first"] or "")
    if not report:
        return None, not_judged(verdict[0]) or "no statement is named"
    file, line, said = report["file"], int(report["line"]), report["said"]
    wrong, inner = not_judged(f"{verdict['only']} {said}"), []
    if report["note"]:
        # a goal that the prover made, and that no file of proofs/ answers
        statement = re.match(r"it is not proved that .*?\(`([^`]*)(`\)|$)", said)
        place = function_at(crate, file, line)
    else:
        statement = re.match(r"error: `([^`]*)(`|$)", said)
        path = pathlib.PurePath(file)
        function = path.parts[:1] == ("proofs",) and path.stem in OF_FUNCTION and "::".join([crate, *path.parts[1:-1]])
        place = function if function in FUNCTIONS else f"{crate}/{file.removesuffix('.antt')}" if path.parts[:1] == ("proofs",) else None
        if (ROOT / "crates" / crate / file).is_file():
            # no edit changes a proof: what is read is as it was tried
            text = read(f"crates/{crate}/{file}").split("\n")
            inner = within("\n".join([*text[: line - 1], text[line - 1][: int(report["column"]) - 1]]) if line <= len(text) else "")
    if not statement or not place:
        return None, wrong or f"it fails first at no statement: {file}: {said}"
    return ([f"{statement[1]}{'' if statement[2] else '…'}", *inner], place), wrong


def shown(found):
    """The statement that failed first, in words."""
    names, place = found
    return f"{names[-1]} of {place}" + "".join(f", in {name}" for name in reversed(names[:-1]))


def is_named(found, named):
    """Whether what failed is the statement that is named, or within it, as far as its name is shown. Where all clauses are named, each of them is."""
    names, place = found
    for name in names:
        if name.endswith("…") and len(name) > 1 and named.startswith(name[:-1]) and named.endswith(f" of {place}"):
            return True
        if named in (f"{name} of {place}", f"{name.partition('-clause-')[0]} of {place}"):
            return True
    return False


def refusals(tried, log):
    """Prints what failed first at each edit, and gives what is wrong with that."""
    for crate, name in tried:
        found, wrong = first_failed(crate, name, log)
        if found:
            print(f"{crate}/{name}: {shown(found)}")
        named = first_named(crate, name)
        if wrong:
            yield f"{crate}/{name}: {wrong}" + (f" ({shown(found)})" if found else "")
        elif not named or not is_named(found, named):
            yield f"{crate}/{name} fails first at {shown(found)}, and names {named or 'no statement'}"


def main():
    tried = edits()
    if sys.argv[1:2] == ["--logs"]:
        log, *wanted = sys.argv[2:]
        tried = [(crate, name) for crate, name in tried if crate in wanted or not wanted]
        bad, seen = list(refusals(tried, pathlib.Path(log).read_text(encoding="utf-8"))), "refused at the statement that it names"
    else:
        bad, seen = [f"{crate}/{name}: {wrong}" for crate, name in tried for wrong in faults(crate, name)], "of src/ or specs/, and fits"
    finish(bad if tried else ["there is no must-fail edit"], f"edits: {len(tried)}, each {seen}")


if __name__ == "__main__":
    main()
