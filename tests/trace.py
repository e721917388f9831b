#!/usr/bin/env python3
"""Fails where docs/TRACE.md names a file, definition, law, function or must-fail edit that does not exist, where a row has neither an edit
nor a reason why there is none, and where an edit stands in no row.

The forms, each in backquotes:
    cells/specs/Levels:level            the definition level of crates/cells/specs/Levels.antt
    cells/proofs/Levels:level-bound     the law level-bound of crates/cells/proofs/Levels.antt
    cells::level, page::shape::strip    a function of the crate's root, or of its module
    codes::Code::next                   a method of the type
    cells/must-fail/weight_changed      an edit
    tests/gate                          a file of the repository
A cell of a column `must-fail` names an edit, or begins with `none: ` and gives the reason.
"""
import re

import rattle
from repository import ROOT, declared, edits, finish, rows

FUNCTIONS = {function.name for function in rattle.functions()}
EDITS = {f"{crate}/must-fail/{name}" for crate, name in edits()}


def missing(token):
    if m := re.fullmatch(r"(\w+/(?:specs|proofs)/\w+):(\S+)", token):
        return not declared(f"crates/{m[1]}.antt", m[2])
    if "/must-fail/" in token:
        return token not in EDITS
    if "::" in token:
        return token not in FUNCTIONS
    return not (ROOT / token).exists()


def main():
    bad = []
    seen = 0
    named = set()
    for number, cells in rows():
        # the first column is the paper's own words
        for cell in list(cells.values())[1:]:
            tokens = re.findall(r"`([^`]+)`", cell)
            seen += len(tokens)
            bad += [f"docs/TRACE.md:{number}: there is no {token}" for token in tokens if missing(token)]
        if "must-fail" in cells:
            here = EDITS.intersection(re.findall(r"`([^`]+)`", cells["must-fail"]))
            named |= here
            if not here and not re.match(r"none: \w", cells["must-fail"]):
                bad.append(f"docs/TRACE.md:{number}: the row has no must-fail edit, and no `none: ` with a reason")
    bad += [f"docs/TRACE.md: no row names {edit}" for edit in sorted(EDITS - named)]
    if not named:
        bad.append("docs/TRACE.md names no edit")
    finish(bad, f"docs/TRACE.md: {seen} names, each exists; {len(named)} edits")


main()
