#!/usr/bin/env python3
"""Fails where there is more or less to run than tests/floor.txt says.

tests/floor.py              the repository has exactly these crates, edits, rows and steps
tests/floor.py COUNT NAME.. what was counted while the gate ran is the sum of these numbers
"""
import re
import sys

from repository import crates, edits, finish, floor, read, rows


def main():
    least = floor()
    if sys.argv[1:]:
        count, *names = sys.argv[1:]
        said = " + ".join(f"{least[name]} {name}" for name in names)
        bad = [] if int(count) == sum(least[name] for name in names) else [f"{count} passed, and tests/floor.txt says {said}"]
        finish(bad, f"tests/floor.txt: {count} passed = {said}")
    there = {
        "crates": len(crates()),
        "edits": len(edits()),
        "rows": len(list(rows())),
        "steps": len(re.findall(r'^step "', read("tests/gate"), re.M)),
    }
    other = [name for name in there if there[name] != least.get(name)]
    bad = [f"there are {there[name]} {name}, and tests/floor.txt says {least.get(name)}" for name in other]
    finish(bad, "tests/floor.txt: " + ", ".join(f"{number} {name}" for name, number in there.items()))


main()
