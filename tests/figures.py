#!/usr/bin/env python3
"""Prints each crate's lines of code, definitions, laws and function proofs, without blank lines and comments, and its must-fail edits."""
from repository import ROOT, crates

# The files that are of one function each, in a folder of its name.
OF_FUNCTION = ("Answers.antt", "Invariants.antt", "Proof.antt")


def lines(paths, comment):
    return sum(
        1
        for path in paths
        for line in path.read_text(encoding="utf-8").splitlines()
        if line.strip() and not line.strip().startswith(comment)
    )


def main():
    kinds = ("code", "definitions", "laws", "function proofs", "must-fail edits")
    print(f"{'crate':14}" + "".join(f"{kind:>17}" for kind in kinds))
    total = [0] * len(kinds)
    for name in crates():
        crate = ROOT / "crates" / name
        proofs = list(crate.glob("proofs/**/*.antt"))
        of_functions = [p for p in proofs if p.name in OF_FUNCTION and p.parent != crate / "proofs"]
        row = [
            lines(crate.glob("src/**/*.rt"), "//"),
            lines(crate.glob("specs/**/*.antt"), "--"),
            lines([p for p in proofs if p not in of_functions], "--"),
            lines(of_functions, "--"),
            len(list(crate.glob("must-fail/*.edit"))),
        ]
        total = [a + b for a, b in zip(total, row)]
        print(f"{name:14}" + "".join(f"{n:17}" for n in row))
    print(f"{'all':14}" + "".join(f"{n:17}" for n in total))


main()
