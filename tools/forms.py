#!/usr/bin/env python3
"""Counts what reads like an older language in the sources, for docs/DESIGN-PASS.md: `tools/forms.py [-l] [FOLDER]`, with -l the places too.

1  enums of one's own that hold a value or a reason; a bool in a struct or among the parameters; a bool that says whether a `&mut` was filled
2  pairs of functions whose code is the same but for names, types and numbers
3  loops that count by hand: `while`
4  tests that end in `return true` or `return false`; arms from an enum to a number; texts compared byte by byte
5  facts that stand in the `requires` of three or more functions; functions with six or more parameters
6  a place or a length beside a buffer: a parameter or field `at`, `end`, `used`, `size`, `taken` beside a slice or an array
7  matches and ifs that pick a step by a number
8  answers that a person or a script wrote, and their lines
"""
import collections
import itertools
import pathlib
import re
import sys

FUNCTION = re.compile(r"^ *(?:pub )?(?:extern \"C\" )?fn (\w+)(?:<[^(]*>)?\((.*?)\)( -> [^{]*?)?\s*(?=requires|ensures|\{)", re.M | re.S)
TOKEN = re.compile(r"b?\"[^\"]*\"|\w+|[^\w\s]")
KEYWORDS = {"let", "mut", "if", "else", "match", "while", "for", "in", "return", "as", "fn", "self", "true", "false"}


def code(text):
    return re.sub(r"//[^\n]*", "", text)


def braced(text, start):
    """The text from a brace to the one that closes it."""
    depth = 0
    for i in range(start, len(text)):
        depth += {"{": 1, "}": -1}.get(text[i], 0)
        if depth == 0:
            return text[start : i + 1]
    return text[start:]


class Function:
    def __init__(self, where, text, found):
        self.name = f"{where}::{found[1]}"
        self.parameters = [re.sub(r"\s+", " ", p).strip() for p in found[2].split(",") if p.strip()]
        self.result = re.sub(r"\s+", " ", found[3] or "")
        self.requires, at = [], found.end()
        while clause := re.compile(r"\s*(requires|ensures)\s*\w*\s*(?=\{)").match(text, at):
            inside = braced(text, clause.end())
            if clause[1] == "requires":
                self.requires.append(re.sub(r"\s+", " ", inside[1:-1]).strip())
            at = clause.end() + len(inside)
        self.body = braced(text, text.index("{", at)) if "{" in text[at:] else ""

    def shape(self):
        """The body with its names and numbers by the order in which they come."""
        seen = {}
        words = TOKEN.findall(self.body)
        return tuple(w if w in KEYWORDS or not re.match(r"\w|b?\"", w) else seen.setdefault(w, f"#{len(seen)}") for w in words)


def counted(root):
    places = collections.defaultdict(list)
    functions, proofs = [], []
    for path in sorted((root / "crates").glob("*/src/*.rt")):
        text = code(path.read_text(encoding="utf-8"))
        where = path.parent.parent.name + ("" if path.stem in ("lib", "main") else f"::{path.stem}")
        here = [Function(where, text, found) for found in FUNCTION.finditer(text)]
        functions += here
        places[1] += [f"{where}: enum {name}" for name in re.findall(r"^(?:pub )?enum (\w+)", text, re.M)]
        fields = re.findall(r"^    (?:pub )?(\w+: \w+),", "".join(re.findall(r"^(?:pub )?struct [^;]*?\n\}", text, re.M | re.S)), re.M)
        places[1] += [f"{where}: field {field}" for field in fields if field.endswith(": bool")]
        places[1] += [f"{f.name}: parameter {p}" for f in here for p in f.parameters if p.endswith(": bool")]
        places[1] += [f"{f.name}: bool beside &mut" for f in here if f.result.strip() == "-> bool" and any("&mut" in p for p in f.parameters)]
        places[3] += [f"{f.name}: {loop}" for f in here for loop in re.findall(r"\bwhile [^{]*", f.body)]
        places[4] += [f"{f.name}: {test}" for f in here for test in re.findall(r"return (?:true|false);", f.body)]
        places[4] += [f"{f.name}: {arm}" for f in here for arm in re.findall(r"\w+::\w+(?:\(_\))? => \d+,", f.body)]
        places[4] += [f"{f.name}: byte by byte" for f in here if re.search(r"(\w+)\[(\w+)\] != \w+\[\2\]", f.body)]
        places[6] += [f"{where}: field {field}" for field in fields if re.match(r"(?:at|end|used|size|taken): usize", field)]
        places[6] += [
            f"{f.name}: {p}"
            for f in here
            for p in f.parameters
            if re.match(r"(?:at|end|used|size|taken): usize", p) and any("[" in q for q in f.parameters)
        ]
        places[7] += [f"{f.name}: {test}" for f in here for test in re.findall(r"\b(?:number|code|end) == \d+", f.body)]
        places[7] += [f"{f.name}: {test}" for f in here for test in re.findall(r"\bmatch (?:self\.)?name\b", f.body)]
        places[7] += [f"{f.name}: {test}" for f in here for test in re.findall(r"\bself\.memory\(\) == \d+|code\.memory\(\) == \d+", f.body)]
    by_shape = collections.defaultdict(list)
    for f in functions:
        if len(f.shape()) >= 24 and not f.name.startswith(("firmware", "known")):
            by_shape[f.shape()].append(f.name)
    places[2] += [" and ".join(pair) for names in by_shape.values() for pair in itertools.combinations(names, 2)]
    facts = collections.Counter(fact for f in functions for fact in {re.sub(r"\b\w+\.(old|now)\b", r"_.\1", r) for r in f.requires})
    places[5] += [f"{n} functions require {fact}" for fact, n in sorted(facts.items()) if n >= 3]
    places[5] += [f"{f.name}: {len(f.parameters)} parameters" for f in functions if len(f.parameters) >= 6]
    for path in sorted((root / "crates").glob("*/proofs/**/Answers.antt")):
        text = path.read_text(encoding="utf-8")
        proofs.append((len(re.findall(r"^pub \S+ : goal\.", text, re.M)), text.count("\n")))
    return places, (sum(n for n, _ in proofs), sum(lines for _, lines in proofs), len(proofs))


def main():
    arguments = sys.argv[1:]
    listed = "-l" in arguments
    root = pathlib.Path([a for a in arguments if a != "-l"][0] if set(arguments) - {"-l"} else ".")
    places, (answers, lines, files) = counted(root)
    for point in range(1, 8):
        print(f"{point}  {len(places[point])}")
        if listed:
            print("".join(f"     {place}\n" for place in places[point]), end="")
    print(f"8  {answers} answers, {lines} lines, {files} files")


if __name__ == "__main__":
    main()
