#!/usr/bin/env python3
"""Brings the names of this repository's own definitions and laws to snake case: `raisesOf` becomes `raises_of`.

usage: python3 tools/snake.py          in the top folder, once, after the kit's port.py
       python3 tools/snake.py --list   prints the names and where two would fall together, and writes nothing

Today's Rattle writes functions, laws, fields and constructors in snake case, and types and modules in upper camel case. port.py
respells the library's words and only some of a repository's own. A dash that joins two names stays, as in `raises_of-more`; one in a
field or a constructor of a definition becomes an underscore, as in `zero_there`.
"""

import os
import re
import sys

CAMEL = re.compile(r"(?<![\w'.])([a-z][a-z0-9]*(?:[A-Z][A-Za-z0-9]*)+)(?!\w)|(?<=\.)([a-z][a-z0-9]*(?:[A-Z][A-Za-z0-9]*)+)(?!\w)")
WORD = re.compile(r"(?<![\w'])[A-Za-z_][\w]*")


def files():
    for folder, dirs, names in os.walk("crates"):
        dirs[:] = sorted(d for d in dirs if d != "out")
        for name in sorted(names):
            if name.endswith((".rt", ".antt")):
                yield os.path.join(folder, name)


def snake(name):
    return re.sub(r"(?<=[a-z0-9])(?=[A-Z])", "_", name).lower()


def members(text):
    """The fields and constructors with a dash that a file of specs/ declares."""
    found = set()
    inside = None
    for line in text.split("\n"):
        if re.match(r"(pub )?(record|data) ", line):
            inside = line.split()[1 if line.startswith("pub") else 0]
        elif line and not line.startswith((" ", "--")):
            inside = None
        m = re.match(r"  (?:pub )?([a-z][\w'-]*) :", line)
        if inside and m and "-" in m.group(1):
            found.add(m.group(1))
    return found


def main():
    texts = {p: open(p, encoding="utf-8").read() for p in files()}
    camel = set()
    for t in texts.values():
        for m in CAMEL.finditer(t):
            camel.add(m.group(1) or m.group(2))
    new = {n: {"oneTo64": "one_to_64", "getD": "get_or"}.get(n) or snake(n) for n in camel}
    dashed = set()
    for p, t in texts.items():
        if "/specs/" in p:
            dashed |= members(t)
    if "--list" in sys.argv:
        words = {}
        for p, t in texts.items():
            for m in WORD.finditer(t):
                words.setdefault(m.group(0), set()).add(p)
        for n in sorted(camel):
            met = words.get(new[n])
            print(n, new[n], "FALLS TOGETHER: " + " ".join(sorted(met))[:200] if met else "")
        for n in sorted(dashed):
            print(n, n.replace("-", "_"), "FALLS TOGETHER" if n.replace("-", "_") in words else "")
        return
    for p, t in texts.items():
        turned = CAMEL.sub(lambda m: new[m.group(1) or m.group(2)], t)
        for n in dashed:
            turned = re.sub(r"(?<![\w'-])" + re.escape(n) + r"(?![\w'-])", n.replace("-", "_"), turned)
        if turned != t:
            with open(p, "w", encoding="utf-8") as f:
                f.write(turned)


main()
