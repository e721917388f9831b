#!/usr/bin/env python3
"""Fails where a line of README.md, docs/ or include/segrunov.h is longer than 120 columns: they are read in a terminal and
in a diff. A row of a table, a declaration and a macro stand on one line, however long.
"""
from repository import ROOT, finish, read

MOST = 120
ONE_LINE = ("|", "uint64_t ", "#define ")
FILES = ["README.md", "include/segrunov.h", *sorted(str(path.relative_to(ROOT)) for path in ROOT.glob("docs/**/*.md"))]

bad = [
    f"{path}:{number}: {len(line)} columns, and prose has at most {MOST}"
    for path in FILES
    for number, line in enumerate(read(path).splitlines(), 1)
    if len(line) > MOST and not line.startswith(ONE_LINE)
]
finish(bad, f"prose: {len(FILES)} files, no line above {MOST} columns")
