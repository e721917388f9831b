"""What the checks share: the repository's crates, must-fail edits, declarations and rows of docs/TRACE.md."""
import pathlib
import re
import sys

ROOT = pathlib.Path(__file__).resolve().parent.parent


def read(path):
    return (ROOT / path).read_text(encoding="utf-8")


def crates():
    """The crates of crates.txt. Words after the name, as in `firmware_c staticlib: firmware`, say what kind of crate it is."""
    heads = (line.split("#")[0].split(":")[0].split() for line in read("crates.txt").splitlines())
    return [head[0] for head in heads if head]


def edits():
    """The must-fail edits, each as its crate and its name."""
    return [(path.parent.parent.name, path.stem) for path in sorted(ROOT.glob("crates/*/must-fail/*.edit"))]


def declared(path, name):
    """Whether a file of antt declares this name: by its signature, or as a type."""
    words = r"^\s*(?:(?:unfoldable|abbrev|pub) )*"
    name = re.escape(name)
    return (ROOT / path).is_file() and re.search(rf"{words}(?:{name} :|(?:data|record) {name}(?: |$))", read(path), re.M)


def rows():
    """The rows of the tables of docs/TRACE.md: the number of the line, and the cells by their columns."""
    columns = None
    for number, line in enumerate(read("docs/TRACE.md").splitlines(), 1):
        cells = [cell.strip() for cell in line.strip().removeprefix("|").removesuffix("|").split("|")]
        if not line.startswith("|"):
            columns = None
        elif columns is None:
            columns = cells
        elif len(cells) != len(columns):
            sys.exit(f"docs/TRACE.md:{number}: {len(cells)} cells in a table of {len(columns)} columns")
        elif not re.fullmatch(r"[-|]+", line):
            yield number, dict(zip(columns, cells))


def floor():
    """The numbers of tests/floor.txt, by name."""
    return {name: int(number) for name, number in re.findall(r"^(\w+) (\d+)$", read("tests/floor.txt"), re.M)}


def finish(bad, seen):
    """Ends a check: with what is wrong, or with what it saw."""
    print("\n".join(bad) if bad else seen)
    sys.exit(1 if bad else 0)
