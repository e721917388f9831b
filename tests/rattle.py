"""The functions of the crates, read from src/: their names as rt writes them, parameters, results and contracts; and the public constants.

Every word `fn` of the code is accounted for: a check that passed over a function it cannot read would say nothing of it.
"""
import dataclasses
import re
import sys

from repository import ROOT, crates

# What is not code: comments, strings, characters and bytes; the string of `extern "C"` is code.
MASKED = re.compile(r"""(?P<code>\bextern\s+"C")|//[^\n]*|(?<!\w)b?"(?:\\.|[^"\\])*"|(?<!\w)b?'(?:\\[^\n']+|[^'\\\n])'""")
ITEM = re.compile(
    r"""(?P<named>\#\[unsafe\(no_mangle\)\]\s+)?(?P<public>\bpub\b(?:\([^)]*\))?\s+)?(?P<exported>\bextern\s+"C"\s+)?\bfn\s+(?P<name>\w+)\s*
    | \bimpl\b\s*(?:<[^>]*>\s*)?(?:[\w:<>, ]+\sfor\s+)?(?P<type>\w+)[^{]*\{""",
    re.X,
)
RESULT = re.compile(r"\s*(?:->([^{}]+?))?\s*(?=\{|\bghost\b|\brequires\b|\bensures\b)")
GHOST = re.compile(r"\s*ghost\b\s*\w+\s*:\s*(?=\{)")
CLAUSE = re.compile(r"\s*(requires|ensures)\b\*?\s*([\w-]*)\s*(?=\{)")
BODY = re.compile(r"\s*(?=\{)")
CLOSING = {"(": ")", "{": "}", "<": ">"}


@dataclasses.dataclass
class Function:
    where: str  # crates/page/src/shape.rt:39
    lines: range  # those that it stands on, from its attributes to the last brace
    crate: str
    name: str  # page::shape::strip
    public: bool
    exported: bool  # to C
    named: bool  # there by its own name
    parameters: list  # names and types
    result: str  # its type; empty where there is none
    requires: list  # the clauses' texts
    ensures: list
    names: dict  # of a kind of clause the names of its clauses, each in the place of its text; empty where a clause has none
    body: str


def after(text, at):
    """The place after the bracket that closes the one at this place."""
    depth = 0
    for place in range(at, len(text)):
        depth += (text[place] == text[at]) - (text[place] == CLOSING[text[at]])
        if depth == 0:
            return place + 1
    raise ValueError("a bracket is not closed")


def parameters(text):
    """Names and types; `&mut self` is a parameter self of the type &mut Self."""
    depth, parts = 0, [""]
    for c in text:
        depth += (c in "([<") - (c in ")]>")
        if c == "," and depth == 0:
            parts.append("")
        else:
            parts[-1] += c
    for part in filter(None, map(str.strip, parts)):
        name, colon, kind = part.partition(":")
        if colon:
            yield name.strip().removeprefix("mut "), kind.strip()
        else:
            yield "self", part.replace("self", "Self")


def head(text, at):
    """What stands between a function's name and its body: parameters, result, clauses, and where the body begins."""
    if text.startswith("<", at):
        at = after(text, at)
    if not text.startswith("(", at):
        raise ValueError("no parameters follow its name")
    end = after(text, at)
    result = RESULT.match(text, end)
    if not result:
        raise ValueError("no contract and no body follow its signature")
    given, end = text[at + 1 : end - 1], result.end()
    clauses, names = {"requires": [], "ensures": []}, {"requires": [], "ensures": []}
    if ghost := GHOST.match(text, end):
        end = after(text, ghost.end())
    while clause := CLAUSE.match(text, end):
        end = after(text, clause.end())
        clauses[clause[1]].append(text[clause.end() + 1 : end - 1])
        names[clause[1]].append(clause[2])
    body = BODY.match(text, end)
    if not body:
        raise ValueError("no body follows its contract")
    return list(parameters(given)), (result[1] or "").strip(), {**clauses, "names": names}, body.end()


def sources(crate):
    """The modules of a crate: the name of each, its file and its text with what is not code left blank."""
    for path in sorted((ROOT / "crates" / crate / "src").glob("**/*.rt")):
        module = path.relative_to(ROOT / "crates" / crate / "src").with_suffix("").parts
        text = MASKED.sub(lambda m: m[0] if m["code"] else re.sub(r"[^\n]", " ", m[0]), path.read_text(encoding="utf-8"))
        where = path.relative_to(ROOT)
        if "/*" in text or re.search(r"\bmod\s+\w+\s*\{", text):
            sys.exit(f"{where}: a comment in /* */, or a module in braces, is not understood")
        yield "::".join([crate, *(() if module in (("lib",), ("main",)) else module)]), where, text


def of_crate(crate):
    """The functions of a crate, in the order of their files."""
    modules = list(sources(crate))
    # a method is named by the module of its type, wherever the impl block stands
    homes = {name: module for module, _, text in modules for name in re.findall(r"\b(?:struct|enum)\s+(\w+)", text)}
    for module, path, text in modules:
        owner, until, at, seen = None, 0, 0, 0
        while item := ITEM.search(text, at):
            at = item.end()
            if item["type"]:
                owner, until = item["type"], after(text, at - 1)
                continue
            above = text[: item.start() + 1].splitlines()
            first = len(above)
            while first > 1 and above[first - 2].lstrip().startswith("#["):
                first -= 1
            where = f"{path}:{len(text[:at].splitlines())}"
            try:
                given, result, clauses, body = head(text, at)
                at = after(text, body)
                lines = range(first, len(text[:at].splitlines()) + 1)
            except ValueError as e:
                sys.exit(f"{where}: fn {item['name']} is not understood: {e}")
            seen += 1
            name = "::".join([homes[owner], owner, item["name"]] if item.start() < until else [module, item["name"]])
            kinds = {kind: bool(item[kind]) for kind in ("public", "exported", "named")}
            yield Function(where, lines, crate, name, **kinds, parameters=given, result=result, **clauses, body=text[body + 1 : at - 1])
        words = len(re.findall(r"\bfn\b", text))
        if seen != words:
            sys.exit(f"{path}: {seen} functions are understood, and the word fn stands there {words} times")


def handed_on(crate):
    """The names of the functions of other crates that a crate hands on by `pub use`; a type's name begins with a capital letter."""
    names = set()
    for _, _, text in sources(crate):
        for line in re.findall(r"^\s*pub use ([^;]+);", text, re.M):
            path, _, group = line.partition("{")
            names |= {path + name for name in re.findall(r"\w+", group)} if group else {path}
    return {name for name in names if not name.split("::")[-1][0].isupper()}


def constants(crate):
    """The public constants of a crate: where each stands, and its name."""
    for _, path, text in sources(crate):
        for item in re.finditer(r"\bpub\b(?:\([^)]*\))?\s+const\s+(\w+)", text):
            yield f"{path}:{len(text[:item.end()].splitlines())}", item[1]


def functions():
    """Every function of every crate."""
    return [function for crate in crates() for function in of_crate(crate)]
