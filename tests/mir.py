"""The functions of the libraries as the compiler has them, in its intermediate form (MIR): the types of their locals, what they call, what
each local can lead to, and through which ones they store.

Of a library that rt proved, the form stands in crates/NAME/out, as it was proved and compiled. Where the source is another one by now, as in
the copies of tests/planted.py, whose faults are not proved, the compiler writes the form anew, of the source without its contracts. A crate's
out/ can be a link to that of another checkout: the libraries whose source is the same there are taken from it.

An archive for C keeps no such form. Each of its calls is to be that of the library's function of the same name, and nothing else.

A function with a bound calls methods of what it is given for that bound. Who gives it names the impl: so it counts as calling all of that impl's
functions. A function of the kit can have a form that is not understood here; it is kept as such, and fails a check that has to know it.
"""
import dataclasses
import functools
import importlib.machinery
import importlib.util
import json
import pathlib
import re
import subprocess
import sys
import tempfile

from repository import ROOT, read

# The number of its variant, which a value of an enum has beside the fields.
VARIANT = ["tyInt", "8"]

# What of a source is left away: contracts, models, ghost fields, and what only these and the proofs name. None of them is of the form.
NO_CODE = re.compile(r"""//[^\n]*|(?<!\w)b"(?:\\.|[^"\\])*"|(?<!\w)b'(?:\\.|[^'\\])'""")
CLAUSE = re.compile(r"\b(?:(?:requires|ensures)\b\s*[\w-]*|(?:pub\s+)?ghost\s+\w+\s*:|impl\s+Model\s+for\s+\w+)\s*(?=\{)")
GHOST = re.compile(r"^[ ]*(?:ghost use [^;]*;|#!?\[tactic\b[^\n]*)", re.M)


@dataclasses.dataclass
class Function:
    name: str  # trellis::backward::price_strip; where it is not understood, nothing else is known
    parameters: int  # local 0 is the result, the next ones are the parameters
    locals: list  # their types
    in_memory: set  # the locals that have an address: no other array can be indexed or lent
    calls: set  # the names of what it calls
    stores: set  # the locals through which it stores: not the local itself is assigned, but what it leads to
    leads: list  # for each local where it can lead: ("own", n) to the local n itself, ("lent", n) where the parameter n leads
    bound: bool = False  # whether it calls a method of a bound, which is none of `calls`
    unknown: str = ""  # why it is not understood


class NotUnderstood(Exception):
    """A form that this module does not know."""


def within(whole, head):
    """The parts of a term that begin with this word."""
    parts = [whole]
    while parts:
        part = parts.pop()
        if isinstance(part, list):
            if part[:1] == [head]:
                yield part
            parts += part


def filled(kind, given):
    """A type with these in place of its parameters."""
    match kind:
        case ["tyParam", n]:
            return given[int(n)]
        case ["tyArray", element, length]:
            return ["tyArray", filled(element, given), length]
        case ["tyRef", lifetime, how, element]:
            return ["tyRef", lifetime, how, filled(element, given)]
        case ["tyStruct", name, fields]:
            return ["tyStruct", name, [filled(field, given) for field in fields]]
        case ["tyNamed", name, *own]:
            return ["tyNamed", name, *(filled(one, given) for one in own)]
    return kind


class Types:
    """The types of the program, those with a name among them."""

    def __init__(self, named):
        self.named = named

    def parts(self, kind):
        """The types that a type is made of."""
        match kind:
            case "tyBool" | "tyUnit" | "tyPtr" | ["tyInt", _] | ["tyParam", _]:
                return []
            case ["tyArray", element, _] | ["tyRef", _, _, element]:
                return [element]
            case ["tyStruct", _, fields]:
                return fields
            case ["tyNamed", name, *given]:
                return [filled(part, given) for part in self.named[name]]
        sys.exit(f"mir: the type {kind} is not understood")

    def held(self, kind):
        """A type and those that it is made of, but not those that a reference leads to."""
        parts = [] if kind[0] == "tyRef" else self.parts(kind)
        return [kind, *(inner for part in parts for inner in self.held(part))]

    def numbers(self, kind):
        """How many numbers a value of this type has room for. A reference is one, to a slice two; an enum has those of all its variants."""
        match kind:
            case ["tyArray", element, [_, length]]:
                return int(length) * self.numbers(element)
            case "tyBool" | "tyPtr" | ["tyInt" | "tyRef", *_]:
                return 1
        return sum(map(self.numbers, self.parts(kind)))

    def mutable(self, kind):
        """Whether a value of this type holds a `&mut`."""
        match kind:
            case ["tyRef", _, "mut", _]:
                return True
        return any(map(self.mutable, self.parts(kind)))


def text(kind):
    """A type as the source writes it. The sign of a number is no part of the form."""
    match kind:
        case ["tyArray", element, [_, length]]:
            return f"[{text(element)}; {length}]"
        case ["tyInt", bits]:
            return f"u{bits}"
        case ["tyNamed", name]:
            return name
        case ["tyNamed", name, *given]:
            return f"{name}<{', '.join(map(text, given))}>"
        case "tyUnit":
            return "()"
    return str(kind)


def sources(value, leads):
    """Where a value can lead: the address of a local leads to it, and what is made of other values where they lead."""
    addresses = [address[1] for address in within(value, "addrOf") if not any(within(address[1][2], "deref"))]
    own = {("own", place[1]) for place in addresses}
    return own.union(*(leads[place[1]] for place in within(value, "place") if not any(place is address for address in addresses)))


def leads_of(parameters, size, stored):
    """Where each local can lead, whatever the order of the statements."""
    leads = [{("lent", n)} if 1 <= n <= parameters else set() for n in range(size)]
    before = None
    while before != leads:
        before = [set(places) for places in leads]
        for (_, local, _), value in stored:
            leads[local] |= sources(value, leads)
    return leads


def function(name, parameters, locals_, calls, stored):
    """A function, of its locals as types and whether each has an address, of what it calls, and of the places that it stores in, with what."""
    return Function(
        name,
        parameters,
        [kind for kind, _ in locals_],
        {n for n, (_, in_memory) in enumerate(locals_) if in_memory},
        set(calls),
        {local for (_, local, path), _ in stored if any(within(path, "deref"))},
        leads_of(parameters, len(locals_), stored),
    )


@functools.cache
def form_of(path):
    return json.loads(path.read_text(encoding="utf-8"))


class Kept:
    """The form as a proved library keeps it: mir.json, a list of functions, each a name and a body in JSON."""

    def kind(self, said):
        match said:
            case "Bool" | "Unit" | "Ptr":
                return f"ty{said}"
            case {"Int": bits}:
                return ["tyInt", str(bits)]
            case {"Param": n}:
                return ["tyParam", str(n)]
            case {"Ref": [_, "Imm" | "Mut" as how, element]}:
                return ["tyRef", "", how.lower(), self.kind(element)]
            case {"Array": [element, {"Lit": length}]}:
                return ["tyArray", self.kind(element), ["lit", str(length)]]
            case {"Struct": [name, fields]}:
                return ["tyStruct", name, [self.kind(field) for field in fields]]
            case {"Named": [{"name": name}, given]}:
                return ["tyNamed", name, *map(self.kind, given)]
        raise NotUnderstood(f"the type {said} is not understood")

    def named(self, said):
        """A type with a name, and the types that it is made of."""
        match said:
            case {"name": name, "shape": {"Fields": fields}}:
                return name, [self.kind(field) for field in fields]
            case {"name": name, "shape": {"Variants": variants}}:
                return name, [VARIANT, *(self.kind(field) for fields in variants for field in fields)]
        raise NotUnderstood(f"the type {said} is not understood")

    def place(self, said):
        steps = [["deref"] if isinstance(step, dict) and "Deref" in step else ["step"] for step in said["steps"]]
        return ["place", said["local"], steps]

    def value(self, said):
        """A value, of which the places and the addresses taken count."""
        match said:
            case {"local": _, "steps": _}:
                return self.place(said)
            case {"AddrOf": place}:
                return ["addrOf", self.place(place)]
            case dict():
                return ["of", *map(self.value, said.values())]
            case list():
                return ["of", *map(self.value, said)]
        return []

    def impls(self, given):
        """The impls that are given for bounds, each as a name for all of its functions."""
        match given:
            case {"Impl": [name, *more]}:
                return [f"{name}::*", *self.impls(more)]
            case dict():
                return self.impls(list(given.values()))
            case list():
                return [name for part in given for name in self.impls(part)]
        return []

    def function(self, name, said):
        calls, stored = [], []
        for part in said["body"]:
            match part:
                case "Seq" | "Block" | "Loop" | "Skip" | "Return" | "Unreachable" | {"If": _} | {"Switch": _} | {"Exit": _}:
                    pass
                case {"Assign": [place, value]} | {"LendStatic": [place, _, value]}:
                    stored.append((self.place(place), self.value(value)))
                case {"Call": [{"Fn": [callee, given]}, values, place]}:
                    calls += [callee, *self.impls(given)]
                    stored.append((self.place(place), self.value(values)))
                case {"Call": [{"Method": _}, values, place]}:
                    stored.append((self.place(place), self.value(values)))
                case _:
                    raise NotUnderstood(f"{name} has a statement that is not understood: {part}")
        locals_ = [(self.kind(local["ty"]), local["home"] == "MemorySlot") for local in said["locals"]]
        made = function(name, said["params"], locals_, calls, stored)
        made.bound = any(isinstance(part, dict) and "Method" in part.get("Call", [{}])[0] for part in said["body"])
        return made

    def read(self, path):
        """The functions of a library, and the types with a name."""
        functions, named = {}, {}
        for name, said in form_of(path):
            functions[name] = self.function(name, said)
            named.update(map(self.named, said["types"]))
        return functions, named

    def read_kit(self, path, wanted):
        """The functions of these names in a library of the kit, and the types with a name. All those of an impl have one name, with * at its end."""
        functions, named = {}, {}
        for name, said in form_of(path):
            if name not in wanted and f"{name.rpartition('::')[0]}::*" not in wanted:
                continue
            try:
                functions[name], types = self.function(name, said), dict(map(self.named, said["types"]))
            except NotUnderstood as why:
                functions[name], types = Function(name, 0, [], set(), set(), set(), [], unknown=str(why)), {}
            named.update(types)
        for name in wanted - functions.keys():
            if name.endswith("::*"):
                functions[name] = Function(name, 0, [], set(), {f for f in functions if f.rpartition("::")[0] == name[:-3]}, set(), [])
        return functions, named


class Written:
    """The form as the compiler writes it for a person: a file of antt for each function, with the definitions of its statements."""

    TOKEN = re.compile(r"[(){},;=]|[^\s(){},;=]+")
    DEFINITION = re.compile(r"^abbrev pub (\S+) : \S+.*\n(?:\S+) =((?:.|\n(?!\n))*)", re.M)
    USE = re.compile(r"^use Rattle\.(\S+)\.(Symbol|Key)(?: as (\S+))?$", re.M)

    def term(self, tokens):
        """An application as a list of its head and arguments, up to a bracket or a comma that is not its own."""
        parts = []
        while tokens and tokens[-1] not in (")", "}", ",", ";"):
            token = tokens.pop()
            if token == "(":
                inside = [self.term(tokens)]
                while tokens.pop() == ",":
                    if tokens[-1] != ")":
                        inside.append(self.term(tokens))
                parts.append(["pair", *inside] if len(inside) > 1 else inside[0])
            elif token == "{":
                fields = ["record"]
                while tokens[-1] != "}":
                    field = tokens.pop()
                    tokens.pop()
                    fields.append([field, self.term(tokens)])
                    tokens.pop()
                tokens.pop()
                parts = [fields]
            else:
                parts.append(token.removeprefix("Syntax.").removeprefix("Table."))
        return parts[0] if len(parts) == 1 else parts

    def members(self, chain):
        """The members of a list, whatever the list is of."""
        while isinstance(chain, list):
            _, member, chain = chain
            yield member

    def name(self, chain):
        return "".join(chr(int(code)) for code in self.members(chain))

    def kind(self, said):
        match said:
            case "ty_bool" | "ty_unit" | "ty_ptr":
                return f"ty{said[3:].capitalize()}"
            case ["ty_int", width]:
                return ["tyInt", width[1:]]
            case ["ty_param", n]:
                return ["tyParam", n]
            case ["ty_ref", _, "imm" | "mut" as how, element]:
                return ["tyRef", "", how, self.kind(element)]
            case ["ty_array", element, length]:
                return ["tyArray", self.kind(element), ["lit", length]]
            case ["ty_struct", name, fields]:
                return ["tyStruct", self.name(name), [self.kind(field) for field in self.members(fields)]]
            case ["ty_named", ["pair", name, _], given]:
                return ["tyNamed", self.name(name), *map(self.kind, self.members(given))]
        raise NotUnderstood(f"the type {said} is not understood")

    def named(self, said):
        match said:
            case ["pair", name, _, ["fields", fields]]:
                return self.name(name), [self.kind(field) for field in self.members(fields)]
            case ["pair", name, _, ["variants", variants]]:
                kinds = [self.kind(field) for fields in self.members(variants) for field in self.members(fields)]
                return self.name(name), [VARIANT, *kinds]
        raise NotUnderstood(f"the type {said} is not understood")

    def place(self, said):
        _, local, path = said
        return ["place", int(local), [["deref"] if any(within(step, "deref")) else ["step"] for step in self.members(path)]]

    def value(self, said):
        match said:
            case ["place", _, _]:
                return self.place(said)
            case ["addr_of", place]:
                return ["addrOf", self.place(place)]
            case list():
                return ["of", *map(self.value, said)]
        return []

    def statements(self, body):
        """The statements of a body that do something."""
        left = [body]
        while left:
            match left.pop():
                case ["assign" | "call" | "lend_static", *_] as statement:
                    yield statement
                case ["seq" | "loop" | "block" | "default", *parts] | ["cond" | "switch" | "arm", _, *parts]:
                    left += parts
                case "skip" | "return" | "no_default" | "unreachable" | ["exit", _]:
                    pass
                case str() as name if re.fullmatch(r"(?:by_name-)?(?:s|t|turn)-\d+", name):
                    pass
                case other:
                    raise NotUnderstood(f"the statement {other} is not understood")

    def function(self, name, said):
        """A function and the types with a name that its file has."""
        names = {short or kind: re.sub(r"\.(?:proofs|specs\.contracts)\.", ".", path, count=1) for path, kind, short in self.USE.findall(said)}
        symbols = {short: path.replace(".", "::") for short, path in names.items()}
        calls, stored, known = [], [], {}
        for defined, body in self.DEFINITION.findall(said):
            if re.fullmatch(r"table|function|(?:by_name-)?(?:locals|(?:s|t|turn)-\d+)|by_name", defined):
                known[defined] = self.term(list(reversed(self.TOKEN.findall(body))))
        # where no local has a name, there is one form alone
        form = "by_name-" if "by_name" in known else ""
        for defined, body in known.items():
            if not re.fullmatch(rf"{form}(?:s|t|turn)-\d+", defined):
                continue
            for statement in self.statements(body):
                match statement:
                    case ["assign", place, value] | ["lend_static", place, _, value]:
                        stored.append((self.place(place), self.value(value)))
                    case ["call", callee, values, place]:
                        calls.append(self.called(name, callee, symbols))
                        stored.append((self.place(place), self.value(values)))
                    case _:
                        raise NotUnderstood(f"{name} has a statement that is not understood: {statement}")
        fields = dict(known[form.removesuffix("-") or "function"][1:])
        locals_ = [(self.kind(kind), home == "memory_slot") for _, kind, home in self.members(known[f"{form}locals"])]
        return function(name, int(fields["params"]), locals_, calls, stored), dict(map(self.named, self.members(known.get("table"))))

    def called(self, name, callee, symbols):
        words = [callee] if isinstance(callee, str) else callee
        found = re.fullmatch(r"(\S+)\.name", words[0]) if isinstance(words[0], str) else None
        if not found or found[1] not in symbols:
            raise NotUnderstood(f"{name} has a call that is not understood: {callee}")
        return symbols[found[1]]

    def read(self, folder):
        """The functions of a folder that the compiler wrote, and the types with a name."""
        functions, named = {}, {}
        for path in sorted([*folder.glob("Rattle-*-proofs/**/Code/Mir.antt"), *folder.glob("Rattle-*-proofs/**/+*/Code/+*.antt")]):
            crate, *inside = path.relative_to(folder).parts[:-2]
            if path.stem.startswith("+"):
                # of functions that call one another: in the folder of all of them
                inside[-1] = path.stem.removeprefix("+")
            if crate == "Rattle-empty-proofs":
                continue
            name = "::".join([crate.removeprefix("Rattle-").removesuffix("-proofs"), *inside])
            functions[name], of_file = self.function(name, path.read_text(encoding="utf-8"))
            named.update(of_file)
        return functions, named


def uses():
    """The libraries of the repository, each with those that it uses, and the archives."""
    found, archives = {}, []
    for line in read("crates.txt").splitlines():
        head, colon, used = line.split("#")[0].partition(":")
        match head.split(), colon:
            case [name], ":" if (ROOT / "crates" / name / "src" / "lib.rt").is_file():
                found[name] = used.split()
            case [name, "staticlib"], ":":
                archives.append(name)
    return found, archives


def more_than_handed(name):
    """Whether an archive's calls are anything else than those of a library's functions of the same names."""
    parameter = r"\s*(\w+): [^,()]+,?"
    for source in texts(ROOT / "crates" / name).values():
        code = NO_CODE.sub("", without_contracts(source))
        left = re.sub(r"^mod \w+;", "", code, flags=re.M)
        for call in re.finditer(rf'#\[unsafe\(no_mangle\)\]\s*pub extern "C" fn (\w+)\(((?:{parameter})*)\s*\) -> u64\s*\{{\s*\w+::(\w+)\(([^()]*)\)\s*\}}', code):
            given = [found[1] for found in re.finditer(parameter, call[2])]
            handed = [word.strip() for word in call[5].split(",") if word.strip()]
            if call[1] == call[4] and given == handed:
                left = left.replace(call[0], "")
        if left.strip():
            return True
    return False


def texts(crate):
    """The texts of a crate's source, by their paths in src/."""
    return {path.relative_to(crate / "src"): path.read_text(encoding="utf-8") for path in sorted(crate.glob("src/**/*.rt"))}


def has_functions(name):
    return any(re.search(r"\bfn\b", NO_CODE.sub("", source)) for source in texts(ROOT / "crates" / name).values())


@functools.cache
def kit():
    guide = subprocess.run(["rt", "doc"], capture_output=True, encoding="utf-8", check=True).stdout.strip()
    return pathlib.Path(guide).parent


@functools.cache
def rtlib():
    """The kit's own module on crates. It sums a crate's files once for each way that leads to it: here once."""
    loader = importlib.machinery.SourceFileLoader("rtlib", str(kit() / "bin" / "rtlib.py"))
    sys.dont_write_bytecode = True
    sys.modules["rtlib"] = made = importlib.util.module_from_spec(importlib.util.spec_from_loader("rtlib", loader))
    loader.exec_module(made)
    sums, sum_of = {}, made.Crate.stamp
    made.Crate.stamp = lambda crate: sums.get(crate.folder) or sums.setdefault(crate.folder, sum_of(crate))
    return made


def library(name):
    """What rt built of a crate, if it is of the source as it stands. What rt ci leaves has no stamp, and is newer than its source."""
    crate = ROOT / "crates" / name
    built = (crate / "out").resolve() / "rlib" / f"{name}.rlib"
    home = built.parent.parent.parent
    if not (built / "toolchain" / "mir.json").is_file() or texts(home) != texts(crate):
        return None
    if (built.parent / "stamp").is_file():
        is_new = rtlib().Crate(str(home), str(home.parent.parent), {}).is_built()
    else:
        is_new = max(path.stat().st_mtime for path in home.glob("src/**/*.rt")) <= built.stat().st_mtime
    return built if is_new else None


def without_contracts(source):
    """The text without its contracts."""
    masked = NO_CODE.sub(lambda part: re.sub(r"[^\n]", " ", part[0]), source)
    cut = [found.span() for found in GHOST.finditer(masked)]
    at = 0
    while clause := CLAUSE.search(masked, at):
        depth, at = 0, clause.end()
        while depth or at == clause.end():
            depth += (masked[at] == "{") - (masked[at] == "}")
            at += 1
        at += masked[at : at + 1] == ","  # behind a ghost field
        cut.append((clause.start(), at))
    for start, end in sorted(cut, reverse=True):
        source = source[:start] + re.sub(r"[^\n]", " ", source[start:end]) + source[end:]
    return source


def written(built, used):
    """What the compiler writes of the libraries that are not built, and of those between them."""
    below = {}
    for name in used:
        below[name] = set(used[name]).union(*(below.get(other, set()) for other in used[name]))
    changed = {name for name in used if not built[name] and has_functions(name)}
    between = {name for name in used if below[name] & changed and any(name in below[other] for other in changed)}
    unbuilt = {name for other in changed | between for name in below[other] if not built[name]}
    anew = [name for name in used if name in changed | between | unbuilt]
    command = [kit() / "bin" / "rattle", "check", "--crate-name", "empty", "src/lib.rt", "--jobs", "1"]
    command += ["--antt-project", kit() / "rattle/logic/antt-project.json", "--logic-built", kit() / "logic_built", "-L", f"dependency={kit()}/rlibs"]
    command += [word for name in ("core", "std") for word in ("--extern", f"{name}={kit()}/rlibs/{name}.rlib")]
    for name in set().union(*(below[other] for other in anew)) - set(anew):
        command += ["--extern", f"{name}={built[name]}"]
    with tempfile.TemporaryDirectory() as folder:
        for name in anew:
            for path, source in texts(ROOT / "crates" / name).items():
                copy = pathlib.Path(folder, name, "src", path)
                copy.parent.mkdir(parents=True, exist_ok=True)
                copy.write_text(without_contracts(source), encoding="utf-8")
            command += ["--lib", f"{name}:{','.join(['core', 'std', *used[name]])}={folder}/{name}/src/lib.rt"]
        root = pathlib.Path(folder, "empty", "src", "lib.rt")
        root.parent.mkdir(parents=True)
        root.write_text("pub fn nothing() {}\n", encoding="utf-8")
        done = subprocess.run([*command, "--generated", f"{folder}/made"], cwd=root.parent.parent, capture_output=True, encoding="utf-8")
        if not re.search(r"^generated=\d+$", done.stdout + done.stderr, re.M):
            sys.exit(f"mir: the source is rejected:\n{done.stdout[-3000:]}{done.stderr[-3000:]}")
        functions, named = Written().read(pathlib.Path(folder, "made"))
    return functions, named


def handed_on(used):
    """The names under which modules hand on what other crates have, with the names there: what the compiler writes has the former."""
    found = {}
    for crate in used:
        for path, source in texts(ROOT / "crates" / crate).items():
            module = [crate, *path.with_suffix("").parts]
            module = module[:-1] if module[-1] == "lib" else module
            for place, one, several in re.findall(r"^pub use ([\w:]+)::(?:(\w+)|\{([^}]*)\});$", source, re.M):
                home = place if place.split("::")[0] in used else f"{crate}::{place}"
                for name in filter(None, map(str.strip, (one or several).split(","))):
                    found["::".join([*module, name])] = f"{home}::{name}"
    return found


def functions():
    """Every function of every library by its name, those of the kit that they call, and the types."""
    try:
        return all_functions()
    except NotUnderstood as why:
        sys.exit(f"mir: {why}")


def all_functions():
    used, archives = uses()
    for name in filter(more_than_handed, archives):
        sys.exit(f"mir: {name} does more than to hand its calls on to functions of the same names")
    built = {name: library(name) for name in used}
    found, named = {}, {}
    for name in used:
        if built[name]:
            of_crate, of_types = Kept().read(built[name] / "toolchain" / "mir.json")
            found |= of_crate
            named |= of_types
    if any(not built[name] and has_functions(name) for name in used):
        of_crates, of_types = written(built, used)
        again = {name.split("::")[0] for name in of_crates}
        found = {name: f for name, f in found.items() if name.split("::")[0] not in again} | of_crates
        named |= of_types
        handed = handed_on(used)
        for f in of_crates.values():
            f.calls = {handed.get(name, name) for name in f.calls}
    while missing := {called for f in found.values() for called in f.calls} - found.keys():
        # an impl of the libraries' own, as that of a closure: of those functions that have one
        for name in {name for name in missing if name.endswith("::*") and name.split("::")[0] in used}:
            found[name] = Function(name, 0, [], set(), {f for f in found if f.rpartition("::")[0] == name[:-3]}, set(), [])
        if not (missing := missing - found.keys()):
            continue
        crate = min(missing).split("::")[0]
        path = kit() / "rlibs" / f"{crate}.rlib" / "toolchain" / "mir.json"
        wanted = {name for name in missing if name.split("::")[0] == crate}
        of_kit, of_types = Kept().read_kit(path, wanted) if path.is_file() else ({}, {})
        if wanted - of_kit.keys():
            sys.exit(f"mir: {min(wanted - of_kit.keys())} is called, and is no function of a library")
        found |= of_kit
        named |= of_types
    return found, Types(named)
