#!/usr/bin/env python3
"""Fails where a function that hands out a part of what it was lent, to be written, does more than find the place. No contract can say at exit
what is behind such a part (docs/DECISIONS.md), so that a store beside it would break no promise. Held to this is every function of a library
whose result holds a `&mut`.

1. It stores through no reference. An array of its own, which is stored in through one, is not needed to find a place.
2. It lends what may be changed to such functions alone. Where a function takes a type as a parameter, what it is handed may be changed by it, also
   by a closure that is handed over beside. A method of a bound is no such function.
"""
import mir
from repository import finish


def may_change(types, kind):
    """Whether a function can change what it is handed as this type: it holds a `&mut`, or a type of the caller's, which can hold one."""
    return kind[0] == "tyParam" or types.mutable(kind) or any(may_change(types, part) for part in types.parts(kind))


def faults(f, functions, types, finders):
    if f.stores:
        yield f"{f.name} stores through a reference, and hands out a &mut (rule 1)"
    if f.bound:
        yield f"{f.name} calls a method of a bound, and hands out a &mut (rule 2)"
    for called in (functions[name] for name in sorted(f.calls - finders)):
        if called.unknown or any(may_change(types, kind) for kind in called.locals[1 : called.parameters + 1]):
            yield f"{f.name} lends {called.name} what it may change, and hands out a &mut (rule 2)"


def main():
    functions, types = mir.functions()
    finders = {name for name, f in functions.items() if f.locals and types.mutable(f.locals[0])}
    bad = [line for name in sorted(finders) for line in faults(functions[name], functions, types, finders)]
    if not finders:
        bad.append("no function hands out a &mut")
    finish(bad, f"parts: {len(functions)} functions; those that hand out a &mut only find the place: {', '.join(sorted(finders))}")


main()
