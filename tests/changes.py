#!/usr/bin/env python3
"""Fails where docs/changes/ is not in its form: where its README.md lists other notes than there are, a note lacks a part or has a `git diff`
that does not name two commits, so that it says something else with each commit to come, or code that a note quotes, in a block marked rust,
does not stand in the crates word for word, line breaks aside. So a contract that is quoted there stays.
"""
import re

from repository import ROOT, finish, read

PARTS = ("The check's time", "Moved", "Stayed")
NOTES = ROOT / "docs" / "changes"


def words(text):
    """A text on one line."""
    return " ".join(text.split())


def wrong(name, source):
    """What is wrong with a note."""
    text = read(f"docs/changes/{name}")
    yield from (f"docs/changes/{name} has no part '## {part}'" for part in PARTS if f"\n## {part}\n" not in text)
    for command in re.findall(r"git diff(?! [0-9a-f]{7} [0-9a-f]{7} ).*", text):
        yield f"docs/changes/{name} has a command that does not name two commits: {command}"
    for quote in re.findall(r"^```rust\n(.*?)^```$", text, re.M | re.S):
        if not any(words(quote) in file for file in source):
            yield f"docs/changes/{name} quotes what stands in no crate: {quote.splitlines()[0]}"


def main():
    source = [words(path.read_text(encoding="utf-8")) for path in ROOT.glob("crates/*/src/**/*.rt")]
    listed = re.findall(r"^\| \[\w+\]\((K\d+\.md)\) \|", read("docs/changes/README.md"), re.M)
    notes = sorted(path.name for path in NOTES.glob("*.md") if path.name != "README.md")
    bad = [f"docs/changes/README.md does not list {name}" for name in notes if name not in listed]
    bad += [f"docs/changes/README.md lists {name}, and there is none" for name in listed if name not in notes]
    bad += [line for name in notes for line in wrong(name, source)]
    finish(bad, f"docs/changes: {len(notes)} notes, each with its parts")


main()
