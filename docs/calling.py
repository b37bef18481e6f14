#!/usr/bin/env python3
"""Looks up what docs/CALLING.md names: each caller and its test in the file of sources to which the document links, and each crate, call
and type in the crates. It prints what isn't there, and each caller of that file which the document doesn't name.
"""
import re
import sys

sys.dont_write_bytecode = True

from reading import TOP, Unread
from repository import Repository

DOCUMENT = TOP / "docs" / "CALLING.md"
# A caller of the sources has a comment and a contract; its test has an attribute.
CALLER = re.compile(r"^///.*\n(?:///.*\n)*(?:#\[.*\n)*(?:pub )?fn (\w+)[^{}]*?\n +(?:requires|ensures) ", re.M)
TEST = re.compile(r"^#\[test\]\n(?:#\[.*\n)*fn (\w+)\(", re.M)


def linked(text):
    """The text of the sources to which the document links."""
    found = [(DOCUMENT.parent / path).resolve() for path in re.findall(r"\]\(([^)]*\.rt)\)", text)]
    lost = [path for path in found if not path.is_file()]
    if lost or not found:
        raise Unread(f"there is no file {lost[0].relative_to(TOP)}" if lost else "it links to no sources")
    return "\n".join(path.read_text() for path in found)


def differing(kind, named, there):
    """What is named and isn't there, and what is there and isn't named."""
    yield from (f"the sources have no {kind} {it}" for it in named if it not in there)
    yield from (f"it doesn't name the {kind} {it}" for it in there if it not in named)


def names_of(repository):
    """The crates, and what each gives: its calls, with their types too, its types with their cases, and its limits."""
    for crate in repository.crates.values():
        yield crate.name
        yield from crate.types
        yield from (name for it in crate.types.values() for name, _, _ in it.parts)
        yield from (f"{it.owner}::{it.name}" if it.owner else it.name for it in crate.calls if it.is_public)
        yield from (it.name for it in crate.calls if it.is_public)


def lost(repository, text):
    """What the document names that no crate has. What has a blank, a dot or a slash is no name of one."""
    known = {*names_of(repository), "None"}
    spans = re.findall(r"`([^`]+)`", re.sub(r"^Caller: .*$", "", text, flags=re.M))
    yield from (f"no crate has {it}" for it in dict.fromkeys(spans) if re.fullmatch(r"[\w:]+", it) and it not in known)


def main():
    if {"-h", "--help"} & {*sys.argv[1:]}:
        print(__doc__.strip())
        return 0
    text = DOCUMENT.read_text()
    said = re.findall(r"^Caller: `(\w+)`; test: `(\w+)`\.$", text, re.M)
    try:
        sources = linked(text)
        found = list(differing("caller", [it for it, _ in said], CALLER.findall(sources)))
        found += [*differing("test", [it for _, it in said], TEST.findall(sources)), *lost(Repository(), text)]
    except Unread as error:
        found = [str(error)]
    for it in found:
        print(f"FAILED docs/{DOCUMENT.name}: {it}")
    return 1 if found else 0


if __name__ == "__main__":
    sys.exit(main())
