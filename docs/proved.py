#!/usr/bin/env python3
"""Looks up what docs/PROVED.md names: each crate, each public call and each of its clauses, and each must-fail edit of its table of
wrong bodies. It prints what isn't there, and each crate that has no section. Below each crate's table a line names its must-fail edits,
wrong bodies that the prover has to refuse, by the promised call whose code they turn; --write writes these lines, and without it they
are compared.
"""
import re
import sys

sys.dont_write_bytecode = True

from repository import Repository
from reading import TOP, Unread

NAMED_EDIT = re.compile(r"`(\w+)/(\w+)`")
NEVER = "## Wrong bodies that are never let through"
DOCUMENT = TOP / "docs" / "PROVED.md"
PROMISED = re.compile(r"`([\w:]+)` \((`\w+`(?:, `\w+`)*)\)")
REFUSED = "Wrong bodies: "
FUNCTION = re.compile(r"^( *)(?:pub(?:\([^)]*\))? )?(?:const )?fn (\w+)", re.M)
OWNER = re.compile(r"^(?:impl|pub trait|trait)\b(?:<[^{]*?>(?= ))?[^{]*?(\w+)(?:<[^{]*>)?(?: where[^{]*)? \{", re.M)


def sections_of(text):
    """The text of each crate's section, by its name."""
    parts = re.split(r"^## `(\w+)`$", text, flags=re.M)[1:]
    return dict(zip(parts[::2], parts[1::2]))


def lost(repository, named):
    """What the document names and the sources don't have."""
    for name in named:
        if name not in repository.crates:
            yield f"there is no crate {name}"
    for crate in repository.crates.values():
        calls = [call for call in crate.calls if call.is_public]
        if crate.name not in named:
            if any(call.clauses for call in calls):
                yield f"the crate {crate.name} has no section"
            continue
        for call, clauses in PROMISED.findall(named[crate.name]):
            there = [clause for it in calls if call == (f"{it.owner}::{it.name}" if it.owner else it.name) for _, clause, _ in it.clauses]
            yield from (f"{crate.name}: {call} has no clause {it}" for it in re.findall(r"\w+", clauses) if it not in there)


def lost_edits(text):
    """The must-fail edits of the table of wrong bodies that aren't there."""
    rows = re.findall(r"^\| a .* \| (.*) \|$", text.partition(NEVER)[2].partition("\n## ")[0], re.M)
    named = [it for row in rows for it in NAMED_EDIT.findall(row)]
    if not named:
        yield f"it has no table under {NEVER}"
    for crate, edit in named:
        if not (TOP / "crates" / crate / "must-fail" / f"{edit}.edit").exists():
            yield f"there is no must-fail edit {edit} of {crate}"


class Bodies:
    """The functions of a crate by their bare names, with the names that each body has before a bracket."""

    def __init__(self, folder):
        self.texts = {path.relative_to(folder).as_posix(): path.read_text() for path in sorted(folder.glob("src/**/*.rt"))}
        self.callers = {}
        for text in self.texts.values():
            found = list(FUNCTION.finditer(text))
            for it, after in zip(found, [*found[1:], None]):
                body = text[it.end() : after.start() if after else len(text)]
                for name in set(re.findall(r"\b(\w+)(?:::<[^()]*>)?\(", body)):
                    self.callers.setdefault(name, []).append(self.full(text, it))

    def full(self, text, found):
        """The name of a function with that of its type."""
        owners = [it.group(1) for it in OWNER.finditer(text, 0, found.start())] if found.group(1) else []
        return f"{owners[-1]}::{found.group(2)}" if owners else found.group(2)

    def function_of(self, file, line):
        """The function that a line of a file stands in, or None."""
        text = self.texts.get(file, "")
        found = list(FUNCTION.finditer(text, 0, text.find(line) + len(line)))
        return self.full(text, found[-1]) if found else None

    def promised(self, name, calls):
        """The first promised call that a function is, or from which it is called in the fewest steps, or else the function."""
        layer, known = [name], {name}
        while layer:
            for call in calls:
                if call in layer:
                    return call
            layer = [it for below in layer for it in self.callers.get(below.split("::")[-1], []) if it not in known]
            known.update(layer)
        return name


def defined_by(folder, file, line):
    """The definition that a line of a file of specs/ stands in, or None."""
    text = (folder / file).read_text() if file.startswith("specs/") else ""
    found = re.findall(r"^(?:(?:abbrev|unfoldable) )?pub (?:record |data )?(\w+)", text[: text.find(line)], re.M)
    return found[-1] if found else None


def refused(folder, section):
    """The line that names the must-fail edits of a crate, or nothing."""
    bodies, calls, told = Bodies(folder), list(dict.fromkeys(call for call, _ in PROMISED.findall(section))), {}
    for path in sorted(folder.glob("must-fail/*.edit")):
        said = dict(re.findall(r"^(file|old): (.*)$", path.read_text(), re.M)[:2])
        place = said.get("file", ""), said.get("old", "")
        name = bodies.function_of(*place) or defined_by(folder, *place)
        told.setdefault(bodies.promised(name, calls) if name else "elsewhere", []).append(path.stem)
    order = sorted(told, key=lambda it: (calls.index(it) if it in calls else len(calls), it))
    return REFUSED + "; ".join(f"`{call}`: {', '.join(told[call])}" for call in order) + "." if told else ""


def written(text):
    """The document with the lines of must-fail edits as they have to be."""
    for name, section in sections_of(text).items():
        kept = "\n".join(line for line in section.rstrip().splitlines() if not line.startswith("Wrong bodies")).rstrip()
        line = refused(TOP / "crates" / name, section)
        end = section[len(section.rstrip()) :]
        text = text.replace(f"## `{name}`{section}", f"## `{name}`{kept}" + (f"\n\n{line}" if line else "") + end, 1)
    return text


def main():
    if {"-h", "--help"} & {*sys.argv[1:]}:
        print(__doc__.strip())
        return 0
    text = DOCUMENT.read_text()
    wanted = written(text)
    if sys.argv[1:] == ["--write"]:
        DOCUMENT.write_text(wanted)
        return 0
    try:
        found = [*lost(Repository(), sections_of(text)), *lost_edits(text)]
    except Unread as error:
        found = [str(error)]
    if text != wanted:
        found.append("its lines of wrong bodies aren't those of crates/*/must-fail; run docs/proved.py --write")
    for it in found:
        print(f"FAILED docs/{DOCUMENT.name}: {it}")
    return 1 if found else 0


if __name__ == "__main__":
    sys.exit(main())
