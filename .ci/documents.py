#!/usr/bin/env python3
"""Compares the documents with what they tell of, and what docs/definitions.py prints, and prints what differs, each in a line that begins
with FAILED.
"""
import re
import subprocess
import sys

from trying import PROGRAM, SECONDS, TOP, expect, failed, launched, tried


def definitions():
    """What docs/definitions.py prints of each clause, how its pages are made, and that a slip changes nothing."""
    sys.path.insert(0, str(TOP / "docs"))
    from definitions import strays, text_of_clause, unexplained, unread
    from layout import CALL
    from pages import LIST, Pages
    from repository import Repository

    script, document = TOP / "docs" / "definitions.py", TOP / LIST
    before = document.stat().st_mtime_ns
    repository = Repository()
    call = repository.call(*CALL)
    for _, clause, _ in call.clauses:
        text = "\n".join(text_of_clause(repository, call, clause))
        std = text.split("\n-- The toolchain's words")[-1]
        found = (
            text.splitlines()[0].split(",")[0], f"\nensures {clause} {{ " in text, "\n-- Types and limits of " in text,
            "\nstring_bytes s: the bytes" in std, "rt lemma" in std,
        )
        expect(f"definitions.py: {clause}", found, (f"-- The clause `{clause}` of `run_renju`", True, True, True, True))
    won = "\n".join(text_of_clause(repository, call, "won"))
    expect("definitions.py: won where none is named", launched(script, ["--text"]), (0, f"{won}\n", ""))
    expect("definitions.py: a type as it stands", "\npub enum Side {\n    Black,\n    White,\n}\n" in won, True)
    done = subprocess.run(["bash", "-c", f"'{script}' --text | head -1"], capture_output=True, timeout=SECONDS)
    expect("definitions.py: a reader that goes away", (done.stdout[:23], done.stderr), (b"-- The clause `won` of ", b""))
    expect(
        "definitions.py: no clause", launched(script, ["--text", "none"])[1],
        re.compile("FAILED .*run_renju has no clause none; it has report, won, .*\n"),
    )
    expect("definitions.py: --help", launched(script, ["--help"])[0], 0)
    expect("definitions.py: an unknown word", launched(script, ["--chek"])[0], 2)
    expect("definitions.py: the document", document.stat().st_mtime_ns, before)
    pages = Pages(repository)
    reading_order(pages.layout)
    expect("definitions.py: definitions that no document has", list(unread(pages)), [])
    on_demand(script, pages)
    pages.public_std = {("std", "unknown_word"), ("", "→")}
    said = ["FAILED docs/toolchain.py: no line says what unknown_word of std means, on which a clause rests"]
    expect("definitions.py: a word without a line", list(unexplained(pages)), said)
    expect(
        "definitions.py: a page that is not written", [it.name for it in strays(set(pages.write()) - {"docs/definitions/won.md"})],
        ["won.md"],
    )


def on_demand(script, pages):
    """What is told on demand of the words of crates, and that a definition which only stands there is missed without it."""
    from definitions import unread

    told = launched(script, ["--text", "crates"])[1]
    expect("definitions.py: the words of crates", told, "\n".join(pages.of_crates()) + "\n")
    pages.of_crates = lambda: []
    lost = re.findall(r"^FAILED docs/pages.py: no document has (.*) of \w+\.specs\.\w+$", "\n".join(unread(pages)), re.M)
    expect("definitions.py: without the words of crates", (lost != [], {*lost} - {*re.findall(r"^- `(.*?)`: ", told, re.M)}), (True, set()))
    del pages.of_crates


def lookups():
    """What docs/calling.py and docs/proved.py say of names that aren't there."""
    import calling
    import proved
    from repository import Repository

    repository, text = Repository(), calling.DOCUMENT.read_text()
    expect("calling.py: a slip", list(calling.lost(repository, text.replace("`judge`", "`no_call`"))), ["no crate has no_call"])
    unnamed = ["it doesn't name the caller may_play"]
    expect("calling.py: a caller that isn't named", list(calling.differing("caller", [], ["may_play"])), unnamed)
    text = proved.DOCUMENT.read_text()
    crate, _ = proved.NAMED_EDIT.search(text).groups()
    slip = f"{proved.NEVER}\n| a body | `{crate}/none` |\n"
    expect("proved.py: an edit", list(proved.lost_edits(slip)), [f"there is no must-fail edit none of {crate}"])
    expect("proved.py: no table", list(proved.lost_edits("")), [f"it has no table under {proved.NEVER}"])
    sections = proved.sections_of(text.replace("`Side::other` (`other`)", "`Side::other` (`others`)"))
    expect("proved.py: a clause", list(proved.lost(repository, sections)), ["game_rules: Side::other has no clause others"])


def reading_order(layout):
    """That what a page needs is read on it or before it, and each definition after those that it cites, unless they cite one another."""
    from reading import Word

    repository, places = layout.repository, [*layout.chapters, *layout.claims]
    place_of = {it: number for number, place in enumerate(places) for it in place.found}
    turn = {it: number for place in places for number, it in enumerate(place.found)}
    for it in place_of:
        for other in repository.cites(it):
            is_before = place_of[other] < place_of[it] or place_of[other] == place_of[it] and turn[other] < turn[it]
            if isinstance(it, Word) and isinstance(other, Word) and not is_before and it not in repository.closure([other]):
                failed.append(f"FAILED definitions.py: {it.name} is read before {other.name}, which it cites")
    for claim in layout.claims:
        read = {it for place in [claim, *layout.read_before(claim)] for it in place.found}
        expect(f"definitions.py: what {claim.name} rests on is read", [it.name for it in claim.rests if it not in read], [])


def links():
    """That what the documents link to, show or name by its path is there."""
    for path in [TOP / "README.md", *sorted((TOP / "docs").glob("**/*.md"))]:
        text = re.sub(r"^```.*?^```$", "", path.read_text(), flags=re.M | re.S)
        near = re.findall(r"\]\(([^)#\s]+)[^)]*\)|src=\"([^\"]+)\"", text)
        named = re.findall(r"`((?:docs|examples|bench|\.ci)/[\w./-]*\w)[^`]*`", text)
        lost = [it for pair in near for it in pair if it and "://" not in it and not (path.parent / it).exists()]
        lost += [it for it in named if not (TOP / it).exists()]
        expect(f"{path.relative_to(TOP)}: what it links to or names", lost, [])


def readme():
    """What README says of the toolchain's crates, as crates.txt lists them, that it is short, and what is compared of other documents."""
    text = (TOP / "README.md").read_text()
    listed = [line.partition("#")[0].partition(":") for line in (TOP / "crates.txt").read_text().splitlines()]
    own = {name.split()[0] for name, _, _ in listed if name.strip()}
    used = {name for _, _, names in listed for name in names.split()} - own
    said = re.search(r"Of the toolchain's crates the repository uses (.*?)\.\s", text, re.S)
    expect("README.md: the crates that are used", sorted(re.findall(r"`(\w+)`", said.group(1) if said else "")), sorted(used))
    expect("README.md: at most 2,500 words", len(text.split()) <= 2500, True)
    links()
    formats()
    architecture()
    changing(own)


def formats():
    """That the forms in docs/FORMATS.md and docs/help.txt are those of the usage line, and that both tell the same ranges and statuses."""
    done = subprocess.run([PROGRAM], stdin=subprocess.DEVNULL, capture_output=True, timeout=SECONDS)
    text, told = (TOP / "docs" / "FORMATS.md").read_text(), (TOP / "docs" / "help.txt").read_text()
    expect("FORMATS.md: the usage line", re.findall(r"^usage: .*\n", text, re.M), [done.stdout.decode()])
    forms = re.findall(r"^  (renju .*?)  .*\n", told, re.M)
    expect("help.txt: the forms", f"usage: renju {', '.join(it[6:] for it in forms)}\n", done.stdout.decode())
    parts = re.findall(r"^== (.*)\n(.*?)(?: [<>].*)?\n", told, re.M)
    expect("help.txt: the form of each command", parts, [(it.split()[1], it) for it in forms])
    said = dict(re.findall(r"^\| ([A-Z]+) \| (.*? to .*?) \|", text, re.M))
    wanted = [pair for pair in re.findall(r"^  ([A-Z]+)  +(\S+ to \S+)  ", told, re.M) if pair not in said.items()]
    expect("help.txt: the ranges that FORMATS.md doesn't have", wanted, [])
    symmetries = re.findall(r"^\| `([a-z-]+)` \| [HWXY0-9,-]+ \|$", text, re.M)
    expect("help.txt: the symmetries", re.findall(r"^  SYMMETRY  one of (.*)$", told, re.M), [", ".join(symmetries)])
    statuses = list(dict.fromkeys(re.findall(r"^\| (\d+) \| ", text.partition("| Status |")[2].partition("\n\n")[0], re.M)))
    expect("help.txt: the statuses", re.findall(r"^ +(\d+)  ", told, re.M), [*statuses, "70"])


def changing(crates):
    """That docs/CHANGING.md says of each crate what is changed in it, and how long its first check takes."""
    text = (TOP / "docs" / "CHANGING.md").read_text()
    where, times = text.partition("## A new command")[0], text.partition("## The loops")[2]
    expect("CHANGING.md: the crates where nothing is changed", sorted(it for it in crates if not re.search(rf"`{it}[`/]", where)), [])
    expect("CHANGING.md: the crates without a time", sorted(it for it in crates if f"`{it}`" not in times), [])


def differing(told, wanted):
    """What is wanted and not told, and what is told and not wanted."""
    return sorted(wanted - told), sorted(told - wanted)


def architecture():
    """That each crate has a row in docs/ARCHITECTURE.md, and that it stands there on what crates.txt lists, and on what that stands on."""
    listed = [line.partition("#")[0].partition(":") for line in (TOP / "crates.txt").read_text().splitlines()]
    uses = {name.split()[0]: names.split() for name, _, names in listed if name.strip()}

    def all_of(names):
        return {other for name in names if name in uses for other in (name, *all_of(uses[name]))}

    rows = re.findall(r"^\| `(\w+)` \| .* \| (.*) \| .*\|$", (TOP / "docs" / "ARCHITECTURE.md").read_text(), re.M)
    expect(
        "ARCHITECTURE.md: the crates without a row, and the rows without a crate", differing({name for name, _ in rows}, set(uses)),
        ([], []),
    )
    for number, (name, said) in enumerate(rows):
        named = re.findall(r"`(\w+)`", said)
        above = {it for it, _ in rows[:number]} - set(named)
        stands = above if said.startswith("all of them") else all_of(named)
        expect(
            f"ARCHITECTURE.md: what is lacking where {name} stands, and what is too much", differing(stands, all_of(uses.get(name, []))),
            ([], []),
        )


if __name__ == "__main__":
    sys.exit(tried(definitions, lookups, readme))
