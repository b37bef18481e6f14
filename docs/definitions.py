#!/usr/bin/env python3
"""Works out which definitions a reader has to believe, from the specs and the sources, and writes docs/DEFINITIONS.md and the pages
in docs/definitions.

    definitions.py [--check | --text [CLAUSE | crates | private]]

--check compares the documents with what is worked out now, and prints what differs, each definition that no document has, and each
word of the toolchain that a clause rests on and that no line of docs/toolchain.py explains. --text prints what a clause of the
program's top call rests on, `won` where none is named: what it says in words, the clause, the types and limits as they stand in the
sources, the definitions in reading order, and the toolchain's words. Of no clause are the definitions of which only a crate that is
used alone speaks (crates), and those of private contracts and of proofs (private): each with its comment.
"""
import os
import sys
import textwrap

sys.dont_write_bytecode = True

import toolchain
from layout import CALL
from pages import FOLDER, LIST, NO_COMMENT, Pages, claims_in_words
from reading import TOP, Unread
from repository import Repository

FIRST = "won"


def text_of_clause(repository, call, clause):
    """What a clause rests on: the clause, and then of each crate its types and limits and its definitions, as they stand."""
    said = [(key, text) for key, name, text in call.clauses if name == clause]
    if not said:
        raise Unread(f"{call.name} has no clause {clause}; it has {', '.join(name for _, name, _ in call.clauses)}")
    found = repository.closure(repository.in_call(call, lambda name: name == clause))
    yield f"-- The clause `{clause}` of `{call.name}`, in crates/{call.crate}/src, and all that it rests on."
    for paragraph in claims_in_words().get(clause, "").split("\n\n"):
        yield from ["--", *textwrap.wrap(paragraph, 130, initial_indent="-- ", subsequent_indent="-- ")]
    for key, text in said:
        yield from ["", *textwrap.wrap(f"{key} {clause} {{ {text} }}", 120, subsequent_indent="    ", break_long_words=False)]
    for crate in repository.crates.values():
        yield from text_of_crate(repository, crate, found)
    yield from words_of_toolchain(repository.std_of(found) | repository.std_of_clauses(call, lambda name: name == clause))


def text_of_crate(repository, crate, found):
    """What is found of a crate, as it stands."""
    sources = [it.source for it in [*crate.types.values(), *crate.consts.values()] if it in found]
    if sources:
        yield from ["", f"-- Types and limits of {crate.name}, in crates/{crate.name}/src", *(f"\n{it}" for it in sources)]
    for module in repository.modules(crate):
        words = [it for it in crate.words[module] if it in found]
        if words:
            yield f"\n-- {crate.name}.specs.{module}: {crate.headers[module]}"
        for it in words:
            yield from ["", f"-- {it.comment}" if it.comment else f"-- {NO_COMMENT}", *it.text().splitlines()]


def words_of_toolchain(named):
    """The toolchain's words, each with its line, and how to look them up."""
    yield "\n-- The toolchain's words. In the folder of a crate, `rt lemma WORD` shows the definition of one; those of lib.NAME stand in"
    yield "-- rattle/logic/Lib/NAME.antt, beside the page whose path `rt doc` prints."
    for title, words in toolchain.shown(named):
        yield from ["", f"-- {title}", *(f"{form}: {meaning}" for form, meaning in words)]
    for place, name in toolchain.without_line(named):
        yield f"\n{name}, of {place or 'the language'}"


def differences(path, wanted, there):
    """Says how a document differs from what is worked out."""
    lacking = [line for line in wanted.splitlines() if line not in there.splitlines()]
    extra = [line for line in there.splitlines() if line not in wanted.splitlines()]
    yield f"FAILED {path}: it isn't what docs/definitions.py writes; run that script"
    yield from (f"  it lacks: {line[:120]}" for line in lacking[:10])
    yield from (f"  it has: {line[:120]}" for line in extra[:10])
    if not lacking and not extra:
        yield "  the lines stand in another order"


def unexplained(pages):
    """Says which words of the toolchain have no line."""
    for place, name in toolchain.without_line(pages.public_std):
        yield f"FAILED docs/toolchain.py: no line says what {name} of {place or 'the language'} means, on which a clause rests"


def unread(pages):
    """Says which definitions no document has."""
    for it in pages.unread():
        yield f"FAILED docs/pages.py: no document has {it.name} of {it.crate}.specs.{it.module}"


def strays(texts):
    """The documents in the folder that are not written."""
    return [path for path in sorted((TOP / FOLDER).glob("*")) if path.relative_to(TOP).as_posix() not in texts]


def checked(pages):
    """Compares the documents, and answers the status to exit with."""
    texts, found = pages.write(), [*unexplained(pages), *unread(pages)]
    for path, wanted in texts.items():
        there = (TOP / path).read_text() if (TOP / path).exists() else ""
        if there != wanted:
            found += differences(path, wanted, there)
    found += [f"FAILED {path.relative_to(TOP)}: docs/definitions.py doesn't write it" for path in strays(texts)]
    print("".join(f"{line}\n" for line in found), end="")
    return 1 if found else 0


def written(pages):
    """Writes the documents, and takes away those that are no longer written."""
    texts = pages.write()
    (TOP / FOLDER).mkdir(exist_ok=True)
    for path, text in texts.items():
        (TOP / path).write_text(text)
    for path in strays(texts):
        path.unlink()
    return 0


def run(words):
    """Does what the words say, and answers the status to exit with."""
    repository = Repository()
    if words[:1] == ["--text"] and words[1:] in (["crates"], ["private"]):
        print(*Pages(repository).on_demand()[words[1]](), sep="\n")
        return 0
    if words[:1] == ["--text"]:
        print(*text_of_clause(repository, repository.call(*CALL), *(words[1:] or [FIRST])), sep="\n")
        return 0
    pages = Pages(repository)
    return checked(pages) if words else written(pages)


def main():
    words = sys.argv[1:]
    if words not in ([], ["--check"]) and not (words[0] == "--text" and len(words) < 3):
        print(__doc__, file=sys.stdout if words[0] in ("-h", "--help") else sys.stderr)
        return 0 if words[0] in ("-h", "--help") else 2
    try:
        status = run(words)
        sys.stdout.flush()
        return status
    except Unread as error:
        print(f"FAILED docs/definitions.py: {error}")
        return 1
    except BrokenPipeError:
        # Who read the output has gone.
        os.dup2(os.open(os.devnull, os.O_WRONLY), sys.stdout.fileno())
        return 1


if __name__ == "__main__":
    sys.exit(main())
