"""Writes the documents of definitions: the list of the claims, the chapters, and a page for each claim but those that speak of every
command. What those rest on, and what no claim does, is told on demand. What a claim says in words stands in docs/claims.txt.
"""
import re

import toolchain
from layout import CALL, LAST, Layout
from reading import NAME, TOP, Unread, Word, sentence, tokens_of

LIST, FOLDER, CLAIMS = "docs/DEFINITIONS.md", "docs/definitions", "docs/claims.txt"
# The part of docs/claims.txt that is about no claim.
UNSAID = "what no clause says"
# So many names of what a claim needs of a chapter, or doesn't, are listed.
FEW = 2
NO_COMMENT = "(it has no comment)"
# What begins a line of a definition and matters to proofs alone, and how the first line of one begins on a page.
FOR_PROOFS = re.compile(r"^( *)(?:(?:abbrev|unfoldable) )?(?:pub )?")
BEGUN = re.compile(rf"\n\n    (?:(?:record|data) )?({NAME}) |^- `([^`]+)`: ", re.M)


def of_words(found):
    """The definitions among what is found, without types and limits."""
    return [it for it in found if isinstance(it, Word)]


def lines_of(words):
    """How many lines these definitions have."""
    return sum(len([line for line in it.text().splitlines() if line.strip()]) for it in words)


def counts(found):
    """How many definitions these are, and in how many lines."""
    words = of_words(found)
    return f"{len(words):,}", f"{lines_of(words):,}"


def counted(found):
    """The same in words."""
    words = of_words(found)
    return f"{many(len(words), 'definition')} in {many(lines_of(words), 'line')}"


def many(number, name):
    """A number of things by their name."""
    return f"{number:,} {name}" if number == 1 else f"{number:,} {name}s"


def told(doc):
    """A comment behind a colon, if there is one."""
    return f": {sentence(doc)}" if doc else ""


def spelled(it):
    """A type as an entry of a list."""
    seen = f", seen as `{it.seen}`" if it.seen else ""
    if it.kind == "trait":
        members = [f"  - `{name}: {said}`{told(doc)}" for name, said, doc in it.parts]
        return [f"- `{it.name}`, a trait: {sentence(it.doc) or NO_COMMENT}", *members]
    if any(doc for _, _, doc in it.parts) and not it.seen:
        return [f"- `{it.name}`: {sentence(it.doc) or NO_COMMENT}"] + [f"  - `{spelling}`{told(doc)}" for _, spelling, doc in it.parts]
    parts = (" | " if it.kind == "enum" else ", ").join(spelling for _, spelling, _ in it.parts)
    return [f"- `{it.name}`{seen or (f', `{parts}`' if parts else '')}: {sentence(it.doc) or NO_COMMENT}"]


def limit(it):
    """A limit as an entry of a list."""
    value = it.value.split("//")[0].strip()
    digits = value.replace("_", "")
    return f"- `{it.name}`, {f'{int(digits):,}' if digits.isdigit() else f'`{value}`'}: {sentence(it.doc)}"


def title_of(header):
    """What a module or a claim is about, without what is said of it after that."""
    return re.split(r": |[.] |; |, (?=and )", header)[0].rstrip(".") + "."


def in_full(word):
    """A definition: its comment, and its text without what matters to proofs alone."""
    lines = [FOR_PROOFS.sub(r"    \1", line.rstrip()) for line in word.text().splitlines() if line.strip()]
    return [word.comment or NO_COMMENT, "", *lines, ""]


def in_short(word):
    """A definition: its comment alone."""
    return [f"- `{word.name}`: {word.comment or NO_COMMENT}"]


def quoted(names):
    """Names one after the other."""
    return ", ".join(f"`{name}`" for name in names)


def table(heads, rows):
    """A table, and a line with nothing."""
    return [f"| {' | '.join(heads)} |", "|" + "---|" * len(heads), *(f"| {' | '.join(row)} |" for row in rows), ""]


def claims_in_words():
    """What each claim says in words, by its name, and what no clause says."""
    parts = re.split(r"^== (.*)$", (TOP / CLAIMS).read_text(), flags=re.M)[1:]
    return {name: said.strip() for name, said in zip(parts[::2], parts[1::2])}


class Pages:
    """The documents, by their paths."""

    def __init__(self, repository):
        self.repository, self.layout = repository, Layout(repository)
        self.public_std = repository.public_std()
        self.claims_std = {word for it in self.layout.claims for word in repository.std_of(it.rests) | it.std}
        names = [it.name for it in self.layout.home]
        self.of_several = {name for name in names if names.count(name) > 1}
        self.said, wanted = claims_in_words(), {*(it.name for it in self.layout.claims), UNSAID}
        if {*self.said} != wanted:
            raise Unread(f"the parts of {CLAIMS} are not the claims; one has only {', '.join(sorted({*self.said} ^ wanted))}")

    def write(self):
        """The text of each document that is kept, by its path."""
        parts = [("toolchain", self.toolchain())]
        parts += [(it.name, self.chapter(it)) for it in self.layout.chapters]
        parts += [(it.name, self.claim(it)) for it in self.layout.claims if it.name not in LAST]
        texts = {LIST: self.overview(), **{f"{FOLDER}/{name}.md": lines for name, lines in parts}}
        if len(texts) <= len(parts):
            raise Unread("two of a chapter, a claim and the document toolchain have one name")
        return {path: "\n".join(lines).rstrip() + "\n" for path, lines in texts.items()}

    def on_demand(self):
        """What makes the text of each document that is not kept, by its name."""
        last = {it.name: lambda it=it: self.claim(it) for it in self.layout.claims if it.name in LAST}
        return {"crates": self.of_crates, "private": self.private, **last}

    def unread(self):
        """The definitions that no document has, kept or on demand."""
        texts = [*self.write().values(), *("\n".join(lines()) for lines in self.on_demand().values())]
        told = [here or there for text in texts for here, there in BEGUN.findall(text)]
        words = [it for crate in self.repository.crates.values() for words in crate.words.values() for it in words]
        names = [it.name for it in words]
        return [it for it in words if told.count(it.name) < names.count(it.name)]

    def overview(self):
        """The list of claims and chapters, and how they are read."""
        claims = [(listed(it), title_of(it.about), *counts(it.rests), str(len(of_words(it.found)))) for it in self.layout.claims]
        last = [line for name in LAST for line in [f"**`{name}`**. {self.said[name]}", ""]]
        chapters = [(listed(it), it.about, *counts(it.found)) for it in self.layout.chapters]
        return [
            *HEAD.format(call=CALL[1], place=f"crates/{CALL[0]}/src", run=self.layout.run).strip().splitlines(),
            "",
            *table(("Claim", "What it says", "Definitions", "Lines", "On its page"), claims),
            *LAST_HEAD.format(last=" and ".join(f"`{it}`" for it in LAST), first=LAST[0]).strip().splitlines(),
            "",
            *last,
            "## What no clause says",
            "",
            self.said[UNSAID],
            "",
            *CHAPTERS_HEAD.format(last=" and ".join(f"`{it}`" for it in LAST)).strip().splitlines(),
            "",
            *table(("Chapter", "What it has", "Definitions", "Lines"), chapters),
            *TAIL.strip().splitlines(),
        ]

    def chapter(self, chapter):
        """A chapter: its definitions in full."""
        return [f"# {chapter.title}", "", *self.section(chapter.found, in_full)]

    def claim(self, claim):
        """The page of a claim: its clause, what is read before, and its own definitions in full."""
        places = self.layout.read_before(claim)
        head = [f"# The claim {claim.title}", "", self.said[claim.name], "", f"    {claim.clause}", ""]
        before = [f"Read before: {'; '.join(self.before(claim, it) for it in places)}.", ""] if places else []
        return [*head, *before, *self.section(claim.found, in_full, [it for place in places for it in of_words(place.found)])]

    def before(self, claim, place):
        """What a claim needs of a chapter, or of another claim's page; by name where that is short."""
        needed = [it for it in place.found if it in claim.rests]
        words, all_words = of_words(needed), of_words(place.found)
        left = [it.name for it in all_words if it not in claim.rests]
        link = f"[{place.name}]({place.name}.md)"
        if not words:
            return f"{link}: {quoted(it.name for it in needed)} alone"
        if not left:
            return f"{link}: all {len(words)}"
        if len(left) <= FEW:
            return f"{link}: {len(words)} of {len(all_words)}, all but {quoted(left)}"
        return f"{link}: {len(words)} of {len(all_words)}" + (f", {quoted(it.name for it in words)}" if len(words) <= FEW else "")

    def section(self, found, shown, read=()):
        """What is found of each crate, lowest first. What a crate or a module is about is not told again after what is read before."""
        names, known = {}, {(it.crate, it.module) for it in read}
        return [line for crate in self.repository.crates.values() for line in self.of_crate(crate, found, shown, known, names)]

    def of_crate(self, crate, found, shown, known, names):
        """What is found of a crate: its types and limits, and then its definitions, module by module."""
        types = [it for it in crate.types.values() if it in found]
        limits = [it for it in crate.consts.values() if it in found]
        modules = [(module, [it for it in crate.words[module] if it in found]) for module in self.repository.modules(crate)]
        modules = [(module, words) for module, words in modules if words]
        if not (types or limits or modules):
            return
        yield from [f"## `{crate.name}`" + ("" if crate.name in {name for name, _ in known} else f": {crate.title}"), ""]
        if types or limits:
            yield from [*(line for it in types for line in spelled(it)), *(limit(it) for it in limits), ""]
        for module, words in modules:
            yield from [f"`specs/{module}.antt`. {'' if (crate.name, module) in known else title_of(crate.headers[module])}".rstrip(), ""]
            yield from self.names(words, names) if shown is in_full else []
            yield from [line for it in words for line in shown(it)] + ([""] if shown is in_short else [])

    def names(self, words, known):
        """A line on the names that these words of a module have under another one, or that several definitions have, where the last
        that was told of the name is something else."""
        said = {}
        for here, there, owner in dict.fromkeys(self.repository.renamed(words)):
            said[here] = f"`{here}` is `{there}` of `{owner}`" if there else f"`{here}` stands before the cases of `{owner}`"
        for it in dict.fromkeys(it for word in words for it in self.repository.cites(word) if it.name in tokens_of(word.text())):
            place = (it.crate, it.module) if isinstance(it, Word) else (it.crate,)
            if it.name in self.of_several:
                is_own = place == (words[0].crate, words[0].module)
                said[it.name] = "" if is_own else f"`{it.name}` is that of `{'.'.join(place)}`"
        new = [text for name, text in said.items() if text and known.get(name) != text]
        known.update(said)
        return [f"Here {'; '.join(new)}.", ""] if new else []

    def toolchain(self):
        """How a definition is written, and what the toolchain's words mean."""
        lines = NOTATION.strip().splitlines()
        for title, words in toolchain.shown(self.claims_std):
            lines += ["", f"## {title}", "", *(f"- `{form}`: {meaning}" for form, meaning in words)]
        return lines

    def of_crates(self):
        """What the public contracts of the crates cite beyond the claims, in short."""
        public = self.repository.closure([it for crate in self.repository.crates.values() for it in self.repository.public_roots(crate)])
        found = {it: None for it in public if it not in self.layout.home}
        lines = [*CRATES.format(counted=counted(found)).strip().splitlines(), "", *self.section(found, in_short)]
        known = [line for _, words in toolchain.shown(self.claims_std) for line in words]
        for title, words in toolchain.shown(self.public_std):
            more = [f"{form}: {meaning}" for form, meaning in words if (form, meaning) not in known]
            lines += [f"## The toolchain's words: {title}", "", *more, ""] if more else []
        return lines

    def private(self):
        """What private contracts alone cite, and what no contract does, in short."""
        crates = self.repository.crates.values()
        public = self.repository.closure([it for crate in crates for it in self.repository.public_roots(crate)])
        private = self.repository.closure([it for crate in crates for it in self.repository.private_roots(crate)])
        cited = {it: None for it in private if it not in public and it not in self.layout.home}
        rest = [it for crate in crates for words in crate.words.values() for it in words]
        rest = {it: None for it in rest if it not in public and it not in private and it not in self.layout.home}
        return [
            *PRIVATE.format(counted=counted(cited)).strip().splitlines(),
            "",
            *self.section(cited, in_short),
            *UNCITED.format(counted=counted(rest)).strip().splitlines(),
            "",
            *self.section(rest, in_short),
        ]


def listed(place):
    """The link from the list to the page of a place, if that is kept."""
    return place.title if place.name in LAST else f"[{place.title}](definitions/{place.name}.md)"


HEAD = """
# Definitions

What an answer of `renju` says is said by clauses, and the clauses by definitions. A reader who believes these and the toolchain need read no body and no proof. The main claims are the clauses of `{call}` in `{place}`.

To read a claim:

1. Take its page in the table below. It has the claim in words, its clause, and the chapters that come before it, with how many of their definitions it rests on, by name where these or the others are few. In a clause `run` stands for `{run}`.
2. Read these chapters from top to bottom, in their order. Each definition stands below its comment, after those that it uses; two that use each other stand together.
3. Then read the page: what this claim adds to the chapters. No other claim's page is needed, but where a page names one.

How definitions are written is in [toolchain.md](definitions/toolchain.md), with a line on each word of the toolchain that they have. Where a name is defined, ``grep -rnE '^( {{4}}(record |data )?|- `)NAME\\b' docs/definitions`` tells. `docs/definitions.py --text CLAUSE` prints all that a claim rests on as one text, as it stands in the sources; the pages leave out `pub`, `abbrev` and `unfoldable`, which matter to proofs alone. `--text crates` prints the definitions of which only a crate that is used alone speaks, `--text private` those of private contracts and of proofs.

Contracts speak of plain values: a board is a width, a height and a list of cells; a table is a list of nodes; a text is a list of bytes; numbers are whole numbers without limit. Sources: the RIF Rules of Renju for fours, straight fours, threes, overlines and fouls; Allis, van den Herik and Huntjens, "Go-Moku and Threat-Space Search", for wins by fours and by threats. Which double-threes are allowed to stand is this program's own rule, and its definition (`is_three`) says so.

## The claims
"""
LAST_HEAD = """
{last} speak of every command, and rest on most of what there is. They have no page: `docs/definitions.py --text {first}` prints what one of them rests on.
"""
CHAPTERS_HEAD = """
## The chapters

What two claims or more rest on, where {last} don't count. A chapter comes after those that it uses.
"""
TAIL = """
## How it is kept

`docs/definitions.py` works these pages out from the specs, the sources and `docs/claims.txt`, and the tests of the repository compare them. It follows each name from the clauses on, and fails where a definition is in none of the documents, kept or on demand. A table in `docs/layout.py` names the chapter of a crate or a module; a crate that it doesn't name has one of its own.
"""
NOTATION = """
# How definitions are written

- `f : A → B → C`: f takes a value of A and one of B, and answers one of C; `f a b` is its answer. Where C is `Type 0`, the answer is a fact.
- `f x [] = ..`, `f x (y ∷ ys) = ..`: what f answers, case by case: the first line that fits decides.
- `record R .. where`, and lines `field : A`: a value with these fields, `r.field` each; where it is a fact, its fields are facts that all hold.
- `record { a = x; b = y }`, `record r { a = x }`: the value with these fields, and r with this field in place of its own.
- `data D .. where`, and lines `case : A → D`: a value, or a fact, that has one of these forms; a fact holds in no other way.
- `{A : Type 0}`, `f {x = e}`: an argument that is mostly left out, since the others tell it.
- `let x = e in ..`: x stands for e.
- `x` or `p` on the left: a name for what stands there; `_` is whatever does.

In a clause `x.now` is what a reference holds, `x.old` and `x.new` what one that may change holds before and after the call, and `result` what the call answers. A field of a trait, as `I.left`, is what the device of that kind tells to clauses. A list at the head of a crate has its types and limits, which stand in its `src`; a crate NAME is the folder `crates/NAME`, and `specs/F.antt` a file there.

The words below are the toolchain's own: those that the claims rest on. They mean what its library defines them to be; in the folder of a crate `rt lemma WORD` shows the definition.
"""
CRATES = """
# The words of each crate

What the public contracts of the crates cite beyond the claims of the program, with the public types and limits of each: {counted}. None of them is needed to believe what the program says; a reader of a crate that is used alone needs them. The definitions stand in `crates/NAME/specs`.
"""
PRIVATE = """
# The words of private contracts

What only private contracts cite: what a part of the code answers, told so that its caller can be proved. No public clause cites one of these: {counted}.
"""
UNCITED = """
# Words that no contract cites

What proofs alone cite, or nothing does yet: {counted}.
"""
