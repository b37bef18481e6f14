"""Reads the crates of the repository: the definitions of their specs, and the types, limits and contracts of their sources.

It knows no crate, module or word by name. A word of specs is a Word, a type or trait of sources a Type, a limit a Const, and each
knows which others it cites. What is not of the repository, as the toolchain's words, is no word here.
"""
import re
from dataclasses import dataclass, field
from pathlib import Path

TOP = Path(__file__).resolve().parent.parent
NAME = r"[A-Za-z_][\w']*(?:-[\w']+)*"
DECLARED = re.compile(rf"(?:(?:abbrev|unfoldable|opaque) )?(?:pub )?(?:(record|data) )?({NAME})(?: |$)")
STRING = r'"(?:\\.|[^"\\\n])*"'
KEYWORDS = {"mutual", "use", "record", "data", "where", "let", "in", "if", "then", "else", "Type", "pub", "abbrev", "unfoldable", "λ"}


class Unread(Exception):
    """What the reader can't make out, in words."""


@dataclass(eq=False)
class Word:
    """A definition of specs: its comment, its lines, the names that it gives, its constructors included, and what the block of a module
    that it stands in is given, if it stands in one.
    """

    crate: str
    module: str
    name: str
    comment: str
    lines: list = field(default_factory=list)
    names: list = field(default_factory=list)
    scope: dict = field(default_factory=dict)
    given: str = ""

    def text(self):
        """The definition as it stands, with the head of its block."""
        if not self.given:
            return "\n".join(self.lines)
        return "\n".join([f"module _ {self.given} where", *(f"  {line}" for line in self.lines)])


@dataclass(eq=False)
class Type:
    """A type or trait of sources, with what contracts see of it: its fields or variants, or its meaning where it has one."""

    crate: str
    name: str
    kind: str
    doc: str
    parts: list = field(default_factory=list)  # (name, spelling, doc) of each field, variant or ghost member
    seen: str = ""  # the Value of its Model
    scope: dict = field(default_factory=dict)
    said: list = field(default_factory=list)  # (text, scope) of what its invariant and its impls say
    source: str = ""  # as it stands, with its doc
    is_public: bool = False


@dataclass(eq=False)
class Const:
    """A limit: a constant of sources."""

    crate: str
    name: str
    doc: str
    value: str
    source: str = ""
    is_public: bool = False


@dataclass(eq=False)
class Call:
    """A function of sources with its clauses: (keyword, name, text) each."""

    crate: str
    owner: str
    name: str
    signature: str
    clauses: list
    scope: dict
    is_public: bool = False
    comments: dict = field(default_factory=dict)  # the comment above each clause, by its name


def sentence(comment):
    """A comment as a sentence."""
    comment = " ".join(comment.split())
    if comment and comment[0].islower() and not re.match(r"[b-z](?: |$)|\w*_", comment):
        comment = comment[0].upper() + comment[1:]
    return comment if not comment or comment[-1] in ".:?!" else comment + "."


def names_in(braces):
    """The names that a `use` brings in: (name there, name here) each."""
    for part in re.split(r",\s+|,$", braces.strip()):
        if part:
            there, _, here = part.partition(" as ")
            yield there.strip(), (here or there).strip()


def bound_in(text):
    """The names that a text binds: of λ, of (x : T) and of let, and the labels of records."""
    bound = set()
    for group in re.findall(r"λ((?:\s+[^\s.()λ]+)+)\s*\.", text):
        bound.update(group.split())
    for group in re.findall(r"[({]\s*((?:[\w']+\s+)+):\s", text):
        bound.update(group.split())
    bound.update(re.findall(rf"\blet ({NAME})", text))
    return bound


def cited_in(text):
    """The names in a text, but for those after a dot and the labels of records. A dot after a name joins the name of a module, or
    of a type, to one of its own: see members_in."""
    text = re.sub(STRING, '""', text)
    text = re.sub(rf"([{{;]\s*)({NAME})(\s*=\s)", r"\1\3", text)
    return [it for it in re.findall(rf"(?<![\w'.])({NAME})", text) if it not in KEYWORDS]


def tokens_of(text):
    """What stands between white space, brackets and points: names and signs."""
    return set(re.split(r"[\s(){},;.]+", re.sub(STRING, '""', text)))


def members_in(text, name):
    """The names that a text joins to the name of a module by a dot."""
    return re.findall(rf"(?<![\w'.]){re.escape(name)}\.({NAME})", text)


class Crate:
    """A crate: its place among the others, its modules of specs and its sources."""

    def __init__(self, name, below):
        self.name, self.below = name, below
        self.folder = TOP / "crates" / name
        self.modules, self.headers, self.words, self.uses = [], {}, {}, {}
        self.types, self.consts, self.calls, self.exports = {}, {}, [], {}
        self.title, self.ghost_uses = "", []

    def read(self):
        lib = self.folder / "specs" / "Lib.antt"
        if lib.exists():
            for module in re.findall(r"^(?:pub )?mod (\w+)", lib.read_text(), re.M):
                self.read_module(module)
        root = self.folder / "src" / ("lib.rt" if (self.folder / "src" / "lib.rt").exists() else "main.rt")
        text = root.read_text()
        self.title = " ".join(re.match(r"((?://!.*\n)*)", text).group(1).replace("//! ", " ").replace("//!", " ").split())
        self.exports = {name: None for name in re.findall(r"^pub (?:const fn|unsafe fn|fn|struct|enum|trait|const|mod) (\w+)", text, re.M)}
        for path, braces, alone in re.findall(r"^pub use ([\w:]+?)::(?:\{([^}]*)\}|(\w+));", text, re.M):
            for there, here in names_in(" ".join((braces or alone).split())):
                self.exports[here] = (path, there)
        if root.name == "main.rt":
            self.exports["main"] = None

    def read_module(self, module):
        lines = (self.folder / "specs" / f"{module}.antt").read_text().splitlines()
        self.modules.append(module)
        self.uses[module] = {}
        reader = ModuleReader(self, module)
        for line in lines:
            reader.line(line)
        self.headers[module] = sentence(reader.header)
        self.words[module] = reader.words
        for word in reader.words:
            word.scope = self.uses[module]


class ModuleReader:
    """Goes over the lines of a module of specs and finds its definitions."""

    def __init__(self, crate, module):
        self.crate, self.module = crate, module
        self.words, self.comment, self.header = [], [], ""
        self.indent, self.has_begun, self.given = 0, False, ""

    def line(self, line):
        if self.indent and line and not line.startswith(" "):
            self.indent, self.given = 0, ""
        inner = line[self.indent :]
        if not line.strip():
            return self.drop_comment()
        if inner.startswith("--"):
            return self.comment.append(inner[2:].strip())
        if line.startswith("use ") or line.startswith("pub use "):
            self.drop_comment()
            return self.use(line)
        if re.fullmatch(r"(?:unfoldable |abbrev )?mutual", line):
            self.indent = 2
            return None
        block = re.fullmatch(r"module _ (.+) where", line)
        if block:
            self.drop_comment()
            self.indent, self.given = 2, block.group(1)
            return None
        if inner[0] in " })]":
            return self.add(inner)
        return self.declare(inner)

    def drop_comment(self):
        if not self.has_begun and self.comment:
            self.header = self.header or " ".join(self.comment)
        self.comment = []

    def use(self, line):
        if not self.has_begun and not self.header:
            self.header = " ".join(self.comment)
        self.has_begun = True
        found = re.fullmatch(rf"(?:pub )?use ([\w.]+?)(?:\.\{{(.*)\}}| as ({NAME}))", line)
        if not found:
            raise Unread(f"{self.crate.name}.specs.{self.module}: a use of another form: {line}")
        if found.group(3):
            self.crate.uses[self.module][found.group(3)] = (found.group(1), None)
        for there, here in names_in(found.group(2) or ""):
            self.crate.uses[self.module][here] = (found.group(1), there)

    def declare(self, line):
        self.has_begun = True
        found = DECLARED.match(line)
        if not found:
            raise Unread(f"{self.crate.name}.specs.{self.module}: no definition begins so: {line}")
        kind, name = found.groups()
        if self.words and name == self.words[-1].name and not kind:
            return self.add(line)
        word = Word(self.crate.name, self.module, name, sentence(" ".join(self.comment)), [line], [name], given=self.given)
        self.words.append(word)
        self.comment = []
        return None

    def add(self, line):
        if not self.words:
            raise Unread(f"{self.crate.name}.specs.{self.module}: a line before any definition: {line}")
        word = self.words[-1]
        word.lines.append(line)
        constructor = re.match(rf"  ({NAME}) : ", line)
        if constructor and re.match(r"(?:\w+ )*data ", word.lines[0]):
            word.names.append(constructor.group(1))


def parts_of(word):
    """The parts of a definition, each with the names that it binds: what stands before the equations, and each equation."""
    given, parts, equation = bound_in(word.given), [[f"{word.given} {word.lines[0]}".strip()]], re.compile(rf"{re.escape(word.name)}(?: |$)")
    for line in word.lines[1:]:
        if equation.match(line):
            parts.append([line])
        else:
            parts[-1].append(line)
    for number, part in enumerate(parts):
        text = "\n".join(part)
        bound = bound_in(text) | given
        bound.update(re.findall(rf"^\s+(?:pub )?({NAME}) :", text, re.M) if number == 0 else [])
        left = re.split(r"\s=(?:\s|$)", text)[0] if number else ""
        yield text, bound, set(cited_in(left)[1:])


def resolve_spec(crates, path, there):
    """What a name of `use PATH.{there}` stands for: a Word, a Type, a Const, or None where it isn't of the repository."""
    found = re.fullmatch(r"Rattle\.(\w+)\.specs\.(.+)", path)
    if not found or found.group(1) not in crates:
        return None
    crate, place = crates[found.group(1)], found.group(2).split(".")
    if place[0] != "declared":
        for word in crate.words.get(".".join(place), []):
            if there in word.names:
                return word
        raise Unread(f"{path} has no {there}")
    if place[-1] == "TheConstants":
        return crate.consts.get(there) or missing(path, there)
    name = place[-2] if place[-1].startswith("The") else there
    return crate.types.get(name) or missing(path, name)


def missing(path, name):
    raise Unread(f"the sources have no {name}, which {path} names")
