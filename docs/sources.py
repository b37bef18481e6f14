"""Reads the sources of a crate: its types, traits, limits and calls, each with what its contract says."""
import re

from reading import Call, Const, Type, Unread, names_in

ITEM = re.compile(r"(pub(?:\([^)]*\))?\s+)?((?:const |unsafe )*fn|struct|enum|trait|(?:unsafe )?impl|mod|use|ghost|const|type|static)\b|macro_rules(?=!)")
CLAUSE = re.compile(r"\s*(requires|ensures)\*?\s*(\w+)?\s*\{")
OPEN = {"{": "}", "(": ")", "[": "]"}


def blank(text):
    """The text with spaces in place of its comments, strings and characters."""
    pattern = r"//[^\n]*|b?\"(?:\\.|[^\"\\])*\"|b?'(?:\\.[^']*|[^\\'\n])'"
    return re.sub(pattern, lambda it: re.sub(r"[^\n]", " ", it.group()), text)


def closing(text, at):
    """The place after the bracket that closes the one at this place."""
    depth = 0
    for place in range(at, len(text)):
        depth += (text[place] in OPEN) - (text[place] in OPEN.values())
        if depth == 0:
            return place + 1
    raise Unread(f"a bracket is not closed: {text[at:at + 60]}")


def end_of_line_item(text, at):
    """The place after the semicolon that ends an item."""
    while text[at] != ";":
        at = closing(text, at) if text[at] in OPEN else at + 1
    return at + 1


class File:
    """A file of a crate's sources, whose items it adds to the crate."""

    def __init__(self, crate, path):
        self.crate, self.path = crate, path
        self.text = path.read_text()
        self.blanked = blank(self.text)
        self.rust, self.impls = {}, []

    def read(self):
        self.items(0, len(self.blanked), self.ghost_uses(0, len(self.blanked)), None, "")

    def doc(self, start, end):
        return " ".join(" ".join(re.findall(r"^\s*/// ?(.*)$", self.text[start:end], re.M)).split())

    def ghost_uses(self, start, end):
        """What the `ghost use` lines at this level bring in, and Rust's types that `use` lines do."""
        scope = {}
        depth = 0
        for found in re.finditer(r"[{}]|\bghost use ([\w.]+?)\.\{([^}]*)\};|\b(?:pub )?use ([\w:]+)(?:::\{([^;]*)\})?;", self.blanked[start:end]):
            if found.group() in "{}":
                depth += 1 if found.group() == "{" else -1
            elif depth == 0 and found.group(1):
                scope.update({here: (found.group(1), there) for there, here in names_in(" ".join(found.group(2).split()))})
            elif depth == 0 and found.group(3):
                self.rust.update(rust_names(self.crate.name, found.group(3), found.group(4)))
        self.crate.ghost_uses += scope.values()
        return scope

    def items(self, at, end, scope, owner, generics):
        last = at
        while True:
            at += len(self.blanked[at:end]) - len(self.blanked[at:end].lstrip())
            if at >= end:
                return
            if self.blanked[at] == "#":
                bracket = self.blanked.index("[", at)
                is_test = "cfg(test)" in self.blanked[at : closing(self.blanked, bracket)] or "#[test" in self.blanked[at:bracket + 5]
                at = closing(self.blanked, bracket)
                if is_test:
                    at = last = self.after_item(at, end)
                continue
            found = ITEM.match(self.blanked, at)
            next_place = self.after_item(at, end)
            if found and found.group(2):
                self.item(found, next_place, self.doc(last, at), scope, owner, generics)
                self.keep_source(found, self.text[last:next_place].strip("\n"))
            at = last = next_place

    def after_item(self, at, end):
        """The place after the item here, its attributes included."""
        while at < end and (self.blanked[at].isspace() or self.blanked[at] == "#"):
            at = closing(self.blanked, self.blanked.index("[", at)) if self.blanked[at] == "#" else at + 1
        found = ITEM.match(self.blanked, at)
        kind = found and found.group(2) or ""
        if kind in ("use", "ghost", "const", "type", "static"):
            return end_of_line_item(self.blanked, at)
        place = found.end() if found else at
        while place < end and self.blanked[place] not in "{;":
            place = closing(self.blanked, place) if self.blanked[place] in OPEN else place + 1
        if kind.endswith("fn"):
            clauses = list(self.clauses(found.end(), end))
            place = clauses[-1][3] if clauses else place
            while place < end and self.blanked[place] not in "{;":
                place += 1
        if place >= end or self.blanked[place] == ";":
            return place + 1
        return closing(self.blanked, place)

    def clauses(self, at, end):
        """The clauses of a function: keyword, name, text, the place after it, and the comment above it."""
        head = re.compile(r"\b(?:requires|ensures)\*?\s*\w*\s*\{|[{;]").search(self.blanked, at, end)
        at = head.start() if head else end
        found = CLAUSE.match(self.blanked, at)
        while found:
            after = closing(self.blanked, found.end() - 1)
            yield found.group(1), found.group(2) or "", self.text_of(found.end(), after - 1), after, self.comment_above(found.start(1))
            at = after
            found = CLAUSE.match(self.blanked, at)

    def comment_above(self, at):
        """The comment whose lines end above this place, as one line."""
        lines, end = [], self.text.rfind("\n", 0, at)
        while end > 0:
            start = self.text.rfind("\n", 0, end) + 1
            line = self.text[start:end].strip()
            if not line.startswith("//") or line.startswith("///"):
                break
            lines.insert(0, line[2:].strip())
            end = start - 1
        return " ".join(lines)

    def text_of(self, start, end):
        """The text without comments."""
        return " ".join(re.sub(r"//[^\n]*", "", self.text[start:end]).split())

    def item(self, found, after, doc, scope, owner, generics):
        kind, is_pub = found.group(2).split()[-1], (found.group(1) or "").strip() == "pub"
        head = self.blanked[found.end() : after]
        if kind == "fn":
            return self.function(found, after, scope, owner, generics, is_pub)
        if kind in ("struct", "enum"):
            return self.type_item(kind, found, after, doc)
        if kind == "trait":
            return self.trait(found, after, doc, scope)
        if kind == "impl":
            return self.impl(found, after, scope)
        if kind == "mod" and "{" in head:
            start = self.blanked.index("{", found.end()) + 1
            return self.items(start, after - 1, {**scope, **self.ghost_uses(start, after - 1)}, None, "")
        if kind == "const" and owner is None:
            name = re.match(r"\s*(\w+)", head).group(1)
            value = self.text[found.end() : after - 1].partition("=")[2].strip()
            self.crate.consts.setdefault(name, Const(self.crate.name, name, doc, value))
        return self.ghost_member(found, after, doc, scope, owner) if kind == "ghost" and owner else None

    def keep_source(self, found, text):
        """Keeps how a type or a limit of this crate stands in its file."""
        name = re.match(r"\s*(\w+)", self.blanked[found.end() :])
        kept = {"struct": self.crate.types, "enum": self.crate.types, "trait": self.crate.types, "const": self.crate.consts}
        it = kept.get(found.group(2), {}).get(name and name.group(1))
        if it and not it.source:
            it.source = text

    def ghost_member(self, found, after, doc, scope, owner):
        text = " ".join(self.text_of(found.end(), after - 1).split())
        member = re.match(r"(\w+)\s*([=:])\s*\{(.*)\}$", text)
        if not member:
            return
        name, sign, said = member.groups()
        if sign == ":":
            owner.parts.append((name, said.strip(), doc))
        if sign == ":" or name != "view":
            owner.said.append((said, scope))
        if name == "Value":
            owner.seen = said.strip()
            owner.scope = {**owner.scope, **scope}

    def function(self, found, after, scope, owner, generics, is_pub):
        name = re.match(r"\s*(\w+)", self.blanked[found.end() : after]).group(1)
        clauses = list(self.clauses(found.end(), after))
        end = re.compile(r"\b(?:requires|ensures)\b|[{;]").search(self.blanked, found.end()).start()
        signature = generics + self.blanked[found.end() : end]
        call = Call(self.crate.name, owner.name if owner else "", name, signature, [it[:3] for it in clauses], {**self.rust, **scope})
        call.comments = {it[1]: it[4] for it in clauses}
        call.is_public = is_pub or bool(owner and (owner.kind == "trait" or generics.startswith("impl for ")))
        self.crate.calls.append(call)

    def type_item(self, kind, found, after, doc):
        name = re.match(r"\s*(\w+)", self.blanked[found.end() : after]).group(1)
        made = Type(self.crate.name, name, kind, doc, [], "", dict(self.rust))
        bracket = re.compile(r"[{(;]").search(self.blanked, found.end())
        if bracket.group() != ";":
            made.parts = list(self.fields(bracket.end(), closing(self.blanked, bracket.start()) - 1, bracket.group() == "{"))
        known = self.crate.types.get(name)
        if known:
            # An impl was read before the type.
            made.said, made.seen, made.scope = known.said, known.seen, {**known.scope, **made.scope}
        self.crate.types[name] = made

    def fields(self, at, end, is_named):
        """The public fields of a struct, or the variants of an enum: name, spelling and doc."""
        start = at
        while at <= end:
            if at == end or self.blanked[at] == ",":
                part = re.sub(r"#\[[^\]]*\]", "", self.blanked[start:at]).strip()
                if part:
                    part = " ".join(part.split()).replace("{ ", "{ ").replace(", }", " }")
                    is_private = is_named and ":" in part.split("{")[0] and not part.startswith("pub ")
                    if not is_private and is_named:
                        part = re.sub(r"^pub ", "", part)
                        yield re.match(r"\w+", part).group(), part, self.doc(start, at)
                start = at + 1
                at += 1
            else:
                at = closing(self.blanked, at) if self.blanked[at] in "{(" else at + 1

    def trait(self, found, after, doc, scope):
        name = re.match(r"\s*(\w+)", self.blanked[found.end() : after]).group(1)
        start = re.compile(r"\{").search(self.blanked, found.end()).end()
        inner = {**scope, **self.ghost_uses(start, after - 1)}
        made = Type(self.crate.name, name, "trait", doc, [], "", {**self.rust, **inner})
        self.crate.types[name] = made
        self.items(start, after - 1, inner, made, self.blanked[found.end() : start - 1])

    def impl(self, found, after, scope):
        start = self.blanked.index("{", found.end()) + 1
        head = " ".join(self.blanked[found.end() : start - 1].split())
        generics = ""
        if head.startswith("<"):
            depth = 0
            for place, sign in enumerate(head):
                depth += (sign == "<") - (sign == ">" and head[place - 1] != "-")
                if depth == 0:
                    generics, head = head[: place + 1], head[place + 1 :].strip()
                    break
        trait, is_for, of = head.rpartition(" for ")
        named = re.match(r"(?:&(?:'\w+ )?(?:mut )?)?([\w:]+)", of.strip())
        if not named:
            return
        name = named.group(1).split("::")[-1]
        owner = self.crate.types.setdefault(name, Type(self.crate.name, name, "other", "", [], "", dict(self.rust)))
        inner = {**scope, **self.ghost_uses(start, after - 1)}
        self.items(start, after - 1, inner, owner, ("impl for " if is_for else "") + generics)


def rust_names(crate, path, braces):
    """What a `use` of Rust brings in, by its name here: the crate and the name there."""
    places = path.split("::")
    if braces is None:
        places, braces = places[:-1], places[-1]
    root = crate if not places or places[0] in ("crate", "self", "super") else places[0]
    for there, here in names_in(" ".join(re.sub(r"[{}]", ",", braces).split())):
        yield here.split("::")[-1], (f"rust.{root}", there.split("::")[-1])


def read_sources(crate):
    files = sorted((crate.folder / "src").rglob("*.rt"))
    tests = set(re.findall(r"#\[cfg\(test\)\]\s*mod (\w+);", "\n".join(it.read_text() for it in files)))
    for path in files:
        if path.stem not in tests:
            File(crate, path).read()
    for name, made in list(crate.types.items()):
        if made.kind == "other":
            del crate.types[name]
