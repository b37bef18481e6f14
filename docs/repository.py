"""Follows the names of the repository: what each word, type, limit and clause cites, and all that a clause rests on."""
import re

from reading import NAME, TOP, Crate, Type, Unread, Word, bound_in, cited_in, members_in, parts_of, resolve_spec, tokens_of
from sources import read_sources

# What the language of definitions has without a `use`. Its place is the empty text.
BUILT_IN = {"→", "×", "¬", "⊥", "λ", "Unit", "tt", "Type"}
# The toolchain's words by which a definition tells cases apart. What else stands left of an equation's sign is bound there.
CASES = {"zero", "suc", "true", "false", "pos", "negsuc", "tt", "Some", "None", "Ok", "Err"}


class Repository:
    """All crates, lowest first, and what each of their words, types, limits and clauses cites."""

    def __init__(self):
        below = {}
        for line in (TOP / "crates.txt").read_text().splitlines():
            head, _, names = line.partition("#")[0].partition(":")
            if head.strip():
                below[head.split()[0]] = names.split()
        self.crates = {}
        for name in below:
            self.add(name, below)
        for crate in self.crates.values():
            crate.read()
            read_sources(crate)
        self.of_std, self.known = {}, {}
        self.mark_public()

    def add(self, name, below):
        """Adds a crate after those that it stands on."""
        if name in below and name not in self.crates:
            for other in below[name]:
                self.add(other, below)
            self.crates[name] = Crate(name, [it for it in below[name] if it in below])

    def mark_public(self):
        """Marks what a crate gives, and shortens the title of each."""
        for crate in self.crates.values():
            given = set(crate.exports) | {there[1] for there in crate.exports.values() if there}
            for it in [*crate.types.values(), *crate.consts.values()]:
                it.is_public = it.name in given
            for call in crate.calls:
                owner = crate.types.get(call.owner)
                call.is_public = (call.is_public and owner.is_public) if owner else not call.owner and call.name in given
            crate.title = re.split(r"[:.](?:\s|$)", crate.title)[0] or crate.name

    def call(self, crate, name):
        """A call of a crate that belongs to no type."""
        found = [it for it in self.crates[crate].calls if it.name == name and not it.owner]
        if not found:
            raise Unread(f"{crate} has no {name}")
        return found[0]

    def of_rust(self, crate, name):
        """The type, trait or limit of this name that a crate has or gives again."""
        if crate not in self.crates:
            return None
        it = self.crates[crate]
        if name in it.types or name in it.consts:
            return it.types.get(name) or it.consts.get(name)
        path, there = it.exports.get(name) or ("", "")
        return self.of_rust(path.split("::")[0], there) if path else None

    def resolve(self, crate, scope, name):
        """What a name of a clause or a field stands for."""
        if name not in scope:
            return self.of_rust(crate, name)
        path, there = scope[name]
        if there is None:
            return None
        if path.startswith("rust."):
            return self.of_rust(path[len("rust.") :], there)
        return resolve_spec(self.crates, path, there)

    def in_clause(self, crate, text, scope, signature=""):
        """What a clause, or what a type says, cites."""
        bound, found = bound_in(text), []
        for name in cited_in(text):
            if name in bound:
                continue
            bounds = re.findall(rf"\b{re.escape(name)}\s*:\s*([\w:]+)", signature) if len(name) == 1 else []
            for it in [*(it.split("::")[-1] for it in bounds), name]:
                found.append(self.resolve(crate, scope, it))
        return [it for it in dict.fromkeys(found) if it]

    def is_of_std(self, path, there):
        """Whether a name that is brought in is a word of the toolchain. What its proofs have is none."""
        return bool(there) and not path.startswith("rust.") and path.split(".")[1] not in self.crates and ".proofs." not in path

    def std_in_text(self, text, scope, bound=frozenset()):
        """The toolchain's words and signs in a text, each with its place."""
        names, tokens = set(cited_in(text)) - bound, tokens_of(text)
        for here, (path, there) in scope.items():
            is_cited = here in names if re.fullmatch(NAME, here) else all(part in tokens for part in here.split("◌") if part)
            if is_cited and self.is_of_std(path, there):
                yield path, there
        yield from (("", token) for token in BUILT_IN & tokens)

    def std_of_clauses(self, call, keep=lambda name: True):
        """The toolchain's words that the clauses of a call themselves have, each with its place."""
        return {it for _, name, text in call.clauses if keep(name) for it in self.std_in_text(text, call.scope, bound_in(text))}

    def in_word(self, word):
        """What a word cites of the repository. What it cites of the toolchain is kept in `of_std`."""
        found, own, std = [], {}, self.of_std.setdefault(word, set())
        for it in self.crates[word.crate].words[word.module]:
            own.update({name: it for name in it.names})
        for text, bound, left in parts_of(word):
            std.update(self.std_in_text(text, word.scope, bound | left - CASES))
            for name in cited_in(text):
                if name in own:
                    target, is_form = own[name], name != own[name].name
                elif name in word.scope:
                    path, there = word.scope[name]
                    if there is None:
                        found += [resolve_spec(self.crates, path, it) for it in members_in(text, name)]
                        continue
                    target = resolve_spec(self.crates, path, there)
                    is_form = path.endswith("TheVariants") or isinstance(target, Word) and there != target.name
                else:
                    continue
                if name not in bound and (is_form or name not in left):
                    found.append(target)
        return [it for it in found if it]

    def cites(self, it):
        """What a word, a type or a limit cites of the repository."""
        if it not in self.known:
            self.known[it] = []
            if isinstance(it, Word):
                found = self.in_word(it)
            elif isinstance(it, Type):
                texts = [it.seen] if it.seen else [part[1] for part in it.parts]
                found = [other for text in texts for other in self.in_type(it, text)]
            else:
                found = []
            self.known[it] = [other for other in dict.fromkeys(found) if other is not it]
        return self.known[it]

    def in_type(self, it, text):
        """What a field or the meaning of a type names."""
        names = [name for name in re.findall(NAME, text) if name not in ("Self", it.name)]
        return [found for found in (self.resolve(it.crate, it.scope, name) for name in names) if found]

    def closure(self, roots):
        """All that is cited, from these on."""
        found, left = {}, list(roots)
        while left:
            it = left.pop()
            if it not in found:
                found[it] = None
                left += self.cites(it)
        return found

    def std_of(self, found):
        """The toolchain's words that a closure has, each with its place."""
        return {it for word in found for it in self.of_std.get(word, ())}

    def renamed(self, words):
        """The names that have another one where they come from: each with that, and the type or crate that has it."""
        for word in words:
            tokens = tokens_of(word.text())
            for here, (path, there) in word.scope.items():
                if there not in (None, here) and here in tokens:
                    yield here, there, owner_of(path)
                elif there is None and members_in(word.text(), here):
                    yield f"{here}.", "", owner_of(path)

    def in_call(self, call, keep=lambda name: True):
        """What the clauses of a call cite."""
        return [
            it
            for _, name, text in call.clauses
            if keep(name)
            for it in self.in_clause(call.crate, text, call.scope, call.signature)
        ]

    def public_roots(self, crate):
        """What a crate gives: its public types and limits, and what the clauses and the types of its public calls cite."""
        found = [it for it in [*crate.types.values(), *crate.consts.values()] if it.is_public]
        for it in list(found):
            for text, scope in it.said if isinstance(it, Type) else []:
                found += self.in_clause(crate.name, text, {**it.scope, **scope})
        for call in crate.calls:
            if call.is_public:
                found += self.in_call(call)
                found += [it for it in self.in_clause(crate.name, call.signature, call.scope) if isinstance(it, Type)]
        return found

    def public_std(self):
        """The toolchain's words that the public clauses of all crates rest on, each with its place."""
        found = self.std_of(self.closure([it for crate in self.crates.values() for it in self.public_roots(crate)]))
        for crate in self.crates.values():
            for call in crate.calls:
                found |= self.std_of_clauses(call) if call.is_public else set()
        return found

    def private_roots(self, crate):
        """What the contracts of a crate cite, the private ones too."""
        return [it for it in (resolve_spec(self.crates, *use) for use in crate.ghost_uses if use[1]) if it]

    def modules(self, crate):
        """The modules of a crate, each after those that it names."""
        done, begun = [], set()

        def add(module):
            if module not in begun and module in crate.modules:
                begun.add(module)
                for path, _ in crate.uses[module].values():
                    parts = path.split(".")
                    if parts[:3] == ["Rattle", crate.name, "specs"] and len(parts) > 3:
                        add(parts[3])
                done.append(module)

        for module in crate.modules:
            add(module)
        return done


def owner_of(path):
    """The type whose variants, or else the crate whose names, a path has."""
    places = path.split(".")
    return places[-2] if places[-1].startswith("The") else places[1]
