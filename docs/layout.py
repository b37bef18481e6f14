"""Says where each definition is read: in a chapter, where several claims rest on it, or on the page of the one claim that does.

A claim is a clause of the program's top call. The table of chapters is all that is known here by name: a crate or a clause that comes
later finds its place by itself.
"""
from dataclasses import dataclass, field

from reading import Const, Type, Word

# The call whose clauses are the claims, and those of them that speak of every command: they are read last, and make no chapter.
CALL = ("renju_cli", "run_renju")
LAST = ["report", "complete"]
# Each chapter in the order in which they are read: its file, its title, what it is about, and the rooms of its words: crates, or
# modules of them, which stand before the rest of their crate.
CHAPTERS = (
    (
        "rules",
        "The rules of play",
        "Boards, five points, fours, threes, fouls, outcomes of moves, and what it is to win.",
        ("game_rules", "stone_board", "row_shapes", "foul_judge"),
    ),
    (
        "tables",
        "Tables, and what accepted means",
        "Tables of moves and replies; when a node is accepted, how deep it is, how many arrivals it has; games against it.",
        ("strategy_graph",),
    ),
    (
        "texts",
        "Texts",
        "How positions, tables, games and books are spelled, byte by byte.",
        ("text_lines", "position_files", "table_book.Books"),
    ),
    (
        "run",
        "Devices and a run",
        "What input, output and files tell, the words of a command, the statuses, and the record of a run of which each claim speaks.",
        ("renju_io", "command_base.Statuses", "command_base.Forms", "command_base.Runs"),
    ),
    (
        "fours",
        "The search of wins by fours, and its tables",
        "Which positions the search of a win by continuous fours has, how they are counted, and the table that its plan becomes.",
        ("threat_moves.FourMoves", "threat_moves.Blocks", "four_search", "strategy_compiler"),
    ),
    (
        "threats",
        "Threats, and sequences of them",
        "Fours and threes as threats with their costs, and the first sequence of them.",
        ("threat_moves", "threat_space", "line_proof", "threat_game", "proof_tree", "proof_number"),
    ),
    (
        "protocol",
        "The protocol",
        "The lines that a game manager sends, what command each of them is, and how answers are spelled.",
        ("gomocup_text",),
    ),
    (
        "brain",
        "The brain",
        "What a brain knows, the move that it chooses, its step at each command, and a session of it.",
        ("strategy_checker", "table_book", "brain_session"),
    ),
    (
        "game_referee",
        "A referee of whole games",
        "The verdict on a game, a game beside a table, and the line of a verdict.",
        ("game_referee",),
    ),
    (
        "commands",
        "What several commands say",
        "What a command has in common with another: a file that is loaded and held, a position that is read, a search that is told.",
        (
            "reply_cover",
            "command_base",
            "file_loading",
            "table_commands",
            "cover_command",
            "join_command",
            "position_commands",
            "solve_command",
            "quiet_command",
            "brain_commands",
            "renju_cli",
        ),
    ),
)


@dataclass(eq=False)
class Place:
    """A page or a chapter: the name of its file, and what is read there, a definition after those that it cites."""

    name: str
    title: str
    about: str
    found: dict = field(default_factory=dict)


@dataclass(eq=False)
class Chapter(Place):
    """A chapter: the crates, or modules of crates, whose words it has where several claims rest on them."""

    rooms: tuple = ()


@dataclass(eq=False)
class Claim(Place):
    """A claim: its clause, and in `rests` all that it rests on, its own page and the chapters together."""

    clause: str = ""
    rests: dict = field(default_factory=dict)
    std: set = field(default_factory=set)


def run_of(call):
    """What the clauses of a call are said of: what stands in brackets after the first word of its first one."""
    return call.clauses[0][2].partition(" ")[2][1:-1]


def claims_of(repository, call):
    """The claims in the order of the clauses, those that speak of every command at the end."""
    found, run = [], run_of(call)
    for keyword, name, text in call.clauses:
        claim = Claim(name, f"`{name}`", call.comments.get(name, ""), clause=f"{keyword} {name} {{ {text.replace(f'({run})', 'run')} }}")
        claim.rests = repository.closure(repository.in_call(call, lambda it: it == name))
        claim.std = repository.std_of_clauses(call, lambda it: it == name)
        found.append(claim)
    return sorted(found, key=lambda it: LAST.index(it.name) if it.name in LAST else -1)


class Layout:
    """The claims and the chapters, each with what is read there."""

    def __init__(self, repository):
        self.repository = repository
        self.call = repository.call(*CALL)
        self.claims, self.run = claims_of(repository, self.call), run_of(self.call)
        self.chapters, self.home = [Chapter(*it[:3], rooms=it[3]) for it in CHAPTERS], {}
        shared = self.place_alone()
        self.place_words([it for it in shared if isinstance(it, Word)])
        self.chapters = [it for it in self.in_order() if it.found]
        self.place_types([it for it in shared if isinstance(it, (Type, Const))])
        self.sort()

    def sort(self):
        """Has what is read at each place stand in reading order: crate by crate, each module after those that it names."""
        crates = self.repository.crates.values()
        items = [it for crate in crates for it in [*crate.types.values(), *crate.consts.values()]]
        words = [it for crate in crates for module in self.repository.modules(crate) for it in crate.words[module]]
        order = {it: number for number, it in enumerate([*items, *words])}
        for place in [*self.chapters, *self.claims]:
            place.found = dict.fromkeys(sorted(place.found, key=order.get))

    def put(self, it, place):
        """Has a definition read at a place."""
        self.home[it] = place
        place.found[it] = None

    def place_alone(self):
        """Has what one claim alone rests on read on its page, and answers the rest. Claims that speak of every command count only
        where no other has it."""
        shared = []
        for it in dict.fromkeys(it for claim in self.claims for it in claim.rests):
            having = [claim for claim in self.claims if it in claim.rests]
            having = [claim for claim in having if claim.name not in LAST] or having[:1]
            if len(having) == 1:
                self.put(it, having[0])
            else:
                shared.append(it)
        return shared

    def chapter_of(self, crate, module):
        """The chapter of a module of a crate. A crate that is in none has one of its own."""
        for room in (f"{crate}.{module}", crate):
            for chapter in self.chapters:
                if room in chapter.rooms:
                    return chapter
        made = Chapter(crate, self.repository.crates[crate].title, "", rooms=(crate,))
        self.chapters.append(made)
        return made

    def place_words(self, words):
        """Has each of these words read in the chapter of its module."""
        for word in words:
            self.put(word, self.chapter_of(word.crate, word.module))

    def place_types(self, shared):
        """Has each of these types and limits read in the chapter of its crate, or in an earlier one that needs it."""
        of_crate = {it: self.chapter_of(it.crate, "") for it in shared}
        for chapter in self.chapters:
            left = list(chapter.found)
            for it in shared:
                if of_crate[it] is chapter and it not in self.home:
                    self.put(it, chapter)
                    left.append(it)
            while left:
                for it in self.repository.cites(left.pop()):
                    if it in of_crate and it not in self.home:
                        self.put(it, chapter)
                        left.append(it)

    def stands_on(self, chapter):
        """The other chapters that a chapter cites."""
        cited = {self.home.get(it) for word in chapter.found for it in self.repository.cites(word)}
        return {it for it in cited if isinstance(it, Chapter)} - {chapter}

    def in_order(self):
        """The chapters, each after those that it cites: the first of the table that can come, again and again."""
        left, done = list(self.chapters), []
        while left:
            ready = [it for it in left if self.stands_on(it) <= set(done)]
            done.append((ready or left)[0])
            left.remove(done[-1])
        return done

    def read_before(self, claim):
        """The chapters, and the pages of other claims, of which a claim needs something, in reading order."""
        needed = {self.home[it] for it in claim.rests} - {claim}
        return [it for it in [*self.chapters, *self.claims] if it in needed]
