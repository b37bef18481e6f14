"""Positions, tables and books as texts, for the scripts beside this file: read strictly, with what is wrong in words, and written.

A point is a column and a row, both from 0, so that 0,0 is the upper left corner. Players write h8 for 7,7 on a board of 15: the
column as a letter, and the row counted from below. docs/FORMATS.md has the texts.
"""
import errno
import os
import re
import subprocess
import sys
from dataclasses import dataclass, field
from pathlib import Path

TOP = Path(__file__).resolve().parent.parent
# The launcher, which builds the program where it has to be, or another program with the same words that the environment names.
PROGRAM = os.path.abspath(os.environ.get("RENJU") or TOP / "renju")
LAUNCHER, BUILT, NOT_BUILT = str(TOP / "renju"), str(TOP / "crates" / "renju" / "out" / "renju"), 70
RULES = ("freestyle", "exact", "renju")
SIDES = ("black", "white")
LEAST, MOST = 5, 32
MOST_NODES = 1_000_000
MOST_ENTRIES = 1_000
WAYS = ((1, 0), (0, 1), (1, 1), (1, -1))


class Wrong(Exception):
    """What is wrong with a text, a word or a move, in words."""


def is_before(p, q):
    """Whether a point comes before another in reading order: row by row, and from left to right."""
    return (p[1], p[0]) < (q[1], q[0])


def spelled(point):
    return f"{point[0]},{point[1]}"


def letters(column):
    return chr(97 + column) if column < 26 else "a" + chr(97 + column - 26)


def named(point, height):
    """The name that players give a point: h8."""
    return f"{letters(point[0])}{height - point[1]}"


def point_named(name, height):
    """The point of a name as h8, or None where it is no name."""
    found = re.fullmatch(r"(a?[a-z])([1-9]\d?)", name.lower())
    if not found:
        return None
    column = found.group(1)
    return (ord(column[-1]) - 97 + 26 * (len(column) - 1), height - int(found.group(2)))


@dataclass
class Position:
    """A rule, a board's size, and the stones of both sides."""

    rule: str
    width: int
    height: int
    black: list = field(default_factory=list)
    white: list = field(default_factory=list)

    def side(self):
        """The side to move."""
        return "black" if len(self.black) == len(self.white) else "white"

    def to_move(self):
        """Who is to move, and why."""
        counted = lambda side: f"{len(getattr(self, side))} {side} stone{'' if len(getattr(self, side)) == 1 else 's'}"
        return f"{self.side().capitalize()} is to move: {counted('black')}, {counted('white')}"

    def stones(self):
        return {**{point: "black" for point in self.black}, **{point: "white" for point in self.white}}

    def has(self, point):
        return 0 <= point[0] < self.width and 0 <= point[1] < self.height

    def size(self):
        return f"{self.width}" if self.width == self.height else f"{self.width},{self.height}"

    def after(self, point):
        """The position once the side to move has played there."""
        if not self.has(point):
            raise Wrong(f"{spelled(point)} is off {self.board()}")
        if point in self.stones():
            raise Wrong(f"a stone stands on {spelled(point)} ({named(point, self.height)}) already")
        sides = {side: [*getattr(self, side), *([point] if side == self.side() else [])] for side in SIDES}
        return Position(self.rule, self.width, self.height, **sides)

    def board(self):
        return f"a board of {self.width} by {self.height}, whose last point is {self.width - 1},{self.height - 1}"

    def text(self, head="renju-position 1"):
        """The one spelling of the position."""
        stones = [" ".join([side, *(spelled(p) for p in sorted(getattr(self, side), key=lambda p: p[::-1]))]) for side in SIDES]
        return "".join(f"{line}\n" for line in [head, f"rule {self.rule}", f"size {self.size()}", *stones])

    def won_at(self):
        """The first stone of a run that wins, and its side, or None."""
        stones = self.stones()
        for point in sorted(stones, key=lambda p: p[::-1]):
            if any(self.wins(stones, point, way) for way in WAYS):
                return point, stones[point]
        return None

    def wins(self, stones, point, way):
        """Whether the run through a stone in a way wins."""
        side, run = stones[point], len(run_through(stones, point, way))
        exactly = self.rule == "exact" or self.rule == "renju" and side == "black"
        return run == 5 if exactly else run >= 5

    def empties(self):
        """The empty points, in reading order."""
        stones = self.stones()
        return [(x, y) for y in range(self.height) for x in range(self.width) if (x, y) not in stones]

    def fives(self, side):
        """The empty points where a stone of the side makes a run that wins."""
        stones = self.stones()
        return [it for it in self.empties() if any(self.wins({**stones, it: side}, it, way) for way in WAYS)]

    def lawful(self):
        """The position itself, where someone is to move in it."""
        black, white = len(self.black), len(self.white)
        if black - white not in (0, 1):
            raise Wrong(f"Black has {black} stones and White {white}: Black has as many as White, or one more")
        won = self.won_at()
        if won:
            raise Wrong(f"{won[1].capitalize()} has won already, with a row that begins at {spelled(won[0])}")
        if black + white == self.width * self.height:
            raise Wrong("the board is full, and nobody can move")
        return self

    def fouls(self):
        """The fouls of Black, who is to move under renju, as the program tells them: by the point, the kind."""
        if self.rule != "renju" or self.side() != "black":
            return {}
        told = asked(["foul"], self.text())
        return {numbers(line.split()[1]): line.split()[2] for line in told.splitlines()[1:]}

    def drawn(self, crosses=(), last=None):
        """The board in lines of text, with the names of its columns and rows. The last move stands in brackets."""
        stones, signs = self.stones(), {"black": "X", "white": "O"}
        names = "   " + "".join(f"{letters(x):>2}" for x in range(self.width))
        yield names
        for y in range(self.height):
            between = (self.width + 1) * [" "]
            if last and last[1] == y:
                between[last[0] : last[0] + 2] = "()"
            row = [signs.get(stones.get((x, y)), "x" if (x, y) in crosses else ".") for x in range(self.width)]
            yield f"{self.height - y:>3}{''.join(map(''.join, zip(between, row)))}{between[-1]}{self.height - y}"
        yield names


def run_through(stones, point, way):
    """The unbroken row of one side's stones through a stone in a way, in order."""
    side, run = stones[point], [point]
    for sign in (1, -1):
        x, y = point
        while stones.get((x + sign * way[0], y + sign * way[1])) == side:
            x, y = x + sign * way[0], y + sign * way[1]
            run.append((x, y))
    return sorted(run, key=lambda p: (p[0] * way[0], p[1] * way[1]))


@dataclass
class Node:
    """A node of a table: its attack (none at a start), the node that answers the rest, and the listed replies with their nodes."""

    attack: object
    wins: bool
    rest: object
    replies: list

    def named(self):
        """The nodes that it names: those of the listed replies, and then that of the rest."""
        return [*(place for _, place in self.replies), *([self.rest] if self.rest is not None else [])]

    def answer(self, reply):
        """The node that answers a reply which goes on, or None."""
        return next((place for it, place in self.replies if it == reply), self.rest)

    def renumbered(self, numbers):
        """The same node where the nodes that it names have other numbers."""
        rest = None if self.rest is None else numbers[self.rest]
        return Node(self.attack, self.wins, rest, [(reply, numbers[place]) for reply, place in self.replies])

    def text(self):
        """Its line, or that of a start."""
        kind = "wins" if self.wins else "only" if self.rest is None else f"rest {self.rest}"
        return " ".join([spelled(self.attack) if self.attack else "start", kind, *(f"{spelled(p)}>{place}" for p, place in self.replies)])


@dataclass
class Table:
    """A position, the number of moves, the nodes, and a start where the opponent moves first."""

    position: Position
    moves: int
    nodes: list
    start: object = None

    def root(self):
        return self.start or self.nodes[-1]

    def attacker(self):
        """The side that plays by the table."""
        return self.position.side() if not self.start else other(self.position.side())

    def words(self):
        """Who wins in how many moves, under which rule, and who is to move where it is the other side."""
        first = f"{self.position.side().capitalize()} is to move. " if self.start else ""
        return f"{first}{self.attacker().capitalize()} wins in {counted(self.moves)} under {self.position.rule}"

    def text(self):
        """The one spelling of the table."""
        head = self.position.text(f"renju-table {2 if self.start else 1}")
        nodes = [node.text() for node in [*self.nodes, *([self.start] if self.start else [])]]
        return head + "".join(f"{line}\n" for line in [f"moves {self.moves}", f"nodes {len(self.nodes)}", *nodes])

    def depths(self):
        """The most moves of the attacker from each node on."""
        found = []
        for node in self.nodes:
            found.append(1 + max((found[place] for place in node.named()), default=0))
        return found

    def longest_line(self):
        """Moves of a game against the table in which each reply leads to a node of the greatest depth."""
        depths, position, node, line = self.depths(), self.position, self.root(), []
        while True:
            if node.attack:
                line.append(node.attack)
                position = position.after(node.attack)
            places = node.named()
            if not places:
                return line
            place = max(places, key=lambda it: depths[it])
            listed = [reply for reply, name in node.replies if name == place]
            reply = listed[0] if listed else unlisted(position, node)
            if not reply:
                return line
            line.append(reply)
            position, node = position.after(reply), self.nodes[place]


@dataclass
class Book:
    """Nodes, and entries: of each its position, its number of moves, and its root, which is a node's number or a start."""

    nodes: list
    entries: list

    def entry(self, number):
        if not 1 <= number <= len(self.entries):
            raise Wrong(f"the book has the entries 1 to {len(self.entries)}, and not {number}")
        return self.entries[number - 1]

    def of(self, numbers):
        """The book of some entries, counted from 1, with the nodes that their roots reach."""
        entries, roots = [self.entry(number) for number in numbers], []
        for _, _, root in entries:
            roots += root.named() if isinstance(root, Node) else [root]
        nodes, new = reached(self.nodes, roots)
        moved = lambda root: root.renumbered(new) if isinstance(root, Node) else new[root]
        return Book(nodes, [(position, moves, moved(root)) for position, moves, root in entries])

    def table(self, number):
        """The table of an entry, which is counted from 1."""
        book = self.of([number])
        position, moves, root = book.entries[0]
        start = root if isinstance(root, Node) else None
        for node in [*book.nodes, *([start] if start else [])]:
            for point in [*([node.attack] if node.attack else []), *(reply for reply, _ in node.replies)]:
                if not position.has(point):
                    raise Wrong(f"entry {number}: {spelled(point)} is off {position.board()}")
        return Table(position, moves, book.nodes, start)

    def text(self):
        """The one spelling of the book."""
        lines = ["renju-book 1", f"nodes {len(self.nodes)}", *(node.text() for node in self.nodes), f"entries {len(self.entries)}"]
        for position, moves, root in self.entries:
            lines += [*position.text().splitlines()[1:], f"moves {moves}", root.text() if isinstance(root, Node) else f"root {root}"]
        return "".join(f"{line}\n" for line in lines)

    def tables(self):
        return [self.table(number) for number in range(1, len(self.entries) + 1)]


def reached(nodes, roots):
    """The nodes that some of them reach, in their order, with new numbers, and by the old number the new one."""
    found, left = set(), [*roots]
    while left:
        place = left.pop()
        if place not in found:
            found.add(place)
            left += nodes[place].named()
    new = {place: number for number, place in enumerate(sorted(found))}
    return [nodes[place].renumbered(new) for place in sorted(found)], new


def other(side):
    return SIDES[1 - SIDES.index(side)]


def counted(count, what="move"):
    """So many of something, in words."""
    return f"{count:,} {what}{'' if count == 1 else 's'}"


def unlisted(position, node):
    """The empty point next to the attack that the node doesn't list and that is no foul."""
    taken = {reply for reply, _ in node.replies} | set(position.stones()) | set(position.fouls())
    x, y = node.attack or (0, 0)
    free = [(a, b) for b in range(position.height) for a in range(position.width) if (a, b) not in taken]
    return min(free, key=lambda p: max(abs(p[0] - x), abs(p[1] - y)), default=None)


def game_text(position, moves):
    """The game text of moves that are played from a position."""
    return position.text("renju-game 1") + " ".join(["moves", *map(spelled, moves)]) + "\n"


# The runs of the program that have not ended yet, whether no other may begin, and whether the launcher has run the program: it then is
# asked itself, which starts in a tenth of the time.
RUNNING, ENDING, LAUNCHED = set(), [], []


def answered(words, text, memory=None):
    """What the program prints of a text, and its status. With `memory` it takes no more bytes than that."""
    if ENDING:
        raise Wrong("interrupted")
    limit = ["sh", "-c", 'ulimit -v "$0"; exec "$@"', str(memory // 1024)] if memory else []
    try:
        run = subprocess.Popen([*limit, BUILT if LAUNCHED else PROGRAM, *map(str, words)], stdin=subprocess.PIPE, stdout=subprocess.PIPE)
    except OSError as error:
        raise Wrong(f"{PROGRAM} cannot be started: {error.strerror}")
    RUNNING.add(run)
    # Where all runs were ended before this one was among them.
    if ENDING:
        run.kill()
    try:
        told, _ = run.communicate(text if isinstance(text, bytes) else text.encode())
    finally:
        RUNNING.discard(run)
    if PROGRAM == LAUNCHER and 0 <= run.returncode != NOT_BUILT:
        LAUNCHED.append(True)
    return told.decode(), run.returncode


def end_runs():
    """Ends all runs of the program, and lets none begin."""
    ENDING.append(True)
    for run in list(RUNNING):
        run.kill()


def asked(words, text):
    """What the program prints of a text, which it has to answer with status 0."""
    told, status = answered(words, text)
    if status != 0:
        raise Wrong(f"renju {' '.join(map(str, words))} ended with status {status}: {told.strip() or 'it printed nothing'}")
    return told


def numbers(word):
    return tuple(int(each) for each in word.split(","))


class Lines:
    """The lines of a text, one after the other."""

    def __init__(self, data):
        text = data.decode("utf-8", "surrogateescape")
        *self.lines, self.last = text.split("\n")
        self.number = 0

    def wrong(self, words):
        raise Wrong(f"line {self.number}: {words}")

    def take(self, what, read):
        """What a reader makes of the next line."""
        self.number += 1
        if self.number > len(self.lines) and not self.last:
            self.wrong("the text is empty" if self.number == 1 else f"it is missing; here stands {what}")
        is_ended = self.number <= len(self.lines)
        line = self.lines[self.number - 1] if is_ended else self.last
        try:
            found = read(line)
        except Wrong as error:
            self.wrong(blamed(line) or error)
        if not is_ended:
            self.wrong("no line feed ends it")
        return found

    def end(self):
        self.number += 1
        if self.number <= len(self.lines) or self.last:
            self.wrong("nothing may stand after the last line")


def blamed(line):
    """A common slip of a line that isn't read, in words, or nothing."""
    slips = [
        (line.startswith("\ufeff"), "a byte order mark stands before the text"),
        (line.startswith("\ufffe") or "\x00" in line, "the text isn't one byte a letter"),
        ("\r" in line, "a carriage return stands in it; a line feed alone ends a line"),
        ("\t" in line, "a tab stands in it; one space separates words"),
        (not line, "it is empty"),
        (line.endswith(" "), "a space stands at its end"),
        (line.startswith(" "), "a space stands at its beginning"),
        ("  " in line, "two spaces stand together in it; one separates words"),
        (not line.isascii(), "it has a letter that isn't ASCII"),
    ]
    return next((words for holds, words in slips if holds), None)


DECIMAL = re.compile(r"0|[1-9][0-9]*")
# The points of words that were read, by the word and the size of the board: a long table names each point a thousand times.
POINTS = {}


def number(word, least, most, what):
    if not DECIMAL.fullmatch(word):
        raise Wrong(f"{word or 'nothing'} is no number of {what}: it is decimal, without a sign or leading zeros")
    if not least <= int(word) <= most:
        raise Wrong(f"{what} are {least:,} to {most:,}, and not {word}")
    return int(word)


def headed(line, word):
    """The words after the word that a line begins with."""
    found, *rest = line.split(" ")
    if found != word:
        raise Wrong(f"it begins with {word}, and not with {found or 'nothing'}")
    return rest


def point_in(word, position):
    place = word, position.width, position.height
    if place in POINTS:
        return POINTS[place]
    if not re.fullmatch(r"(0|[1-9][0-9]*),(0|[1-9][0-9]*)", word):
        point = point_named(word, position.height)
        hint = f"{word} is written {spelled(point)}" if point and position.has(point) else f"{word or 'nothing'} is no point, as 7,7 is"
        raise Wrong(hint)
    if not position.has(numbers(word)):
        raise Wrong(f"{word} is off {position.board()}")
    POINTS[place] = numbers(word)
    return POINTS[place]


def rising(points):
    """The points, which have to rise in reading order."""
    for p, q in zip(points, points[1:]):
        if p == q:
            raise Wrong(f"{spelled(p)} stands there twice")
        if not is_before(p, q):
            raise Wrong(f"{spelled(q)} stands before {spelled(p)}: points go row by row from the top, and from left to right")
    return points


def read_rule(line):
    rest = headed(line, "rule")
    if len(rest) != 1 or rest[0] not in RULES:
        raise Wrong(f"{' '.join(rest) or 'nothing'} is no rule: it is freestyle, exact or renju")
    return rest[0]


def read_size(line):
    words = " ".join(headed(line, "size")).split(",")
    sides = [number(word, LEAST, MOST, "the sides of a board") for word in words]
    if len(sides) > 2 or len(sides) == 2 and sides[0] == sides[1]:
        raise Wrong("it is size N where both sides are N, and size W,H where they differ")
    return sides[0], sides[-1]


def read_stones(line, side, position):
    points = rising([point_in(word, position) for word in headed(line, side)])
    for point in points:
        if point in position.black:
            raise Wrong(f"{spelled(point)} is a black stone already")
    return points


def read_replies(words, below, position):
    """Listed replies, each with a node below this one."""
    found = []
    for word in words:
        reply, sign, name = word.partition(">")
        if not sign:
            raise Wrong(f"{word} is no listed reply, as 3,7>1 is")
        found.append((point_in(reply, position), named_node(name, below)))
    rising([point for point, _ in found])
    return found


def named_node(word, below):
    if below == 0:
        raise Wrong("no node stands before it that it could name")
    return number(word, 0, below - 1, "the nodes that it can name")


def read_node(line, below, position):
    """A node line."""
    first, *words = line.split(" ")
    attack = point_in(first, position)
    if words == ["wins"]:
        return Node(attack, True, None, [])
    return Node(attack, False, *read_answers(words, below, position, "wins alone, "))


def read_start(line, below, position):
    """The last line of a text whose opponent moves first."""
    return Node(None, False, *read_answers(headed(line, "start"), below, position))


def read_answers(words, below, position, more=""):
    """The node that answers the rest, if any, and the listed replies with their nodes."""
    kind, *words = words or [""]
    if kind not in ("rest", "only") or kind == "rest" and not words:
        raise Wrong(f"after its first word stands {more}rest and a node, or only")
    rest = named_node(words.pop(0), below) if kind == "rest" else None
    return rest, read_replies(words, below, position)


HEADS = ("renju-position 1", "renju-table 1", "renju-table 2", "renju-book 1")


def read_head(line):
    if line not in HEADS:
        said = f"{line[:30]!r}{'..' if line[30:] else ''} begins no text"
        raise Wrong(f"{said}: a position begins with renju-position 1, a table with renju-table 1 or 2, a book with renju-book 1")
    return line


def read(data):
    """The Position, Table or Book of a text in its one spelling."""
    lines = Lines(data)
    head = lines.take("renju-position 1, or renju-table 1", read_head)
    if head == "renju-book 1":
        return read_book(lines)
    position = read_position(lines)
    if head == "renju-position 1":
        lines.end()
        return position.lawful()
    return read_table(lines, position, head == "renju-table 2")


def read_position(lines):
    """The four lines of a position."""
    rule = lines.take("the rule", read_rule)
    position = Position(rule, *lines.take("the size", read_size))
    for side in SIDES:
        setattr(position, side, lines.take(f"{side}, and the stones of that side", lambda line: read_stones(line, side, position)))
    return position


def read_count(lines, word, least, most):
    """A line of a word and a number."""
    return lines.take(f"{word}, and the number of {word}", lambda line: number(" ".join(headed(line, word)), least, most, word))


def read_nodes(lines, count, position):
    return [lines.take(f"the node {place}", lambda line: read_node(line, place, position)) for place in range(count)]


def read_table(lines, position, has_start):
    least = 0 if has_start else 1
    moves, count = read_count(lines, "moves", least, MOST_NODES), read_count(lines, "nodes", least, MOST_NODES)
    nodes = read_nodes(lines, count, position)
    start = lines.take("the start", lambda line: read_start(line, count, position)) if has_start else None
    lines.end()
    return Table(position.lawful(), moves, nodes, start)


def read_book(lines):
    """The nodes and the entries of a book. A point of a node is below the longest sides of a board."""
    every = Position("freestyle", MOST, MOST)
    nodes = read_nodes(lines, read_count(lines, "nodes", 0, MOST_NODES), every)
    entries = []
    for place in range(1, 1 + read_count(lines, "entries", 1, MOST_ENTRIES)):
        position = read_position(lines)
        moves = read_count(lines, "moves", 0, MOST_NODES)
        root = lines.take("root and a node, or start", lambda line: read_root(line, len(nodes), every))
        try:
            entries.append((position.lawful(), moves, root))
        except Wrong as error:
            raise Wrong(f"entry {place}: {error}")
    lines.end()
    return Book(nodes, entries)


def read_root(line, below, every):
    """The number of a node, or a start."""
    if line.startswith("start"):
        return read_start(line, below, every)
    return named_node(" ".join(headed(line, "root")), below)


def bytes_of(path):
    """What a file holds, or standard input where no path is given, or -."""
    try:
        if path and path != "-":
            return Path(path).read_bytes()
        if sys.stdin is None:
            raise Wrong("standard input is closed")
        return sys.stdin.buffer.read()
    except OSError as error:
        raise Wrong(f"{path or 'standard input'} cannot be read: {error.strerror}")


def read_file(path):
    """The Position, Table or Book of a file, or of standard input where no path is given, or -."""
    try:
        return read(bytes_of(path))
    except Wrong as error:
        raise error if "cannot be read" in str(error) else Wrong(f"{path if path and path != '-' else 'the text'}: {error}")


def tables_in(path, entry=None):
    """The tables in a file: that of a table, and of a book those of its entries, or of one of them. Each comes with its entry's number."""
    found = read_file(path)
    if isinstance(found, Position):
        raise Wrong("the text is a position, and has no table; fours and solve of renju write one")
    if isinstance(found, Table):
        if entry is not None:
            raise Wrong(f"the text is a table, and has no entry {entry}")
        return [(None, found)]
    numbers = range(1, len(found.entries) + 1) if entry is None else [entry]
    return [(number, found.table(number)) for number in numbers]


def saying(main):
    """Runs a script, and says in a line what was wrong in place of a traceback."""
    name, status = Path(sys.argv[0]).name, 1
    try:
        if sys.stdout is None:
            raise Wrong("standard output is closed")
        # A file's name may have bytes that are no text.
        sys.stdout.reconfigure(errors="backslashreplace")
        status = main() or 0
        sys.stdout.flush()
    except SystemExit as ended:
        status = ended.code
    except Wrong as error:
        tell(f"{name}: {error}")
    except KeyboardInterrupt:
        end_runs()
        status = 130
    except OSError as error:
        # Where who read the output has gone, nothing is left to say.
        if error.errno != errno.EPIPE:
            tell(f"{name}: {error.filename or 'standard output'} cannot be written: {error.strerror}")
    leave(status)


def tell(words):
    """Says something beside the output, on standard error."""
    if sys.stderr is not None:
        print(words, file=sys.stderr, flush=True)


def leave(status):
    """Ends with a status. What cannot be written any more is left."""
    try:
        if sys.stdout is not None:
            sys.stdout.flush()
    except OSError:
        os.dup2(os.open(os.devnull, os.O_WRONLY), sys.stdout.fileno())
    sys.exit(status)
