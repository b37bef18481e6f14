#!/usr/bin/env python3
"""Draws positions, tables and books as boards: NAME.svg beside each NAME.txt that the words name, NAME-N.svg of a book's entry N.

    pictures.py [--out FILE] [--line | --play 'X,Y ..' | --why X,Y] [--mark SIGN=X,Y ..] [--frame 'X,Y ..'] [--entry N] FILE ..

Of - the text is read and the picture written. A file that is there is written over only where it is this script's picture of the
same text. --write draws the pictures of this repository, and --check compares them with what is there.

Of a table the first move is shown with a dot, and its answers as rings: each has a number, and the replies that it answers are
small stones with this number; a ring with a star answers all other replies that go on. --line shows a longest game against the
table in place of them, as numbered stones, and --play the moves that are given. A cross is a foul of Black, who is to move, as the
program tells it. A foul that ends a game, or that --why names, is explained: frames hold the stones of its run, its fours or its
threes, and red dots are where five or a straight four is made. --mark SIGN=X,Y writes a sign into a ring, and --mark cost=X,Y
marks a point at which a threat can be answered. --frame puts a red frame around a point, or around points of one line.
"""
import argparse
import sys
import textwrap
from html import escape
from math import atan2, degrees, hypot
from pathlib import Path

sys.dont_write_bytecode = True

from boards import Book, Table, Wrong, counted, letters, named, read, read_file, saying
from foul import an, explained, judged, reasons
from outputs import distinct, write
from position import points

HERE = Path(__file__).resolve().parent
# The pictures of the repository: texts of this folder, and the words with which each is drawn.
PICTURES = {
    "allowed-double-three": ["--mark", "*=7,7"],
    "one-defence": ["--mark", "*=7,7"],
    "double-three": ["--mark", "*=7,7", "--mark", "cost=5,7", "--mark", "cost=9,7"],
    "three-in-a-row": [],
    "two-move-win": [],
    "two-move-win-quarter": [],
    "quiet-win": [],
    "wins/quiet-three": ["--mark", "1=7,2", "--mark", "2=6,2", "--mark", "3=5,3", "--mark", "4=4,4"],
    "wins/block-fouls": ["--play", "14,10 12,12 10,13 9,13 10,12"],
    "wins/defended": ["--mark", "1=8,5", "--mark", "2=6,5"],
    "openings/quiet-move": ["--mark", "1=2,3"],
}
STEP, EDGE, BELOW = 34, 52, 36
LINE, INK, PALE, BLUE, RED, GREEN = "#5a4326", "#6d5330", "#85683f", "#1d5c8f", "#b3261e", "#2f6b2f"
DOT = "dot"
EDGES = {"black": "#000", "white": "#8c867b"}
LETTERS = {"black": "#fff", "white": "#111"}
DEFINED = """<defs>
<linearGradient id="wood" x1="0" y1="0" x2="1" y2="1"><stop offset="0" stop-color="#ecc98a"/><stop offset="1" stop-color="#d9ac62"/></linearGradient>
<radialGradient id="black" cx="0.35" cy="0.3" r="0.75"><stop offset="0" stop-color="#777"/><stop offset="0.45" stop-color="#2b2b2b"/><stop offset="1" stop-color="#080808"/></radialGradient>
<radialGradient id="white" cx="0.35" cy="0.3" r="0.8"><stop offset="0" stop-color="#fff"/><stop offset="0.6" stop-color="#f4f2ee"/><stop offset="1" stop-color="#bdb8ae"/></radialGradient>
</defs>"""


class Scene:
    """What a picture shows: the stones of a text, the moves on them with their labels, rings, replies and costs, and words."""

    def __init__(self, found, words):
        self.table = found if isinstance(found, Table) else None
        self.position = self.table.position if self.table else found
        self.stones, self.labels = self.position.stones(), {}
        self.rings, self.replies, self.costs = {}, {}, []
        # The point of a foul that is explained, and what a stone there makes.
        self.fouled, self.made = None, None
        if words.why:
            self.why(points(words.why, self.position))
        elif words.play or words.line:
            self.play(points(words.play, self.position) if words.play else self.line())
        elif self.table:
            self.answers(self.table.root())
        is_over = self.made or self.position.won_at() or self.is_full()
        self.crosses = [] if is_over else list(self.position.fouls())
        for mark in words.mark:
            self.mark(mark)
        self.framed = [self.row(points(row, self.position)) for row in words.frame]
        self.captions = words.caption or self.told()

    def is_full(self):
        return len(self.stones) == self.position.width * self.position.height

    def line(self):
        if not self.table:
            raise Wrong("--line shows a line of a table, and the text is a position")
        return self.table.longest_line()

    def move(self, point, label):
        self.labels[point], self.stones[point] = label, self.position.side()
        self.position = self.position.after(point)

    def play(self, moves):
        for number, point in enumerate(moves, 1):
            if self.position.won_at() or self.made:
                raise Wrong(f"move {number - 1} {'is a foul' if self.made else 'wins'}, and nothing comes after it")
            before = self.position
            self.move(point, number)
            if before.rule == "renju" and before.side() == "black" and judged(before, before.stones(), point).kind:
                self.fouled, self.made = point, explained(before, point)

    def why(self, found):
        """Shows what a stone of Black on a point makes, and so why it is a foul or none."""
        if len(found) != 1 or self.position.rule != "renju" or self.position.side() != "black":
            raise Wrong("--why names one point, on Black's turn under renju")
        self.position.after(found[0])
        self.fouled, self.made = found[0], explained(self.position, found[0])
        self.stones[found[0]] = "black"

    def answers(self, node):
        """The attack of a node and its answers, each with one number."""
        if node.attack:
            self.move(node.attack, DOT)
        for reply, place in node.replies:
            answer = self.table.nodes[place].attack
            self.replies[reply] = self.rings.setdefault(answer, len(self.rings) + 1)
        if node.rest is not None:
            answer = self.table.nodes[node.rest].attack
            self.rings[answer] = f"{self.rings[answer]}*" if answer in self.rings else "*"

    def mark(self, words):
        sign, _, word = words.rpartition("=")
        point = points(word, self.position)
        if not sign or len(sign) > 4 or len(point) != 1:
            raise Wrong(f"{words} is no mark, as 1=7,7 is: a sign of at most four letters, or cost, and a point")
        if sign == "cost":
            self.costs += point
        elif point[0] in self.stones:
            self.labels[point[0]] = sign
        else:
            self.rings[point[0]] = sign

    def row(self, found):
        """Points of one line, and the way of it."""
        if not found or not is_straight(found, step(found)):
            raise Wrong("--frame names a point, or points of one line")
        return found, step(found)

    def told(self):
        """Who is to move, or who wins in how many moves, and the rule."""
        won, rule = self.position.won_at(), f"under {self.position.rule}"
        to_move = f"{self.position.side().capitalize()} is to move"
        if self.made:
            return [self.verdict(), *self.reasons()]
        if won:
            return [f"{won[1].capitalize()} has won {rule}"]
        if self.table and self.table.moves:
            first = [to_move] if self.table.start else []
            return [*first, f"{self.table.attacker().capitalize()} wins in {counted(self.table.moves)} {rule}"]
        return [f"{to_move} {rule}"]

    def verdict(self):
        """What is said of the point that is explained."""
        name = named(self.fouled, self.position.height)
        if self.made.kind and self.fouled in self.labels:
            return f"Black has lost under {self.position.rule}: {name} is {an(self.made.kind)}"
        return f"{name} is {an(self.made.kind) if self.made.kind else 'no foul'} under {self.position.rule}"

    def reasons(self):
        tell = lambda some: " ".join(named(it, self.position.height) for it in some)
        return [line[0].upper() + line[1:] for line in reasons(self.made, tell)]

    def frames(self):
        """The rows of stones that make a foul, each with its axis and the points that fill it."""
        found = [(run, step(run), []) for run in (self.made.five, self.made.overline) if run] if self.made else []
        for each in [*self.made.fours, *self.made.threes] if self.made else []:
            free = [it for it, kind in each.points.items() if not kind] if isinstance(each.points, dict) else each.points
            found.append((each.stones, each.way, free))
        return found


def step(run):
    """The way of a run."""
    return tuple((a > b) - (a < b) for a, b in zip(run[-1], run[0]))


def is_straight(found, way):
    """Whether points stand on one line in a way."""
    (x, y) = found[0]
    return all((a - x) * way[1] == (b - y) * way[0] for a, b in found)


def at(point):
    return EDGE + point[0] * STEP, EDGE + point[1] * STEP


def label(x, y, text, colour, size=15, weight="bold"):
    return f'<text x="{x}" y="{y + size * 0.36:.1f}" font-size="{size}" font-weight="{weight}" fill="{colour}">{escape(str(text))}</text>'


def grid(width, height):
    """The lines and the star points."""
    right, bottom = EDGE + (width - 1) * STEP, EDGE + (height - 1) * STEP
    for x in range(width):
        place = EDGE + x * STEP
        yield f'<line x1="{place}" y1="{EDGE}" x2="{place}" y2="{bottom}"/>'
    for y in range(height):
        place = EDGE + y * STEP
        yield f'<line x1="{EDGE}" y1="{place}" x2="{right}" y2="{place}"/>'
    yield f'<rect x="{EDGE}" y="{EDGE}" width="{right - EDGE}" height="{bottom - EDGE}" fill="none" stroke-width="2"/>'
    if width == height and width % 2 == 1 and width >= 13:
        far, middle = width - 4, width // 2
        for x, y in [(3, 3), (far, 3), (middle, middle), (3, far), (far, far)]:
            yield f'<circle cx="{EDGE + x * STEP}" cy="{EDGE + y * STEP}" r="3.6" fill="{LINE}" stroke="none"/>'


def names(width, height):
    """The columns and rows from 0 above and on the left, and as players name them below and on the right."""
    right, bottom = EDGE + (width - 1) * STEP, EDGE + (height - 1) * STEP
    for x in range(width):
        yield label(EDGE + x * STEP, EDGE - 31, x, INK, 12, "normal")
        yield label(EDGE + x * STEP, bottom + 30, letters(x), PALE, 11, "normal")
    for y in range(height):
        yield label(EDGE - 31, EDGE + y * STEP, y, INK, 12, "normal")
        yield label(right + 30, EDGE + y * STEP, height - y, PALE, 11, "normal")


def size_of(text, largest):
    """The size of letters in which a text of some letters fits its ring or stone."""
    return max(largest - 4 * (len(str(text)) - 1), 9 if len(str(text)) < 4 else 7)


def stone(point, side, text=None):
    x, y = at(point)
    yield f'<ellipse cx="{x + 1.6}" cy="{y + 2.2}" rx="15" ry="15" fill="#3a2610" opacity="0.28"/>'
    yield f'<circle cx="{x}" cy="{y}" r="15" fill="url(#{side})" stroke="{EDGES[side]}" stroke-width="0.7"/>'
    if text == DOT:
        yield f'<circle cx="{x}" cy="{y}" r="4.5" fill="{LETTERS[side]}"/>'
    elif text:
        yield label(x, y, text, LETTERS[side], size_of(text, 16))


def ring(point, text):
    """A ring with a sign on an empty point."""
    x, y = at(point)
    yield f'<circle cx="{x}" cy="{y}" r="13" fill="#efd29b" stroke="{BLUE}" stroke-width="2"/>'
    # A star hangs high in its line.
    yield label(x, y + (5 if text == "*" else 0), text, BLUE, 22 if text == "*" else size_of(text, 16))


def cross(point):
    x, y = at(point)
    return f'<path d="M{x - 8} {y - 8}L{x + 8} {y + 8}M{x - 8} {y + 8}L{x + 8} {y - 8}" stroke="{RED}" stroke-width="3.4" stroke-linecap="round"/>'


def frame(stones, way):
    """A frame around a row of stones."""
    first, last = at(min(stones, key=along(way))), at(max(stones, key=along(way)))
    length, turned = hypot(last[0] - first[0], last[1] - first[1]), degrees(atan2(way[1], way[0]))
    box = f'x="{first[0] - 17}" y="{first[1] - 17}" width="{length + 34:.1f}" height="34" rx="17"'
    return f'<rect {box} transform="rotate({turned:g} {first[0]} {first[1]})" fill="none" stroke="{RED}" stroke-width="2.4"/>'


def along(way):
    return lambda point: point[0] * way[0] + point[1] * way[1]


def filling(point):
    """A dot where five, or a straight four, is made."""
    x, y = at(point)
    return f'<circle cx="{x}" cy="{y}" r="5.5" fill="{RED}"/>'


def cost(point):
    x, y = at(point)
    return f'<path d="M{x} {y - 9}L{x + 9} {y}L{x} {y + 9}L{x - 9} {y}Z" fill="#efd29b" stroke="{GREEN}" stroke-width="2.6" stroke-linejoin="round"/>'


def reply(point, side, number, is_alone):
    """A small stone with the number of its answer: in the corner of its point where a ring stands there too."""
    x, y = at(point)
    x, y = (x, y) if is_alone else (x + 10, y - 10)
    yield f'<circle cx="{x}" cy="{y}" r="8.5" fill="url(#{side})" stroke="{EDGES[side]}" stroke-width="0.7"/>'
    yield label(x, y, number, LETTERS[side], 11 if len(str(number)) == 1 else 9)


def caption(parts, width, top):
    """The caption in one line, or in lines for each part where that is too long for the board."""
    whole, letters_of_line = "; ".join(parts), width // 8
    lines = [whole] if len(whole) <= letters_of_line else [line for part in parts for line in textwrap.wrap(part, letters_of_line)]
    return [label(width // 2, top + 18 * place, line, INK, 14, "normal") for place, line in enumerate(lines)], 18 * len(lines)


def picture(found, words, of=None):
    """The picture of a position or a table, and of which file it is, if that is said."""
    scene = Scene(found, words)
    position = scene.position
    width = EDGE + (position.width - 1) * STEP + EDGE
    bottom = EDGE + (position.height - 1) * STEP
    said, room = caption(scene.captions, width, bottom + BELOW + 18)
    height = bottom + BELOW + room + 12
    parts = [
        f'<svg xmlns="http://www.w3.org/2000/svg" width="{width}" height="{height}" viewBox="0 0 {width} {height}" role="img"{shown(of)}>',
        f"<title>{escape('; '.join(scene.captions))}</title>",
        DEFINED,
        f'<rect width="{width}" height="{height}" rx="6" fill="url(#wood)"/>',
        f'<g stroke="{LINE}" stroke-width="1">',
        *grid(position.width, position.height),
        "</g>",
        '<g font-family="DejaVu Sans, Verdana, Arial, sans-serif" text-anchor="middle">',
        *names(position.width, position.height),
        *said,
    ]
    for point, side in scene.stones.items():
        parts += stone(point, side, scene.labels.get(point))
    parts += map(cost, scene.costs)
    for point, sign in scene.rings.items():
        if point not in scene.stones:
            parts += ring(point, sign)
    parts += [cross(point) for point in scene.crosses if point not in scene.rings]
    for row, way, free in scene.frames():
        parts += [frame(row, way), *map(filling, free)]
    parts += [frame(row, way) for row, way in scene.framed]
    if scene.made and scene.made.kind and not scene.labels.get(scene.fouled):
        parts.append(cross(scene.fouled))
    for point, number in scene.replies.items():
        parts += reply(point, position.side(), number, point not in scene.rings)
    return "\n".join([*parts, "</g>", "</svg>"]) + "\n"


def shown(of):
    """What a picture says of the file that it shows."""
    return f' data-of="{escape(of)}"' if of else ""


def words_of(given):
    words = argparse.ArgumentParser(description=__doc__, formatter_class=argparse.RawDescriptionHelpFormatter)
    words.add_argument("files", nargs="*", metavar="FILE", help="a text, or - for standard input")
    words.add_argument("--check", action="store_true", help="compare the pictures of this repository")
    words.add_argument("--write", action="store_true", help="draw the pictures of this repository")
    words.add_argument("--out", metavar="FILE", help="the picture's file")
    words.add_argument("--entry", type=int, metavar="N", help="one entry of a book, counted from 1")
    shows = words.add_mutually_exclusive_group()
    shows.add_argument("--line", action="store_true", help="a longest line of the table")
    shows.add_argument("--play", default="", metavar="'X,Y ..'", help="moves from the position on")
    shows.add_argument("--why", default="", metavar="X,Y", help="why a point is a foul of Black, or none")
    words.add_argument("--caption", action="append", default=[], metavar="WORDS", help="words below the board, in place of its own")
    words.add_argument("--mark", action="append", default=[], metavar="SIGN=X,Y", help="a sign in a ring")
    words.add_argument("--frame", action="append", default=[], metavar="'X,Y ..'", help="a frame around points of one line")
    return words.parse_args(given)


def of_repository(is_check):
    failed = 0
    for name, words in PICTURES.items():
        text, there = HERE / f"{name}.txt", HERE / f"{name}.svg"
        drawn = picture(read(text.read_bytes()), words_of(words), text.name)
        if not is_check:
            there.write_text(drawn)
        elif not there.exists() or there.read_text() != drawn:
            print(f"FAILED examples/{name}.svg: it isn't what examples/pictures.py draws; run that script with --write")
            failed = 1
    # examples/games.py draws those of the games.
    for path in [*HERE.glob("*.svg"), *HERE.glob("wins/*.svg")]:
        if str(path.relative_to(HERE).with_suffix("")) not in PICTURES:
            print(f"FAILED {path.relative_to(HERE.parent)}: examples/pictures.py doesn't draw it")
            failed = 1
    return failed


def to_draw(words):
    """What is drawn: of each file what it holds, and the picture's file, which is none of standard input; of a book its entries."""
    for file in words.files:
        found, path = read_file(file), Path(words.out or file)
        if words.entry is not None and not isinstance(found, Book):
            raise Wrong(f"{file} is no book, and has no entry {words.entry}")
        if not isinstance(found, Book):
            yield found, file, None if file == "-" and not words.out else path.with_suffix(".svg") if not words.out else path
            continue
        numbers = [words.entry] if words.entry is not None else range(1, len(found.entries) + 1)
        if words.out and len(numbers) > 1 or file == "-" and len(numbers) > 1:
            raise Wrong(f"{file} is a book of {len(numbers)} entries: name one of them with --entry")
        for number in numbers:
            own = None if file == "-" and not words.out else Path(words.out) if words.out else path.with_name(f"{path.stem}-{number}.svg")
            yield found.table(number), f"{file} entry {number}", own


def main():
    words = words_of(sys.argv[1:])
    if words.check or words.write:
        if words.files or words.check and words.write:
            raise Wrong("--check and --write stand alone: they are for the pictures of this repository")
        return of_repository(words.check)
    if not words.files:
        raise Wrong("name a text to draw, or - for standard input; --write draws the pictures of this repository")
    if words.out and len(words.files) > 1:
        raise Wrong("--out is for one text")
    drawn = [(picture(found, words, Path(name).name if path else None), name, path) for found, name, path in to_draw(words)]
    distinct([(name, path) for _, name, path in drawn if path])
    for svg, name, path in drawn:
        if path is None:
            sys.stdout.write(svg)
        else:
            is_ours = lambda there: there.split("\n", 1)[0].endswith(f"{shown(Path(name).name)}>")
            write(path, svg, is_ours, f"it is no picture of {name}; name another file with --out")
    return 0


if __name__ == "__main__":
    saying(main)
