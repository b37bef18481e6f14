#!/usr/bin/env python3
"""Writes docs/OPENINGS.md, which tells of each reply to a first move whether a table here wins after it, from what the tables' heads say.

    openings.py [--write]
    openings.py --check

A table is a file of examples/openings/won, compressed by xz. What `renju check` said of it, in how many seconds of the processor, and
when, is a line of examples/openings/won/checked.txt, beside the hash of the text. --check asks it of each table without such a line,
one after the other, which takes up to three minutes for each, and adds the line where it is accepted. --write writes the page and its picture, and
without a word they are compared with what is there.

The lines of examples/openings/won/found.txt stand in the order of finding: a table's file, and the replies whose tables were given to
examples/openings.py as like ones.

The page names a table that is accepted, and no other. Where a line of checked.txt is of another text, the page isn't written.
"""
import argparse
import datetime
import hashlib
import lzma
import os
import re
import sys
from dataclasses import dataclass
from pathlib import Path

sys.dont_write_bytecode = True
TOP = Path(__file__).resolve().parent.parent
sys.path.insert(0, str(TOP / "examples"))

from boards import Position, Wrong, answered, numbers, read, saying, spelled, tell
from openings import replies_to
from outputs import replace
from pictures import picture, words_of
from position import IMAGES, image

WON, PAGE = TOP / "examples" / "openings" / "won", TOP / "docs" / "OPENINGS.md"
CHECKED, FOUND = WON / "checked.txt", WON / "found.txt"
MOST_ARRIVALS = 1_000_000_000_000
# The openings that the page tells of: a rule, a size, and the first move, to which the replies are told.
FIRST_MOVES = [("freestyle", 15, (7, 7))]


@dataclass
class Won:
    """A table: its position, its moves, the first of them, and how many nodes and bytes it has; what `renju check` said of it; and by
    which like tables it was found.
    """

    position: Position
    moves: int
    attack: object
    nodes: int
    size: int
    arrivals: int = 0
    seconds: int = 0
    day: str = ""
    like: str = ""


def text_of(path):
    try:
        return lzma.decompress(path.read_bytes())
    except (OSError, lzma.LZMAError) as error:
        raise Wrong(f"{path} cannot be read: {error}")


def head_of(data):
    """What the head and the last line of a table's text say."""
    lines = data.decode().splitlines()
    position = read(("renju-position 1\n" + "".join(f"{line}\n" for line in lines[1:5])).encode())
    moves, nodes = (int(line.split()[1]) for line in lines[5:7])
    attack = tuple(map(int, lines[-1].split()[0].split(",")))
    return Won(position, moves, attack, nodes, len(data))


def lines_by_file(path):
    """The words after the first one of each line, which is a table's file."""
    lines = path.read_text().splitlines() if path.exists() else []
    return {name: rest for name, *rest in map(str.split, lines)}


def checked():
    """The lines of what was checked, by the file: the hash of its text, moves, arrivals, seconds and the day."""
    return lines_by_file(CHECKED)


def check():
    """Asks of each table that isn't checked yet whether it is accepted."""
    for path in sorted(WON.glob("*.xz")):
        data, lines = text_of(path), checked()
        digest = hashlib.sha256(data).hexdigest()
        if lines.get(path.name, [""])[0] == digest:
            continue
        began = os.times()
        told, status = answered(["check", MOST_ARRIVALS], data)
        ended = os.times()
        tell(f"{path.name}: {told.strip()}")
        if status != 0:
            return status
        spent = ended.children_user + ended.children_system - began.children_user - began.children_system
        _, _, moves, _, arrivals, _ = told.split()
        lines[path.name] = [digest, moves, arrivals, f"{spent:.0f}", datetime.date.today().isoformat()]
        replace(CHECKED, "".join(f"{' '.join([name, *rest])}\n" for name, rest in sorted(lines.items())))
    return 0


def won_here():
    """The tables that are accepted, in the order of their files."""
    lines, likes = checked(), lines_by_file(FOUND)
    for path in sorted(WON.glob("*.xz")):
        if path.name not in likes:
            raise Wrong(f"{FOUND.name} has no line of {path.name}")
        data = text_of(path)
        digest, *said = lines.get(path.name, [""])
        if digest != hashlib.sha256(data).hexdigest():
            raise Wrong(f"{path.name} is not checked yet: {Path(__file__).name} --check does")
        found = head_of(data)
        if found.moves != int(said[0]):
            raise Wrong(f"{path.name}: {CHECKED.name} says {said[0]} moves, and its head {found.moves}")
        found.arrivals, found.seconds, found.day = int(said[1]), int(said[2]), said[3]
        found.like = " ".join(likes[path.name]) or "nothing"
        yield found


class Replies:
    """The replies to a first move, of those that a symmetry exchanges the first in reading order, and the tables of their positions."""

    def __init__(self, rule, size, first, tables):
        self.rule, self.size, self.first = rule, size, first
        self.after = Position(rule, size, size).after(first)
        replies, self.images = replies_to(self.after)
        self.replies = sorted(replies, key=lambda reply: reply[::-1])
        square = [it for it in tables if it.position.width == it.position.height]
        by_text = {image(it.position, name).text(): (it, name) for name in [*IMAGES][::-1] for it in square}
        self.won = {reply: by_text[text] for reply in self.replies for text in [self.after.after(reply).text()] if text in by_text}

    def title(self):
        return f"{self.rule.capitalize()} on {self.size} by {self.size}, after {spelled(self.first)}"

    def svg(self):
        return TOP / "examples" / "openings" / f"{self.rule}-{self.size}.svg"

    def picture(self):
        """The board, with the number of moves on each reply after which a table wins."""
        last, marks = self.size - 1, []
        for reply, (table, _) in self.won.items():
            marks += {f"{table.moves}={spelled(move(*reply, last, last))}" for move in IMAGES.values()}
        words = [word for mark in sorted(marks) for word in ("--mark", mark)]
        return picture(self.after, words_of([*words, "--caption", f"{len(self.won)} of {len(self.replies)} replies"]), "openings")

    def words(self, like):
        """What is told of the like tables: of a reply that a symmetry makes of another that one."""
        point = lambda word: numbers(word) if re.fullmatch(r"\d+,\d+", word) else word
        found = [self.images.get(point(word), (point(word),))[0] for word in like.split()]
        return " ".join(it if isinstance(it, str) else spelled(it) for it in found)

    def section(self):
        """What the page says of the replies."""
        yield f"## {self.title()}\n"
        yield f'<img src="../examples/openings/{self.svg().name}" width="480" alt="Numbers on the replies after which a table wins">\n'
        yield f"{len(self.won)} of {len(self.replies)} replies have a table.\n"
        yield "|Reply|Answer|Moves|Nodes|Bytes|Arrivals|Checked|Seconds|Like|\n|---|---|---|---|---|---|---|---|---|"
        for reply, (table, name) in self.won.items():
            answer = IMAGES[name](*table.attack, self.size - 1, self.size - 1)
            counts = f"{table.moves}|{table.nodes:,}|{table.size:,}|{table.arrivals:,}"
            yield f"|{spelled(reply)}|{spelled(answer)}|{counts}|{table.day}|{table.seconds}|{self.words(table.like)}|"
        left = [reply for reply in self.replies if reply not in self.won]
        yield f"\nOpen: {' '.join(map(spelled, left)) or 'none'}.\n"


def page(openings):
    yield "# Openings\n"
    yield (
        "Replies to a first move, of those that a symmetry exchanges one, after which a table of `examples/openings/won` wins: its answer, "
        "its moves, what `renju check` said of it, when, in how many seconds of the processor, and with the tables of which like "
        "replies `examples/openings.py` began. Of an open reply nothing is said. `docs/openings.py --write` writes this page.\n"
    )
    for it in openings:
        yield from it.section()


def main():
    words = argparse.ArgumentParser(description=__doc__, formatter_class=argparse.RawDescriptionHelpFormatter)
    words.add_argument("--write", action="store_true"), words.add_argument("--check", action="store_true")
    given = words.parse_args()
    if given.check:
        return check()
    tables = list(won_here())
    openings = [Replies(*it, tables) for it in FIRST_MOVES]
    written = {PAGE: "\n".join(page(openings)), **{it.svg(): it.picture() for it in openings}}
    status = 0
    for path, text in written.items():
        if given.write:
            replace(path, text)
        elif not path.exists() or path.read_text() != text:
            print(f"FAILED {path.relative_to(TOP)}: it isn't what the tables' heads say; docs/openings.py --write writes it")
            status = 1
    return status


if __name__ == "__main__":
    saying(main)
