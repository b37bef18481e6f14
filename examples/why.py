#!/usr/bin/env python3
"""Says in words why `renju check` refuses a table, or `renju book` a book, and draws it.

    why.py [--names] [--arrivals N] [--picture FILE.svg] [FILE]

FILE, or standard input, is handed to the program, with at most N arrivals, and the first line is its answer. Where a table is refused
the moves of that line are replayed from the position on, and it is said what is wrong at the last of them, and which line of the text
has it; where board and table should not bear the program out, the script says that and ends with status 1. Where a text is refused
it says what is wrong in its line, and ends so where it is another. --names writes points as players do, h8 for 7,7. --picture draws
the moves, and what is wrong in a red frame.

The status is that of the program: 0 where it accepts, 3 where the text is refused, 4 where the table is, and 5 where it has more
arrivals.
"""
import argparse
import re
import sys
from pathlib import Path

sys.dont_write_bytecode = True

from boards import WAYS, Book, Position, Table, Wrong, answered, bytes_of, counted, named, other, read, run_through, saying, spelled
from foul import an, explained, reasons
from outputs import write
from pictures import picture, shown, words_of
from solving import ranged

MOST_ARRIVALS = 1_000_000_000_000
TEXT_REFUSED, TABLE_REFUSED, SPENT = 3, 4, 5
# What the program says of a table or an entry that it does not accept, and of one whose number of moves is another.
KINDS = ("attack-refused", "attack-fouls", "attack-draws", "not-won", "reply-wins", "reply-draws", "no-answer")
REFUSED = re.compile(rf"(?:entry (\d+) )?refused ({'|'.join(KINDS)})((?: \d+,\d+)+)")
MISCOUNTED = re.compile(r"(entry \d+ )?refused moves (\d+) (\d+)")
# How many moves are named before what is wrong, and how many letters of a line of the text.
MOST_NAMED, MOST_LETTERS = 12, 100


class Replay:
    """The moves of a refusal, replayed beside the table up to the last of them: the position, and the node that has that move."""

    def __init__(self, table, moves):
        self.table, self.attacker, self.position = table, table.attacker(), table.position
        self.place, self.node = len(table.nodes) - (0 if table.start else 1), table.root()
        *before, self.last = moves
        for move in before:
            self.enter(move)
            self.position = self.position.after(move)

    def is_attack(self):
        return self.position.side() == self.attacker

    def enter(self, move):
        """Goes on by an attack, which has to be that of the node, or to the node that answers a reply."""
        if self.is_attack():
            holds(move == self.node.attack, f"{spelled(move)} is the table's attack")
            return
        self.place = self.node.answer(move)
        holds(self.place is not None, f"{spelled(move)} has an answer")
        self.node = self.table.nodes[self.place]


def holds(is_so, what):
    """Something that has to be so if the table is refused as the program says."""
    if not is_so:
        raise Wrong(f"the program refuses the table, but by the moves that it tells it is not so that {what}")


class Fault:
    """What is wrong at the last move of a refusal, in words, and the row of points that shows it."""

    def __init__(self, kind, replay, tell):
        self.replay, self.position, self.tell = replay, replay.position, tell
        self.point, self.name = replay.last, tell([replay.last])
        # Whether the move can be played, so that it is drawn.
        self.is_played, self.row, self.more = True, [replay.last], []
        is_attack = kind.startswith("attack") or kind == "not-won"
        holds(is_attack == replay.is_attack(), f"{self.name} is {'an attack' if is_attack else 'a reply'}")
        if is_attack:
            holds(replay.node.attack == self.point, f"{self.name} is the table's attack")
        self.words = getattr(self, kind.replace("-", "_"))()

    def after(self):
        return self.position.after(self.point)

    def side(self):
        return self.position.side().capitalize()

    def run(self, wins):
        """A run through the last move: one that wins, or the longest where none may."""
        after, stones = self.after(), self.after().stones()
        runs = {way: run_through(stones, self.point, way) for way in WAYS}
        winning = [run for way, run in runs.items() if after.wins(stones, self.point, way)]
        holds(bool(winning) == wins, f"{self.name} {'wins' if wins else 'does not win'}")
        return max(winning or runs.values(), key=len)

    def fills(self):
        """That the last move wins nothing and takes the last empty point."""
        self.run(False)
        holds(not self.after().empties(), f"{self.name} fills the board")

    def attack_refused(self):
        self.is_played, side = False, self.position.stones().get(self.point)
        if not self.position.has(self.point):
            self.row = []
            return f"the table plays {self.name}, which is off {self.position.board()}"
        holds(side, f"a stone stands on {self.name}")
        return f"the table plays {self.name}, which is taken: a stone of {side.capitalize()}'s stands there"

    def attack_fouls(self):
        found = explained(self.position, self.point)
        holds(found.kind, f"{self.name} is a foul")
        self.row, self.more = [], list(reasons(found, self.tell))
        return f"the table plays {self.name}, which is {an(found.kind)}, and so a foul"

    def attack_draws(self):
        self.fills()
        return f"the table plays {self.name}, which wins nothing and fills the board: a draw"

    def not_won(self):
        self.row = self.run(False)
        holds(self.replay.node.wins, f"the table says that {self.name} wins")
        of = f"a run of {len(self.row)} at most, {self.tell(self.row)}" if self.row[1:] else "no run"
        return f"the table says that {self.name} wins, but under {self.position.rule} it does not: it makes {of}"

    def reply_wins(self):
        self.row = self.run(True)
        return f"{self.side()} replies {self.name} and wins, with a run of {len(self.row)}: {self.tell(self.row)}"

    def reply_draws(self):
        self.fills()
        return f"{self.side()} replies {self.name}, which fills the board: a draw"

    def no_answer(self):
        self.run(False)
        holds(self.replay.node.answer(self.point) is None, f"the table has no answer to {self.name}")
        return f"{self.side()} replies {self.name}, to which the table has no answer"


def before(moves, tell):
    """The moves before the last one, in words."""
    if len(moves) < 2:
        return "at once "
    *moves, _ = moves
    if len(moves) > MOST_NAMED:
        return f"after {len(moves):,} moves, the last {MOST_NAMED} of them {tell(moves[-MOST_NAMED:])}, "
    *names, last = [tell([move]) for move in moves]
    return f"after {' '.join(names)} and {last} " if names else f"after {last} "


def entry_of(book, number):
    """The table of an entry, and for the place of a node its line in the text."""
    position, moves, root = book.entry(number)
    count = len(book.nodes)
    if isinstance(root, int):
        return Table(position, moves, book.nodes[: root + 1]), lambda place: 3 + place
    return Table(position, moves, book.nodes, root), lambda place: 3 + place if place < count else 3 + count + 6 * number


def of_text(told, data):
    """What is wrong with a text that is refused."""
    miscounted = MISCOUNTED.fullmatch(told)
    if miscounted:
        entry, written, count = miscounted.groups()
        return f"{entry or 'it '}says moves {written}, but its longest game has {counted(int(count))} of the side that wins"
    try:
        found = read(data)
    except Wrong as error:
        line = re.fullmatch(r"refused line (\d+)", told)
        if line and not str(error).startswith(f"line {line[1]}: "):
            raise Wrong(f"the program says {told}, and here it is {error}")
        return str(error)
    if isinstance(found, Position):
        return "it is a position, and has no table; fours and solve of renju write one"
    raise Wrong(f"the program says {told}, and nothing is found to be wrong with the text")


def of_table(told, data, given):
    """What is wrong with a table that is refused, line by line, and drawn where that is asked."""
    refusal, found = REFUSED.fullmatch(told), read(data)
    number, kind, words = refusal.groups() if refusal else (None, None, None)
    if not refusal or not isinstance(found, Book if number else Table):
        raise Wrong(f"the program says {told or 'nothing'}, which is no refusal of this text")
    table, line_of = entry_of(found, int(number)) if number else (found, lambda place: 8 + place)
    tell = lambda some: " ".join(named(it, table.position.height) if given.names else spelled(it) for it in some)
    # A point of a book may be off its board.
    moves = [tuple(map(int, word.split(","))) for word in words.split()]
    replay = Replay(table, moves)
    fault = Fault(kind, replay, tell)
    said = f"{before(moves, tell)}{fault.words}"
    lines = [said[0].upper() + said[1:], *fault.more]
    if given.picture:
        draw(given, table, moves if fault.is_played else moves[:-1], fault.row, lines)
    text = replay.node.text()
    has = f"line {line_of(replay.place)} of the text: {text[:MOST_LETTERS]}{' ..' if text[MOST_LETTERS:] else ''}"
    return [lines[0], *(f"  {line}" for line in lines[1:]), has]


def draw(given, table, moves, row, captions):
    """Draws the moves, and a frame around what is wrong."""
    of = f"why {Path(given.file or '-').name}"
    words = ["--play", " ".join(map(spelled, moves))] if moves else []
    words += ["--frame", " ".join(map(spelled, row))] if row else []
    words += [word for line in captions for word in ("--caption", line[0].upper() + line[1:])]
    is_ours = lambda there: there.split("\n", 1)[0].endswith(f"{shown(of)}>")
    write(given.picture, picture(table.position, words_of(words), of), is_ours, "it is no picture of this table; name another file")


def main():
    words = argparse.ArgumentParser(description=__doc__, formatter_class=argparse.RawDescriptionHelpFormatter)
    words.add_argument("--names", action="store_true", help="h8 for 7,7")
    words.add_argument("--arrivals", type=ranged(1, MOST_ARRIVALS, "ARRIVALS"), default=MOST_ARRIVALS, metavar="N")
    words.add_argument("--picture", metavar="FILE.svg", help="draw a refusal")
    words.add_argument("file", nargs="?", metavar="FILE", help="a table or a book, or - for standard input")
    given = words.parse_args()
    data = bytes_of(given.file)
    told, status = answered(["book" if data.startswith(b"renju-book 1\n") else "check", given.arrivals], data)
    told = told.strip()
    print(told or f"the program ended with status {status}")
    if status == TEXT_REFUSED:
        print(of_text(told, data))
    elif status == TABLE_REFUSED:
        print(*of_table(told, data, given), sep="\n")
    elif status == SPENT:
        of, more = told.removesuffix(" spent") if told.startswith("entry ") else "it", ": --arrivals allows more" if given.arrivals < MOST_ARRIVALS else ""
        print(f"{of} has more than {given.arrivals:,} arrivals{more}")
    return status


if __name__ == "__main__":
    saying(main)
