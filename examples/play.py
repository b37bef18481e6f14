#!/usr/bin/env python3
"""A board at the terminal, to play against the brain of `renju`, by a table of its, or between two people.

    play.py [--rule RULE] [--size N] [--white | --black | --two] [--entry N] [FILE]

You are Black, or with --white White, and with --two each side is played here. With FILE the game begins at what is in it: a position
or a game as examples/position.py takes them, where you are the side to move unless --white or --black says else; a game that was
saved, at its end; or a table or a book, of which --entry names an entry, by which the brain plays the side that wins.

A move is written as h8 or as 7,7. `undo` takes your last move back with its answer, `moves` lists the moves, `hint` tells what
`renju` finds for the side to move, `save FILE` writes the game as a text for `renju referee`, `picture FILE.svg` draws the board,
`help` tells this, and `quit` or Ctrl-D ends. X is Black and O White, the last move stands in brackets, and a small x is a foul.
"""
import argparse
import re
import sys

sys.dont_write_bytecode = True

from boards import PROGRAM, Book, Position, Table, Wrong, answered, bytes_of, counted, game_text, named, other, read, saying, spelled
from brains import RULE_NUMBERS, Brain
from foul import explained, explanation
from outputs import write
from pictures import picture, words_of
from position import points, rule_of, size_of, understood
from solving import found

SECONDS = 3600
# What a hint may look at: by fours, by threats, and for the moves that hold.
FOURS, THREATS, HOLDING = (10, 20_000), (6, 100_000), (6, 20_000)
MOST_ARRIVALS = 1_000_000_000_000
HELP = "a move as h8 or 7,7; undo, moves, hint, save FILE, picture FILE.svg, quit"


class Opponent:
    """The brain, which is told a game from its first position on. Asked of another game than it knows, it is told that one anew."""

    def __init__(self, first, begins, files):
        self.first, self.begins, self.told = first, begins, []
        self.brain = Brain([PROGRAM, "brain", *files], SECONDS)
        self.send(f"INFO rule {RULE_NUMBERS[first.rule]}", f"RECTSTART {first.width},{first.height}")

    def send(self, *lines):
        answer = self.brain.ask(*lines)
        if answer != "OK":
            raise Wrong(f"the brain says: {answer}")

    def move(self, *lines):
        """Its move, which is the answer to some lines."""
        answer = self.brain.ask(*lines)
        if not re.fullmatch(r"\d+,\d+", answer):
            raise Wrong(f"the brain says: {answer}")
        return points(answer, self.first)[0]

    def begin(self, moves):
        """Its first move of a game, before which a move of the player may stand."""
        if not self.first.stones():
            return self.move(f"TURN {spelled(moves[0])}") if moves else self.move("BEGIN")
        position = self.first.after(moves[0]) if moves else self.first
        own = position.side()
        stones = (f"{spelled(point)},{1 if side == own else 2}" for point, side in position.stones().items())
        return self.move("BOARD", *stones, "DONE")

    def answer(self, moves):
        """Its move after some moves, the last of which is the player's."""
        if self.told and self.told == moves[:-1]:
            move = self.move(f"TURN {spelled(moves[-1])}")
            self.told = [*moves, move]
            return move
        if self.told:
            self.send("RESTART")
        known = [] if self.begins else moves[:1]
        move = self.begin(known)
        # It answers as it did, move by move, so that it follows its table or its win again.
        while len(known) + 1 < len(moves):
            known = moves[: len(known) + 2]
            move = self.move(f"TURN {spelled(known[-1])}")
        self.told = [*moves, move]
        return move

    def end(self):
        return self.brain.end()


class Follower:
    """The side that wins by a table in which the player moves first: it plays what the table says."""

    def __init__(self, table):
        told, status = answered(["check", MOST_ARRIVALS], table.text())
        if status != 0:
            raise Wrong(f"renju check says: {told.strip()}")
        self.table = table

    def answer(self, moves):
        node = self.table.start
        for reply in moves[::2]:
            node = self.table.nodes[node.answer(reply)]
        return node.attack

    def end(self):
        return 0


class Game:
    """The moves of a game from its first position, and who plays which side."""

    def __init__(self, first, own, opponent):
        self.first, self.own, self.opponent = first, own, opponent
        self.moves, self.end = [], ""

    def position(self):
        position = self.first
        for point in self.moves:
            position = position.after(point)
        return position

    def is_own_turn(self):
        return not self.opponent or self.position().side() == self.own

    def show(self):
        position = self.position()
        last = self.moves[-1] if self.moves else None
        print(*position.drawn([] if self.end else position.fouls(), last), sep="\n")
        if last:
            print(f"The last move is {named(last, position.height)}, which is {spelled(last)}.")
        print(self.end or f"{position.side().capitalize()} is to move.")

    def put(self, point):
        """Plays a move of the side to move, and learns whether it ends the game."""
        before = self.position()
        after, side = before.after(point), before.side()
        fouls = before.fouls()
        self.moves.append(point)
        is_yours = self.opponent and side == self.own
        if point in fouls:
            lines = "\n".join(explanation(before, point, explained(before, point, fouls)))
            self.end = f"{'That was a foul: you have lost' if is_yours else f'{side.capitalize()} has lost by a foul'}.\n{lines}"
        elif after.won_at():
            winner = "You have" if is_yours else "The brain has" if self.opponent else f"{side.capitalize()} has"
            self.end = f"{winner} won."
        elif not after.empties():
            self.end = "The board is full: a draw."

    def answer(self):
        """The other side's move, where it is its turn."""
        if not self.end and not self.is_own_turn():
            self.put(self.opponent.answer(self.moves))

    def play(self, words):
        if self.end:
            raise Wrong("the game is over; undo goes back, and quit ends")
        found_points = points(words, self.first)
        if len(found_points) != 1:
            raise Wrong(f"one move at a time; {HELP}")
        self.put(found_points[0])
        self.answer()

    def undo(self):
        """Takes back the player's last move, and the answer to it, if there is one."""
        least = 0 if not self.opponent or self.first.side() == self.own else 1
        if len(self.moves) <= least:
            raise Wrong("no move of yours can be taken back")
        self.moves.pop()
        while not self.is_own_turn():
            self.moves.pop()
        self.end = ""

    def listed(self):
        """The moves, as players write them."""
        names = [named(point, self.first.height) for point in self.moves]
        return " ".join(f"{number}. {name}" for number, name in enumerate(names, 1)) or "no move yet"

    def hint(self):
        """What the program finds for the side to move."""
        if self.end:
            return "The game is over."
        position = self.position()
        name = lambda point: named(point, position.height)
        for command, bound, words in (("fours", FOURS, "by fours"), ("solve", THREATS, "by threats")):
            table = found(command, position, *bound)
            if isinstance(table, Table):
                return f"{position.side().capitalize()} has a win in {counted(table.moves)} {words}: {name(table.root().attack)}."
        none = f"No win by threats is found within {counted(THREATS[0])}"
        told, status = answered(["defend", *HOLDING], position.text())
        if told.startswith("renju-table"):
            return f"{none}, and no move holds against fours."
        held = [name(points(line, position)[0]) for line in told.splitlines()[1:]]
        legal = len(position.empties()) - len(position.fouls())
        if status != 0 or len(held) == legal:
            return f"{none}."
        return f"{none}. Against fours {'holds' if len(held) == 1 else 'hold'} {' '.join(held)}."


def first_of(given):
    """What FILE holds: a table, or the position at which the game begins."""
    if given.file == "-":
        raise Wrong("moves come from standard input, so that FILE can't be -")
    data = bytes_of(given.file)
    if data.startswith((b"renju-table", b"renju-book")):
        return of_table(read(data), given)
    if given.entry is not None:
        raise Wrong(f"{given.file} is no book, and has no entry {given.entry}")
    position = understood(data, given.rule and rule_of(given.rule), given.size and size_of(given.size))
    moves = re.search(rb"^renju-game 1\n(?:.*\n)*moves(.*)\n", data)
    for point in points(moves.group(1).decode(), position) if moves else []:
        position = position.after(point)
    return position.lawful()


def of_table(table, given):
    """The table in FILE, or an entry of its book."""
    for word in ("rule", "size", "white", "black", "two"):
        if getattr(given, word):
            raise Wrong(f"--{word} doesn't go together with {given.file}, whose table says it: the brain plays the side that wins")
    if isinstance(table, Book):
        return table.table(given.entry or 1)
    if given.entry is not None:
        raise Wrong(f"{given.file} is a table, and has no entry {given.entry}")
    return table


def begun(given):
    """A game, in which it is the player's turn."""
    if given.file:
        start = first_of(given)
    else:
        start = Position(rule_of(given.rule or "freestyle"), *size_of(given.size or "15"))
    table = start if isinstance(start, Table) else None
    first = table.position if table else start
    if given.two:
        return Game(first, None, None)
    own = "white" if given.white else "black" if given.black or not given.file else first.side()
    if table:
        own = other(table.attacker())
        game = Game(first, own, Follower(table) if table.start else Opponent(first, True, [given.file]))
    else:
        game = Game(first, own, Opponent(first, own != first.side(), []))
    game.answer()
    return game


def obey(game, line):
    """Does what a line says. False ends."""
    word, _, rest = line.partition(" ")
    rest = rest.strip()
    if word in ("quit", "exit", "end"):
        return False
    if word in ("help", "?"):
        print(HELP)
        return True
    if word in ("moves", "hint"):
        print(game.listed() if word == "moves" else game.hint())
        return True
    if word == "save":
        if not rest:
            raise Wrong("save FILE names the file")
        write(rest, game_text(game.first, game.moves))
        print(f"The game is in {rest}.")
        return True
    if word == "undo":
        game.undo()
    elif word == "picture":
        draw(game, rest or "game.svg")
    elif line:
        game.play(line)
    game.show()
    return True


def draw(game, path):
    """Draws the board, over a picture of this script at most."""
    drawn = picture(game.first, words_of(["--play", " ".join(map(spelled, game.moves))]), "play.py")
    write(path, drawn, lambda there: 'data-of="play.py"' in there.split("\n", 1)[0])
    print(f"The board is drawn in {path}.")


def main():
    words = argparse.ArgumentParser(description=__doc__, formatter_class=argparse.RawDescriptionHelpFormatter)
    words.add_argument("--rule", help="freestyle, exact or renju"), words.add_argument("--size", help="N or W,H")
    sides = words.add_mutually_exclusive_group()
    for word in ("white", "black", "two"):
        sides.add_argument(f"--{word}", action="store_true")
    words.add_argument("--entry", type=int, metavar="N", help="an entry of a book"), words.add_argument("file", nargs="?", metavar="FILE")
    given = words.parse_args()
    if given.entry is not None and not given.file:
        raise Wrong("--entry is of a book")
    if sys.stdin is None:
        raise Wrong("standard input is closed")
    sys.stdin.reconfigure(errors="replace")
    game = begun(given)
    game.show()
    goes_on = True
    while goes_on:
        try:
            line = input("> " if sys.stdin.isatty() else "").strip()
        except EOFError:
            break
        try:
            goes_on = obey(game, line)
        except Wrong as error:
            print(error)
    return game.opponent.end() if game.opponent else 0


if __name__ == "__main__":
    saying(main)
