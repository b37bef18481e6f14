#!/usr/bin/env python3
"""The game `gomoku` of the BSD games (Debian: bsdgames) as a brain of the Gomocup protocol, as an opponent in a sample of games.

    manager.py --size 19 './pbrain-renju' 'examples/bsd_gomoku.py'

It plays freestyle on 19 by 19 alone. The game draws its board on a terminal, so it is run on one of its own, a VT52, and its moves
are read off the board. It may think for longer than a manager waits. GOMOKU in the environment names another place of it.
"""
import argparse
import os
import pty
import re
import select
import shutil
import signal
import sys
import tempfile
import time
from itertools import zip_longest

COLUMNS = "ABCDEFGHJKLMNOPQRST"
SIDE = len(COLUMNS)
# Where the board's points stand on the screen, and what stands on one that has a stone.
TOP, LEFT, STONES = 1, 3, "*XO"
SECONDS = 60


class Screen:
    """The characters of a VT52."""

    def __init__(self, width=80, height=24):
        self.rows, self.x, self.y, self.kept = [width * [" "] for _ in range(height)], 0, 0, ""

    def show(self, text):
        """Takes what a program writes. An escape sequence that isn't whole yet waits for the rest."""
        text, self.kept = self.kept + text, ""
        place = 0
        while place < len(text):
            found = re.compile(r"\x1b(Y..|[^Y])|\x1b.{0,2}\Z|[^\x1b]", re.S).match(text, place)
            if found.group().startswith("\x1b") and not found.group(1):
                self.kept = found.group()
                return
            self.take(found.group(1) or "", found.group())
            place = found.end()

    def take(self, escape, sign):
        """Takes an escape sequence, without the escape, or else one character."""
        if escape.startswith("Y"):
            self.y, self.x = ord(escape[1]) - 32, ord(escape[2]) - 32
        elif escape == "H":
            self.x = self.y = 0
        elif escape in ("A", "B", "C", "D"):
            self.x += {"C": 1, "D": -1}.get(escape, 0)
            self.y += {"A": -1, "B": 1}.get(escape, 0)
        elif escape in ("J", "K"):
            self.rows[self.y][self.x :] = (len(self.rows[self.y]) - self.x) * [" "]
            for row in self.rows[self.y + 1 :] if escape == "J" else []:
                row[:] = len(row) * [" "]
        elif sign == "\r":
            self.x = 0
        elif sign == "\n":
            self.y += 1
        elif sign == "\b":
            self.x -= 1
        elif not escape and sign.isprintable():
            if self.y < len(self.rows) and self.x < len(self.rows[0]):
                self.rows[self.y][self.x] = sign
            self.x += 1

    def stones(self):
        """The points with a stone, each as a column and a row from the upper left corner."""
        return {(x, y) for y in range(SIDE) for x in range(SIDE) if self.rows[TOP + y][LEFT + 2 * x] in STONES}


class Game:
    """A running game, and the stones that stand on its board."""

    def __init__(self, program, opponent, moves=()):
        """A game against an opponent who plays `black` or `white`, or who is to move after these moves."""
        self.screen, self.known = Screen(), set(moves)
        self.file = tempfile.NamedTemporaryFile("w", suffix=".gomoku")
        self.file.write("".join(f"{spelled(move)}\n" for move in moves))
        self.file.flush()
        self.child, self.terminal = pty.fork()
        if self.child == 0:
            os.environ.update(TERM="vt52", LINES="24", COLUMNS="80")
            os.execv(program, [program, *([self.file.name] if moves else [])])
        if moves:
            self.wait(lambda: "move?" in self.text())
        else:
            self.wait(lambda: "black or white?" in self.text())
            self.type(opponent)

    def text(self):
        return "\n".join("".join(row) for row in self.screen.rows)

    def type(self, line):
        os.write(self.terminal, f"{line}\n".encode())

    def wait(self, holds):
        """Reads what it writes until this holds, or it has ended."""
        end = time.monotonic() + SECONDS
        while not holds():
            left = end - time.monotonic()
            if left <= 0 or not select.select([self.terminal], [], [], left)[0]:
                raise TimeoutError
            try:
                piece = os.read(self.terminal, 4096)
            except OSError:
                return
            self.screen.show(piece.decode("ascii", "replace"))

    def play(self, move):
        """Plays the opponent's move."""
        self.known.add(move)
        self.type(spelled(move))

    def answer(self):
        """Its next move, or None where the game is over."""
        self.wait(lambda: self.known < self.screen.stones() or "Play again" in self.text())
        new = self.screen.stones() - self.known
        self.known |= new
        return new.pop() if len(new) == 1 else None

    def end(self):
        os.kill(self.child, signal.SIGKILL)
        os.waitpid(self.child, 0)
        os.close(self.terminal)
        self.file.close()


def spelled(point):
    """How the game spells a point: columns without I, and rows from below."""
    return f"{COLUMNS[point[0]]}{SIDE - point[1]}"


class Brain:
    """The lines of a manager, and what is answered."""

    def __init__(self, program):
        self.program, self.game = program, None

    def answer(self, line, following):
        word, _, rest = line.strip().partition(" ")
        call = getattr(self, f"on_{word.lower()}", None)
        return call(rest, following) if call else "UNKNOWN command"

    def on_about(self, _rest, _following):
        return 'name="BSD gomoku", version="bsdgames", author="Ralph Campbell"'

    def on_start(self, rest, _following):
        self.close()
        return "OK" if rest.strip() == str(SIDE) else f"ERROR the board is {SIDE} by {SIDE}"

    def on_restart(self, _rest, _following):
        self.close()
        return "OK"

    def on_info(self, _rest, _following):
        return None

    def on_begin(self, _rest, _following):
        return self.begin(Game(self.program, "white"))

    def on_turn(self, rest, _following):
        point = tuple(map(int, rest.split(",")))
        self.game = self.game or Game(self.program, "black")
        self.game.play(point)
        return self.move()

    def on_board(self, _rest, following):
        """The stones so far, of both sides in turn. The last of the opponent's is played, and answered."""
        own, others = [], []
        for line in following:
            if line.strip() == "DONE":
                break
            x, y, side = map(int, line.split(","))
            (own if side == 1 else others).append((x, y))
        if len(others) not in (len(own), len(own) + 1):
            return "ERROR it is another side's turn"
        is_white = len(others) > len(own)
        first, second = (others, own) if is_white else (own, others)
        moves = [stone for pair in zip_longest(first, second) for stone in pair if stone]
        if not moves:
            return self.on_begin("", ())
        self.close()
        self.game = Game(self.program, "black" if is_white else "white", moves[:-1])
        self.game.play(moves[-1])
        return self.move()

    def begin(self, game):
        self.close()
        self.game = game
        return self.move()

    def move(self):
        point = self.game.answer()
        return f"{point[0]},{point[1]}" if point else "ERROR the game is over"

    def close(self):
        if self.game:
            self.game.end()
            self.game = None


def main():
    argparse.ArgumentParser(description=__doc__, formatter_class=argparse.RawDescriptionHelpFormatter).parse_args()
    program = shutil.which(os.environ.get("GOMOKU", "gomoku"), path=f"{os.environ.get('PATH', '')}:/usr/games")
    if not program:
        sys.exit("bsd_gomoku.py: there is no program gomoku; Debian's package bsdgames has it")
    brain = Brain(program)
    for line in sys.stdin:
        if line.strip() == "END":
            break
        try:
            answer = brain.answer(line, sys.stdin)
        except (ValueError, TimeoutError):
            answer = "ERROR this line has no answer"
        if answer is not None:
            print(answer, flush=True)
    brain.close()


if __name__ == "__main__":
    main()
