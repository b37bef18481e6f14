#!/usr/bin/env python3
"""A sample manager of games: two brains play each other, and it judges each move by the rule.

    manager.py [--rule RULE] [--size N or W,H] [--games N] [--opening 'X,Y ..' | --openings FILE] [--seconds S] [--remarks]
               [BRAIN [BRAIN]]

BRAIN is the words of a brain, as `./pbrain-renju` or 'python3 other.py'; without one it is the brain of `renju`. The brains change
sides from game to game. --openings has an opening a line; each is played by both in turn as Black, and without --games all are. It
sends what managers send: START or RECTSTART, RESTART before a further game, INFO lines with times and the rule, BEGIN, TURN, or
BOARD where moves of an opening stand already, ABOUT, TAKEBACK after a game, and END. MESSAGE and DEBUG lines, and UNKNOWN or ERROR
in answer to INFO, are passed over; --remarks shows them on standard error.

It prints the rule, the size, and for each game who plays, the opening, and a line with the moves and how it ended, which
examples/judge.py reads. A brain that answers no move of the board, plays a foul, answers too late or ends has lost its game; what
it started is ended, and it is started anew for the next game. The status is 1 where a brain broke a rule of the protocol.
"""
import argparse
import re
import shlex
import sys
import time
from itertools import cycle, islice
from pathlib import Path

sys.dont_write_bytecode = True

from boards import PROGRAM, SIDES, Position, Wrong, named, other, saying, spelled
from brains import RULE_NUMBERS, Brain
from pictures import points
from position import rule_of, size_of

# How the brain of this repository names itself: it is held to more of the protocol than others, who may not know all of it.
OWN_NAME = 'name="renju"'


class Lost(Exception):
    """Why a brain has lost that broke a rule."""


class Player:
    """The words of a brain, the brain while it runs, and what it calls itself."""

    def __init__(self, words, seconds, shows_remarks):
        self.words, self.seconds, self.shows_remarks = words, seconds, shows_remarks
        self.brain, self.about, self.has_kept = None, "", True

    def name(self):
        """Its name of its own, or its words."""
        found = re.search(r'name="([^"]*)"', self.about)
        return re.sub(r"[:,\s]+", " ", found.group(1) if found else shlex.join(self.words)).strip()

    def remark(self, line):
        if self.shows_remarks:
            print(f"{self.name()}: {line}", file=sys.stderr)

    def begin(self, position, games):
        """Has a new board, and is told the times and the rule."""
        is_new = not self.brain
        if is_new:
            self.start()
        square = position.width == position.height
        first = f"START {position.width}" if square else f"RECTSTART {position.width},{position.height}"
        answer = self.ask(first if is_new else "RESTART")
        if not is_new and answer != "OK":
            # Who doesn't know RESTART is started anew.
            self.end()
            self.start()
            answer = self.ask(first)
        if answer != "OK":
            raise Lost(f"its answer to a new board is {answer}")
        milliseconds = 1000 * self.seconds
        self.send(f"INFO timeout_turn {milliseconds}", f"INFO timeout_match {200 * milliseconds}", "INFO max_memory 83886080")
        self.send(f"INFO game_type {1 if games == 1 else 2}", f"INFO rule {RULE_NUMBERS[position.rule]}", "INFO folder .")

    def start(self):
        self.brain = Brain(self.words, self.seconds, self.remark)
        self.about = self.ask("ABOUT")

    def ask(self, *lines):
        """Its answer. A brain that gives none has lost, and is ended."""
        return self.or_lost(lambda: self.brain.ask(*lines))

    def send(self, *lines):
        self.or_lost(lambda: self.brain.send(*lines))

    def or_lost(self, call):
        try:
            return call()
        except Wrong as error:
            raise Lost(str(error))

    def lose(self):
        """Ends a brain that broke a rule, whatever it does."""
        self.has_kept = False
        if self.brain:
            self.brain.kill()
            self.brain = None

    def end(self):
        """Asks the brain to end."""
        if self.brain:
            self.has_kept = self.brain.end() == 0 and self.has_kept
            self.brain = None

    def move(self, position, last, began):
        """Its move, asked for by the lines that fit: BOARD where stones stand that it wasn't told, BEGIN, or TURN."""
        self.send(f"INFO time_left {max(200_000 * self.seconds - int(1000 * (time.monotonic() - began)), 0)}")
        if last:
            answer = self.ask(f"TURN {spelled(last)}")
        elif not position.stones():
            answer = self.ask("BEGIN")
        else:
            own = position.side()
            answer = self.ask("BOARD", *(f"{spelled(point)},{1 if side == own else 2}" for point, side in position.stones().items()), "DONE")
        try:
            (point,) = points(answer, position)
            position.after(point)
        except (Wrong, ValueError):
            raise Lost(f"its answer is {answer}")
        if point in position.fouls():
            raise Lost(f"{named(point, position.height)} is a {position.fouls()[point]}")
        return point


def played(players, position, games):
    """The moves of a game, and how it ended."""
    began, moves, told, side = time.monotonic(), [], dict.fromkeys(SIDES, False), ""
    try:
        for side in SIDES:
            players[side].begin(position, games)
        while True:
            side = position.side()
            # Who is told all moves so far needs the last one alone.
            point = players[side].move(position, moves[-1] if told[side] or len(position.stones()) == len(moves) == 1 else None, began)
            told[side] = True
            moves.append(point)
            position = position.after(point)
            end = ended(position, side)
            if end:
                side = other(side)
                close(players[side], moves, told[side], "ERROR game drawn" if end == "a draw" else "ERROR game lost")
                return moves, end
    except Lost as error:
        players[side].lose()
        # After its end a game is lost for nobody: what the loser says there is said apart.
        return moves, ended(position, other(side)) or f"{other(side)} wins: {error}"


def ended(position, mover):
    """How the last move ended the game, or nothing."""
    if position.won_at():
        return f"{mover} wins"
    return "a draw" if len(position.stones()) == position.width * position.height else ""


def close(loser, moves, is_told, wanted):
    """Tells the brain of this repository the last move, which it cannot answer, and takes moves back."""
    if not is_told or OWN_NAME not in loser.about:
        return
    answer = loser.ask(f"TURN {spelled(moves[-1])}")
    backs = [loser.ask(f"TAKEBACK {spelled(point)}") for point in moves[: -3 : -1]]
    if answer != wanted or set(backs) != {"OK"}:
        loser.has_kept = False
        print(f"{loser.name()} answers its last move by {answer}, and TAKEBACK by {', '.join(backs)}", file=sys.stderr)


def openings_of(given, board):
    """The openings, each as its points and the position after them."""
    lines = [given.opening]
    if given.openings:
        try:
            lines = [line for line in Path(given.openings).read_text().splitlines() if line.strip() and not line.startswith("#")]
        except (OSError, UnicodeDecodeError) as error:
            raise Wrong(f"{given.openings} cannot be read: {getattr(error, 'strerror', '') or error}")
        if not lines:
            raise Wrong(f"{given.openings} has no opening: a line has its points, as h8 i9 or 7,7 8,6")
    for line in lines:
        moves, first = points(line, board), board
        for point in moves:
            first = first.after(point)
        yield moves, first.lawful()


def words_of(given):
    words = argparse.ArgumentParser(description=__doc__, formatter_class=argparse.RawDescriptionHelpFormatter)
    words.add_argument("--rule", default="freestyle"), words.add_argument("--size", default="15")
    words.add_argument("--opening", default=""), words.add_argument("--openings", metavar="FILE"), words.add_argument("--remarks", action="store_true")
    words.add_argument("--games", type=int), words.add_argument("--seconds", type=int, default=30), words.add_argument("brains", nargs="*")
    found = words.parse_args(given)
    if len(found.brains) > 2:
        raise Wrong("two brains play")
    if found.opening and found.openings:
        raise Wrong("--opening is one opening, and --openings a list of them: take one of these")
    if found.seconds < 1 or found.games is not None and found.games < 1:
        raise Wrong("seconds and games are 1 or more")
    return found


def main():
    given = words_of(sys.argv[1:])
    board = Position(rule_of(given.rule), *size_of(given.size))
    openings = list(openings_of(given, board))
    games = given.games or (2 * len(openings) if given.openings else 1)
    commands = [shlex.split(brain) for brain in given.brains] or [[PROGRAM, "brain"]]
    pair = [Player(command, given.seconds, given.remarks) for command in (2 * commands)[:2]]
    # Each opening is played twice, by either brain as Black.
    each = islice(cycle(it for it in openings for _ in range(2)), games)
    try:
        for number, (moves, first) in enumerate(each, 1):
            play(number, games, dict(zip(SIDES, pair if number % 2 else pair[::-1])), moves, first)
    finally:
        for player in pair:
            player.end()
    return 0 if all(player.has_kept for player in pair) else 1


def play(number, games, players, opening, first):
    """Plays a game, and prints its lines."""
    moves, end = played(players, first, games)
    if number == 1:
        print(f"rule {first.rule}\nsize {first.size()}")
    print(f"game {number}: black is {players['black'].name()}, white is {players['white'].name()}")
    if opening:
        print(" ".join(["opening", *(named(point, first.height) for point in opening)]))
    print(f"game {number}: {' '.join(named(point, first.height) for point in moves)}: {end} after {len(moves)} moves", flush=True)


if __name__ == "__main__":
    saying(main)
