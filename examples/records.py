"""Games as managers and people write them down, read into one form.

A record is a log of examples/manager.py, one or many `renju-game` texts, a record of Piskvork (.psq), or the moves of one game as
examples/position.py takes them. Lines `rule RULE` and `size N` may stand in a log or before moves, and a line `opening h8 i9` says
with which moves the games after it begin. A list of games has a game a line, whose moves a number alone may stand before.
"""
import re
import sys
from dataclasses import dataclass
from pathlib import Path

from boards import Position, Wrong, game_text, headed, other, read_rule, read_size, read_stones, point_in, SIDES
from pictures import points
from position import game_in, rule_of, size_of

# A game of examples/manager.py, with what is said of its end; who plays it; and an end that is told with its number of moves.
LOGGED = re.compile(r"(game \d+): ([^:]*): (.*)")
PLAYERS = re.compile(r"game \d+: black is .*, white is .*")
END = re.compile(r"(?:(black|white) wins|a draw)(:.*)? after (\d+) moves", re.S)
# A record of Piskvork: its head, and a move with its milliseconds. Its columns and rows are counted from 1.
PISKVORK = re.compile(r"Piskvorky (\d+)x(\d+)\b.*")
PISKVORK_MOVE = re.compile(r"(\d+),(\d+),-?\d+")
GAME_HEAD = "renju-game 1"
# The first words of lines that say something of the games after them.
HEADS = ("rule", "size", "opening")
# A number alone before the moves of a game: that of the game, or how many moves were its opening.
ALONE = re.compile(r"^\d+\s+(?!,)")


@dataclass
class Record:
    """A game: its name in the record, the position at which it begins, its moves, and what the record says of its end."""

    name: str
    first: Position
    moves: list
    said: str = ""

    def text(self):
        return game_text(self.first, self.moves)

    def differs(self, verdict):
        """Whether the record says another end than a verdict of `referee`, or another number of moves."""
        told = END.fullmatch(self.said)
        if not told:
            return False
        winner, is_broken_off, count = told.groups()
        if int(count) != len(self.moves):
            return True
        return not is_broken_off and (f"{winner} wins" if winner else "a draw") != self.end_of(verdict)

    def end_of(self, verdict):
        """How a verdict says that a game ended, in a log's words, or nothing."""
        word, *rest = verdict.partition(",")[0].split()
        if word == "won":
            return f"{rest[0]} wins"
        if word == "foul":
            mover = self.first.side() if int(rest[1]) % 2 else other(self.first.side())
            return f"{other(mover)} wins"
        return "a draw" if word == "drawn" else ""


def bytes_of(path):
    """The bytes of a file, or of standard input where no path or `-` is given."""
    try:
        return Path(path).read_bytes() if path and path != "-" else sys.stdin.buffer.read()
    except OSError as error:
        raise Wrong(f"{path} cannot be read: {error.strerror}")


def records_in(data, rule=None, size=None, opening="", first=None, is_list=False):
    """The games of a record. A rule, a size, an opening and a first position that are given go before those of the record."""
    text = data.decode("utf-8-sig", "replace")
    if text.startswith(GAME_HEAD):
        return list(of_texts(text))
    lines = [line.strip() for line in re.split(r"\r\n|\r|\n", text)]
    if is_list:
        return list(Log(rule, size, opening, first).games(lines))
    if lines and PISKVORK.fullmatch(lines[0]):
        return [of_piskvork(lines, rule, opening, first)]
    return Log(rule, size, opening, first).records(lines)


def began(board, opening, first=None):
    """The position after an opening, from the empty board or from a position."""
    position = first or board
    for point in points(opening, position):
        position = position.after(point)
    return position.lawful()


class Log:
    """The lines of a manager's log, or of one game."""

    def __init__(self, rule, size, opening, first):
        self.given = (rule, size, opening)
        self.rule, self.size, self.opening, self.first = rule, size, opening, first
        self.others = []

    def records(self, lines):
        found = [record for record in map(self.line, lines) if record]
        try:
            board, moves = game_in(self.others, self.rule, self.size)
        except Wrong as error:
            raise Wrong(f"{error}; where each line is a game, --list says so" if len(lines) > 2 and not found else error)
        if found and moves:
            raise Wrong("moves stand outside the games of the log")
        return found or [Record("game", self.began(), moves)]

    def games(self, lines):
        """The records of a list of games, a game a line."""
        count = 0
        for line in lines:
            if line.partition(" ")[0] in HEADS:
                self.line(line)
            elif line and not line.startswith("#"):
                count += 1
                try:
                    yield Record(f"game {count}", self.began(), points(ALONE.sub("", line), self.board()))
                except Wrong as error:
                    raise Wrong(f"game {count}: {error}")

    def line(self, line):
        """The record of a line that has a game."""
        word, _, rest = line.partition(" ")
        logged = LOGGED.fullmatch(line)
        if PLAYERS.fullmatch(line):
            return None
        if logged:
            name, words, said = logged.groups()
            return Record(name, self.began(), points(words, self.board()), said)
        # What is given goes before what the log says.
        if word == "rule":
            self.rule = self.given[0] or rule_of(rest)
        elif word == "size":
            self.size = self.given[1] or size_of(rest)
        elif word == "opening":
            self.opening = self.given[2] or rest
        else:
            self.others.append(line)
        return None

    def board(self):
        return Position(self.rule or "freestyle", *(self.size or (15, 15)))

    def began(self):
        return began(self.board(), self.opening, self.first)


def of_texts(text):
    """The games of game texts, one after the other."""
    for count, part in enumerate(re.split(rf"^(?={GAME_HEAD}$)", text, flags=re.M)[1:], 1):
        name = f"game {count}"
        _, *lines = part.splitlines()
        try:
            if len(lines) != 5:
                raise Wrong("after its first line stand its rule, its size, both sides' stones and its moves, a line each")
            position = Position(read_rule(lines[0]), *read_size(lines[1]))
            for side, line in zip(SIDES, lines[2:4]):
                setattr(position, side, read_stones(line, side, position))
            yield Record(name, position.lawful(), [point_in(word, position) for word in headed(lines[4], "moves")])
        except Wrong as error:
            raise Wrong(f"{name}: {error}")


def of_piskvork(lines, rule, opening, first):
    """The game of a record of Piskvork, whose rule it doesn't tell."""
    width, height = map(int, PISKVORK.fullmatch(lines[0]).groups())
    board, moves = Position(rule or "freestyle", width, height), []
    for line in lines[1:]:
        found = PISKVORK_MOVE.fullmatch(line)
        if not found:
            # The names of the brains follow.
            break
        moves.append((int(found.group(1)) - 1, int(found.group(2)) - 1))
    return Record("game", began(board, opening, first), moves)
