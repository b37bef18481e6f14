#!/usr/bin/env python3
"""Writes the one spelling of a position, from a file that the words name or from standard input, and says on standard error what
was wrong with a text that isn't spelled so, and whose turn it is.

    position.py [--rule RULE] [--size N or W,H] [--at X,Y] [--image SYMMETRY] [FILE]

Without a FILE, or of -, it reads standard input. It takes a text whose stones stand in any order, with h8 as well as 7,7, with tabs,
blank lines or carriage returns; a diagram of X, O and dots; and a game as a list of its moves, Black's first. Lines `rule RULE` and
`size N` may stand before each. Without them the rule is freestyle, and the size that of the diagram, or 15. --at is the point of a
smaller diagram's upper left corner.

--image turns the position, as `renju image` turns a table: quarter is a quarter to the right, and flip-x changes left and right.
SYMMETRY is one of identity, half, flip-x, flip-y, quarter, three-quarter, diagonal and antidiagonal.
"""
import argparse
import re
import sys

sys.dont_write_bytecode = True

from boards import LEAST, MOST, RULES, SIDES, Position, Wrong, bytes_of, named, point_named, read, saying, spelled, tell

BLACK, WHITE, EMPTY = "Xx#●", "Oo○0", ".+*-_·"
SIGN = f"[{re.escape(BLACK + WHITE + EMPTY)}]"
# A row of a diagram, with or without spaces between its signs, and with the name of the row at either end.
ROW = re.compile(rf"(?:\d+\s+)?({SIGN}(?:\s*{SIGN})+)(?:\s+(?:row\s+)?\d+)?")
COLUMNS = re.compile(r"(?:columns?\s+)?(?:[a-zA-Z]{1,2}|\d+)(?:\s+(?:[a-zA-Z]{1,2}|\d+)){4,}")
MOVE = re.compile(r"\(?(\d+)\s*,\s*(\d+)\)?|([a-zA-Z]{1,2}\d{1,2})(?!\d)")
# A move, or the number that stands before one.
NUMBERED = re.compile(rf"(?P<move>{MOVE.pattern})|\b\d+\s*[.:)](?!\d)")
# Where a symmetry takes a point of a board whose last column and last row are given; the second four exchange columns and rows.
IMAGES = {
    "identity": lambda x, y, right, last: (x, y),
    "half": lambda x, y, right, last: (right - x, last - y),
    "flip-x": lambda x, y, right, last: (right - x, y),
    "flip-y": lambda x, y, right, last: (x, last - y),
    "quarter": lambda x, y, right, last: (last - y, x),
    "three-quarter": lambda x, y, right, last: (y, right - x),
    "diagonal": lambda x, y, right, last: (y, x),
    "antidiagonal": lambda x, y, right, last: (last - y, right - x),
}
EXCHANGING = ("quarter", "three-quarter", "diagonal", "antidiagonal")


class Draft:
    """What was read of a position so far."""

    def __init__(self, rule, size, corner):
        self.rule, self.size, self.corner = rule, size, corner
        self.stones = {side: None for side in SIDES}
        self.rows, self.moves = [], []

    def line(self, line):
        """Takes a line. False says that no further line is of the position."""
        word, _, rest = line.partition(" ")
        key = word.lower().rstrip(":")
        if key in ("moves", "nodes"):
            return False
        if key == "rule":
            self.rule = self.rule or rule_of(rest)
        elif key == "size":
            self.size = self.size or size_of(rest)
        elif key in SIDES:
            self.stones[key] = [*(self.stones[key] or []), *points_of(rest)]
        elif ROW.fullmatch(line):
            self.rows.append(re.sub(r"\s", "", ROW.fullmatch(line).group(1)))
        elif not key.startswith("renju-") and not is_names(line):
            self.moves += points_of(without_numbers(line))
        return True

    def position(self):
        forms = [any(it is not None for it in self.stones.values()), bool(self.rows), bool(self.moves)]
        if sum(forms) > 1:
            raise Wrong("it is a list of stones, a diagram and a list of moves at once; take one of them")
        of_rows = self.size_of_rows()
        width, height = on_range(self.size or of_rows or (15, 15))
        position = Position(self.rule or "freestyle", width, height)
        if self.rows:
            return self.of_rows(position)
        if self.moves:
            return self.of_moves(position)
        return self.of_stones(position)

    def size_of_rows(self):
        for place, row in enumerate(self.rows, 1):
            if len(row) != len(self.rows[0]):
                raise Wrong(f"line {place} of the diagram has {len(row)} points, and its first line has {len(self.rows[0])}")
        return (len(self.rows[0]), len(self.rows)) if self.rows and not self.corner else None

    def of_rows(self, position):
        width = len(self.rows[0])
        is_whole = (width, len(self.rows)) == (position.width, position.height)
        if not is_whole and not self.corner:
            raise Wrong(f"the diagram has {width} columns and {len(self.rows)} rows: say by --at X,Y where its upper left corner is")
        left, top = self.corner or (0, 0)
        for y, row in enumerate(self.rows):
            for x, sign in enumerate(row):
                if sign in BLACK + WHITE:
                    add(position, "black" if sign in BLACK else "white", (left + x, top + y))
        return position

    def of_moves(self, position):
        for count, word in enumerate(self.moves, 1):
            if position.won_at():
                raise Wrong(f"move {count - 1} wins, and nothing comes after it")
            try:
                position = position.after(point_of(word, position))
            except Wrong as error:
                raise Wrong(f"move {count}: {error}")
        return position

    def of_stones(self, position):
        if self.stones == {side: None for side in SIDES}:
            raise Wrong("there are no stones in it, no diagram and no moves; an empty board is black and white with nothing after them")
        for side in SIDES:
            for word in self.stones[side] or []:
                add(position, side, point_of(word, position))
        return position


def add(position, side, point):
    if not position.has(point):
        raise Wrong(f"{spelled(point)} is off {position.board()}")
    if point in position.stones():
        raise Wrong(f"{spelled(point)} ({named(point, position.height)}) is given twice")
    getattr(position, side).append(point)


def is_names(line):
    """Whether a line has the names of columns alone."""
    return bool(COLUMNS.fullmatch(line)) and not re.search(r"[a-zA-Z]\d", line)


def rule_of(word):
    word = word.strip().lower()
    if word not in RULES:
        raise Wrong(f"{word or 'nothing'} is no rule: it is freestyle, exact or renju")
    return word


def size_of(word):
    found = re.fullmatch(r"\s*(\d{1,3})(?:\s*[,x]\s*(\d{1,3}))?\s*", word)
    if not found:
        raise Wrong(f"{word.strip() or 'nothing'} is no size, as 15 or 15,19 is")
    return on_range((int(found.group(1)), int(found.group(2) or found.group(1))))


def on_range(size):
    """The size of a board, which has to be one."""
    if not all(LEAST <= side <= MOST for side in size):
        raise Wrong(f"a board has {LEAST} to {MOST} columns and rows, and not {size[0]} by {size[1]}")
    return size


def corner_of(word):
    if not re.fullmatch(r"\d{1,2},\d{1,2}", word):
        raise Wrong(f"{word} is no upper left corner, as 3,5 is")
    return tuple(map(int, word.split(",")))


def without_numbers(text):
    """A list of moves without their numbers, as 1. or 1)."""
    return NUMBERED.sub(lambda it: it.group("move") or " ", text)


def points_of(text):
    """The words of points in a text, in which nothing else may stand."""
    left = re.sub(r"[\s;,]", "", MOVE.sub("", text))
    if left:
        raise Wrong(f"in '{text.strip()}' stands '{left[:20]}', which is no point, as h8 or 7,7 is")
    return [found.group(3) or f"{int(found.group(1))},{int(found.group(2))}" for found in MOVE.finditer(text)]


def points(words, position):
    """The points of a list of words, as 7,7 or h8."""
    middle = named((position.width // 2, position.height // 2), position.height)
    wrong = lambda word: Wrong(f"{word} is no point of the board, as 7,7 or {middle} is")
    words = without_numbers(words)
    left = MOVE.sub(" ", words).replace(";", " ").replace(",", " ").split()
    if left:
        raise wrong(left[0])
    found = []
    for move in MOVE.finditer(words):
        point = point_named(move.group(3), position.height) if move.group(3) else (int(move.group(1)), int(move.group(2)))
        if not point or not position.has(point):
            raise wrong(move.group().strip("()"))
        found.append(point)
    return found


def point_of(word, position):
    point = point_named(word, position.height) if word[0].isalpha() else tuple(map(int, word.split(",")))
    if not point or not position.has(point):
        raise Wrong(f"{word} is off {position.board()}")
    return point


def understood(data, rule=None, size=None, corner=None):
    """The position that is meant."""
    text = data.decode("utf-16" if data[:2] in (b"\xff\xfe", b"\xfe\xff") else "utf-8-sig", "replace")
    draft = Draft(rule, size, corner)
    for line in re.split(r"\r\n|\r|\n", text):
        line = " ".join(line.split())
        if line and not draft.line(line):
            break
    return draft.position().lawful()


def game_in(lines, rule=None, size=None):
    """The empty board and the moves of a game, from lines with its rule, its size and a list of its moves."""
    draft = Draft(rule, size, None)
    for line in lines:
        draft.line(" ".join(line.split()))
    if draft.rows or any(stones is not None for stones in draft.stones.values()):
        raise Wrong("a game is a list of its moves; a diagram and lines of stones are none")
    board = Position(draft.rule or "freestyle", *(draft.size or (15, 15)))
    return board, [point_of(word, board) for word in draft.moves]


def image(position, symmetry):
    """The position on another side of its board."""
    if symmetry not in IMAGES:
        raise Wrong(f"{symmetry} is no symmetry: it is {', '.join(IMAGES)}")
    if symmetry in EXCHANGING and position.width != position.height:
        raise Wrong(f"{symmetry} doesn't fit a board of {position.width} by {position.height}: it exchanges columns and rows")
    move = lambda point: IMAGES[symmetry](*point, position.width - 1, position.height - 1)
    return Position(position.rule, position.width, position.height, *(list(map(move, getattr(position, side))) for side in SIDES))


def wrong_with(data):
    """What is wrong with a text that is meant to be a position's one spelling, in words, or nothing."""
    try:
        return None if isinstance(read(data), Position) else "line 1: it is a table; its position is written"
    except Wrong as error:
        return str(error)


def main():
    words = argparse.ArgumentParser(description=__doc__, formatter_class=argparse.RawDescriptionHelpFormatter)
    words.add_argument("--rule"), words.add_argument("--size"), words.add_argument("--at"), words.add_argument("file", nargs="?")
    words.add_argument("--image", metavar="SYMMETRY", help="turn the position")
    given = words.parse_args()
    data = bytes_of(given.file)
    if b"renju-" in data:
        tell(f"position.py: {wrong_with(data) or 'the text is spelled as it has to be'}")
    options = (given.rule and rule_of(given.rule), given.size and size_of(given.size), given.at and corner_of(given.at))
    position = understood(data, *options)
    position = image(position, given.image) if given.image else position
    tell(f"position.py: {position.to_move()}")
    sys.stdout.write(position.text())


if __name__ == "__main__":
    saying(main)
