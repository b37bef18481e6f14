#!/usr/bin/env python3
"""Runs the built program over a table of cases, and prints those that fail, each in a line that begins with FAILED.

What is wanted was worked out by hand from docs/FORMATS.md and from the rules of play in README.md. The counts of drills and the
moves of the wins by fours in examples/wins were counted by a separately written program. The documents show what the program
prints, and are compared with it. The words name programs to run; without words they are those that `rt ci` leaves, one for each
of its two compilers.
"""
import fcntl
import itertools
import os
import random
import re
import resource
import select
import subprocess
import sys
import tempfile
import termios
import time
from contextlib import contextmanager
from dataclasses import dataclass
from math import perm
from pathlib import Path

TOP = Path(__file__).resolve().parent.parent
sys.path[:0] = [str(TOP / "bench"), str(TOP / "examples")]
sys.dont_write_bytecode = True
from boards import read, spelled
from brains import RULE_NUMBERS
from drill_games import Drill, Numbers
from tables import fillers

BUILT = TOP / "crates" / "renju" / "out"
SECONDS = 20
ENTRIES = 1_000
# Of the large book of docs/FORMATS.md: its nodes, and the bytes of its tables and its own.
BOOK_NODES, BOOK_BYTES = 785, (225_964, 197_121)
SYMMETRIES = ["identity", "half", "flip-x", "flip-y", "quarter", "three-quarter", "diagonal", "antidiagonal"]
MAX_INPUT_BYTES = 16_777_216
MAX_NODES = 1_000_000
USAGE = (
    "usage: renju check WORK, foul, fours DEPTH NODES, threats LENGTH NODES, solve DEPTH NODES, quiet DEPTH NODES, "
    "brain [FILE], drill N, image SYMMETRY, referee [FILE], defend DEPTH NODES, bind FILE .., book WORK, "
    "cover WORK ATTACK FILE .., join ATTACK FILE ..\n"
)


@dataclass
class Case:
    """Words and an input, and the status and the text that are wanted: the text itself, or a pattern where it has a choice.

    Where the words name a file, `file` is what it holds. `seconds` is the time of the processor that the run may take.
    """

    name: str
    words: list
    text: object
    status: int
    output: object
    file: object = None
    seconds: int = SECONDS


def lines(*parts):
    return "".join(f"{part}\n" for part in parts)


def position(rule, size, black, white):
    return lines("renju-position 1", f"rule {rule}", f"size {size}", f"black {black}".rstrip(), f"white {white}".rstrip())


def game(rule, size, black, white, moves):
    return lines("renju-game 1", *position(rule, size, black, white).splitlines()[1:], f"moves {moves}".rstrip())


def table(rule, size, black, white, moves, nodes, start=None):
    head = lines(f"renju-table {2 if start else 1}", *position(rule, size, black, white).splitlines()[1:])
    return head + lines(f"moves {moves}", f"nodes {len(nodes)}", *nodes, *([start] if start else []))


COLLECTION = TOP / "examples" / "wins"
# The rows of its index: a file, a command, a status, and what is in the file.
ROW = re.compile(r"^\| `(\S+\.txt)` \| `(\w+) (\d+) (\d+)` \| (\d+) \| (.+) \|$", re.M)


def example(name):
    return (TOP / "examples" / name).read_text()


# Three stones in a row. Black's 4,7 makes two five points, 3,7 and 8,7, and White can take one of them.
THREE = ("freestyle", 15, "5,7 6,7 7,7", "0,0 2,0 4,0")
THREE_WINS = ["3,7 wins", "8,7 wins", "4,7 rest 0 3,7>1"]
# White wins by 6,3, since Black's only block, 7,3, is an overline.
BLOCK_FOULS = ("renju", 15, "7,0 7,1 7,2 2,3 7,4 7,5", "3,3 4,3 5,3 12,14 14,14")
SIX = (15, "2,7 3,7 5,7 6,7 7,7", "0,0 7,0 14,0 0,14 14,14")
CORNERS = "0,0 14,0 0,14 14,14"
EMPTY = ("freestyle", 15, "", "")
# Black has four stones and is to move: with one end of them free, and with both.
FIVE_ONE = ("freestyle", 15, "4,7 5,7 6,7 7,7", "0,0 2,0 4,0 3,7")
FIVE_TWO = ("freestyle", 15, "4,7 5,7 6,7 7,7", "0,0 2,0 4,0 6,0")
# A board of 5 with no five in a row, in full and with the last stones left out.
FULL_WHITE = "2,0 3,0 0,1 1,1 4,1 2,2 3,2 0,3 1,3 4,3 2,4"
FULL_BLACK = "0,0 1,0 4,0 2,1 3,1 0,2 1,2 4,2 2,3 3,3 0,4 1,4"
FULL = ("freestyle", 5, FULL_BLACK + " 4,4", FULL_WHITE + " 3,4")
ONE_LEFT = ("freestyle", 5, FULL_BLACK, FULL_WHITE + " 3,4")
TWO_LEFT = ("freestyle", 5, FULL_BLACK, FULL_WHITE)
# White has two points left, and Black wins at 4,0.
FOUR_OF_BLACK = ("freestyle", 5, "0,0 1,0 2,0 3,0 2,1 3,1 0,2 4,2 2,3 3,3 0,4 1,4", "0,1 1,1 4,1 1,2 2,2 3,2 0,3 1,3 4,3 2,4 3,4")


def words_without_a_form():
    """The words have no form; the input, which would be accepted, plays no part."""
    text = table(*THREE, 2, THREE_WINS)
    words = [
        [], [""], ["help"], ["--help"], ["-h"], ["--version"], ["Check", "219"], ["CHECK", "219"], ["chec", "219"], ["checks", "219"],
        ["check"], ["check", ""], ["check", "0"], ["check", "007"], ["check", "+1"], ["check", "-1"], ["check", "1.0"], ["check", " 1"],
        ["check", "1 "], ["check", "1e3"], ["check", "1_000"], ["check", "0x10"], ["check", "\u0661"], ["check 219"], ["check", "219", ""],
        ["check", "219", "219"], ["219", "check"], ["check", "--", "219"], ["check", "1000000000001"], ["check", "10000000000000"],
        ["check", "18446744073709551617"], ["check", "1" + 40 * "0"], ["foul", ""], ["foul", "1"], ["fouls"], ["fours"], ["fours", "5"],
        ["fours", "0", "1"], ["fours", "1", "0"], ["fours", "61", "1"], ["fours", "1", "10000001"], ["fours", "05", "3"],
        ["fours", "5", "3", "1"], ["fours", "5,3"], ["fours", "4294967297", "1"], ["fours", "1", "18446744073709551617"],
        ["threats"], ["threats", "1"], ["threats", "0", "1"], ["threats", "31", "1"], ["threats", "1", "0"], ["threats", "1", "10000001"],
        ["threats", "01", "1"], ["threats", "1", "1", "1"], ["threats", "4294967297", "1"], ["threat", "1", "1"], ["Threats", "1", "1"],
        ["solve"], ["solve", "5"], ["solve", "0", "1"], ["solve", "61", "1"], ["solve", "1", "0"], ["solve", "1", "10000001"],
        ["solve", "05", "3"],
        ["solve", "5", "3", "1"], ["solve", "4294967297", "1"], ["Solve", "5", "3"],
        ["quiet"], ["quiet", "5"], ["quiet", "0", "1"], ["quiet", "61", "1"], ["quiet", "1", "0"], ["quiet", "1", "10000001"],
        ["quiet", "05", "3"], ["quiet", "5", "3", "1"], ["quiet", "4294967297", "1"], ["Quiet", "5", "3"], ["quiets", "5", "3"],
        ["drill"], ["drill", ""], ["drill", "00"], ["drill", "01"], ["drill", "-1"], ["drill", "1000000"], ["drill", "0", "0"], ["drill 0"],
        ["Drill", "0"],
        ["image"], ["image", ""], ["image", "0"], ["image", "Half"], ["image", "flip"], ["image", "flipx"], ["image", "half", "half"],
        ["image half"], ["Image", "half"],
        ["defend"], ["defend", "2"], ["defend", "0", "1"], ["defend", "61", "1"], ["defend", "2", "0"], ["defend", "2", "10000001"],
        ["defend", "02", "4"],
        ["defend", "2", "04"], ["defend", "2", "4", "1"], ["defend", "4294967298", "4"], ["defend 2 4"], ["Defend", "2", "4"],
        ["defends", "2", "4"],
        ["bind"], ["bind", ""], ["bind", "t", ""], ["bind", "", "t"], ["bind", *64 * ["t"], "t"], ["bind t"], ["Bind", "t"], ["binds", "t"],
        [b"bind", b"t", b"\xff"],
        ["book"], ["book", ""], ["book", "0"], ["book", "007"], ["book", "1000000000001"], ["book", "1", "1"], ["book 1"], ["Book", "1"],
        ["books", "1"],
        ["cover"], ["cover", "1"], ["cover", "1", "-"], ["cover", "0", "-", "t"], ["cover", "01", "-", "t"], ["cover", "1000000000001", "-", "t"],
        ["cover", "1", "", "t"], ["cover", "1", "--", "t"], ["cover", "1", "7", "t"], ["cover", "1", "7,", "t"], ["cover", "1", ",7", "t"],
        ["cover", "1", "32,0", "t"], ["cover", "1", "0,32", "t"], ["cover", "1", "07,7", "t"], ["cover", "1", "7,7,7", "t"],
        ["cover", "1", "7, 7", "t"], ["cover", "1", "h8", "t"], ["cover", "1", "-", ""], ["cover", "1", "-", "t", ""],
        ["cover", "1", "-", *1000 * ["t"], "t"], ["cover 1 - t"], ["Cover", "1", "-", "t"], ["covers", "1", "-", "t"],
        [b"cover", b"1", b"-", b"\xff"],
        ["join"], ["join", "7,7"], ["join", "-", "t"], ["join", "", "t"], ["join", "7", "t"], ["join", "7,", "t"], ["join", ",7", "t"],
        ["join", "32,0", "t"], ["join", "0,32", "t"], ["join", "07,7", "t"], ["join", "7,7,7", "t"], ["join", "7, 7", "t"], ["join", "h8", "t"],
        ["join", "7,7", ""], ["join", "7,7", "t", ""], ["join", "7,7", *1000 * ["t"], "t"], ["join 7,7 t"], ["Join", "7,7", "t"],
        ["joins", "7,7", "t"], ["join", "1", "7,7", "t"], [b"join", b"7,7", b"\xff"],
        ["referee", ""], ["referee", "t", "t"], ["Referee"], ["referees"], ["referee t"], [b"referee", b"\xff"],
        ["brain", ""], ["brain", "t", "t"], ["brain", "t", ""], ["Brain"], ["BRAIN", "t"], ["brains"], ["brain t"], [b"brain", b"\xff"],
        [b"\xff"], [b"check", b"\xff"], [b"check", b"219\xff"], [b"check", b"219", b"\xff"], [b"\xc3\x28", b"219"],
        [b"fours", b"5", b"\x80"],
    ]
    for each in words:
        yield Case(f"words {each}", each, text, 1, USAGE)
    # Words of no command, words of a command that are too few or too many, and words that are no number in its range.
    others = [
        "images half", "Check 1", "checks 1", "chec 1", "1 check", "219", "check 1,000", "check one", "check foul", "foul foul", "fours 0 3",
        "fours 5 0", "fours 5 03", "fours 4294967297 3", "fours 61 2", "solve 5 0", "quiet 5 0", "referees t", "defend 02 1",
        "book 219 219", "Book 219", "books 219",
    ]
    for each in others:
        yield Case(f"words {each}", each.split(), text, 1, USAGE)


def checks():
    two_moves = table(*THREE, 2, THREE_WINS)
    accepted = "accepted in 2 moves, 219 arrivals\n"
    yield Case("a win in two moves", ["check", "219"], two_moves, 0, accepted)
    yield Case("the most work", ["check", "1000000000000"], two_moves, 0, accepted)
    yield Case("one arrival too few", ["check", "218"], two_moves, 5, "spent\n")
    yield Case("the least work", ["check", "1"], two_moves, 5, "spent\n")
    yield Case(
        "a block that fouls", ["check", "213"], table(*BLOCK_FOULS, 2, ["7,3 wins", "6,3 rest 0"]), 0,
        "accepted in 2 moves, 213 arrivals\n",
    )
    yield Case(
        "six in a row under freestyle", ["check", "1"], table("freestyle", *SIX, 1, ["4,7 wins"]), 0, "accepted in 1 moves, 1 arrivals\n",
    )
    wide = table("freestyle", "9,5", "0,2 1,2 2,2 3,2", "0,0 2,0 4,0 6,0", 1, ["4,2 wins"])
    yield Case("a board that is wider than high", ["check", "1"], wide, 0, "accepted in 1 moves, 1 arrivals\n")
    opponent = ("freestyle", 15, "4,7 5,7 6,7 7,7", "0,0 2,0 4,0")
    start = table(*opponent, 1, ["8,7 wins", "3,7 wins"], "start rest 0 8,7>1")
    yield Case("the opponent moves first", ["check", "219"], start, 0, "accepted in 1 moves, 219 arrivals\n")
    yield Case("the opponent moves first, one arrival too few", ["check", "218"], start, 5, "spent\n")
    unanswered = table(*opponent, 0, [], "start only")
    yield Case("a start without nodes", ["check", "1"], unanswered, 4, re.compile(r"refused no-answer \d+,\d+\n"))


def shared_games():
    """A table that plays few positions in very many orders: so many arrivals are counted in time only where a node is walked
    through once at each position."""
    text = fillers()
    yield Case("few positions in many orders", ["check", "3425580759"], text, 0, "accepted in 11 moves, 3425580759 arrivals\n")
    yield Case("few positions in many orders, one arrival too few", ["check", "3425580758"], text, 5, "spent\n")


def refused_tables():
    """A word for each fault. The line is given where only one leads to a fault."""
    most = ["check", "1000000000000"]
    yield Case("an attack on a stone", most, table(*THREE, 1, ["5,7 wins"]), 4, "refused attack-refused 5,7\n")
    yield Case("an attack off the board", most, table("freestyle", 5, "", "", 1, ["5,0 wins"]), 3, "refused line 8\n")
    yield Case("an attack on a reply", most, table(*THREE, 2, ["3,7 wins", "4,7 rest 0"]), 4, "refused attack-refused 4,7 3,7 3,7\n")
    three_three = table("renju", 15, "7,6 6,7 8,7 7,8", CORNERS, 1, ["7,7 wins"])
    yield Case("an attack that fouls", most, three_three, 4, "refused attack-fouls 7,7\n")
    yield Case("an attack that draws", most, table(*ONE_LEFT, 1, ["4,4 wins"]), 4, "refused attack-draws 4,4\n")
    yield Case("six in a row under exact", most, table("exact", *SIX, 1, ["4,7 wins"]), 4, "refused not-won 4,7\n")
    yield Case("a reply that wins", most, table(*FOUR_OF_BLACK, 1, ["4,4 only"]), 4, "refused reply-wins 4,4 4,0\n")
    yield Case("a reply that draws", most, table(*TWO_LEFT, 1, ["3,4 only"]), 4, "refused reply-draws 3,4 4,4\n")
    stones = {point for side in THREE[2:] for point in side.split()} | {"4,7", "14,14"}
    replies = [f"{x},{y}" for y in range(15) for x in range(15) if f"{x},{y}" not in stones]
    all_but_one = "4,7 only" + "".join(f" {at}>{1 if at == '3,7' else 0}" for at in replies)
    text = table(*THREE, 2, ["3,7 wins", "8,7 wins", all_but_one])
    yield Case("a reply without an answer", most, text, 4, "refused no-answer 4,7 14,14\n")


def refused_texts():
    text = table(*THREE, 2, THREE_WINS)
    changed = [
        ("no bytes", "", "line 1"),
        ("a line feed alone", "\n", "line 1"),
        ("a position", position(*THREE), "line 1"),
        ("a carriage return", text.replace("\n", "\r\n"), "line 1"),
        ("bytes that are no text", b"\xff\xfe\n", "line 1"),
        ("an unknown rule", text.replace("freestyle", "gomoku"), "line 2"),
        ("a size below the least", text.replace("size 15", "size 4"), "line 3"),
        ("a size above the greatest", text.replace("size 15", "size 33"), "line 3"),
        ("two sizes that are one", text.replace("size 15", "size 15,15"), "line 3"),
        ("stones out of order", text.replace("5,7 6,7", "6,7 5,7"), "line 4"),
        ("a stone twice", text.replace("5,7 6,7", "5,7 5,7"), "line 4"),
        ("a stone off the board", text.replace("7,7\n", "15,7\n"), "line 4"),
        ("two spaces", text.replace("black ", "black  "), "line 4"),
        ("a stone of both", text.replace("4,0\n", "4,0 5,7\n"), "line 5"),
        ("no moves", text.replace("moves 2", "moves 0"), "line 6"),
        ("more moves than the most", text.replace("moves 2", "moves 1000001"), "line 6"),
        ("no nodes", text.replace("nodes 3", "nodes 0"), "line 7"),
        ("more nodes than the most", text.replace("nodes 3", "nodes 1000001"), "line 7"),
        ("a node that names itself", text.replace("8,7 wins", "8,7 rest 1"), "line 9"),
        ("a node of no form", text.replace("8,7 wins", "8,7 win"), "line 9"),
        ("the last line not ended", text[:-1], "line 10"),
        ("the last line missing", text[: text.rindex("4,7 rest")], "line 10"),
        ("a line too many", text + "\n", "line 11"),
        ("other moves than counted", text.replace("moves 2", "moves 3"), "moves 3 2"),
        ("the most moves", text.replace("moves 2", "moves 1000000"), "moves 1000000 2"),
    ]
    for name, bytes_, why in changed:
        yield Case(f"a table text with {name}", ["check", "219"], bytes_, 3, f"refused {why}\n")
    uneven = position("freestyle", 15, "", "0,0")
    won = position("freestyle", 15, "0,0 1,0 2,0 3,0 4,0", "0,2 2,2 4,2 0,4")
    for words in (["foul"], ["fours", "5", "3"], ["threats", "1", "1"], ["solve", "5", "3"], ["quiet", "5", "3"]):
        yield Case("a white stone more", words, uneven, 3, "refused uneven 0 1\n")
        yield Case("five in a row", words, won, 3, "refused already won 0,0\n")
        yield Case("a full board", words, position(*FULL), 3, "refused board full\n")
        yield Case("a table for a position", words, text, 3, "refused line 1\n")
        yield Case("a line too many", words, position(*THREE) + "\n", 3, "refused line 6\n")
    for name, bytes_, line in (
        ("no bytes", "", 1),
        ("two sizes that are one", position("renju", "9,9", "", ""), 3),
        ("stones out of order", position("renju", 9, "1,1 0,1", ""), 4),
        ("a stone of both", position("renju", 9, "0,1", "0,1"), 5),
    ):
        yield Case(f"a position text with {name}", ["foul"], bytes_, 3, f"refused line {line}\n")
    for name, bytes_, line in (
        ("a stone off the board", game("renju", 9, "9,0", "", ""), 4),
        ("no line of moves", game("renju", 9, "", "", "1,1").replace("moves 1,1\n", ""), 6),
        ("a move off the board, with no side to move", game("renju", 9, "", "0,1", "9,0"), 6),
        ("two lines of moves", game("renju", 9, "", "", "1,1") + "moves\n", 7),
    ):
        yield Case(f"a game text with {name}", ["referee"], bytes_, 3, f"refused line {line}\n")


def fouls():
    three_three = "7,6 6,7 8,7 7,8"
    wanted = [
        ("an overline", position("renju", *SIX), "fouls 1\nfoul 4,7 overline\n"),
        ("two fours on a line", position("renju", 15, "2,7 4,7 6,7 8,7", CORNERS), "fouls 1\nfoul 5,7 double-four\n"),
        ("a double-three", position("renju", 15, three_three, CORNERS), "fouls 1\nfoul 7,7 double-three\n"),
        ("White to move", position("renju", 15, three_three, "0,0 14,0 0,14"), "fouls 0\n"),
        ("no fouls under freestyle", position("freestyle", 15, three_three, CORNERS), "fouls 0\n"),
        ("no fouls under exact", position("exact", 15, three_three, CORNERS), "fouls 0\n"),
        ("an empty board", position("renju", 15, "", ""), "fouls 0\n"),
        ("the smallest board", position("renju", 5, "", ""), "fouls 0\n"),
        ("the largest board", position("renju", 32, "", ""), "fouls 0\n"),
        ("the last points of the largest board", position("renju", 32, "31,30", "31,31"), "fouls 0\n"),
    ]
    for name, text, output in wanted:
        yield Case(f"fouls: {name}", ["foul"], text, 0, output)


# Seven threes, each closed at one end and with room for one five. Each gives two fours, which are blocked, and no two of them meet.
SEVEN_THREES = (
    "freestyle", 15,
    "0,0 1,0 2,0 12,0 13,0 14,0 0,3 1,3 2,3 12,3 13,3 14,3 0,6 1,6 2,6 12,6 13,6 14,6 0,9 1,9 2,9",
    "5,0 9,0 6,1 8,1 5,3 9,3 6,4 8,4 5,6 9,6 6,7 8,7 5,9 6,10 8,10 6,13 8,13 2,14 4,14 10,14 12,14",
)


def positions_of_threes(threes, moves):
    """How many positions a search looks at, with one move, then with two and so on: the first one, and those after each four."""
    looked_at = lambda left, more: 1 if left == 0 or more == 1 else 1 + 2 * left * looked_at(left - 1, more - 1)
    return sum(looked_at(threes, most) for most in range(1, moves + 1))


def fours():
    two_moves = table(*THREE, 2, THREE_WINS)
    yield Case("fours: a straight four", ["fours", "5", "3"], position(*THREE), 0, two_moves)
    yield Case("fours: the most moves and positions", ["fours", "60", "10000000"], position(*THREE), 0, two_moves)
    yield Case("fours: one position too few", ["fours", "5", "2"], position(*THREE), 5, "spent\n")
    yield Case("fours: too few moves", ["fours", "1", "1"], position(*THREE), 9, "none\n")
    yield Case("fours: nothing on an empty board", ["fours", "5", "5"], position(*EMPTY), 9, "none\n")
    yield Case("fours: an empty board, one position too few", ["fours", "5", "4"], position(*EMPTY), 5, "spent\n")
    yield Case("fours: the most moves on an empty board", ["fours", "60", "60"], position(*EMPTY), 9, "none\n")
    foul_block = table(*BLOCK_FOULS, 2, ["7,3 wins", "6,3 rest 0"])
    yield Case("fours: a block that fouls", ["fours", "5", "2"], position(*BLOCK_FOULS), 0, foul_block)
    yield Case("fours: the same without fouls", ["fours", "5", "9"], position("freestyle", *BLOCK_FOULS[1:]), 9, "none\n")
    six = table("freestyle", *SIX, 1, ["4,7 wins"])
    yield Case("fours: six in a row under freestyle", ["fours", "1", "1"], position("freestyle", *SIX), 0, six)
    yield Case("fours: six in a row under exact", ["fours", "1", "1"], position("exact", *SIX), 9, "none\n")
    # So many are counted in time only where a search doesn't look again at what it remembers.
    count = positions_of_threes(7, 15)
    yield Case("fours: few positions in many orders", ["fours", "15", str(count)], position(*SEVEN_THREES), 9, "none\n", seconds=1)
    yield Case("fours: the same, one position too few", ["fours", "15", str(count - 1)], position(*SEVEN_THREES), 5, "spent\n", seconds=1)


# Stones round 7,7, where a stone makes a three in the row and one in the column. A sequence has to have its gain where two lines with
# two stones meet, which is there alone. Ten threats with one gain come before it:
# those at 7,5, 5,4, 6,5, 4,5, 5,6, 8,5, 9,4, 9,6, 10,5 and 5,7.
DIAMOND = "7,6 6,7 8,7 7,8"
DOUBLE_THREE = lines("threats 1", "three 7,7 row 5,7 9,7", "final 7,5")


# Seven threes against an edge, each with room for one five, and so far apart that no line holds stones of two of them within five points.
THREES_APART = (
    "freestyle", 28,
    "0,0 1,0 2,0 25,4 26,4 27,4 0,8 1,8 2,8 25,12 26,12 27,12 0,16 1,16 2,16 25,20 26,20 27,20 0,24 1,24 2,24",
    "8,2 12,2 16,2 8,6 12,6 16,6 8,10 12,10 16,10 8,14 12,14 16,14 8,18 12,18 16,18 8,22 12,22 16,22 8,26 12,26 16,26",
)


def lists_of_fours(threes, fours):
    """How many lists of at most so many fours there are: each three gives one of its two fours, in each order of the threes."""
    return sum(2**k * perm(threes, k) for k in range(min(threes, fours) + 1))


def threats():
    yield Case("threats: a double three", ["threats", "1", "12"], position("freestyle", 15, DIAMOND, CORNERS), 0, DOUBLE_THREE)
    yield Case(
        "threats: the most threats and lists", ["threats", "30", "10000000"], position("exact", 15, DIAMOND, CORNERS), 0, DOUBLE_THREE,
    )
    yield Case("threats: one list too few", ["threats", "1", "11"], position("freestyle", 15, DIAMOND, CORNERS), 5, "spent\n")
    yield Case(
        "threats: White's double three", ["threats", "1", "12"], position("renju", 15, "0,0 14,0 14,7 0,14 14,14", DIAMOND), 0,
        DOUBLE_THREE,
    )
    # Of the 22 threats that one stone makes there, those two with the gain 7,7 are none of Black's, since it is a foul.
    yield Case("threats: a double three that fouls", ["threats", "1", "21"], position("renju", 15, DIAMOND, CORNERS), 9, "none\n")
    yield Case("threats: the same, one list too few", ["threats", "1", "20"], position("renju", 15, DIAMOND, CORNERS), 5, "spent\n")
    # The threats before it are the threes at 4,5, 4,6, 5,6 and 7,6.
    four = lines("threats 1", "four 7,7 row 8,7", "final 7,6")
    four_three = position("freestyle", 15, "4,7 5,7 6,7 7,8 7,9", "0,0 14,0 3,7 0,14 14,14")
    yield Case("threats: a four and a three", ["threats", "30", "6"], four_three, 0, four)
    yield Case("threats: a four and a three, one list too few", ["threats", "30", "5"], four_three, 5, "spent\n")
    yield Case("threats: a double point stands", ["threats", "1", "1"], position(*THREE), 0, lines("threats 0", "final 4,7"))
    # Two five points stand, so that each other empty point leaves two.
    fives = position("freestyle", 15, "4,7 5,7 6,7 7,7", "0,0 2,0 4,0 14,14")
    yield Case("threats: two five points stand", ["threats", "30", "1"], fives, 0, lines("threats 0", "final 1,0"))
    cut = position("freestyle", 15, DIAMOND, CORNERS)[:-1]
    yield Case("threats: the last line not ended", ["threats", "1", "12"], cut, 3, "refused line 5\n")
    yield Case("threats: nothing on an empty board", ["threats", "30", "1"], position(*EMPTY), 9, "none\n")
    # So many are counted in time only where boards are remembered from which no list has a final point.
    count = lists_of_fours(7, 30)
    yield Case("threats: few boards in many orders", ["threats", "30", str(count)], position(*THREES_APART), 9, "none\n", seconds=1)
    yield Case(
        "threats: the same board, one list too few", ["threats", "30", str(count - 1)], position(*THREES_APART), 5, "spent\n", seconds=1,
    )


# Five threes of that kind. Each is as it was, or has its four and the block in one of two ways: that makes 243 positions, to which
# 6,331 orders of fours lead.
FIVE_THREES = (
    "freestyle", 15,
    "0,1 1,1 2,1 12,1 13,1 14,1 0,5 1,5 2,5 12,5 13,5 14,5 0,9 1,9 2,9",
    "5,0 7,0 9,0 5,3 9,3 7,4 5,7 9,7 7,8 5,11 9,11 7,12 5,14 7,14 9,14",
)


def solves():
    # A win by fours is what `fours` writes.
    yield Case("solve: three in a row", ["solve", "5", "3"], position(*THREE), 0, table(*THREE, 2, THREE_WINS))
    yield Case("solve: the most moves and positions", ["solve", "60", "10000000"], position(*THREE), 0, table(*THREE, 2, THREE_WINS))
    yield Case("solve: within one move too few", ["solve", "1", "1"], position(*THREE), 9, "none\n")
    yield Case(
        "solve: a block that fouls", ["solve", "5", "2"], position(*BLOCK_FOULS), 0, table(*BLOCK_FOULS, 2, ["7,3 wins", "6,3 rest 0"]),
    )
    five = ("renju", 15, "7,4 7,5 7,6 3,7 4,7 5,7 6,7 7,8 7,9", "0,0 4,0 10,0 14,0 2,7 0,14 4,14 10,14 14,14")
    yield Case("solve: five goes before fouls", ["solve", "1", "1"], position(*five), 0, table(*five, 1, ["7,7 wins"]))
    # No stone makes a threat: the game of threats has one position.
    yield Case("solve: an empty board", ["solve", "60", "1"], position(*EMPTY), 9, "none\n")
    yield Case("solve: six in a row under exact", ["solve", "1", "1"], position("exact", *SIX), 9, "none\n")
    yield Case("solve: the last line not ended", ["solve", "5", "3"], position(*THREE)[:-1], 3, "refused line 5\n")
    yield Case("solve: few positions in many orders", ["solve", "60", "4000"], position(*FIVE_THREES), 9, "none\n")
    # Black has pairs alone, and White's three makes a straight four after any of its threes: that is seen before replies are counted.
    threes = ("freestyle", 15, "13,0 4,4 5,4 4,10 4,11 13,13", "0,0 9,7 10,7 11,7 14,7 0,14")
    yield Case("solve: the other side's fours come first", ["solve", "60", "100"], position(*threes), 9, "none\n")
    # There is a win, so that `none` would be wrong, and each step may look at one position alone, within fewer moves too.
    for depth in ("5", "60"):
        yield Case(
            f"solve: a win within {depth} that needs more positions", ["solve", depth, "1"], example("wins/quiet-three.txt"), 5, "spent\n",
        )


# The side to move wins within 12 moves, of which the first is quiet: a table of each was accepted, and under freestyle a separately
# written program found one. Under renju Black attacks once and White three times. In the last, Black's block of a four is a foul, so it is
# no reply: under exact five, where it is one, the same table is refused.
CROWDED = (19, "9,6 10,6 10,7 12,7 11,8 9,9 10,9 11,9 12,9 8,10 9,10", "8,5 8,6 13,6 11,7 8,8 8,9 13,9 10,10 13,10 8,11 11,11")
OPEN_ROW = (15, "8,5 9,5 7,7 8,7 9,7 11,7", "0,0 7,6 6,7 10,7 4,9 3,10")
BLOCKED_BY_A_FOUL = (15, "0,0 12,1 12,2 13,3 14,3 7,6 6,7 10,7 4,9 3,10 14,14", "14,0 14,4 8,5 9,5 7,7 8,7 9,7 11,7 0,11 12,14")
QUIET_WINS = [
    ("freestyle", *CROWDED),
    ("exact", *CROWDED),
    ("renju", *CROWDED),
    ("freestyle", *OPEN_ROW),
    ("exact", *OPEN_ROW),
    ("freestyle", 15, "9,5 7,7 8,7 9,7 11,7", "0,0 9,4 7,6 6,7 10,7"),
    ("freestyle", 15, "9,5 7,7 8,7 9,7 11,7", "0,0 7,6 6,7 10,7 5,8"),
    ("freestyle", 15, "9,5 7,7 8,7 9,7 11,7", "0,0 7,6 6,7 10,7 4,9"),
    ("exact", 15, "9,5 7,7 8,7 9,7", "0,0 7,6 6,7 5,8"),
    ("renju", 19, "8,5 8,6 13,6 11,7 8,8 8,9 13,9 10,10 13,10 8,11 11,11 14,14", "9,6 10,6 10,7 12,7 11,8 9,9 10,9 11,9 12,9 8,10 9,10"),
    ("renju", 15, "0,0 7,6 6,7 10,7 4,9 3,10 14,14", "8,5 9,5 7,7 8,7 9,7 11,7"),
    ("renju", *BLOCKED_BY_A_FOUL),
]


def quiets():
    # Where `solve` has a win, that is the answer.
    yield Case("quiet: three in a row", ["quiet", "5", "3"], position(*THREE), 0, table(*THREE, 2, THREE_WINS))
    yield Case("quiet: the most moves and positions", ["quiet", "60", "10000000"], position(*THREE), 0, table(*THREE, 2, THREE_WINS))
    yield Case(
        "quiet: a block that fouls", ["quiet", "5", "2"], position(*BLOCK_FOULS), 0, table(*BLOCK_FOULS, 2, ["7,3 wins", "6,3 rest 0"]),
    )
    # No win takes so few moves, whatever they are: `solve` says `none`, and `quiet` never does.
    yield Case("quiet: within one move too few", ["quiet", "1", "1"], position(*THREE), 5, "spent\n")
    # There is no win by threats, so what is found has a quiet move; a budget of one position finds nothing.
    yield Case("solve: a win with quiet moves alone", ["solve", "12", "100000"], position("freestyle", *OPEN_ROW), 9, "none\n")
    yield Case("quiet: one position", ["quiet", "30", "1"], position("freestyle", *OPEN_ROW), 5, "spent\n")
    yield Case("quiet: the last line not ended", ["quiet", "5", "3"], position(*THREE)[:-1], 3, "refused line 5\n")


def drilled(number, wins, none, spent, moves):
    """The lines of a drill: each win has a table that is accepted and a game that is won."""
    found = f"wins {wins} none {none} spent {spent}"
    return lines(f"drill {number}", "positions 60", found, f"accepted {wins}", f"games {wins} moves {moves}")


def drills():
    """The counts of a drill, and no input is read."""
    text = table(*THREE, 2, THREE_WINS)
    for number, *counts in [(0, 43, 17, 0, 68), (1, 46, 14, 0, 76), (6, 47, 12, 1, 77), (7, 47, 13, 0, 79), (999999, 36, 24, 0, 55)]:
        yield Case(f"drill {number}", ["drill", str(number)], text, 0, drilled(number, *counts))


# Half a turn of the three in a row.
TURNED = ("freestyle", 15, "7,7 8,7 9,7", "10,14 12,14 14,14")
TURNED_WINS = ["11,7 wins", "6,7 wins", "10,7 rest 0 11,7>1"]


def images():
    three = table(*THREE, 2, THREE_WINS)
    half = table(*TURNED, 2, TURNED_WINS)
    yield Case("image: half a turn", ["image", "half"], three, 0, half)
    yield Case("image: half a turn, and back", ["image", "half"], half, 0, three)
    yield Case("image: half a turn is accepted too", ["check", "219"], half, 0, "accepted in 2 moves, 219 arrivals\n")
    quarter = table("freestyle", 15, "7,5 7,6 7,7", "14,0 14,2 14,4", 2, ["7,3 wins", "7,8 wins", "7,4 rest 0 7,3>1"])
    yield Case("image: a quarter of a turn", ["image", "quarter"], three, 0, quarter)
    yield Case("two-move-win-quarter.txt", ["image", "quarter"], example("two-move-win.txt"), 0, example("two-move-win-quarter.txt"))
    yield Case("image: three quarters more", ["image", "three-quarter"], quarter, 0, three)
    # Replies that rise along the row rise down the column, or the other way round.
    corner = ("freestyle", 6, "0,0", "1,2")
    listed = ["2,0 wins", "5,1 rest 0 0,3>0 3,3>0 2,5>0"]
    taken = {
        "identity": (corner, listed),
        "half": (("freestyle", 6, "5,5", "4,3"), ["3,5 wins", "0,4 rest 0 3,0>0 2,2>0 5,2>0"]),
        "flip-x": (("freestyle", 6, "5,0", "4,2"), ["3,0 wins", "0,1 rest 0 2,3>0 5,3>0 3,5>0"]),
        "flip-y": (("freestyle", 6, "0,5", "1,3"), ["2,5 wins", "5,4 rest 0 2,0>0 0,2>0 3,2>0"]),
        "quarter": (("freestyle", 6, "5,0", "3,1"), ["5,2 wins", "4,5 rest 0 2,0>0 0,2>0 2,3>0"]),
        "three-quarter": (("freestyle", 6, "0,5", "2,4"), ["0,3 wins", "1,0 rest 0 3,2>0 5,3>0 3,5>0"]),
        "diagonal": (("freestyle", 6, "0,0", "2,1"), ["0,2 wins", "1,5 rest 0 3,0>0 5,2>0 3,3>0"]),
        "antidiagonal": (("freestyle", 6, "5,5", "3,4"), ["5,3 wins", "4,0 rest 0 2,2>0 0,3>0 2,5>0"]),
    }
    for word, (stones, nodes) in taken.items():
        yield Case(f"image: {word}", ["image", word], table(*corner, 2, listed), 0, table(*stones, 2, nodes))
    opponent = ("freestyle", 15, "4,7 5,7 6,7 7,7", "0,0 2,0 4,0")
    flipped = ("freestyle", 15, "7,7 8,7 9,7 10,7", "10,0 12,0 14,0")
    start, image = ["8,7 wins", "3,7 wins"], ["6,7 wins", "11,7 wins"]
    yield Case(
        "image: the opponent moves first", ["image", "flip-x"], table(*opponent, 1, start, "start rest 0 8,7>1"), 0,
        table(*flipped, 1, image, "start rest 0 6,7>1"),
    )
    wide = ("freestyle", "9,5", "0,2 1,2 2,2 3,2", "0,0 2,0 4,0 6,0")
    high = ("freestyle", "5,9", "2,0 2,1 2,2 2,3", "0,0 0,2 0,4 0,6")
    for word in ["quarter", "three-quarter", "diagonal", "antidiagonal"]:
        yield Case(f"image: {word} of a wide board", ["image", word], table(*wide, 1, ["4,2 wins"]), 3, "refused symmetry\n")
        yield Case(f"image: {word} of a high board", ["image", word], table(*high, 1, ["2,4 wins"]), 3, "refused symmetry\n")
    for word, black, white, attack in (
        ("identity", "0,2 1,2 2,2 3,2", "0,0 2,0 4,0 6,0", "1,3"),
        ("half", "5,2 6,2 7,2 8,2", "2,4 4,4 6,4 8,4", "7,1"),
        ("flip-x", "5,2 6,2 7,2 8,2", "2,0 4,0 6,0 8,0", "7,3"),
        ("flip-y", "0,2 1,2 2,2 3,2", "0,4 2,4 4,4 6,4", "1,1"),
    ):
        yield Case(
            f"image: {word} of a wide board", ["image", word], table(*wide, 1, ["1,3 wins"]), 0,
            table("freestyle", "9,5", black, white, 1, [f"{attack} wins"]),
        )
    yield Case("image: a text is refused first", ["image", "diagonal"], table(*wide, 2, ["4,2 wins"]), 3, "refused moves 2 1\n")
    yield Case("image: a bad line comes first", ["image", "diagonal"], table(*wide, 1, ["9,2 wins"]), 3, "refused line 8\n")
    yield Case("image: a text of a position", ["image", "identity"], position(*THREE), 3, "refused line 1\n")
    yield Case(
        "image: a table that is not accepted", ["image", "flip-y"], table(*EMPTY, 1, ["4,0 wins"]), 0, table(*EMPTY, 1, ["4,14 wins"]),
    )


# Each symmetry with the one that undoes it.
INVERSES = {word: word for word in ("identity", "half", "flip-x", "flip-y", "diagonal", "antidiagonal")}
INVERSES.update({"quarter": "three-quarter", "three-quarter": "quarter"})


def defends():
    three = position("freestyle", 15, "5,7 6,7 7,7 14,14", "0,0 2,0 4,0")
    yield Case("defend: an open three", ["defend", "2", "4"], three, 0, lines("defences 4", "1,0", "3,0", "4,7", "8,7"))
    yield Case("defend: one position too few", ["defend", "2", "3"], three, 5, "spent 4,7\n")
    yield Case("defend: one position too few after the first move", ["defend", "2", "1"], three, 5, "spent 1,0\n")
    crossed = ("freestyle", 15, "7,6 6,7 7,7 8,7 7,8", CORNERS)
    nodes = ["7,4 wins", "7,9 wins", "7,5 rest 0 7,4>1", "4,7 wins", "9,7 wins", "5,7 rest 3 4,7>4"]
    lost = table(*crossed, 2, nodes, "start rest 2 7,4>5 7,5>5 7,9>5")
    yield Case("defend: two threes that cross", ["defend", "2", "1000"], position(*crossed), 0, lost)
    yield Case("defend: its table is accepted", ["check", "46441"], lost, 0, "accepted in 2 moves, 46441 arrivals\n")
    held = lines("START 15", *batch("7,6 6,7 8,7 7,8", CORNERS), "TURN 0,7", "TURN 7,4", "TURN 1,1", "END")
    yield Case("defend: its table is held", ["brain", "t"], held, 0, told("OK", "7,7", "7,5", "7,9", "ERROR game over"), lost)
    yield Case(
        "defend: a move that wins", ["defend", "1", "1"], position("freestyle", 15, "5,7 6,7 7,7 8,7 14,14", "0,0 1,0 2,0 3,0"), 0,
        "defences 1\n4,0\n",
    )
    rule, size, black, white = BLOCK_FOULS
    four = (rule, size, black, white.replace("5,3 ", "5,3 6,3 "))
    yield Case("defend: a block that fouls", ["defend", "5", "1"], position(*four), 0, table(*four, 1, ["7,3 wins"], "start rest 0"))
    yield Case("defend: a move that fills the board", ["defend", "60", "10000000"], position(*ONE_LEFT), 0, "defences 1\n4,4\n")
    yield Case("defend: a table", ["defend", "2", "4"], lost, 3, "refused line 1\n")
    yield Case("defend: more white stones", ["defend", "2", "4"], position("freestyle", 15, "", "0,0"), 3, "refused uneven 0 1\n")


def told(*answers):
    """The lines of a brain's answers."""
    return "".join(f"{answer}\r\n" for answer in answers)


def batch(own, others):
    """The lines that send a position, with the brain's stones and the opponent's."""
    stones = [f"{point},1" for point in own.split()] + [f"{point},2" for point in others.split()]
    return ["BOARD", *stones, "DONE"]


# White wins by 6,3, and whatever Black replies by 7,3, where Black's own stone would be an overline.
BLOCK_WINS = table(*BLOCK_FOULS, 2, ["7,3 wins", "6,3 rest 0"])
WHITE_TO_MOVE = ["START 15", "INFO rule 4", *batch(BLOCK_FOULS[3], BLOCK_FOULS[2])]
# Sessions of a brain that holds it: the lines after DONE, and all answers.
BLOCK_SESSIONS = [
    ("a win in two moves", ["TURN 0,14", "TURN 1,14", "END"], ["OK", "6,3", "7,3", "ERROR game over"]),
    ("a reply that fouls", ["TURN 7,3", "TURN 1,14", "END"], ["OK", "6,3", "ERROR opponent foul", "ERROR game over"]),
    ("a reply that is none", ["turn 6,3", "TURN 0,14", "TURN 1,14", "END"], ["OK", "6,3", "ERROR bad move", "7,3", "ERROR game over"]),
    ("a reply that is none, and one that fouls", ["TURN 6,3", "TURN 7,3"], ["OK", "6,3", "ERROR bad move", "ERROR opponent foul"]),
]
# Black's four stones have two ends, and the opponent moves first.
FOUR_OF_START = ("freestyle", 15, "4,7 5,7 6,7 7,7", "0,0 2,0 4,0")
FOUR_AND_REPLY = table(*FOUR_OF_START, 1, ["8,7 wins", "3,7 wins"], "start rest 0 8,7>1")
# Black has a straight four, and passes the win by three times before it takes it: each pass has some thousand replies.
PASSES = ["3,7 wins", "8,7 wins", "30,15 rest 0 3,7>1", "29,15 rest 2 3,7>1 8,7>0 30,15>0", "28,15 rest 3 3,7>1 8,7>0 29,15>0 30,15>0"]
FAR_CORNERS = ("freestyle", 32, "4,7 5,7 6,7 7,7", "0,0 31,0 0,31 31,31")


def brains():
    """Sessions of a brain that holds nothing."""
    about = 'name="renju", version="1.0"'
    first = lines("START 15", "BEGIN", "TURN 0,0", "TURN 14,0", "TURN 0,14", "TURN 14,14", "TURN 4,6", "END", "START 15")
    sessions = [
        ("no lines", "", ()),
        ("a game from its start", first, ("OK", "7,7", "6,6", "7,6", "8,6", "5,6", "9,6")),
        ("the opponent begins", lines("START 5", "TURN 2,2"), ("OK", "1,1")),
        ("a last line that is not ended", "START 15\nBEGIN", ("OK", "7,7")),
        ("carriage returns", "START 15\r\nBEGIN\r\nEND\r\n", ("OK", "7,7")),
        ("a size of two numbers", lines("RECTSTART 9,5", "BEGIN", "RECTSTART 4,9"), ("OK", "4,2", "ERROR unsupported size")),
        ("who it is", lines("ABOUT", "INFO timeout_turn 1000", "", "HELLO"), (about, "UNKNOWN command")),
        ("before a board", lines("BEGIN", "TURN 1,1", "RESTART", "BOARD", "DONE"), (4 * ("ERROR no board",) + ("ERROR not reading",))),
        ("a taken point", lines("START 15", "TURN 7,7", "TURN 7,7", "TURN 15,0"), ("OK", "6,6", "ERROR bad move", "ERROR bad move")),
        ("a move taken back", lines("START 15", "BEGIN", "TAKEBACK 7,7", "TURN 0,0"), ("OK", "7,7", "OK", "7,7")),
        ("a board begun anew", lines("START 15", "BEGIN", "TURN 6,6", "RESTART", "TURN 7,7"), ("OK", "7,7", "7,6", "OK", "6,6")),
        (
            "a wish that is unknown", lines("START 15", "INFO rule 2", "BEGIN", "INFO rule 1", "BEGIN"),
            ("OK", "ERROR unsupported rule", "7,7"),
        ),
        ("a five point", lines("START 15", *batch("3,3 4,3 5,3 6,3", "0,0 2,0 4,0 6,0")), ("OK", "2,3")),
        ("a position that is uneven", lines("START 15", *batch("3,3 4,3", "")), ("OK", "ERROR bad board")),
        (
            "a win by fours", lines("START 15", *batch(THREE[2], THREE[3]), "TURN 3,7", "TURN 0,14"),
            ("OK", "4,7", "8,7", "ERROR game over"),
        ),
        # No stone makes a win by fours. The eight points round the middle, 7,7, come in reading order from 6,6 on, until a four of the
        # opponent's has one end.
        (
            "a block of a five", lines("START 15", "BEGIN", "TURN 0,0", "TURN 1,0", "TURN 2,0", "TURN 3,0", "TURN 4,0", "END"),
            ("OK", "7,7", "6,6", "7,6", "8,6", "4,0", "ERROR bad move"),
        ),
        (
            "a point of a batch twice", lines("START 15", "BOARD", "7,7,2", "8,8,1", "7,7,2", "DONE", "DONE", "7,7,2"),
            ("OK", "ERROR bad board", "ERROR not reading", "UNKNOWN command"),
        ),
        # The middle of a board of 9 by 5 is 4,2, and 3,1 is the first point round it.
        (
            "boards begun anew",
            lines(
                "RESTART", "RECTSTART 9,5", *batch("", "4,2"), "RESTART", "BEGIN", "TURN 3,1", "BOARD", "0,0,2", "RESTART", "DONE", "TURN 4,2",
                "TURN 9,0",
            ),
            ("ERROR no board", "OK", "3,1", "OK", "4,2", "4,1", "OK", "ERROR not reading", "3,1", "ERROR bad move"),
        ),
        # Black's stone on 4,4 makes a three in the row and a three in the column.
        (
            "a double-three of the opponent",
            lines("START 15", "INFO rule 4", *batch("14,0 0,14 14,14", "2,4 3,4 4,2 4,3"), "TURN 4,4", "TURN 0,0"),
            ("OK", "7,7", "ERROR opponent foul", "ERROR game over"),
        ),
        ("the longest line", 4096 * " " + "\n" + 4097 * " " + "\n", ("ERROR bad arguments",)),
    ]
    for name, text, answers in sessions:
        yield Case(f"brain: {name}", ["brain"], text, 0, told(*answers))
    # Lines of 4,096 bytes, up to the most bytes that a session may have, and one more.
    most = 16_384 * (4_095 * b" " + b"\n")
    yield Case("brain: the longest input", ["brain"], most, 0, "")
    yield Case("brain: an input that is too long", ["brain"], most + b" ", 11, "")
    yield Case("brain: END within the longest input", ["brain"], b"END\n" + most, 0, "")


def held_brains():
    """Sessions of a brain that holds a table, and tables that are not held."""
    for name, asked, answers in BLOCK_SESSIONS:
        text = lines(*WHITE_TO_MOVE, *asked)
        yield Case(f"brain t: {name}", ["brain", "t"], text, 0, told(*answers), BLOCK_WINS)
        yield Case(f"brain t: {name}, with carriage returns", ["brain", "t"], text.replace("\n", "\r\n"), 0, told(*answers), BLOCK_WINS)
    # The search of the brain's own would find 6,7 as well, which comes first.
    turned = lines("START 15", *batch(*TURNED[2:]))
    yield Case("brain t: the image of a table", ["brain", "t"], turned, 0, told("OK", "10,7"), table(*TURNED, 2, TURNED_WINS))
    start = lines("START 15", *batch("5,7 6,7 7,7", THREE[3]), "TURN 0,14", "TAKEBACK 3,7", "TAKEBACK 0,14", "TURN 1,14")
    yield Case("brain t: the opponent moves first", ["brain", "t"], start, 0, told("OK", "4,7", "3,7", "OK", "OK", "8,7"), FOUR_AND_REPLY)
    passes = lines("START 32", *batch(FAR_CORNERS[2], FAR_CORNERS[3]), "TURN 3,7")
    yield Case("brain t: a pass of the table", ["brain", "t"], passes, 0, told("OK", "30,15", "8,7"), table(*FAR_CORNERS, 2, PASSES[:3]))
    not_held = [
        ("more arrivals than it may have", table(*FAR_CORNERS, 4, PASSES), 5, "spent\n"),
        ("a table that is not accepted", table(*THREE, 1, ["5,7 wins"]), 4, "refused attack-refused 5,7\n"),
        ("a position", position(*THREE), 3, "refused line 1\n"),
        ("no bytes", "", 3, "refused line 1\n"),
        ("other moves than counted", BLOCK_WINS.replace("moves 2", "moves 3"), 3, "refused moves 3 2\n"),
        ("the longest file", MAX_INPUT_BYTES * b"x", 3, "refused line 1\n"),
        ("a file that is too long", (MAX_INPUT_BYTES + 1) * b"x", 11, "input too long\n"),
    ]
    for name, text, status, output in not_held:
        yield Case(f"brain t: {name}", ["brain", "t"], lines(*WHITE_TO_MOVE), status, output, text)
    yield Case("brain t: no such file", ["brain", "u"], lines(*WHITE_TO_MOVE), 2, "shelf failed\n", BLOCK_WINS)


def book(nodes, *entries):
    """The text of a book: its nodes, and of each entry its position, its moves and its last line."""
    head = lines("renju-book 1", f"nodes {len(nodes)}", *nodes, f"entries {len(entries)}")
    return head + "".join(lines(*position(*at).splitlines()[1:], f"moves {moves}", root) for at, moves, root in entries)


def cut_off(text, count):
    """The first lines of a text."""
    return "".join(text.splitlines(keepends=True)[:count])


def books():
    """Books that are checked, refused and held."""
    three, four = (THREE, 2, "root 2"), (("freestyle", 15, "4,7 5,7 6,7 7,7", "0,0 2,0 4,0"), 1, "start rest 1 8,7>0")
    two = book(THREE_WINS, three, four)
    yield Case("book: the book of the examples", ["book", "219"], example("book.txt"), 0, "accepted 2 entries, 438 arrivals\n")
    yield Case("book: one entry", ["book", "219"], book(THREE_WINS, three), 0, "accepted 1 entries, 219 arrivals\n")
    yield Case("book: 1,000 entries", ["book", "219"], book(THREE_WINS, *1_000 * [three]), 0, "accepted 1000 entries, 219000 arrivals\n")
    yield Case("book: one entry more", ["book", "219"], book(THREE_WINS, *1_001 * [three]), 3, "refused line 6\n")
    yield Case("book: two entries", ["book", "219"], two, 0, "accepted 2 entries, 438 arrivals\n")
    yield Case("book: the first entry is spent", ["book", "218"], two, 5, "entry 1 spent\n")
    yield Case("book: the second is", ["book", "218"], book(THREE_WINS, (FIVE_ONE, 1, "root 1"), three), 5, "entry 2 spent\n")
    refused = [
        ("a start of a node that is not there", two.replace("start rest 1", "start rest 3"), "refused line 18\n"),
        ("a root of one", two.replace("root 2", "root 3"), "refused line 12\n"),
        ("an entry too few", two.replace("entries 2", "entries 3"), "refused line 19\n"),
        ("an entry too many", two.replace("entries 2", "entries 1"), "refused line 13\n"),
        ("a number of moves with a zero", two.replace("moves 1", "moves 01"), "refused line 17\n"),
        ("no line feed at the end", two[:-1], "refused line 18\n"),
        ("a table", table(*THREE, 2, THREE_WINS), "refused line 1\n"),
        ("another version", two.replace("book 1", "book 2"), "refused line 1\n"),
        ("a node off every board", book(["32,0 wins"], three), "refused line 3\n"),
        ("more nodes than the most", two.replace("nodes 3", "nodes 1000001"), "refused line 2\n"),
        ("a node that names itself", book(["3,7 rest 0"], three), "refused line 3\n"),
        ("a second node that names itself", book(["8,7 wins", "3,7 rest 1"], three), "refused line 4\n"),
        ("more entries than the most", two.replace("entries 2", "entries 1001"), "refused line 6\n"),
        ("no line of its entries", cut_off(two, 6), "refused line 7\n"),
        ("an unknown rule", two.replace("rule freestyle", "rule go", 1), "refused line 7\n"),
        ("a size below the least", two.replace("size 15", "size 4", 1), "refused line 8\n"),
        ("a stone twice", two.replace("black 5,7 6,7", "black 5,7 5,7"), "refused line 9\n"),
        ("a stone of both", two.replace("2,0 4,0\nmoves 2", "2,0 5,7\nmoves 2"), "refused line 10\n"),
        ("a number of the first entry's moves with a zero", two.replace("moves 2", "moves 02"), "refused line 11\n"),
        ("a first root that is not ended", cut_off(two, 12)[:-1], "refused line 12\n"),
        ("an empty line after an entry", two.replace("root 2\n", "root 2\n\n"), "refused line 13\n"),
        ("other moves than counted", two.replace("moves 1", "moves 2"), "entry 2 refused moves 2 1\n"),
        ("the first entry decides", book(THREE_WINS, (THREE, 9, "root 2"), (FULL, 1, "root 0")), "entry 1 refused moves 9 2\n"),
        ("the position decides", book(THREE_WINS, three, (FULL, 9, "root 0")), "entry 2 refused board full\n"),
    ]
    for name, text, output in refused:
        yield Case(f"book: {name}", ["book", "219"], text, 3, output)
        if name != "a table":
            yield Case(f"brain t: a book, {name}", ["brain", "t"], "", 3, output, text)
    lost = book(["31,31 wins"], (THREE, 1, "root 0"))
    yield Case("book: an attack off the board of its entry", ["book", "1"], lost, 4, "entry 1 refused attack-refused 31,31\n")
    yield Case(
        "brain t: a book, an attack off the board of its entry", ["brain", "t"], "", 4, "entry 1 refused attack-refused 31,31\n", lost,
    )
    yield Case("referee t: a book", ["referee", "t"], "", 3, "refused line 1\n", two)
    yield Case("check: a book", ["check", "219"], two, 3, "refused line 1\n")
    start = lines("START 15", *batch("5,7 6,7 7,7", THREE[3]), "TURN 0,14", "TAKEBACK 3,7", "TAKEBACK 0,14", "TURN 1,14")
    yield Case("brain t: both entries of a book", ["brain", "t"], start, 0, told("OK", "4,7", "3,7", "OK", "OK", "8,7"), two)
    first = book(["3,7 wins", "8,7 wins"], (FIVE_TWO, 1, "root 1"), (FIVE_TWO, 1, "root 0"))
    yield Case(
        "brain t: the first of two entries at one position", ["brain", "t"], lines("START 15", *batch(FIVE_TWO[2], FIVE_TWO[3])), 0,
        told("OK", "8,7"), first,
    )
    far = book(PASSES, (FAR_CORNERS, 4, f"root {len(PASSES) - 1}"))
    yield Case("brain t: a book, more arrivals than it may have", ["brain", "t"], "", 5, "entry 1 spent\n", far)


def binds():
    """Files that are bound, and the earliest that is not. No input is asked: it would be too long."""
    two_moves = table(*THREE, 2, THREE_WINS)
    three, start = (THREE, 2, "root 2"), (FOUR_OF_START, 1, "start rest 1 8,7>0")
    other_first = book(["8,7 wins", "3,7 wins", "4,7 rest 1 3,7>0"], (FOUR_OF_START, 1, "start rest 0 8,7>1"), three)
    far = table(*FAR_CORNERS, 4, PASSES)
    files = {
        "t": two_moves, "u": FOUR_AND_REPLY, "far": far, "long": (MAX_INPUT_BYTES + 1) * b"x", "book": book(THREE_WINS, three),
        "wrong": table(*THREE, 1, ["5,7 wins"]), "reply": table(*THREE, 2, [*THREE_WINS[:2], "4,7 rest 0"]), "rule": "renju-table 1\nrule gomoku\n", "moves": table(*THREE, 3, THREE_WINS), "full": table(*FULL, 1, ["0,0 wins"]),
    }
    runs = [
        (["t"], 0, book(THREE_WINS, three)),
        (["t", "u"], 0, book(THREE_WINS, three, start)),
        (["u", "t"], 0, other_first),
        (["t", "t"], 0, book(THREE_WINS, three, three)),
        (64 * ["t"], 0, book(THREE_WINS, *64 * [three])),
        (["v"], 2, "file 1 shelf failed\n"),
        (["t", "u", "v", "wrong"], 2, "file 3 shelf failed\n"),
        (["t", "./t", "."], 2, "file 3 shelf failed\n"),
        (["moves", "v"], 3, "file 1 refused moves 3 2\n"),
        (["t", "full"], 3, "file 2 refused board full\n"),
        (["t", "book"], 3, "file 2 refused line 1\n"),
        (["u", "wrong"], 4, "file 2 refused attack-refused 5,7\n"),
        (["t", "v", "wrong"], 2, "file 2 shelf failed\n"),
        (["t", "u", "rule"], 3, "file 3 refused line 2\n"),
        (["reply", "v"], 4, "file 1 refused attack-refused 4,7 3,7 3,7\n"),
        (["t", "far"], 5, "file 2 spent\n"),
        (["long", "t"], 11, "file 1 input too long\n"),
        ([*63 * ["t"], "v"], 2, "file 64 shelf failed\n"),
    ]
    for names, status, output in runs:
        yield Case(f"bind: {' '.join(names)}", ["bind", *names], MAX_INPUT_BYTES * b"xx", status, output, files)
    yield Case("book: one that is bound", ["book", "219"], other_first, 0, "accepted 2 entries, 438 arrivals\n")


# Boards of 5 on which White is to move and two points are empty, 4,0 and 0,4. Black has two rows of four that meet in 0,0, so that
# it wins with the point that White leaves. The first board is its own image under the diagonal; on the second White wins with 4,0.
CROSS = ("freestyle", 5, "0,0 1,0 2,0 3,0 0,1 4,1 0,2 2,2 0,3 3,3 1,4 4,4", "1,1 2,1 3,1 1,2 3,2 4,2 1,3 2,3 4,3 2,4 3,4")
COLUMN = ("freestyle", 5, "0,0 1,0 2,0 3,0 0,1 1,1 0,2 2,2 0,3 3,3 1,4 2,4", "2,1 3,1 4,1 1,2 3,2 4,2 1,3 2,3 4,3 3,4 4,4")


def put(board, side, point):
    """The board with one stone more, whose sides stand in reading order."""
    rule, size, *sides = board
    stones = sides[side].split() + [point]
    sides[side] = " ".join(sorted(stones, key=lambda it: [int(n) for n in reversed(it.split(","))]))
    return rule, size, *sides


def lift(board, side, point):
    rule, size, *sides = board
    sides[side] = " ".join(it for it in sides[side].split() if it != point)
    return rule, size, *sides


def covers():
    """Positions that many tables cover, replies that none does, and files that are not accepted, for which no input is asked."""
    right, below = put(CROSS, 1, "4,0"), put(CROSS, 1, "0,4")
    early, line = lift(CROSS, 0, "0,3"), put(COLUMN, 1, "0,4")
    files = {
        "right": table(*right, 1, ["0,4 wins"]), "below": table(*below, 1, ["4,0 wins"]), "line": table(*line, 1, ["4,0 wins"]),
        "exact": table("exact", *right[1:], 1, ["0,4 wins"]),
        "start": table(*CROSS, 1, ["4,0 wins", "0,4 wins"], "start rest 0 4,0>1"),
        "two": table(*THREE, 2, THREE_WINS), "wrong": table(*THREE, 1, ["5,7 wins"]), "moves": table(*THREE, 3, THREE_WINS),
        "rule": "renju-table 1\nrule gomoku\n", "long": (MAX_INPUT_BYTES + 1) * b"x", "book": book(["0,4 wins"], (right, 1, "root 0")),
    }
    told = "covered in {} moves, {} replies by {} tables\n".format
    runs = [
        (CROSS, "- right", 0, told(1, 2, 1)),
        (CROSS, "- below", 0, told(1, 2, 1)),
        (CROSS, "- right below", 0, told(1, 2, 2)),
        (CROSS, "- line exact start below two", 0, told(1, 2, 1)),
        (CROSS, "- line exact start right", 0, told(1, 2, 1)),
        (CROSS, "- exact start line", 9, "no table 4,0\n"),
        (("exact", *CROSS[1:]), "- exact right", 0, told(1, 2, 1)),
        (("exact", *CROSS[1:]), "- right start", 9, "no table 4,0\n"),
        (CROSS, " ".join(["-", *1000 * ["right"]]), 0, told(1, 2, 1000)),
        (COLUMN, "- line", 9, "no table 4,0\n"),
        (lift(COLUMN, 0, "0,3"), "0,3 line", 9, "no table 4,0\n"),
        (ONE_LEFT, "- right", 9, "no table 4,4\n"),
        (early, "0,3 right", 0, told(2, 2, 1)),
        (early, "0,3 below right two", 0, told(2, 2, 2)),
        (early, "0,4 right", 9, "no table 4,0\n"),
        (early, "- right", 9, "no table 4,0\n"),
        (right, "0,4 two", 0, told(1, 0, 0)),
        (right, "0,0 right", 9, "illegal 1\n"),
        (right, "0,5 right", 9, "illegal 1\n"),
        (right, "31,31 right", 9, "illegal 1\n"),
        (ONE_LEFT, "4,4 right", 9, "drawn 1\n"),
        (THREE, "4,7 two", 9, "no table 1,0\n"),
    ]
    for board, words, status, output in runs:
        # The start has two arrivals, and the table of two moves 219; each other one has one.
        for work in ("219",) if "two" in words or "start" in words else ("1", "219"):
            yield Case(f"cover: {work} {words} at {board}", ["cover", work, *words.split()], position(*board), status, output, files)
    foul = ("renju", 15, "7,6 6,7 8,7 7,8", "0,0 14,0 0,14 14,14")
    yield Case("cover: an attack that fouls", ["cover", "1", "7,7", "right"], position(*foul), 9, "foul double-three 1\n", files)
    refused = [
        (["v"], 2, "file 1 shelf failed\n"),
        (["right", "below", "v", "wrong"], 2, "file 3 shelf failed\n"),
        (["moves", "v"], 3, "file 1 refused moves 3 2\n"),
        (["right", "rule"], 3, "file 2 refused line 2\n"),
        (["right", "book"], 3, "file 2 refused line 1\n"),
        (["right", "wrong"], 4, "file 2 refused attack-refused 5,7\n"),
        (["long", "v"], 11, "file 1 input too long\n"),
        ([*999 * ["right"], "v"], 2, "file 1000 shelf failed\n"),
    ]
    for names, status, output in refused:
        yield Case(f"cover: {' '.join(names)}", ["cover", "219", "-", *names], MAX_INPUT_BYTES * b"xx", status, output, files)
    yield Case("cover: more arrivals than are allowed", ["cover", "218", "-", "two"], MAX_INPUT_BYTES * b"xx", 5, "file 1 spent\n", files)
    for text, status, output in ((MAX_INPUT_BYTES * b"xx", 11, "input too long\n"), (files["right"], 3, "refused line 1\n"), (position(*CROSS) + "\n", 3, "refused line 6\n")):
        yield Case(f"cover: an input that is {output}", ["cover", "1", "-", "right"], text, status, output, files)


def joins():
    """Tables that are joined to one, replies that none of them answers, and files that are not accepted, for which no input is asked."""
    left = ("freestyle", 15, "4,7 5,7 6,7 7,7", "0,0 2,0 4,0 3,7")
    right = ("freestyle", 15, "4,7 5,7 6,7 7,7", "0,0 2,0 4,0 8,7")
    early = lift(CROSS, 0, "0,3")
    files = {
        "left": table(*left, 1, ["8,7 wins"]), "right": table(*right, 1, ["3,7 wins"]),
        # Of another rule, of a start, and with a node that no reply leads to.
        "exact": table("exact", *left[1:], 1, ["8,7 wins"]), "other": table("exact", *right[1:], 1, ["3,7 wins"]), "start": FOUR_AND_REPLY,
        "spare": table(*left, 1, ["1,1 wins", "8,7 wins"]),
        "two": table(*THREE, 2, THREE_WINS), "wrong": table(*THREE, 1, ["5,7 wins"]), "moves": table(*THREE, 3, THREE_WINS),
        "across": table(*put(CROSS, 1, "4,0"), 1, ["0,4 wins"]), "below": table(*put(CROSS, 1, "0,4"), 1, ["4,0 wins"]),
        "line": table(*put(COLUMN, 1, "0,4"), 1, ["4,0 wins"]),
        "rule": "renju-table 1\nrule gomoku\n", "long": (MAX_INPUT_BYTES + 1) * b"x", "book": book(["8,7 wins"], (left, 1, "root 0")),
    }
    by_left = table(*THREE, 2, ["8,7 wins", "3,7 wins", "4,7 rest 0 8,7>1"])
    by_right = table(*THREE, 2, THREE_WINS)
    both = table(*early, 2, ["0,4 wins", "4,0 wins", "0,3 rest 0 0,4>1"])
    runs = [
        (THREE, "4,7 left right", 0, by_left),
        (THREE, "4,7 right left", 0, by_right),
        (THREE, "4,7 left left spare right right", 0, by_left),
        (THREE, "4,7 spare right left", 0, by_left),
        (THREE, "4,7 two start across left right", 0, by_left),
        (THREE, "4,7 exact right", 0, by_left),
        (("exact", *THREE[1:]), "4,7 left right exact other", 0, by_left.replace("freestyle", "exact")),
        (THREE, "4,7 left", 9, "no answer 8,7\n"),
        (THREE, "4,7 right exact start right", 0, by_right),
        (THREE, "4,7 right", 9, "no answer 3,7\n"),
        (THREE, "4,7 two start across", 9, "no answer 1,0\n"),
        (THREE, "3,7 left right", 9, "no answer 1,0\n"),
        # Black may have fouls, so no zone answers for it.
        (("renju", *THREE[1:]), "4,7 left right", 9, "no answer 1,0\n"),
        (early, "0,3 across below", 0, both),
        (early, "0,3 below line across", 0, both),
        (early, "0,3 across", 9, "no answer 0,4\n"),
        (early, "0,3 below", 9, "no answer 4,0\n"),
        (lift(COLUMN, 0, "0,3"), "0,3 line", 9, "no answer 4,0\n"),
        (THREE, "5,7 left", 9, "illegal 1\n"),
        (THREE, "15,0 left", 9, "illegal 1\n"),
        (THREE, "31,31 left", 9, "illegal 1\n"),
        (FIVE_ONE, "8,7 left", 9, "won black 1\n"),
        (ONE_LEFT, "4,4 left", 9, "drawn 1\n"),
        (("renju", 15, "7,6 6,7 8,7 7,8", "0,0 14,0 0,14 14,14"), "7,7 left", 9, "foul double-three 1\n"),
    ]
    for board, words, status, output in runs:
        yield Case(f"join: {words} at {board}", ["join", *words.split()], position(*board), status, output, files)
    yield Case("join: what is joined is accepted", ["check", "219"], by_left, 0, "accepted in 2 moves, 219 arrivals\n")
    refused = [
        (["v"], 2, "file 1 shelf failed\n"),
        (["left", "right", "v", "wrong"], 2, "file 3 shelf failed\n"),
        (["moves", "v"], 3, "file 1 refused moves 3 2\n"),
        (["left", "rule"], 3, "file 2 refused line 2\n"),
        (["left", "book"], 3, "file 2 refused line 1\n"),
        (["left", "wrong"], 4, "file 2 refused attack-refused 5,7\n"),
        (["long", "v"], 11, "file 1 input too long\n"),
        ([*999 * ["left"], "v"], 2, "file 1000 shelf failed\n"),
    ]
    for names, status, output in refused:
        yield Case(f"join: {' '.join(names)}", ["join", "4,7", *names], MAX_INPUT_BYTES * b"xx", status, output, files)
    for text, status, output in ((MAX_INPUT_BYTES * b"xx", 11, "input too long\n"), (files["left"], 3, "refused line 1\n"), (position(*THREE) + "\n", 3, "refused line 6\n")):
        yield Case(f"join: an input that is {output}", ["join", "4,7", "left"], text, status, output, files)


def full_books():
    """Two tables that together hold as many different nodes as a table may have, and two that hold one more. The last node of each
    wins at once, and leads to no other."""
    points = [f"{x},{y}" for y in range(15) for x in range(15)]
    deep = [f"{p} wins" for p in points if p != "8,7"]
    deep += [f"{p} rest {i}" for i in range(len(deep)) for p in points]
    for count, status in ((MAX_NODES, 0), (MAX_NODES + 1, 12)):
        left = count - len(deep) - 1
        deeper = [f"{p} rest {len(points) + i // len(points)}" for i, p in zip(range(left), itertools.cycle(points))]
        first, second = ([*deep, *half, "8,7 wins"] for half in (deeper[:left // 2], deeper[left // 2:]))
        root = f"root {len(first) - 1}"
        output = book(first + deeper[left // 2:], (FIVE_ONE, 1, root), (FIVE_ONE, 1, root)) if status == 0 else "table full\n"
        files = {"t": table(*FIVE_ONE, 1, first), "u": table(*FIVE_ONE, 1, second)}
        yield Case(f"bind: files with {count} different nodes", ["bind", "t", "u"], "", status, output, files)
    # A join has its own node beside those of the files.
    three, four = ("freestyle", 15, "4,7 5,7 6,7", "0,0 2,0 4,0"), ("freestyle", 15, "4,7 5,7 6,7 7,7", "0,0 2,0 4,0 8,7")
    joined = table(*three, 2, ["8,7 wins", "3,7 wins", "7,7 rest 0 8,7>1"])
    for count, status, output in ((MAX_NODES - 1, 0, joined), (MAX_NODES, 12, "table full\n")):
        left = count - len(deep) - 1
        deeper = [f"{p} rest {len(points) + i // len(points)}" for i, p in zip(range(left), itertools.cycle(points))]
        files = {"t": table(*FIVE_ONE, 1, [*deep, *deeper, "8,7 wins"]), "u": table(*four, 1, ["3,7 wins"])}
        yield Case(f"join: files with {count} different nodes", ["join", "7,7", "t", "u"], position(*three), status, output, files)


def referees():
    """Games that are judged, and games beside a table."""
    yield Case("referee: no moves", ["referee"], game(*BLOCK_FOULS, ""), 0, "open 0\n")
    yield Case("referee: a foul", ["referee"], game(*BLOCK_FOULS, "6,3 7,3"), 0, "foul overline 2\n")
    yield Case("referee: a double-three", ["referee"], game("renju", 15, DIAMOND, CORNERS, "7,7"), 0, "foul double-three 1\n")
    two_fours = game("renju", 15, "2,7 4,7 6,7 8,7", CORNERS, "5,7")
    yield Case("referee: a double-four", ["referee"], two_fours, 0, "foul double-four 1\n")
    yield Case("referee: a position", ["referee"], position(*THREE), 3, "refused line 1\n")
    yield Case("referee: no line feed at the end", ["referee"], game(*THREE, "4,7")[:-1], 3, "refused line 6\n")
    two_moves = table(*THREE, 2, THREE_WINS)
    for moves, output in (
        ("", "open 0\ntable follows\n"),
        ("4,7", "open 1\ntable follows\n"),
        ("9,9 3,7 8,7", "open 3\ntable departs 1\n"),
        ("4,7 3,7 8,7", "won black 3\ntable follows\n"),
        ("4,7 0,14 8,7", "won black 3\ntable departs 3\n"),
        ("4,7 4,7", "illegal 2\ntable follows\n"),
        ("4,7 3,7 8,7 1,1", "after end 4\ntable follows\n"),
    ):
        yield Case(f"referee t: {moves}", ["referee", "t"], game(*THREE, moves), 0, output, two_moves)
    for moves, output in (("8,7 3,7", "won black 2\ntable follows\n"), ("1,1 3,7", "won black 2\ntable departs 2\n")):
        yield Case(f"referee t: the opponent begins, {moves}", ["referee", "t"], game(*FOUR_OF_START, moves), 0, output, FOUR_AND_REPLY)
    yield Case(
        "referee t: a reply that fouls", ["referee", "t"], game(*BLOCK_FOULS, "6,3 7,3"), 0, "foul overline 2\ntable follows\n", BLOCK_WINS,
    )
    yield Case("referee t: another position", ["referee", "t"], game(*BLOCK_FOULS, ""), 0, "open 0\ntable absent\n", two_moves)
    yield Case(
        "referee t: the file goes before the game", ["referee", "t"], "", 4, "refused attack-refused 5,7\n", table(*THREE, 1, ["5,7 wins"]),
    )
    yield Case("referee u: no such file", ["referee", "u"], "", 2, "shelf failed\n", two_moves)
    yield Case("referee t: more arrivals than it may have", ["referee", "t"], "", 5, "spent\n", table(*FAR_CORNERS, 4, PASSES))


def examples():
    """The texts of the repository, each with its words."""
    double_threes = lines("fouls 3", "foul 5,7 double-three", "foul 6,9 double-three", "foul 7,9 double-three")
    yield Case("two-move-win.txt", ["check", "219"], example("two-move-win.txt"), 0, "accepted in 2 moves, 219 arrivals\n")
    yield Case("three-in-a-row.txt", ["fours", "5", "3"], example("three-in-a-row.txt"), 0, table(*THREE, 2, THREE_WINS))
    yield Case("double-three.txt", ["threats", "1", "12"], example("double-three.txt"), 0, DOUBLE_THREE)
    yield Case("allowed-double-three.txt", ["foul"], example("allowed-double-three.txt"), 0, double_threes)


def lines_behind(mark, block):
    """The text whose lines stand behind the mark."""
    text = ""
    for line in block.splitlines():
        if line[: len(mark) + 1] in (mark, f"{mark} "):
            text += line[len(mark) + 1 :].replace("\\r", "\r") + "\n"
        elif line.startswith(f"{mark}- "):
            text += line[len(mark) + 2 :]
    return text


def rows():
    """The rows of `.ci/rows`."""
    for block in (TOP / ".ci" / "rows").read_text().split("\n\n"):
        name, words, file, status = (re.search(rf"^{mark} ?(.*)$", block, re.M) for mark in ("#", r"\$", "@", "="))
        if name:
            held = {file[1]: lines_behind("|", block)} if file else None
            yield Case(f"row: {name[1]}", words[1].split(), lines_behind("<", block), int(status[1]), lines_behind(">", block), held)


def sessions():
    """Sessions of a brain, most of which hold a file."""
    for name, asked, answers in BLOCK_SESSIONS:
        yield Case(name, ["brain", "t"], lines(*WHITE_TO_MOVE, *asked), 0, told(*answers), BLOCK_WINS)
    yield from (row for row in rows() if row.words[0] == "brain")


def carriage_returns():
    """Sessions as a manager may send them."""
    for each in sessions():
        yield Case(f"carriage returns: {each.name}", each.words, each.text.replace("\n", "\r\n"), each.status, each.output, each.file)


def long_tables():
    """Tables of a million nodes, of a line more, and of more than there may be; and a chain of a million."""
    head = lines("renju-table 1", "rule freestyle", f"size {SIX[0]}", f"black {SIX[1]}", f"white {SIX[2]}")
    wins = lambda nodes, count: head + lines("moves 1", f"nodes {nodes}") + count * "4,7 wins\n"
    chain = head + lines(f"moves {MAX_NODES}", f"nodes {MAX_NODES}", "4,7 wins", *(f"4,7 rest {i}" for i in range(MAX_NODES - 1)))
    yield Case("a million nodes", ["check", "1"], wins(MAX_NODES, MAX_NODES), 0, "accepted in 1 moves, 1 arrivals\n")
    yield Case("a line more", ["check", "1"], wins(MAX_NODES, MAX_NODES + 1), 3, "refused line 1000008\n")
    yield Case("more than a million nodes", ["check", "1"], wins(MAX_NODES + 1, MAX_NODES + 1), 3, "refused line 7\n")
    yield Case("a chain of a million nodes", ["check", "1"], chain, 0, "accepted in 1000000 moves, 1 arrivals\n")


def cut_tables():
    """A table that is cut off after each of its bytes: the first line that is missing is told."""
    text = table(*THREE, 2, THREE_WINS)
    for end in range(len(text)):
        missing = text[:end].count("\n") + 1
        yield Case(f"a table that is cut off after {end} bytes", ["check", "219"], text[:end], 3, f"refused line {missing}\n")


# The commands that read a whole input, with words.
WHOLE_INPUTS = [
    ["check", "1"], ["foul"], ["fours", "1", "1"], ["threats", "1", "1"], ["solve", "1", "1"], ["quiet", "1", "1"], ["image", "half"], ["referee"],
    ["defend", "1", "1"], ["book", "1"],
]


def long_inputs():
    held = table(*THREE, 2, THREE_WINS)
    for command in (*WHOLE_INPUTS, ["referee", "t"]):
        yield Case(f"{command}: the longest input", command, MAX_INPUT_BYTES * b"x", 3, "refused line 1\n", held)
        yield Case(f"{command}: an input that is too long", command, (MAX_INPUT_BYTES + 1) * b"x", 11, "input too long\n", held)
    for name, text, status, output in (
        ("the longest file", MAX_INPUT_BYTES * b"x", 3, "refused line 1\n"),
        ("a file that is too long", (MAX_INPUT_BYTES + 1) * b"x", 11, "input too long\n"),
    ):
        yield Case(f"referee t: {name}", ["referee", "t"], game(*THREE, ""), status, output, text)
    yield Case("a form goes before the length", ["check", "0"], (MAX_INPUT_BYTES + 1) * b"x", 1, USAGE)


def all_cases():
    for group in (words_without_a_form, checks, shared_games, refused_tables, refused_texts, fouls, fours, threats, solves, quiets, drills, images, defends, brains, held_brains, books, binds, covers, joins, full_books, referees, examples, rows, carriage_returns, long_tables, cut_tables, long_inputs):
        yield from group()


def as_bytes(text):
    return text if isinstance(text, bytes) else text.encode()


def is_wanted(output, wanted):
    return wanted.fullmatch(output.decode("latin-1")) if isinstance(wanted, re.Pattern) else output == as_bytes(wanted)


@contextmanager
def shelf_of(text):
    """A folder with a file t that holds this, or with files by their names, or none."""
    if text is None:
        yield None
        return
    with tempfile.TemporaryDirectory() as folder:
        for name, held in (text if isinstance(text, dict) else {"t": text}).items():
            Path(folder, name).write_bytes(as_bytes(held))
        yield folder


class Runs:
    """The runs of one program, in an empty folder, and what was wrong with them."""

    def __init__(self, program, folder):
        self.program, self.folder, self.failed = program, folder, []

    def run(self, words, name="renju", **devices):
        devices = {"stdout": subprocess.PIPE, "stderr": subprocess.PIPE, "cwd": self.folder, "env": {}, "timeout": SECONDS, **devices}
        try:
            return subprocess.run([name, *words], executable=self.program, **devices)
        except subprocess.TimeoutExpired:
            return subprocess.CompletedProcess(words, "none in time", b"", b"")

    def expect(self, name, done, status, output):
        told = done.stdout if done.stdout is not None else b""
        if done.returncode == status and is_wanted(told, output) and not done.stderr and not os.listdir(self.folder):
            return
        wanted = output.pattern if isinstance(output, re.Pattern) else as_bytes(output)
        self.failed.append(
            f"FAILED {name} ({self.program.name}): status {done.returncode} and {told[:200]!r}, errors {done.stderr or b''!r}, "
            f"files {os.listdir(self.folder)}; wanted status {status} and {wanted[:200]!r}"
        )

    def over_cases(self):
        for case in all_cases():
            with shelf_of(case.file) as shelf:
                # A program that leaves its input unasked breaks the pipe, which subprocess passes over.
                limit = lambda: resource.setrlimit(resource.RLIMIT_CPU, (case.seconds, case.seconds))
                done = self.run(case.words, input=as_bytes(case.text), cwd=shelf or self.folder, preexec_fn=limit)
            self.expect(case.name, done, case.status, case.output)

    def over_solutions(self):
        """Wins that no fours make: the table that `solve` writes is accepted, in no more moves than were allowed."""
        double_three = position("freestyle", 15, DIAMOND, CORNERS)
        of_white = position("renju", 15, "0,0 14,0 14,7 0,14 14,14", DIAMOND)
        for name, text in ("a double three", double_three), ("a double three of White", of_white):
            solved = self.run(["solve", "3", "1000"], input=as_bytes(text))
            head = re.escape(lines("renju-table 1", *text.splitlines()[1:]))
            self.expect(f"solve: {name}", solved, 0, re.compile(head + r"moves [1-3]\nnodes \d+\n(.+\n)+"))
            checked = self.run(["check", "1000000"], input=solved.stdout)
            self.expect(f"check of what is solved: {name}", checked, 0, re.compile(r"accepted in [1-3] moves, \d+ arrivals\n"))
            # After each of 216 replies to the first move there are 214 to the second: 1 + 216 * 215 arrivals.
            for work, status, output in ((46441, 0, "accepted in 3 moves, 46441 arrivals\n"), (46440, 5, "spent\n")):
                if name == "a double three":
                    self.expect(f"check {work} of {name}", self.run(["check", str(work)], input=solved.stdout), status, output)
            # At its first move one answer is enough for all replies but three.
            listed = solved.stdout.splitlines()[-1].count(b">")
            if listed != 3:
                self.failed.append(f"FAILED solve ({self.program.name}): {name} lists {listed} replies to its first move, of which 3 do")

    def over_quiet_wins(self):
        """Wins that begin with a quiet move: the table that `quiet` writes is accepted, in no more moves than were allowed."""
        for at, stones in enumerate(QUIET_WINS):
            text = position(*stones)
            head = re.escape(lines("renju-table 1", *text.splitlines()[1:]))
            found = self.run(["quiet", "12", "2000"], input=as_bytes(text))
            self.expect(f"quiet: win {at}", found, 0, re.compile(head + r"moves ([1-9]|1[0-2])\nnodes \d+\n(.+\n)+"))
            checked = self.run(["check", "1000000000000"], input=found.stdout)
            self.expect(f"check of quiet win {at}", checked, 0, re.compile(r"accepted in ([1-9]|1[0-2]) moves, \d+ arrivals\n"))
            if found.returncode == 0 and not (stones[0] == "renju" and len(stones[2].split()) == len(stones[3].split())):
                self.over_parts(f"quiet win {at}", text, found.stdout.decode(), checked.stdout)
            if stones[1:] == BLOCKED_BY_A_FOUL:
                where_none_fouls = found.stdout.replace(b"rule renju", b"rule exact")
                refused = self.run(["check", "1000000000000"], input=where_none_fouls)
                self.expect("check of a quiet win where no block fouls", refused, 4, re.compile(r"refused [a-z-]+( \d+,\d+)+\n"))

    def over_parts(self, name, text, whole, accepted):
        """A table that is taken apart after its first move, a file for each answer, and joined again is accepted as it was."""
        nodes = [line.split() for line in whole.splitlines()[7:]]
        attack, _, rest, *listed = nodes[-1]
        attacker = text.splitlines()[3].count(",") != text.splitlines()[4].count(",")
        rule, size, *sides = text.splitlines()[1].split()[1], *text.splitlines()[2].split()[1:2], *(line.split(" ", 1)[1] for line in text.splitlines()[3:5])
        board = put((rule, int(size), *sides), attacker, attack)
        named = {it.split(">")[0]: int(it.split(">")[1]) for it in listed}
        taken = {*sides[0].split(), *sides[1].split(), attack, *named}
        named[next(p for p in (f"{x},{y}" for y in range(int(size)) for x in range(int(size))) if p not in taken)] = int(rest)
        files = {}
        for reply, root in named.items():
            kept, depths = [], {}
            for number, node in enumerate(nodes[:root + 1]):
                names = [int(it.split(">")[1]) for it in node[1:] if ">" in it] + ([int(node[2])] if node[1] == "rest" else [])
                depths[number] = 1 + max((depths[it] for it in names), default=0)
                kept.append(" ".join(node))
            files[reply] = table(*put(board, not attacker, reply), depths[root], kept)
        with shelf_of(files) as shelf:
            joined = self.run(["join", attack, *files], input=as_bytes(text), cwd=shelf)
        head = re.escape("".join(f"{line}\n" for line in whole.splitlines()[:6]))
        self.expect(f"join of the parts of {name}", joined, 0, re.compile(head + r"nodes \d+\n(.+\n)+"))
        self.expect(f"check of what is joined of {name}", self.run(["check", "1000000000000"], input=joined.stdout), 0, re.compile(r"accepted in \d+ moves, \d+ arrivals\n"))

    def over_collection(self):
        """The rows of the collection: a win is that of the side and the moves that are told, and its table is accepted."""
        for name in ("two-move-win.txt", "two-move-win-quarter.txt"):
            self.expect_images(name, example(name).encode())
        rows = ROW.findall((COLLECTION / "README.md").read_text())
        for name in {path.name for path in COLLECTION.glob("*.txt")} ^ {row[0] for row in rows}:
            self.failed.append(f"FAILED examples/wins: {name} has no row, or no file")
        for file, command, most, nodes, status, told in rows:
            text = (COLLECTION / file).read_text()
            found = self.run([command, most, nodes], input=text.encode())
            name = f"{file}: {command} {most} {nodes}"
            if status == "0" and command != "threats":
                self.expect_win(name, text, found, told)
                self.expect_images(file, found.stdout)
                self.expect_game(file, found.stdout)
            else:
                self.expect(name, found, int(status), "none\n" if status == "9" else re.compile(r"threats \d+\n(.+\n)+final \d+,\d+\n"))

    def expect_win(self, name, text, found, told):
        """A table of the position, of a side that wins in so many moves, or within so many, as is told."""
        side, how, moves = re.search(r"(Black|White) wins.*? (in|within) (\d+) moves", told).groups()
        black, white = (len(line.split()) for line in text.splitlines()[3:5])
        if side != ("Black" if black == white else "White"):
            self.failed.append(f"FAILED {name}: {side} is not to move")
        moves = moves if how == "in" else f"(?:{'|'.join(str(move) for move in range(1, int(moves) + 1))})"
        head = re.escape(lines("renju-table 1", *text.splitlines()[1:]))
        self.expect(name, found, 0, re.compile(head + rf"moves {moves}\nnodes \d+\n(.+\n)+"))
        checked = self.run(["check", "1000000000000"], input=found.stdout)
        self.expect(f"check after {name}", checked, 0, re.compile(rf"accepted in {moves} moves, \d+ arrivals\n"))

    def expect_images(self, name, text):
        """The image of a table is accepted with the same counts, and the image of the image by the inverse is the table again."""
        told = self.run(["check", "1000000000000"], input=text).stdout
        for word, inverse in INVERSES.items():
            image = self.run(["image", word], input=text)
            self.expect(f"image {inverse} after {word} of {name}", self.run(["image", inverse], input=image.stdout), 0, text)
            if word in ("diagonal", "three-quarter"):
                self.expect(f"check after image {word} of {name}", self.run(["check", "1000000000000"], input=image.stdout), 0, told)

    def expect_game(self, name, text):
        """A brain that holds a table is sent its position and then replies, those that it lists first, and the game is replayed."""
        held = read(text)
        position, own = held.position, held.position.side()
        listed = sorted({reply for node in held.nodes for reply, _ in node.replies})
        replies = random.Random(name).sample(listed, len(listed)) + [(x, y) for y in range(5) for x in range(5)]
        asked = [f"TURN {spelled(reply)}" for reply in replies]
        stones = [f"{spelled(point)},{1 if side == own else 2}" for point, side in position.stones().items()]
        before = [f"START {position.width}", f"INFO rule {RULE_NUMBERS[position.rule]}", "BOARD", *stones, "DONE"]
        with shelf_of(text) as shelf:
            answers = self.run(["brain", "t"], input=lines(*before, *asked).encode(), cwd=shelf).stdout.decode().split("\r\n")
            moves = moves_played(asked, answers[1:-1] or ["none"])
            judged = self.run(
                ["referee", "t"], input=(position.text("renju-game 1") + lines(f"moves {' '.join(moves)}")).encode(), cwd=shelf,
            )
        end = f"won {own} {len(moves)}" if len(moves) % 2 else rf"foul \S+ {len(moves)}"
        self.expect(f"the game {' '.join(moves)} by the table of {name}", judged, 0, re.compile(f"{end}\ntable follows\n"))

    def over_games(self):
        """The games that a brain plays in the sessions of the cases, each beside the table that it holds."""
        played = [(name, BLOCK_FOULS, moves_played(asked, answers[1:]), BLOCK_WINS) for name, asked, answers in BLOCK_SESSIONS]
        played += [
            ("a start", FOUR_OF_START, ["1,14", "8,7"], FOUR_AND_REPLY),
            ("a pass", FAR_CORNERS, ["30,15", "3,7", "8,7"], table(*FAR_CORNERS, 2, PASSES[:3])),
        ]
        played += [("an image", TURNED, ["10,7", "11,7", "6,7"], table(*TURNED, 2, TURNED_WINS))]
        for name, stones, moves, held in played:
            with shelf_of(held) as shelf:
                judged = self.run(["referee", "t"], input=game(*stones, " ".join(moves)).encode(), cwd=shelf)
            self.expect(f"the game of a session: {name}", judged, 0, re.compile(r"(won|foul) .*\ntable follows\n"))

    def over_drill(self):
        """The games of a drill, each replayed."""
        drill = Drill(self.program, lambda words, text: self.run(words, input=text.encode()))
        self.expect("drill 0, as it is made by hand", self.run(["drill", "0"], input=b""), 0, drill.of(0))
        self.failed += [f"FAILED drill 0 ({self.program.name}): {wrong}" for wrong in drill.wrong]

    def over_a_large_book(self):
        """The first 125 wins of four drills in their images, bound into a book of 1,000 entries, which is checked and played by."""
        drill = Drill(self.program, lambda words, text: self.run(words, input=text.encode()))
        wins = [win for number in range(4) for win in drill.tables(number)][: ENTRIES // len(SYMMETRIES)]
        tables = [self.run(["image", symmetry], input=win.encode()).stdout for win in wins for symmetry in SYMMETRIES]
        counts = [int(self.run(["check", "2000000"], input=each).stdout.split()[-2]) for each in tables]
        with shelf_of({f"{i}": each for i, each in enumerate(tables)}) as shelf:
            words = [sys.executable, str(TOP / "examples" / "books.py"), "book", *map(str, range(len(tables)))]
            done = subprocess.run(words, capture_output=True, cwd=shelf, env={**os.environ, "RENJU": str(self.program)}, timeout=SECONDS)
            book = Path(shelf, "book")
            self.expect("a book of 1,000 entries is made", done, 0, f"book: {len(tables)} entries, {BOOK_NODES} nodes\n")
            sizes = sum(map(len, tables)), len(book.read_bytes())
            if sizes != BOOK_BYTES:
                self.failed.append(
                    f"FAILED a book of 1,000 entries ({self.program.name}): "
                    f"tables and book have {sizes} bytes; wanted {BOOK_BYTES}"
                )
            wanted = f"accepted {len(tables)} entries, {sum(counts)} arrivals\n"
            self.expect("a book of 1,000 entries", self.run(["book", "2000000"], input=book.read_bytes()), 0, wanted)
            for i in range(0, len(tables), 41):
                position = read(tables[i]).position
                moves, end = drill.played(position, str(book), Numbers(i))
                if end != "won" or (len(moves) + 1) // 2 > int(re.search(rb"moves (\d+)", tables[i]).group(1)):
                    self.failed.append(
                        f"FAILED a book of 1,000 entries ({self.program.name}): "
                        f"the game of entry {i + 1} ends so: {end}, {moves}"
                    )

    def over_a_choice(self):
        """A wrong table with too little work: it may be refused or spent."""
        wrong = table(*THREE, 2, [*THREE_WINS[:2], "4,7 rest 0"])
        done = self.run(["check", "1"], input=as_bytes(wrong))
        status, output = (4, "refused attack-refused 4,7 3,7 3,7\n") if done.returncode == 4 else (5, "spent\n")
        self.expect("a wrong table with too little work", done, status, output)

    def over_names(self):
        """The name of the program is none of its words."""
        text = as_bytes(table(*THREE, 2, THREE_WINS))
        self.expect("another name", self.run(["check", "219"], "other", input=text), 0, "accepted in 2 moves, 219 arrivals\n")
        self.expect("a command as name", self.run(["219"], "check", input=text), 1, USAGE)

    def over_inputs(self):
        """An input that fails, that comes in pieces, that is left unasked, and that is read to its end."""
        for command in (*WHOLE_INPUTS, ["brain"]):
            self.expect("a closed input", self.run(command, preexec_fn=lambda: os.close(0)), 7, "")
            folder = os.open(TOP, os.O_RDONLY)
            self.expect("a folder as input", self.run(command, stdin=folder), 7, "")
            os.close(folder)
        self.expect("a closed input that is unasked", self.run([], preexec_fn=lambda: os.close(0)), 1, USAGE)
        text = as_bytes(table(*THREE, 2, THREE_WINS))
        pieces = subprocess.Popen(
            [sys.executable, "-c", "import os, sys\nfor b in sys.argv[1].encode(): os.write(1, bytes([b]))", text], stdout=subprocess.PIPE,
        )
        self.expect("an input in pieces", self.run(["check", "219"], stdin=pieces.stdout), 0, "accepted in 2 moves, 219 arrivals\n")
        pieces.stdout.close()
        pieces.wait()
        with open("/dev/zero", "rb") as endless:
            for command in (*WHOLE_INPUTS, ["brain"]):
                output = "" if command == ["brain"] else "input too long\n"
                self.expect("an input without an end that is read", self.run(command, stdin=endless), 11, output)
        self.over_single_bytes()
        with shelf_of(BLOCK_WINS) as shelf:
            self.expect("a closed input of a brain that holds", self.run(["brain", "t"], cwd=shelf, preexec_fn=lambda: os.close(0)), 7, "")
        with shelf_of("") as shelf:
            done = self.run(["brain", "t"], cwd=shelf, preexec_fn=lambda: os.close(0))
            self.expect("a closed input of a brain that holds nothing", done, 3, "refused line 1\n")
        front, end = os.pipe()
        self.expect("an input without an end", self.run(["check"], stdin=front), 1, USAGE)
        os.close(front), os.close(end)
        with tempfile.TemporaryFile() as file:
            file.write(b"x\n" + 100_000 * b"x"), file.flush()
            for words, status, output, place in ([["check", "0"], 1, USAGE, 0], [["check", "1"], 3, "refused line 1\n", 100_002]):
                file.seek(0)
                done = self.run(words, stdin=file)
                self.expect(f"where {words} leave the input", done, status, output)
                if file.seek(0, os.SEEK_CUR) != place:
                    self.failed.append(f"FAILED {words} ({self.program.name}): the input is read up to {file.tell()}, and not to {place}")

    def over_single_bytes(self):
        """Sessions of which each read gets one byte: the next one is sent once it is taken."""
        for session in (session for session in sessions() if session.status == 0):
            with shelf_of(session.file) as shelf:
                brain = subprocess.Popen(["renju", *session.words], executable=self.program, stdin=subprocess.PIPE, stdout=subprocess.PIPE, stderr=subprocess.PIPE, cwd=shelf or self.folder, env={})
                end = time.monotonic() + SECONDS
                for byte in session.text.encode():
                    os.write(brain.stdin.fileno(), bytes([byte]))
                    while fcntl.ioctl(brain.stdin.fileno(), termios.FIONREAD, bytes(4)) != bytes(4) and time.monotonic() < end:
                        pass
                output, errors = brain.communicate(timeout=SECONDS)
            done = subprocess.CompletedProcess([], brain.returncode, output, errors)
            self.expect(f"a byte a read: {session.name}", done, 0, session.output)

    def over_outputs(self):
        """An output that fails: a full device, a closed output, and a reader that goes away."""
        text = as_bytes(table(*THREE, 2, THREE_WINS))
        for words, text in (
            (["check", "219"], text), (["check", "218"], text), (["foul"], text), (["solve", "5", "3"], as_bytes(position(*THREE))),
            ([], text), (["brain"], b"ABOUT\n"),
        ):
            if os.path.exists("/dev/full"):
                with open("/dev/full", "wb") as full:
                    self.expect("a full device", self.run(words, input=text, stdout=full), 8, "")
            self.expect("a closed output", self.run(words, input=text, stdout=None, preexec_fn=lambda: os.close(1)), 8, "")
            front, end = os.pipe()
            os.close(front)
            self.expect("a reader that goes away", self.run(words, input=text, stdout=end), 8, "")
            os.close(end)
        if os.path.exists("/dev/full"):
            with open("/dev/full", "wb") as full:
                self.expect("a full device, unasked", self.run(["brain"], input=b"INFO rule 1\n\nEND\n", stdout=full), 0, "")
                self.expect("a full device for no file", self.run(["brain", "t"], input=b"", stdout=full), 8, "")

    def over_managers(self):
        """A manager that sends a line only once it was told the answer to the line before."""
        with shelf_of(BLOCK_WINS) as shelf:
            asked = [*WHITE_TO_MOVE, "TURN 0,14", "TURN 1,14", "ABOUT", "END"]
            answered = {0: "OK", len(WHITE_TO_MOVE) - 1: "6,3", -4: "7,3", -3: "ERROR game over", -2: 'name="renju", version="1.0"'}
            answered = {place % len(asked): answer for place, answer in answered.items()}
            brain = subprocess.Popen(
                ["renju", "brain", "t"], executable=self.program, stdin=subprocess.PIPE, stdout=subprocess.PIPE, cwd=shelf, env={},
            )
            for place, line in enumerate(asked):
                os.write(brain.stdin.fileno(), f"{line}\n".encode())
                wanted = told(answered[place]).encode() if place in answered else b""
                ready = not wanted or select.select([brain.stdout], [], [], SECONDS)[0]
                got = os.read(brain.stdout.fileno(), 4096) if wanted and ready else b""
                if got != wanted:
                    self.failed.append(f"FAILED a manager ({self.program.name}): {line} is answered {got!r}; wanted {wanted!r}")
                    brain.kill()
                    break
            brain.stdin.close()
            if brain.wait(SECONDS) != 0 or brain.stdout.read():
                self.failed.append(f"FAILED a manager ({self.program.name}): status {brain.returncode}, or an answer that nobody asked for")
            brain.stdout.close()

    def over_memory(self):
        """An input, and words, that don't fit into the memory that the program may have."""
        few = lambda: resource.setrlimit(resource.RLIMIT_AS, (MAX_INPUT_BYTES, MAX_INPUT_BYTES))
        for words in WHOLE_INPUTS:
            self.expect(f"little memory for {words}", self.run(words, input=MAX_INPUT_BYTES * b"x", preexec_fn=few), 6, "")
        with shelf_of(MAX_INPUT_BYTES * b"x") as shelf:
            self.expect("little memory for a file", self.run(["brain", "t"], input=b"ABOUT\n", cwd=shelf, preexec_fn=few), 6, "")
        self.over_long_words()
        self.over_deep_wins()

    def over_deep_wins(self):
        """A win of 42 fours, each of which has to wait for the one before it, with a small stack, of which the system may take up
        to 8 KiB by shifting it. The frames of Rattle's own compiler are larger."""
        stack = (128 if self.program.name.endswith(".by-rattle") else 64) << 10
        small = lambda: resource.setrlimit(resource.RLIMIT_STACK, (stack, stack))
        text = (TOP / "bench" / "deep-fours.txt").read_bytes()
        head = re.escape(text.decode().replace("renju-position", "renju-table"))
        wanted = re.compile(head + r"moves 42\nnodes \d+\n(.+\n)+")
        self.expect("fours: a deep win with a small stack", self.run(["fours", "60", "1000000"], input=text, preexec_fn=small), 0, wanted)
        # Of the 512 attacks that fill the largest board the last one is to win, and goes on.
        text, wanted = deepest_table().encode(), re.compile(r"refused not-won( \d+,\d+){1023}\n")
        self.expect("check: a deep table with a small stack", self.run(["check", "1000"], input=text, preexec_fn=small), 4, wanted)
        with shelf_of(text) as shelf:
            done = self.run(["brain", "t"], input=b"END\n", cwd=shelf, preexec_fn=small)
        self.expect("brain: a deep table with a small stack", done, 4, wanted)

    def over_long_words(self):
        """Words that don't fit into the memory that the program may have: they stand on its stack, and no copy has room."""
        words, stack, hard = 48 * [120_000 * "x"], 64 << 20, resource.getrlimit(resource.RLIMIT_STACK)[1]
        if hard != resource.RLIM_INFINITY and hard < stack:
            return

        def few():
            resource.setrlimit(resource.RLIMIT_STACK, (stack, hard))
            resource.setrlimit(resource.RLIMIT_AS, (11 << 20, 11 << 20))

        self.expect("little memory for the words", self.run(words, stdin=subprocess.DEVNULL, preexec_fn=few), 6, "")


def deepest_table():
    """A table whose attacks alone take half of the points of the largest board: pairs of points, of which the attacks take one and the
    replies in reading order the other, so that neither side makes five in a row on any axis."""
    nodes, last = [], 16 * 32 - 1
    for k in range(last + 1):
        row, pair = divmod(last - k, 16)
        nodes.append(f"{2 * pair + (row // 2 + 1) % 2},{row} " + (f"rest {k - 1}" if k else "wins"))
    return lines("renju-table 1", "rule freestyle", "size 32", "black", "white", "moves 512", f"nodes {len(nodes)}", *nodes)


def moves_played(asked, answers):
    """The moves of a brain's game from DONE on, of which these are the lines after it, and these the answers from that to DONE on."""
    moves = [answers[0]]
    for line, answer in zip(asked, answers[1:]):
        word, _, reply = line.partition(" ")
        if word.upper() == "TURN" and answer == "ERROR opponent foul":
            return [*moves, reply]
        if word.upper() == "TURN" and not answer.startswith("ERROR"):
            moves += [reply, answer]
    return moves


def blocks_of(document):
    """The commands that a document shows, each with what it shows of its output."""
    for block in re.findall(r"^```\n(.*?)^```$", document.read_text(), re.M | re.S):
        for part in re.split(r"^\$ ", block, flags=re.M)[1:]:
            command, _, output = part.partition("\n")
            yield command, output


def forms_of(usage):
    """The forms of words that a usage line tells, in its order. Where a form has words in brackets, that without them comes first."""
    for form in usage[len("usage: renju ") :].rstrip("\n").split(", "):
        short, bracket, more = form.partition(" [")
        yield short
        if bracket:
            yield f"{short} {more.rstrip(']')}"


def over_lists(failed):
    """Each list of the commands has the forms of the usage line in its order, and each form is run with success by a case."""
    forms = list(forms_of(USAGE))
    source = (TOP / "crates" / "renju_cli" / "src" / "commands.rt").read_text()
    variants = source.split("pub enum Form {", 1)[1].split("\n}", 1)[0]
    table_of_words = (TOP / "docs" / "FORMATS.md").read_text().split("| Words | Input |", 1)[1].split("\n\n", 1)[0]
    found = {
        "the usage line of commands.rt": list(forms_of(re.search(r'"(usage: [^"]*)\\n"', source)[1])),
        "Form of commands.rt": re.findall(r"^    /// `([a-z][^`]*)`", variants, re.M),
        "the table of words in FORMATS.md": re.findall(r"^\| `([^`]+)` \|", table_of_words, re.M),
    }
    for name, listed in found.items():
        if listed != forms:
            failed.append(f"FAILED: {name} lists {listed}, and the usage line {forms}")
    succeeding = {(case.words[0], len(case.words) > 1) for case in all_cases() if case.status == 0}
    for form in forms:
        if (form.split()[0], " " in form) not in succeeding:
            failed.append(f"FAILED: no case of {form} has status 0")


def over_documents(program, failed):
    """Runs what the documents show, in a folder with the program, under both names that it has for a user, and the examples."""
    with tempfile.TemporaryDirectory() as folder:
        for name, place in (("renju", program), ("unproved", program), ("examples", TOP / "examples"), ("docs", TOP / "docs")):
            os.symlink(place, f"{folder}/{name}")
        devices = {"cwd": folder, "env": {**os.environ, "RENJU": str(program)}, "stdin": subprocess.DEVNULL, "stdout": subprocess.PIPE}
        for document in [TOP / "README.md", *sorted(TOP.glob("docs/*.md")), *sorted(TOP.glob("examples/*/*.md"))]:
            for command, output in blocks_of(document):
                done = subprocess.run(["bash", "-c", command], timeout=SECONDS, **devices)
                # The lines of a brain end with a carriage return too, which a document doesn't show.
                if done.stdout.decode().replace("\r\n", "\n") != output:
                    failed.append(
                        f"FAILED {document.name} ({program.name}): "
                        f"{command} prints {done.stdout!r}, and the document shows {output!r}"
                    )


def main():
    if {"-h", "--help"} & {*sys.argv[1:]}:
        print(f".ci/cases.py [PROGRAM ..]\n\n{__doc__.strip()}")
        return 0
    programs = [Path(word).resolve() for word in sys.argv[1:]] or [BUILT / "renju", BUILT / "renju.by-rattle"]
    failed = []
    over_lists(failed)
    if not os.access(programs[0], os.X_OK):
        failed.append(f"FAILED: there is no program at {os.path.relpath(programs[0], TOP)}")
    for program in programs:
        if not os.access(program, os.X_OK):
            continue
        with tempfile.TemporaryDirectory() as folder:
            runs = Runs(program, folder)
            for group in (runs.over_cases, runs.over_solutions, runs.over_quiet_wins, runs.over_collection, runs.over_drill, runs.over_a_large_book, runs.over_games, runs.over_a_choice, runs.over_names, runs.over_inputs, runs.over_outputs, runs.over_managers, runs.over_memory):
                group()
            failed += runs.failed
        over_documents(program, failed)
    print("".join(f"{line}\n" for line in failed), end="")
    return 1 if failed else 0


if __name__ == "__main__":
    sys.exit(main())
