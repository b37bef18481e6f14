#!/usr/bin/env python3
"""Runs the scripts that composers and players use over cases of their own, and prints those that fail.

What is wanted was worked out by hand, or is compared with what the program says of the same position or table.
"""
import json
import os
import random
import re
import shutil
import signal
import struct
import subprocess
import sys
import tempfile
import zlib
from pathlib import Path

import opening_cases
import page_picture
from cases import CORNERS, FOUR_OF_BLACK, ONE_LEFT, SIX, THREE, TWO_LEFT, book, deepest_table, position, table
from trying import EXAMPLES, PROGRAM, SECONDS, TABLE, TEXT, asked, expect, fails, run, tried

FOULS = (EXAMPLES / "allowed-double-three.txt").read_text()
BOOK = (EXAMPLES / "book.txt").read_text()


def drawn_position(numbers):
    """A position of renju with some stones near the middle, in which Black is to move and nobody has won."""
    from boards import Position, Wrong

    while True:
        area = [(x, y) for x in range(4, 11) for y in range(4, 11)]
        stones = numbers.sample(area, 2 * numbers.randrange(5, 9))
        found = Position("renju", 15, 15, stones[::3] + stones[1::3], stones[2::3])
        spare = [(x, 14) for x in range(15)]
        found.white += spare[: len(found.black) - len(found.white)]
        try:
            return found.lawful()
        except Wrong:
            continue


def fouls_explained():
    """Which stones make a foul, and that the rule as foul.py has it finds the fouls of the program."""
    from foul import judged

    # In the row only 5,7 would make a straight four, and a stone there makes threes of its own.
    wanted = (
        "h8 is no foul\n  no three in the row: g8 h8 i8, since f8 is a double-three itself\n"
        "  a three in the column: h9 h8 h7, a straight four at h10 or h6\n"
    )
    expect("foul.py: an allowed double-three", run("foul.py", ["--names", "-", "7,7"], FOULS), (0, wanted, ""))
    seven = (
        "7,9 is a double-three\n  a three in the column: 7,6 7,8 7,9, a straight four at 7,7\n"
        "  a three in the diagonal down: 4,6 6,8 7,9, a straight four at 5,7\n"
    )
    status, told, _ = run("foul.py", [], FOULS)
    expect("foul.py: all fouls", (status, told.splitlines()[0], told.endswith(seven)), (0, "fouls 3", True))
    rows = "rule renju\nblack {}\nwhite a1 c1 e1 g1 i1 k1\n"
    for name, stones, point, said in [
        ("an overline", "d8 e8 f8 h8 i8 a15", "g8", "g8 is an overline\n  a run of 6: d8 e8 f8 g8 h8 i8\n"),
        ("a five beside six", "d8 e8 f8 h8 g7 g6", "g8", "g8 is no foul\n  a run of exactly five, which wins: d8 e8 f8 g8 h8\n"),
        (
            "two fours in one line", "b8 d8 e8 h8 a15 c15", "f8",
            "f8 is a double-four\n  a four in the row: b8 d8 e8 f8, five at c8\n  a four in the row: d8 e8 f8 h8, five at g8\n",
        ),
    ]:
        status, told, errors = run("foul.py", ["--names", "-", point], rows.format(stones))
        expect(f"foul.py: {name}", (status, told, errors), (0, said, ""))
    numbers = random.Random(1)
    for _ in range(10):
        position = drawn_position(numbers)
        stones = position.stones()
        found = {point: judged(position, stones, point).kind for point in position.empties()}
        expect(f"foul.py: the fouls of {position.text()!r}", {p: kind for p, kind in found.items() if kind}, position.fouls())
    fails("foul.py: White's turn", "foul.py", [], "rule renju\nh8\n", "fouls are Black's, on Black's turn under renju; .* White is to move")
    fails("foul.py: a stone", "foul.py", ["-", "5,8"], FOULS, "a stone stands on 5,8")


def pictures_of_fouls():
    """A foul that ends a game is captioned, and explained by its stones."""
    from boards import read
    from pictures import Scene, words_of

    def scene(*words):
        return Scene(read(FOULS.encode()), words_of(words))

    lines = ["A three in the column: h9 h7 h6, a straight four at h8", "A three in the diagonal down: e9 g7 h6, a straight four at f8"]
    expect("pictures.py: a foul is played", scene("--play", "7,9").captions, ["Black has lost under renju: h6 is a double-three", *lines])
    expect("pictures.py: why a point is a foul", scene("--why", "7,9").captions, ["h6 is a double-three under renju", *lines])
    rows = [(row, free) for row, _, free in scene("--why", "h6").frames()]
    expect("pictures.py: the rows of a foul", rows, [([(7, 6), (7, 8), (7, 9)], [(7, 7)]), ([(4, 6), (6, 8), (7, 9)], [(5, 7)])])
    expect("pictures.py: why a point is none", scene("--why", "7,7").captions[0], "h8 is no foul under renju")
    expect("pictures.py: no crosses after a foul", (scene("--play", "7,9").crosses, len(scene().crosses)), ([], 3))
    for name, words, text, said in [
        ("a move after a foul", ["--play", "7,9 0,0"], FOULS, "move 1 is a foul, and nothing comes after it"),
        ("why under freestyle", ["--why", "7,9"], TEXT, "--why names one point, on Black's turn under renju"),
    ]:
        fails(f"pictures.py: {name}", "pictures.py", [*words, "-"], text, said)


def kept():
    """That no script writes over what a user has, nor the pages of the repository without being asked."""
    with tempfile.TemporaryDirectory() as folder:
        put = lambda name, text: Path(folder, name).write_text(text)
        held = lambda name: Path(folder, name).read_text()
        for name, text in (("a.txt", TABLE), ("a.win", TEXT), ("b.txt", TABLE), ("k.book", BOOK)):
            put(name, text)
        for name, script, words, said in [
            ("OUT forgotten", "books.py", ["a.txt", "b.txt"], "a.txt is there already, .*: OUT comes first"),
            ("a book there", "books.py", ["k.book", "b.txt"], "k.book is there already, and is not written over: .*--replace"),
            ("no folder", "books.py", ["no/x", "b.txt"], "no/x cannot be written: No such file or directory"),
            ("two texts with one picture", "pictures.py", ["a.txt", "a.win"], "a.txt and a.win would both be written to a.svg"),
            ("no text", "pictures.py", [], "name a text to draw, .*--write draws the pictures of this repository"),
            ("a mark alone", "pictures.py", ["--mark", "a.txt"], "name a text to draw"),
        ]:
            status, output, errors = run(script, words, cwd=folder)
            expect(f"{script}: {name}", f"{status} {output}{errors}", re.compile(rf"1 {script}: {said}.*\n"))
        expect("books.py: what was there", (held("a.txt"), held("k.book")), (TABLE, BOOK))
        longer = run("books.py", ["k.book", "k.book", "a.txt"], cwd=folder)
        expect("books.py: a book that is added to", longer, (0, "k.book: 3 entries, 3 nodes\n", ""))
        expect("pictures.py: a first picture", run("pictures.py", ["a.txt"], cwd=folder), (0, "", ""))
        first = held("a.svg")
        expect("pictures.py: the same text again", run("pictures.py", ["a.txt"], cwd=folder), (0, "", ""))
        status, _, errors = run("pictures.py", ["a.win"], cwd=folder)
        is_said = "it is no picture of a.win; name another" in errors
        expect("pictures.py: the picture of another text", (status, is_said, held("a.svg")), (1, True, first))
        put("a.svg", "<svg>mine</svg>\n")
        status = run("pictures.py", ["a.txt"], cwd=folder)[0]
        expect("pictures.py: a picture of the user's", (status, held("a.svg")), (1, "<svg>mine</svg>\n"))
        status = run("pictures.py", ["--out", "b.svg", "a.txt"], cwd=folder)[0]
        expect("pictures.py: another file", (status, held("b.svg")), (0, first))
        expect("nothing is left behind", sorted(os.listdir(folder)), ["a.svg", "a.txt", "a.win", "b.svg", "b.txt", "k.book"])


def books():
    """Books in the scripts that take tables, and what is taken out of one."""
    listed = (
        "entry 1: Black wins in 2 moves under freestyle; 6 stones on 15, 3 nodes\n"
        "entry 2: White is to move. Black wins in 1 move under freestyle; 7 stones on 15, 2 nodes\n"
    )
    expect("books.py: --list", run("books.py", ["--list", "-"], BOOK), (0, listed, ""))
    expect("books.py: --take", run("books.py", ["--take", "1", "-"], BOOK), (0, TABLE, ""))
    second = run("books.py", ["--take", "2", "-"], BOOK)[1]
    expect("books.py: --take of a start is accepted", asked(["check", "1000"], second), re.compile("accepted in 1 moves, .*\n"))
    with tempfile.TemporaryDirectory() as folder:
        Path(folder, "b").write_text(BOOK)
        left = run("books.py", ["--drop", "2", "b"], cwd=folder)[1]
        expect("books.py: --drop", (left, asked(["book", "219"], left)), (asked_bind(folder, TABLE), "accepted 1 entries, 219 arrivals\n"))
        two = run("tree.py", [], TABLE)[1], run("tree.py", [], second)[1]
        expect("tree.py: a book", run("tree.py", ["b"], cwd=folder), (0, f"entry 1:\n{two[0]}entry 2:\n{two[1]}", ""))
        expect("tree.py: an entry", run("tree.py", ["--entry", "2", "b"], cwd=folder), (0, f"entry 2:\n{two[1]}", ""))
        drawn = run("pictures.py", ["b"], cwd=folder)
        expect("pictures.py: a book", (drawn, sorted(os.listdir(folder))), ((0, "", ""), ["b", "b-1.svg", "b-2.svg", "t"]))
        alone = run("pictures.py", ["--entry", "2", "-"], BOOK)[1]
        of = re.compile(r' data-of="[^"]*"')
        expect("pictures.py: an entry", of.sub("", alone), of.sub("", Path(folder, "b-2.svg").read_text()))
    fails("books.py: no entry", "books.py", ["--take", "3", "-"], BOOK, "the book has the entries 1 to 2, and not 3")
    fails("books.py: no book", "books.py", ["--list", "-"], TABLE, "- is no book")
    fails("tree.py: an entry of a table", "tree.py", ["--entry", "1"], TABLE, "the text is a table, and has no entry 1")
    wrong = "line 12: the nodes that it can name are 0 to 2, and not 3"
    fails("tree.py: a book that is none", "tree.py", [], BOOK.replace("root 2", "root 3"), wrong)


def asked_bind(folder, table):
    """The book that the program makes of a table."""
    Path(folder, "t").write_text(table)
    return subprocess.run([PROGRAM, "bind", f"{folder}/t"], capture_output=True, timeout=SECONDS).stdout.decode()


# Black has an open three: a stone at either end of it makes two five points. Other moves make one at most.
SMALL = "renju-position 1\nrule freestyle\nsize 7\nblack 2,3 3,3 4,3\nwhite 0,0 6,0 0,6\n"
# One end is closed, so that the other alone is left.
CLOSED = SMALL.replace(" 0,6", " 0,3")


def solutions():
    """All first moves that win, and the replies that hold after one."""
    head = "Black is to move: 3 black stones, 3 white stones\n"
    asked = ", by fours or threats with 1,000\n"
    both = "1. 1,3 (b4) in 2 moves, by fours\n2. 5,3 (f4) in 2 moves, by fours\n"
    two = f"{head}2 of 43 first moves win within 2 moves{asked}{both}undecided: none\n"
    tried = lambda text, *words: run("solutions.py", ["--depth", "2", "--nodes", "1000", *words], text)
    expect("solutions.py: two first moves", tried(SMALL), (4, two, ""))
    one = f"{head}1 of 43 first moves wins within 2 moves{asked}1. 5,3 (f4) in 2 moves, by fours\nundecided: none\n"
    expect("solutions.py: one first move", tried(CLOSED), (0, one, ""))
    expect("solutions.py: no first move", tried(SMALL.replace("4,3", "6,6"))[0], 9)
    against = "for 2 moves, against fours and threats with 1,000"
    holds = f"{head}after 0,3 (a4) 1 reply holds {against}: 1,3 (b4)\nundecided: none\n41 of 42 replies lose\n"
    expect("solutions.py: a reply holds", tried(SMALL, "--after", "a4"), (4, holds, ""))
    # Two stones and a third have no five to make.
    free = [(x, y) for y in range(7) for x in range(7) if (x, y) not in [(0, 0), (6, 0), (2, 3), (3, 3), (0, 6)]]
    named = " ".join(f"{x},{y} ({'abcdefg'[x]}{7 - y})" for x, y in free[:20])
    many = tried(SMALL.replace(" 4,3", "").replace(" 0,6", ""), "--after", "a1")[1].splitlines()[1]
    expect("solutions.py: many replies hold", many, f"after 0,6 (a1) 44 replies hold {against}: {named} and 24 more")
    lose = f"{head}after 1,3 (b4) 0 replies hold {against}: none\nundecided: none\n42 of 42 replies lose\n"
    expect("solutions.py: no reply holds", tried(SMALL, "--after", "1,3"), (0, lose, ""))
    with tempfile.TemporaryDirectory() as folder:
        path = f"{folder}/s.svg"
        tried(SMALL, "--picture", path)
        drawn = Path(path).read_text()
        marks = re.findall(r'<text x="(\d+)" y="[\d.]+" font-size="16" [^>]*>(\d)</text>', drawn)
        expect("solutions.py: the picture", (marks, "2 of 43 first moves win within 2 moves" in drawn), ([("86", "1"), ("222", "2")], True))
        Path(folder, "t").write_text(TABLE)
        status, _, errors = tried(SMALL, "--picture", f"{folder}/t")
        is_kept = "is not written over" in errors and Path(folder, "t").read_text() == TABLE
        expect("solutions.py: a picture over a table", (status, is_kept), (1, True))
    four = SMALL.replace("4,3\n", "4,3 5,3\n").replace("0,6", "0,6 6,6")
    fails("solutions.py: a point that wins", "solutions.py", ["--after", "b4"], four, "1,3 .* wins at once")
    errors = run("solutions.py", ["--depth", "61"], SMALL)[2]
    expect("solutions.py: a depth out of range", errors.splitlines()[-1], re.compile(".*DEPTH is 1 to 60, and not 61"))


THREE_THREES = ("renju", 15, "7,6 6,7 8,7 7,8", CORNERS)
# White is to move, and Black makes five at either end of its four; 14,14 isn't listed.
FOUR = ("freestyle", 15, "4,7 5,7 6,7 7,7", "0,0 2,0 4,0")
FREE = [(x, y) for y in range(15) for x in range(15) if f"{x},{y}" not in f"{FOUR[2]} {FOUR[3]}".split()]
ALL_BUT_ONE = "start only " + " ".join(f"{x},{y}>{1 if (x, y) == (8, 7) else 0}" for x, y in FREE[:-1])
# Tables that are refused: the words of the program, what is said of them, the line of the text, and what a picture shows: how many of
# the moves are played, and the points of the frame.
REFUSED = [
    (
        "an attack on a stone", table(*THREE, 1, ["5,7 wins"]), "attack-refused 5,7",
        ["At once the table plays 5,7, which is taken: a stone of Black's stands there"], "8 of the text: 5,7 wins", 0, [(5, 7)],
    ),
    (
        "an attack on a reply", TABLE.replace(" 3,7>1", ""), "attack-refused 4,7 3,7 3,7",
        ["After 4,7 and 3,7 the table plays 3,7, which is taken: a stone of White's stands there"], "8 of the text: 3,7 wins", 2, [(3, 7)],
    ),
    (
        "an attack that fouls", table(*THREE_THREES, 1, ["7,7 wins"]), "attack-fouls 7,7",
        [
            "At once the table plays 7,7, which is a double-three, and so a foul",
            "  a three in the row: 6,7 7,7 8,7, a straight four at 5,7 or 9,7", "  a three in the column: 7,6 7,7 7,8, a straight four at 7,5 or 7,9",
        ], "8 of the text: 7,7 wins", 1, [],
    ),
    (
        "an attack that draws", table(*ONE_LEFT, 1, ["4,4 wins"]), "attack-draws 4,4",
        ["At once the table plays 4,4, which wins nothing and fills the board: a draw"], "8 of the text: 4,4 wins", 1, [(4, 4)],
    ),
    (
        "six in a row under exact", table("exact", *SIX, 1, ["4,7 wins"]), "not-won 4,7",
        ["At once the table says that 4,7 wins, but under exact it does not: it makes a run of 6 at most, 2,7 3,7 4,7 5,7 6,7 7,7"],
        "8 of the text: 4,7 wins", 1, [(2, 7), (3, 7), (4, 7), (5, 7), (6, 7), (7, 7)],
    ),
    (
        "a stone alone", table(*THREE, 1, ["14,14 wins"]), "not-won 14,14",
        ["At once the table says that 14,14 wins, but under freestyle it does not: it makes no run"], "8 of the text: 14,14 wins", 1, [(14, 14)],
    ),
    (
        "a reply that wins", table(*FOUR_OF_BLACK, 1, ["4,4 only"]), "reply-wins 4,4 4,0",
        ["After 4,4 Black replies 4,0 and wins, with a run of 5: 0,0 1,0 2,0 3,0 4,0"], "8 of the text: 4,4 only", 2,
        [(0, 0), (1, 0), (2, 0), (3, 0), (4, 0)],
    ),
    (
        "a reply that draws", table(*TWO_LEFT, 1, ["3,4 only"]), "reply-draws 3,4 4,4",
        ["After 3,4 Black replies 4,4, which fills the board: a draw"], "8 of the text: 3,4 only", 2, [(4, 4)],
    ),
    (
        "a start without an answer", table(*FOUR, 1, ["8,7 wins", "3,7 wins"], ALL_BUT_ONE), "no-answer 14,14",
        ["At once White replies 14,14, to which the table has no answer"], f"10 of the text: {ALL_BUT_ONE[:100]} ..", 1, [(14, 14)],
    ),
]


def refusals():
    """Why a table, a book or a text is refused, in words and as a picture."""
    from boards import read

    for name, text, told, said, line, played, framed in REFUSED:
        wanted = "".join(f"{it}\n" for it in [f"refused {told}", *said, f"line {line}"])
        with tempfile.TemporaryDirectory() as folder:
            path = f"{folder}/w.svg"
            expect(f"why.py: {name}", run("why.py", ["--picture", path], text), (4, wanted, ""))
            drawn = Path(path).read_text()
            expect(f"why.py: the picture of {name}", drawn, drawn_with(read(text.encode()).position, told.split()[1 : 1 + played], framed, said))
            expect(f"why.py: {name}, drawn again", run("why.py", ["--picture", path], text)[0], 4)
    with_names = "After e8 and d8 the table plays d8, which is taken: a stone of White's stands there"
    expect("why.py: --names", run("why.py", ["--names"], REFUSED[1][1])[1].splitlines()[1], with_names)
    deep = re.compile(r"After 1,022 moves, the last 12 of them( \d+,\d+){12}, the table says that 30,31 wins, but under freestyle it does not: .*")
    expect("why.py: very many moves", run("why.py", [], deepest_table())[1].splitlines()[1], deep)
    expect("why.py: a table that is accepted", run("why.py", [], TABLE), (0, "accepted in 2 moves, 219 arrivals\n", ""))
    spent = "spent\nit has more than 218 arrivals: --arrivals allows more\n"
    expect("why.py: too few arrivals", run("why.py", ["--arrivals", "218"], TABLE), (5, spent, ""))
    two = book(["3,7 wins", "8,7 wins", "4,7 rest 0 3,7>1"], (THREE, 2, "root 2"), (THREE, 1, "root 1"))
    missed = "At once the table says that 8,7 wins, but under freestyle it does not: it makes a run of 4 at most, 5,7 6,7 7,7 8,7"
    wanted = f"entry 2 refused not-won 8,7\n{missed}\nline 4 of the text: 8,7 wins\n"
    expect("why.py: an entry of a book", run("why.py", [], two), (4, wanted, ""))
    lost = "entry 1 refused attack-refused 31,31\nAt once the table plays 31,31, which is off a board of 15 by 15, whose last point is 14,14\n"
    expect("why.py: off the board of an entry", run("why.py", [], book(["31,31 wins"], (THREE, 1, "root 0")))[1], f"{lost}line 3 of the text: 31,31 wins\n")
    unanswered = book(["3,7 wins", "8,7 wins"], ((*THREE[:2], "4,7 5,7 6,7 7,7", THREE[3]), 1, "start only 8,7>0"))
    expect("why.py: a start of a book", run("why.py", [], unanswered)[1].splitlines()[-1], "line 11 of the text: start only 8,7>0")
    for name, text, said in [
        ("a line", TABLE.replace("8,7 wins", "8,7 win"), "refused line 9\nline 9: after its first word stands wins alone, rest and a node, or only\n"),
        ("a position", TEXT, "refused line 1\nit is a position, and has no table; fours and solve of renju write one\n"),
        ("other moves", TABLE.replace("moves 2", "moves 3"), "refused moves 3 2\nit says moves 3, but its longest game has 2 moves of the side that wins\n"),
        ("other moves of an entry", two.replace("moves 1", "moves 2"), "entry 2 refused moves 2 1\nentry 2 says moves 2, but its longest game has 1 move of the side that wins\n"),
        ("too many stones", TABLE.replace("0,0 2,0 4,0", "0,0"), "refused uneven 3 1\nBlack has 3 stones and White 1: Black has as many as White, or one more\n"),
    ]:
        expect(f"why.py: {name}", run("why.py", [], text), (3, said, ""))
    # A program whose words don't fit the table is not believed.
    with tempfile.TemporaryDirectory() as folder:
        for said in ("attack-refused 4,7 3,7 8,7", "no-answer 4,7 3,7", "not-won 4,7", "reply-wins 4,7 3,7", "attack-fouls 4,7", "attack-draws 4,7", "reply-draws 4,7 0,14"):
            Path(folder, "renju").write_text(f"#!/bin/sh\necho refused {said}\nexit 4\n")
            Path(folder, "renju").chmod(0o755)
            status, _, errors = run("why.py", [], TABLE, env={**os.environ, "RENJU": f"{folder}/renju"})
            expect(f"why.py: a refusal that is none, {said}", (status, "it is not so that" in errors or "renju foul" in errors), (1, True))
        for words, text in (("refused as-it-is 4,7", TABLE), ("entry 1 refused not-won 4,7", TABLE), ("refused not-won 4,7", TEXT), ("refused not-won 4,7", two)):
            Path(folder, "renju").write_text(f"#!/bin/sh\necho {words}\nexit 4\n")
            said = f"why.py: the program says {words}, which is no refusal of this text\n"
            expect(f"why.py: other words, {words}", run("why.py", [], text, env={**os.environ, "RENJU": f"{folder}/renju"})[::2], (1, said))
        Path(folder, "renju").write_text("#!/bin/sh\necho refused line 8\nexit 3\n")
        said = "why.py: the program says refused line 8, and here it is line 9: after its first word stands wins alone, rest and a node, or only\n"
        bad = TABLE.replace("8,7 wins", "8,7 win")
        expect("why.py: another line", run("why.py", [], bad, env={**os.environ, "RENJU": f"{folder}/renju"})[::2], (1, said))


def drawn_with(position, moves, framed, said):
    """The picture of moves with a frame and captions."""
    from pictures import picture, words_of

    words = ["--play", " ".join(moves)] if moves else []
    words += ["--frame", " ".join(f"{x},{y}" for x, y in framed)] if framed else []
    return picture(position, words_of([*words, *(word for line in said for word in ("--caption", line.strip()[0].upper() + line.strip()[1:]))]), "why -")


LINE_OF_SMALL = ["1,3", "5,3", "0,3"]
TABLE_OF_SMALL = (
    "renju-table 1\nrule freestyle\nsize 7\nblack 2,3 3,3 4,3\nwhite 0,0 6,0 0,6\nmoves 2\nnodes 3\n0,3 wins\n5,3 wins\n1,3 rest 0 0,3>1\n"
)


def solution_lines():
    """Which attacks of a line win, where the line leaves what wins, and the table that follows it."""
    head = "Black is to move: 3 black stones, 3 white stones\n"
    line = lambda text, *words, **more: run("line.py", ["--depth", "2", "-", *words], text, **more)
    won = "every attack wins; renju check says of their table: accepted in 2 moves, 43 arrivals\n"
    first = "1. 1,3 (b4) wins within 2 moves, whatever the reply\n2. 5,3 (f4)\n"
    expect("line.py: a line that wins", line(SMALL, *LINE_OF_SMALL), (0, f"{head}{first}3. 0,3 (a4) makes five\n{won}", ""))
    expect("line.py: with numbers and names", line(SMALL, "1. b4", "f4 2. a4")[1], f"{head}{first}3. 0,3 (a4) makes five\n{won}")
    expect("line.py: --names", line(SMALL, "--names", "b4")[1], f"{head}1. b4 wins within 2 moves, whatever the reply\n{won}")
    with tempfile.TemporaryDirectory() as folder:
        path = Path(folder, "t")
        expect("line.py: --out", (line(SMALL, "--out", path, *LINE_OF_SMALL)[0], path.read_text()), (0, TABLE_OF_SMALL))
        status, _, errors = line(SMALL, "--out", path, "b4")
        expect("line.py: a file that is there", (status, "is there already" in errors, path.read_text()), (1, True, TABLE_OF_SMALL))
        # Black plays another three first than the table of `solve` does, and its own table follows that line alone.
        quiet, moves = EXAMPLES / "wins" / "quiet-three.txt", "5,3 4,4 6,2"
        status, told, _ = run("line.py", ["--out", f"{folder}/q", quiet, *moves.split()])
        wanted = ["1. 5,3 (f12) wins within 5 moves, whatever the reply", "2. 4,4 (e11)", "3. 6,2 (g13) wins within 4 moves, whatever the reply"]
        expect("line.py: a line of threes", (status, told.splitlines()[1:4]), (0, wanted))
        game = quiet.read_text().replace("position", "game") + f"moves {moves}\n"
        for table_of, said in ((f"{folder}/q", "follows"), (EXAMPLES / "page" / "quiet-three.txt", "departs 1")):
            done = subprocess.run([PROGRAM, "referee", table_of], input=game.encode(), capture_output=True, timeout=SECONDS)
            expect(f"line.py: the table {said}", done.stdout.decode(), f"open 3\ntable {said}\n")
    lost = "1. 1,3 (b4) fails: 5,3 (f4) holds against threats within 1 move; 5,3 (f4) wins in 2 moves\n2. 5,3 (f4)\nthe first attack that is not found to win is move 1\n"
    expect("line.py: a reply holds", line(CLOSED, "1,3", "5,3"), (4, head + lost, ""))
    late = f"{head}{first}3. 3,2 (d5) fails: it does not win, and no move is left of 2; 0,3 (a4) wins in 1 move\nthe first attack that is not found to win is move 3\n"
    expect("line.py: the last attack is another", line(SMALL, "1,3", "5,3", "3,2"), (4, late, ""))
    four = position("freestyle", 7, "2,3 3,3 4,3 6,6", "0,1 1,1 2,1 3,1")
    expect("line.py: a reply wins", line(four, "3,5")[1].splitlines()[1].partition(";")[0], "1. 3,5 (d2) fails: 4,1 (e6) wins")
    with tempfile.TemporaryDirectory() as folder:
        Path(folder, "renju").write_text("#!/bin/sh\necho spent\nexit 5\n")
        Path(folder, "renju").chmod(0o755)
        wanted = (
            "1. 1,3 (b4) is undecided: 5,3 (f4) undecided with 100,000; whether there is a win within 2 moves is undecided\n"
            "the first attack that is not found to win is move 1\n"
        )
        expect("line.py: undecided", line(CLOSED, "1,3", env={**os.environ, "RENJU": f"{folder}/renju"}), (5, head + wanted, ""))
    foul = run("line.py", ["--depth", "1", "-", "7,9"], FOULS)[1].splitlines()[1].partition(";")[0]
    expect("line.py: an attack that fouls", foul, "1. 7,9 (h6) fails: it is a double-three")
    for name, words, text, said in [
        ("a move after the end", [*LINE_OF_SMALL, "6,6"], SMALL, "move 3 wins, and nothing comes after it"),
        ("a stone", ["2,3"], SMALL, "a stone stands on 2,3"), ("no point", ["zz"], SMALL, "zz is no point of the board"),
        ("more attacks than moves", [*LINE_OF_SMALL[:2], "3,2", "6,6", "6,5"], SMALL, "the line has 3 attacks, and --depth allows 2"),
    ]:
        fails(f"line.py: {name}", "line.py", ["--depth", "2", "-", *words], text, said)


def batches():
    """One command over many texts, in their order, and what was done is kept."""
    with tempfile.TemporaryDirectory() as folder:
        for name, text in (("a.txt", TEXT), ("b.txt", TEXT.replace("7,7", "9,9")), ("c.txt", "zz\n")):
            Path(folder, name).write_text(text)
        line = re.compile(r", \d+\.\d s$", re.M)
        many = lambda *words: run("many.py", words, cwd=folder)
        status, told, errors = many("--jobs", "2", "--keep", "k", "solve 2 1000", "c.txt", "a.txt", "b.txt", "no.txt")
        wanted = (
            "c.txt: refused line 1\na.txt: Black wins in 2 moves under freestyle, 3 nodes\nb.txt: none\n"
            "no.txt cannot be read: No such file or directory\n"
        )
        expect("many.py: a line a file", (status, line.sub("", told), errors), (3, wanted, ""))
        table = Path(folder, "k", "a.txt.solve-2-1000.answer").read_text()
        expect("many.py: an answer that is kept", table, asked(["solve", "2", "1000"], TEXT))
        # What is kept isn't asked again: here by a program that answers nothing. What changed is, and a line without its end is no line.
        Path(folder, "b.txt").write_text(TEXT)
        with open(Path(folder, "k", "done.txt"), "a") as out:
            out.write("half a line")
        none = {**os.environ, "RENJU": "/bin/false"}
        status, again, _ = run("many.py", ["--keep", "k", "solve 2 1000", "c.txt", "a.txt", "b.txt"], cwd=folder, env=none)
        expect("many.py: a run that goes on", line.sub("", again), "".join(wanted.splitlines(True)[:2]) + "b.txt: no answer, status 1\n")
        Path(folder, "sub").mkdir()
        Path(folder, "sub", "a.txt").write_text(TEXT)
        for name, words, said in [
            ("two files with one answer", ["--keep", "k", "foul", "a.txt", "sub/a.txt"], "a.txt and sub/a.txt would both be written to"),
            ("a folder of the user's", ["--keep", ".", "foul", "a.txt"], ". is there already, and holds no answers of this script"),
            ("no command", ["dance", "a.txt"], "dance is no command over texts"),
        ]:
            status, output, errors = run("many.py", words, cwd=folder)
            expect(f"many.py: {name}", f"{status} {output}{errors}", re.compile(rf"1 many.py: {said}.*\n"))
        if not shutil.which("parallel"):
            print("parallel is missing here: positions are not spread by it")
            return
        spread = ["parallel", "--will-cite", "-k", "-S", ":", f"{PROGRAM} solve 2 1000 < {{}}", ":::", "a.txt", "sub/a.txt"]
        done = subprocess.run(spread, capture_output=True, cwd=folder, timeout=SECONDS, stdin=subprocess.DEVNULL)
        expect("parallel: two positions", done.stdout.decode(), 2 * asked(["solve", "2", "1000"], TEXT))


# A program that answers a depth of 2 by a table, and then, asked of 1 with more, doesn't answer any more.
SLOW = """#!/bin/sh
[ $2 = 1 ] && [ $3 = 10000 ] && echo spent && exit 5
[ $2 = 2 ] && exec cat '{}'
exec sleep 60
"""


def deepened():
    """The shortest win, with what is told meanwhile, and the best table when it is interrupted."""
    quiet = EXAMPLES / "wins" / "quiet-three.txt"
    with tempfile.TemporaryDirectory() as folder:
        status, told, errors = run("deepen.py", ["--out", f"{folder}/t", quiet])
        lines = re.sub(r", \d+ s$", "", errors, flags=re.M).splitlines()
        none = [f"no win within {depth}" for depth in (1, 2, 3, 4)]
        end = "Black wins in 5 moves under freestyle, and in no fewer by threats; all is decided"
        expect("deepen.py: the shortest win", (status, told, [it for it in none if it not in lines], lines[-1]), (0, "", [], end))
        told = asked(["check", "100000000"], Path(folder, "t").read_text())
        expect("deepen.py: its table", told, re.compile("accepted in 5 moves, .*\n"))
        status, _, errors = run("deepen.py", ["--out", f"{folder}/t", quiet])
        expect("deepen.py: a file that is there", (status, "t is there already" in errors), (1, True))
        status, told, errors = run("deepen.py", ["--depth", "3", quiet])
        expect("deepen.py: no win", (status, told, "no win by threats within 3 moves; all is decided" in errors), (9, "", True))
        Path(folder, "slow").write_text(SLOW.format(EXAMPLES / "two-move-win.txt"))
        Path(folder, "slow").chmod(0o755)
        words = [EXAMPLES / "deepen.py", "--nodes", "100000", EXAMPLES / "three-in-a-row.txt"]
        env = {**os.environ, "RENJU": f"{folder}/slow"}
        run_of = subprocess.Popen(words, stdout=subprocess.PIPE, stderr=subprocess.PIPE, stdin=subprocess.DEVNULL, env=env)
        while "a win in 2" not in run_of.stderr.readline().decode():
            pass
        run_of.send_signal(signal.SIGINT)
        told, errors = run_of.communicate(timeout=SECONDS)
        expect("deepen.py: an interrupt", (run_of.returncode, told.decode(), b"interrupted" in errors), (0, TABLE, True))
        Path(folder, "slow").write_text(SLOW.format(EXAMPLES / "two-move-win.txt").replace("exec sleep 60", "exit 6"))
        status, told, errors = run("deepen.py", ["--nodes", "100000", EXAMPLES / "three-in-a-row.txt"], env=env)
        is_said = "a win in 2" in errors and "ended with status 6: it printed nothing" in errors
        expect("deepen.py: a run that fails after a win", (status, told, is_said), (0, TABLE, True))
        Path(folder, "slow").write_text("#!/bin/sh\nexit 6\n")
        expect("deepen.py: a run that fails", run("deepen.py", [quiet], env=env)[0], 1)


# A picture of two points in each of five rows, one of each way in which a row tells what differs, and the colours of its points.
DOTS = struct.pack(">IIBBBBB", 2, 5, 8, 2, 0, 0, 0)
FILTERED = bytes([
    0, 10, 20, 30, 40, 50, 60,
    1, 10, 20, 30, 1, 2, 3,
    2, 1, 1, 1, 1, 1, 1,
    3, 5, 5, 5, 5, 5, 5,
    4, 1, 1, 1, 1, 1, 1,
])
COLOURS = [
    "0a141e", "28323c", "0a141e", "0b1621", "0b151f", "0c1722", "0a0f14", "101820", "0b1015", "111921",
]


# What a page does in a browser: at each state that is given every point that can be clicked is clicked, and what is then shown is kept.
CLICKS = """<script>
const visited = STATES.map(([problem, line]) => {
  history.replaceState(null, "", `#${problem + 1}${line.length ? ":" + line.join(",") : ""}`);
  visit();
  return { ...shown };
});
// One move back from the last of these it is the table's turn, and one on its answer is played again.
const press = id => { document.getElementById(id).click(); return [document.getElementById("words").textContent, address(shown.count)]; };
const stepped = [press("back"), press("on")];
// A browser passes over addresses that change too often, so that they are left now.
const told = visited.map(state => {
  const open = () => { Object.assign(shown, state, { line: state.line.slice() }); draw(); };
  open();
  const points = [...document.querySelectorAll("[data-point]")].map(it => it.getAttribute("data-point"));
  const fouls = [...document.querySelectorAll("[data-foul]")].map(it => Number(it.getAttribute("data-foul")));
  const clicks = points.map(point => {
    open();
    document.querySelector(`[data-point="${point}"]`).dispatchEvent(new MouseEvent("click", { bubbles: true }));
    const moves = [...document.querySelectorAll("#moves a")].map(it => it.textContent);
    return [Number(point), moves, document.getElementById("words").textContent, address(shown.count)];
  });
  return { fouls, clicks };
});
const judged = BOARDS.map(it => [...firstBoard(it).fouls().keys()]);
document.body.innerHTML = "<pre id='told'></pre>";
document.getElementById("told").textContent = JSON.stringify([told, judged, stepped]);
</script>
</body>"""

def lines_to_nodes(table):
    """For each node that the first attack and listed replies lead to, one line of moves up to its attack."""
    found, left = {}, [(len(table.nodes) - 1, [])]
    while left:
        place, line = left.pop()
        node = table.nodes[place]
        if place not in found:
            found[place] = [*line, node.attack]
            left += [(next_place, [*found[place], reply]) for reply, next_place in node.replies if reply not in found[place]]
    return found


def wanted_click(table, position, node, line, point, fouls):
    """What a page has to show after a click: the moves, and how the words begin."""
    from boards import named

    name = named(point, position.height)
    if point in fouls:
        return [*line, name], f"{name} is {'an' if fouls[point] == 'overline' else 'a'} {fouls[point]}: a foul. White wins."
    answer = table.nodes[node.answer(point)]
    attack = named(answer.attack, position.height)
    side = table.attacker().capitalize()
    return [*line, name, attack], f"{attack} makes five. {side} wins." if answer.wins else f"{side} plays {attack}. "


def pages():
    """Every reply of two tables is clicked on their page, and the answers are those of the tables; fouls are those of the program."""
    from boards import named, read

    block = asked(["fours", "10", "20000"], (EXAMPLES / "wins" / "block-fouls.txt").read_text())
    with tempfile.TemporaryDirectory() as folder:
        for name, text in (("two", TABLE), ("block", block), ("no", TABLE.replace("3,7>1", "3,7>0")), ("p", TEXT)):
            Path(folder, name).write_text(text)
        status, page, errors = run("page.py", ["two", "block"], cwd=folder)
        for name, words, said in [
            ("a table that isn't accepted", ["no"], "no: renju check says refused attack-refused 4,7 3,7 3,7; examples/why.py tells why"),
            ("a position", ["p"], "the text is a position, and has no table"),
            ("a file that is there", ["--out", "p", "two"], "p is there already, and is not written over: it is no page of this script"),
        ]:
            fails_in(folder, f"page.py: {name}", words, said)
    expect("page.py: a page", (status, errors, re.findall(r"(?:src|href)=[^ >]*", page)), (0, "", []))
    if not page_picture.browser():
        print("chromium is missing here: the pages are not clicked")
        return
    tables, states, wanted = [read(TABLE.encode()), read(block.encode())], [], []
    for number, table in enumerate(tables):
        for place, line in lines_to_nodes(table).items():
            position = table.position
            for point in line:
                position = position.after(point)
            if not position.won_at():
                names = [named(point, position.height) for point in line]
                states.append([number, names])
                wanted.append((table, position, table.nodes[place], names))
    numbers = random.Random(2)
    drawn = [drawn_position(numbers) for _ in range(20)]
    at = lambda points, position: [x + y * position.width for x, y in points]
    boards = [
        {"rule": it.rule, "width": it.width, "height": it.height, "black": at(it.black, it), "white": at(it.white, it)} for it in drawn
    ]
    clicks = CLICKS.replace("STATES", json.dumps(states)).replace("BOARDS", json.dumps(boards))
    found = page_picture.told_in(page.replace("</body>", clicks))
    if not found:
        expect("page.py: the page in a browser", found, "what it shows")
        return
    told, judged, stepped = found
    line = wanted[-1][-1]
    back = [f"Black plays {line[-2]}. Find the answer, or press ▶.", f"#2:{','.join(line[:-1])}"]
    on = [f"White plays {line[-1]}. Black to move: click any reply, and it is answered.", f"#2:{','.join(line)}"]
    expect("page.py: a move back and on", stepped, [back, on])
    expect("page.py: the fouls of drawn positions", judged, [at(it.fouls(), it) for it in drawn])
    for (table, position, node, line), shown in zip(wanted, told):
        clicked(table, position, node, line, shown)


def clicked(table, position, node, line, shown):
    """Compares what a page showed after each click in one state."""
    name = f"page.py: after {' '.join(line)}"
    number, fouls = lambda point: point[0] + point[1] * position.width, position.fouls()
    expect(f"{name}: the fouls", sorted(shown["fouls"]), sorted(map(number, fouls)))
    expect(f"{name}: the points", [point for point, *_ in shown["clicks"]], [number(point) for point in position.empties()])
    for (_, moves, words, address), point in zip(shown["clicks"], position.empties()):
        wanted_moves, wanted_words = wanted_click(table, position, node, line, point, fouls)
        got = (moves, words[: len(wanted_words)], address.partition(":")[2])
        expect(f"{name} {point}", got, (wanted_moves, wanted_words, ",".join(wanted_moves)))


def page_is_shown():
    """The picture of a page is that of the page as it is written now, and what a browser shows, where one with the same letters is here."""
    dot = page_picture.SIGNATURE + b"".join(page_picture.chunk(*it) for it in [(b"IHDR", DOTS), (b"IDAT", zlib.compress(FILTERED)), (b"IEND", b"")])
    expect("page_picture.py: a picture of four filters", [bytes(it).hex() for row in page_picture.rows_of(dot)[1] for it in row], COLOURS)
    picture, page = page_picture.SHOWN.read_bytes(), page_picture.page()
    said = page_picture.words_of(picture)
    expect("shown.png: its page is another one by now, and .ci/page_picture.py draws it", said.get("page"), page_picture.identity(page))
    if not page_picture.browser():
        print("chromium is missing here: the picture of a page is not compared with it")
        return
    if json.loads(said.get("placed", "null")) != page_picture.placed(page):
        print("chromium has letters of another size here: the picture of a page is not compared with it")
        return
    expect("shown.png: what the browser shows otherwise", page_picture.differing(picture, page_picture.screen(page)), [])
    before = page_picture.differing(picture, page_picture.screen(page, page_picture.LINE.rpartition(",")[0]))
    expect("shown.png: a move less differs", len(before) > 2, True)


def fails_in(folder, name, words, said):
    status, output, errors = run("page.py", words, cwd=folder)
    expect(name, f"{status} {output}{errors}", re.compile(rf"1 page.py: .*{said}.*\n"))


def session(words, lines, folder):
    """What play.py says of some lines, without the boards, and its status."""
    status, output, errors = run("play.py", words, "".join(f"{line}\n" for line in lines), cwd=folder)
    return status, [line for line in output.splitlines() if not re.match(r" +(a b c|\d+ ?[ (])|The last move", line)], errors


def players():
    """Games of two people, from a position, by a table and by a book's entry; what is saved; and options that don't go together."""
    with tempfile.TemporaryDirectory() as folder:
        for name, text in (("p", TEXT), ("t", TABLE), ("f", FOULS), ("b", BOOK), ("mine", "mine\n")):
            Path(folder, name).write_text(text)
        # Black makes a straight four, of which the brain blocks the first end.
        _, said, errors = session(["p"], ["hint", "e8", "moves", "save g", "i8", "save g", "save g2", "picture g.svg", "h1"], folder)
        wanted = [
            "Black is to move.", "Black has a win in 2 moves by fours: e8.", "Black is to move.", "1. e8 2. d8", "The game is in g.",
            "You have won.", "g is there already, and is not written over: name another file", "The game is in g2.",
            "The board is drawn in g.svg.", "You have won.", "the game is over; undo goes back, and quit ends",
        ]
        expect("play.py: from a position", (said, errors), (wanted, ""))
        expect("play.py: a saved game", asked(["referee"], Path(folder, "g2").read_text()), "won black 3\n")
        expect("play.py: a saved game is gone on with", session(["g"], ["i8"], folder)[1], ["Black is to move.", "You have won."])
        _, said, _ = session(["--two", "f"], ["7,9", "undo", "7,7", "h7", "moves"], folder)
        lost = [
            "Black has lost by a foul.", "h6 is a double-three", "  a three in the column: h9 h7 h6, a straight four at h8",
            "  a three in the diagonal down: e9 g7 h6, a straight four at f8",
        ]
        turn = "Black is to move."
        taken = "a stone stands on 7,8 (h7) already"
        expect("play.py: two people and a foul", said, [turn, *lost, turn, "White is to move.", taken, "1. h8"])
        _, said, _ = session(["t"], ["a1", "undo", "7, 0"], folder)
        twice = 2 * ["White is to move.", "The brain has won."]
        expect("play.py: a table, again after undo", said, twice)
        _, said, _ = session(["--entry", "2", "b"], ["3,7"], folder)
        expect("play.py: an entry in which the player moves first", said, ["White is to move.", "The brain has won."])
        for name, words, told in [
            ("a side and a table", ["--white", "t"], "--white doesn't go together with t"),
            ("a rule and a table", ["--rule", "renju", "t"], "--rule doesn't go together with t"),
            ("two people and a book", ["--two", "b"], "--two doesn't go together with b"),
            ("an entry of a table", ["--entry", "1", "t"], "t is a table, and has no entry 1"),
            ("standard input as FILE", ["-"], "FILE can't be -"),
            ("a text of another kind", ["mine"], "in 'mine' stands 'mine', which is no point"),
        ]:
            status, output, errors = run("play.py", words, cwd=folder)
            expect(f"play.py: {name}", f"{status} {output}{errors}", re.compile(rf"1 play.py: .*{told}.*\n"))


# The scripts that take a text, with the words before its file.
TAKERS = {
    "books.py": ["--list"], "deepen.py": [], "foul.py": [], "many.py": ["foul"], "openings.py": ["/no/folder", "7,7"],
    "page.py": [], "pictures.py": [], "play.py": [], "position.py": [], "solutions.py": [], "tree.py": [], "why.py": [], "line.py": [],
}


def plain():
    """That each script tells what it is, and says in a line what is wrong with a file, an output or the program."""
    for path in sorted(EXAMPLES.glob("*.py")):
        if os.access(path, os.X_OK):
            status, output, errors = run(path.name, ["--help"])
            expect(f"{path.name}: --help", (status, output[:6], errors), (0, "usage:", ""))
    for path in [*sorted(EXAMPLES.parent.glob("docs/*.py")), *sorted(EXAMPLES.parent.glob(".ci/*.py"))]:
        if os.access(path, os.X_OK):
            done = subprocess.run([path, "--help"], capture_output=True, stdin=subprocess.DEVNULL, timeout=SECONDS)
            said = path.read_text().split('"""')[1].splitlines()[0]
            expect(f"{path.name}: --help", (done.returncode, said in done.stdout.decode(), done.stderr), (0, True, b""))
    for script, words in TAKERS.items():
        status, output, errors = run(script, [*words, EXAMPLES, *(["h8"] if script == "line.py" else [])])
        said = re.compile(rf"1 ({re.escape(script)}: )?{re.escape(str(EXAMPLES))} cannot be read: Is a directory\n")
        expect(f"{script}: a folder", f"{status} {output}{errors}", said)
    for path in sorted((EXAMPLES.parent / "bench").iterdir()):
        if os.access(path, os.X_OK) and path.is_file():
            done = subprocess.run([path, "--help"], capture_output=True, timeout=SECONDS)
            said = (done.returncode, done.stdout.decode().splitlines()[:1], done.stderr)
            expect(f"bench/{path.name} --help", said, (0, [f"bench/{path.name} [PROGRAM [WORD ..]]"], b""))
    table = EXAMPLES / "two-move-win.txt"
    for name, output, said in [
        ("a full output", "/dev/full", "tree.py: standard output cannot be written: No space left on device\n"),
        ("a closed output", "&-", "tree.py: standard output is closed\n"),
    ]:
        done = subprocess.run(["bash", "-c", f"'{EXAMPLES}/tree.py' '{table}' >{output}"], capture_output=True, timeout=SECONDS)
        expect(f"tree.py: {name}", (done.returncode, done.stderr.decode()), (1, said))
    status, _, errors = run("foul.py", [], FOULS, env={**os.environ, "RENJU": "/no/renju"})
    expect("foul.py: no program", (status, errors), (1, "foul.py: /no/renju cannot be started: No such file or directory\n"))


if __name__ == "__main__":
    groups = [fouls_explained, pictures_of_fouls, kept, books, solutions, refusals, solution_lines, batches, *opening_cases.GROUPS, deepened]
    sys.exit(tried(*groups, pages, page_is_shown, players, plain))
