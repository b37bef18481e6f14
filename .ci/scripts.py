#!/usr/bin/env python3
"""Runs the scripts for people over cases of their own, and prints those that fail, each in a line that begins with FAILED.

What a script says to be wrong with a text is compared with the line that the program refuses.
"""
import os
import re
import subprocess
import sys
import tempfile
from pathlib import Path
from xml.etree import ElementTree

from trying import EXAMPLES, PROGRAM, SECONDS, TABLE, TEXT, expect, fails, run, tried

# The usual slips: what is changed in the text, and what is said of it.
SLIPS = [
    (("renju-position 1\n", ""), "line 1: 'rule freestyle' begins no text: a position begins with .*"),
    (("renju-position 1", "renju-position"), "line 1: 'renju-position' begins no text: .*"),
    (("renju-position 1", "Renju-Position 1"), "line 1: 'Renju-Position 1' begins no text: .*"),
    (("renju-position 1", "renju-position 1 "), "line 1: a space stands at its end"),
    (("renju", "\ufeffrenju"), "line 1: a byte order mark stands before the text"),
    (("renju", "\nrenju"), "line 1: it is empty"),
    (("\n", "\r\n"), "line 1: a carriage return stands in it; .*"),
    (("freestyle", "gomoku"), "line 2: gomoku is no rule: it is freestyle, exact or renju"),
    (("freestyle", "Freestyle"), "line 2: Freestyle is no rule: .*"),
    (("rule freestyle", "rule"), "line 2: nothing is no rule: .*"),
    (("rule freestyle\n", ""), "line 2: it begins with rule, and not with size"),
    (("rule freestyle", "rule: freestyle"), "line 2: it begins with rule, and not with rule:"),
    (("size 15", "size 15x15"), "line 3: 15x15 is no number of the sides of a board: .*"),
    (("size 15", "size 15,15"), "line 3: it is size N where both sides are N, .*"),
    (("size 15", "size 4"), "line 3: the sides of a board are 5 to 32, and not 4"),
    (("size 15", "size 33"), "line 3: the sides of a board are 5 to 32, and not 33"),
    (("size 15", "size 015"), "line 3: 015 is no number .*"),
    (("size 15", "size\t15"), "line 3: a tab stands in it; one space separates words"),
    (("size 15", "size 7"), "line 4: 5,7 is off a board of 7 by 7, whose last point is 6,6"),
    (("5,7 6,7", "6,7 5,7"), "line 4: 5,7 stands before 6,7: .*"),
    (("5,7 6,7 7,7", "5,7 7,8 6,7"), "line 4: 6,7 stands before 7,8: .*"),
    (("5,7 6,7", "5,7 5,7"), "line 4: 5,7 stands there twice"),
    (("5,7 6,7 7,7", "f8 g8 h8"), "line 4: f8 is written 5,7"),
    (("5,7 6,7", "5,7, 6,7"), "line 4: 5,7, is no point, as 7,7 is"),
    (("5,7 6,7", "(5,7) 6,7"), r"line 4: \(5,7\) is no point, as 7,7 is"),
    (("5,7 6,7", "5, 7 6,7"), "line 4: 5, is no point, as 7,7 is"),
    (("5,7 6,7", "05,7 6,7"), "line 4: 05,7 is no point, as 7,7 is"),
    (("5,7 6,7", "5,7  6,7"), "line 4: two spaces stand together in it; .*"),
    (("7,7\n", "7,7 \n"), "line 4: a space stands at its end"),
    (("7,7\n", "7,15\n"), "line 4: 7,15 is off a board of 15 by 15, .*"),
    (("7,7\n", "7,-1\n"), "line 4: 7,-1 is no point, as 7,7 is"),
    (("black", "Black"), "line 4: it begins with black, and not with Black"),
    (("black 5,7 6,7 7,7", "white 0,0 2,0 4,0"), "line 4: it begins with black, and not with white"),
    (("black 5,7 6,7 7,7", ""), "line 4: it is empty"),
    (("0,0 2,0", "0,0 5,7"), "line 5: .*"),
    (("4,0\n", "4,0 5,7\n"), "line 5: 5,7 is a black stone already"),
    (("4,0\n", "4,0"), "line 5: no line feed ends it"),
    (("white 0,0 2,0 4,0\n", ""), "line 5: it is missing; here stands white, and the stones of that side"),
    (("4,0\n", "4,0\n\n"), "line 6: nothing may stand after the last line"),
    (("4,0\n", "4,0\nend\n"), "line 6: nothing may stand after the last line"),
    ((TEXT, ""), "line 1: the text is empty"),
    (("0,0 2,0 4,0", "0,0"), "Black has 3 stones and White 1: .*"),
    (
        ("5,7 6,7 7,7\nwhite 0,0 2,0 4,0", "5,7 6,7 7,7 8,7 9,7\nwhite 0,0 2,0 4,0 6,0 8,0"),
        "Black has won already, with a row that begins at 5,7",
    ),
]
# The same of a table.
TABLE_SLIPS = [
    (("moves 2", "moves 0"), "line 6: moves are 1 to 1,000,000, and not 0"),
    (("moves 2", "moves two"), "line 6: two is no number of moves: .*"),
    (("nodes 3", "nodes 0"), "line 7: nodes are 1 to 1,000,000, and not 0"),
    (("nodes 3", "nodes 4"), "line 11: it is missing; here stands the node 3"),
    (("nodes 3", "nodes 2"), "line 10: nothing may stand after the last line"),
    (("8,7 wins", "8,7 win"), "line 9: after its first word stands wins alone, rest and a node, or only"),
    (("8,7 wins", "8,7 rest 1"), "line 9: the nodes that it can name are 0 to 0, and not 1"),
    (("3,7 wins", "3,7 rest 0"), "line 8: no node stands before it that it could name"),
    (("3,7>1", "3,7"), "line 10: 3,7 is no listed reply, as 3,7>1 is"),
    (("3,7>1", "3,7>1 3,7>0"), "line 10: 3,7 stands there twice"),
    (("3,7>1", "3,7>1 2,7>0"), "line 10: 2,7 stands before 3,7: .*"),
    (("3,7>1", "3,7 > 1"), "line 10: 3,7 is no listed reply, as 3,7>1 is"),
]


def refused(words, text):
    """What the program says of a text that it refuses, in the words of the scripts where it has a line."""
    done = subprocess.run([PROGRAM, *words], input=text.encode(), capture_output=True, timeout=SECONDS)
    return re.sub(r"^refused (line \d+)?.*\n", r"\1", done.stdout.decode()) if done.returncode == 3 else f"status {done.returncode}"


def slips():
    """Each usual slip is told in words, at the line that the program refuses."""
    from boards import Wrong, read

    for words, text, changes in ((["foul"], TEXT, SLIPS), (["check", "219"], TABLE, TABLE_SLIPS)):
        for (old, new), wanted in changes:
            bad = text.replace(old, new)
            try:
                said = f"nothing of {type(read(bad.encode())).__name__}"
            except Wrong as error:
                said = str(error)
            expect(f"{old!r} is {new!r}", said, re.compile(wanted))
            expect(f"the line of {old!r} is {new!r}", (re.match(r"line \d+", said) or [""])[0], refused(words, bad))


def positions():
    """All that position.py takes is spelled in one way."""
    game = "renju-position 1\nrule freestyle\nsize 15\nblack 8,6 7,7\nwhite 6,6\n"
    rows = [*(6 * [15 * "."]), "......O.X......", ".......X.......", *(7 * [15 * "."])]
    taken = [
        ("stones in any order", ["f.txt"], "renju-position 1\nrule freestyle\nsize 15\nblack 7,7 8,6\nwhite 6,6\n"),
        ("names as h8", [], "black h8 i9\nwhite g9\n"),
        ("names in capitals", [], "black H8 I9\nwhite G9\n"),
        ("a mixture", [], "rule freestyle\nblack h8, 8,6\nwhite (6, 6)\n"),
        (
            "carriage returns, tabs, a mark and blank lines", [],
            "\ufeffrenju-position 1\r\n\r\nrule\tfreestyle\r\nsize  15\r\nwhite 6,6 \r\nblack 7,7\t8,6",
        ),
        ("carriage returns alone", [], "black 7,7 8,6\rwhite 6,6\r"),
        ("a diagram", [], "\n".join(rows)),
        ("a diagram with spaces", [], "\n".join(" ".join(row) for row in rows) + "\n"),
        (
            "a diagram with names", [],
            "\n".join(["   a b c d e f g h i j k l m n o", *(f"{15 - y:>2} {' '.join(row)} {15 - y}" for y, row in enumerate(rows))]),
        ),
        ("a part of a board", ["--at", "5,6", "--size", "15"], ". O . X .     row 6\n. . X . *     row 7\n"),
        ("a list of moves", [], "h8 g9 i9"),
        ("moves with numbers", [], "1. h8 g9\n2. i9\n"),
        ("points in brackets as moves", [], "1. (7,7) (6, 6)\n2. (8,6)\n"),
        ("moves in one word", [], "h8g9i9"),
        ("points as moves", [], "7,7 6,6 8,6"),
        ("a rule and a size on the command line", ["--rule", "freestyle", "--size", "15x15"], "7,7\n6,6\n8,6\n"),
    ]
    for name, words, text in taken:
        with tempfile.TemporaryDirectory() as folder:
            Path(folder, "f.txt").write_text(text)
            status, output, _ = run("position.py", words, text, cwd=folder)
        expect(f"position.py: {name}", output, game)
    expect(
        "position.py: another board", run("position.py", [], "rule renju\nsize 9,7\nblack i1\nwhite\n")[1],
        "renju-position 1\nrule renju\nsize 9,7\nblack 8,6\nwhite\n",
    )
    expect("position.py: a table", run("position.py", [], TABLE)[1], TEXT)
    expect(
        "position.py: what was wrong", run("position.py", [], TEXT.replace("5,7 6,7", "6,7 5,7"))[2],
        re.compile("position.py: line 4: 5,7 stands before 6,7: .*\nposition.py: Black is to move: 3 black stones, 3 white stones\n"),
    )
    said = "position.py: the text is spelled as it has to be\nposition.py: Black is to move: 3 black stones, 3 white stones\n"
    expect("position.py: nothing was wrong", run("position.py", [], TEXT), (0, TEXT, said))
    turn = "position.py: White is to move: 2 black stones, 1 white stone\n"
    expect("position.py: White's turn, from standard input", run("position.py", ["-"], "h8 g9 i9"), (0, game, turn))
    turned()
    untaken = [
        ("nothing", [], "", "there are no stones in it"),
        ("a word", [], "black 7,7 zz\nwhite\n", "'zz', which is no point"),
        ("a point off the board", [], "black p1\nwhite\n", "p1 is off a board of 15 by 15"),
        ("a point twice", [], "black 7,7\nwhite h8\n", r"7,7 \(h8\) is given twice"),
        ("a move twice", [], "7,7 7,7", r"move 2: a stone stands on 7,7 \(h8\) already"),
        ("too many stones", [], "black 7,7 8,8\nwhite\n", "Black has 2 stones and White 0"),
        ("moves after a win", [], "a1 a2 b1 b2 c1 c2 d1 d2 e1 e2", "move 9 wins"),
        ("a diagram of uneven rows", [], ".....\n....\n.....\n", "line 2 of the diagram has 4 points, and its first line has 5"),
        ("a diagram that is small", [], "X.\n.O\n", "a board has 5 to 32"),
        ("a part without a place", ["--size", "15"], "X.....\nO.....\n", "say by --at X,Y"),
        ("an unknown rule", ["--rule", "caro"], "h8", "caro is no rule"),
        ("no size", ["--size", "big"], "h8", "big is no size"),
        ("no place", ["--at", "h8"], ".....", "h8 is no upper left corner"),
        ("no symmetry", ["--image", "left"], "h8", "left is no symmetry: it is identity, half,"),
        ("a symmetry that doesn't fit", ["--image", "quarter", "--size", "9,7"], "a1", "quarter doesn't fit a board of 9 by 7"),
        ("no file", ["none.txt"], "", "none.txt cannot be read"),
        ("bytes", [], b"\x80\x81\x00", "which is no point"),
    ]
    for name, words, text, said in untaken:
        fails(f"position.py: {name}", "position.py", words, text, said)


def turned():
    """A position on each side of its board, as the program turns the table that has it; and by hand on a board of two sides."""
    quarter = "renju-position 1\nrule freestyle\nsize 15\nblack 7,5 7,6 7,7\nwhite 14,0 14,2 14,4\n"
    expect("position.py: --image quarter", run("position.py", ["--image", "quarter"], TEXT)[1], quarter)
    for symmetry in ("identity", "half", "flip-x", "flip-y", "quarter", "three-quarter", "diagonal", "antidiagonal"):
        done = subprocess.run([PROGRAM, "image", symmetry], input=TABLE.encode(), capture_output=True, timeout=SECONDS)
        wanted = ["renju-position 1", *done.stdout.decode().splitlines()[1:5]]
        expect(f"position.py: --image {symmetry}", run("position.py", ["--image", symmetry], TABLE)[1].splitlines(), wanted)
    wide = "rule renju\nsize 9,7\nblack 1,0 8,6\nwhite 2,5\n"
    for symmetry, black, white in [("flip-x", "7,0 0,6", "6,5"), ("flip-y", "8,0 1,6", "2,1"), ("half", "0,0 7,6", "6,1")]:
        wanted = f"renju-position 1\nrule renju\nsize 9,7\nblack {black}\nwhite {white}\n"
        expect(f"position.py: --image {symmetry} of 9 by 7", run("position.py", ["--image", symmetry], wide)[1], wanted)


FOUR = "rule freestyle\nsize 15\nblack 4,7 5,7 6,7 7,7\nwhite 0,0 2,0 4,0\n"
START = f"renju-table 2\n{FOUR}moves 1\nnodes 2\n8,7 wins\n3,7 wins\nstart rest 0 8,7>1\n"
# A table of more answers than nine, one of which answers two replies. (It wins nothing.)
ANSWERS = [f"{x},9 wins" for x in range(12)]
MANY = "\n".join([
    "renju-table 1", "rule exact", "size 15", "black", "white", "moves 2", "nodes 13", *ANSWERS,
    "7,7 rest 0 " + " ".join(f"{x},1>{x % 12}" for x in range(14)), "",
])


def trees():
    """Tables as trees in words."""
    two = "Black wins in 2 moves under freestyle.\n4,7\n  3,7: 8,7 wins\n  any other: 3,7 wins\n"
    expect("tree.py: two moves", run("tree.py", [], TABLE), (0, two, ""))
    expect("tree.py: names", run("tree.py", ["--names"], TABLE)[1], two.replace("4,7", "e8").replace("3,7", "d8").replace("8,7", "i8"))
    expect("tree.py: a depth", run("tree.py", ["--depth", "1"], TABLE)[1], "Black wins in 2 moves under freestyle.\n4,7\n  ..\n")
    expect(
        "tree.py: a start", run("tree.py", [], START)[1],
        "White is to move. Black wins in 1 move under freestyle.\n8,7: 3,7 wins\nany other: 8,7 wins\n",
    )
    folded = run("tree.py", [], MANY)[1].splitlines()
    expect("tree.py: folded replies", (len(folded), folded[2], folded[-1]), (15, "  0,1 12,1: 0,9 wins", "  any other: 0,9 wins"))
    shared = TABLE.replace("nodes 3", "nodes 5").replace("4,7 rest 0 3,7>1", "4,7 rest 0\n5,8 rest 2 6,8>2\n6,9 rest 3 7,8>2")
    told = "6,9\n  7,8: 4,7 [1]\n    any reply: 3,7 wins\n  any other: 5,8\n    6,8: 4,7, as in [1]\n    any other: 4,7, as in [1]\n"
    expect("tree.py: a node that is named again", run("tree.py", [], shared)[1].partition("\n")[2], told)
    fouls = TABLE.replace("nodes 3", "nodes 1").replace("3,7 wins\n8,7 wins\n4,7 rest 0 3,7>1", "4,7 only")
    expect("tree.py: no reply", run("tree.py", [], fouls)[1].splitlines()[1:], ["4,7, and no reply goes on"])
    fails("tree.py: a position", "tree.py", [], TEXT, "the text is a position, and has no table")
    fails("tree.py: a wrong text", "tree.py", [], TABLE.replace("8,7 wins", "8,7 win"), "the text: line 9: ")
    fails("tree.py: no file", "tree.py", ["none.txt"], "", "none.txt cannot be read")


def pictures():
    """Pictures of positions and tables of all kinds and sizes."""
    from boards import Position, read
    from pictures import Scene, picture, words_of

    def scene(words, text):
        return Scene(read(text.encode()), words_of(words))

    fouls = (EXAMPLES / "allowed-double-three.txt").read_text()
    expect("pictures.py: fouls are crosses", scene([], fouls).crosses, [(5, 7), (6, 9), (7, 9)])
    expect("pictures.py: no crosses without fouls", scene([], fouls.replace("renju\n", "freestyle\n")).crosses, [])
    expect("pictures.py: no crosses where White is to move", scene([], fouls.replace(" 12,14\n", "\n")).crosses, [])
    drawn = scene([], MANY)
    expect(
        "pictures.py: a number for each answer",
        (drawn.rings[(0, 9)], drawn.rings[(11, 9)], drawn.replies[(0, 1)], drawn.replies[(12, 1)], drawn.replies[(13, 1)]),
        ("1*", 12, 1, 1, 2),
    )
    expect("pictures.py: a start", (scene([], START).rings, scene([], START).replies), ({(3, 7): 1, (8, 7): "*"}, {(8, 7): 1}))
    expect("pictures.py: a line", scene(["--line"], TABLE).labels, {(4, 7): 1, (3, 7): 2, (8, 7): 3})
    expect("pictures.py: the words of a line", scene(["--line"], TABLE).told(), ["Black has won under freestyle"])
    expect("pictures.py: moves", scene(["--play", "e8 3,7"], TEXT).labels, {(4, 7): 1, (3, 7): 2})
    expect(
        "pictures.py: marks", (scene(["--mark", "a=h1", "--mark", "cost=7,0"], TEXT).rings, scene(["--mark", "cost=7,0"], TEXT).costs),
        ({(7, 14): "a"}, [(7, 0)]),
    )
    framed = scene(["--frame", "5,7 6,7 7,7", "--frame", "o1"], TEXT).framed
    expect("pictures.py: frames", framed, [([(5, 7), (6, 7), (7, 7)], (1, 0)), ([(14, 14)], (0, 0))])
    expect(
        "pictures.py: words", [scene([], text).told() for text in (TEXT, TABLE, START)],
        [
            ["Black is to move under freestyle"], ["Black wins in 2 moves under freestyle"],
            ["White is to move", "Black wins in 1 move under freestyle"],
        ],
    )
    for width, height in [(side, side) for side in range(5, 33)] + [(5, 32), (32, 5)]:
        position = Position("renju", width, height, [(0, 0), (width - 1, height - 1)], [(width - 1, 0)])
        svg = picture(read(position.text().encode()), words_of(["--mark", "<&=0,1"]))
        ElementTree.fromstring(svg)
    narrow = "renju-table 2\nrule freestyle\nsize 5\nblack 0,0 1,0 2,0 3,0\nwhite 0,2 1,2 2,2\nmoves 1\nnodes 1\n4,0 wins\nstart rest 0\n"
    texts = ElementTree.fromstring(picture(read(narrow.encode()), words_of([]))).iter("{http://www.w3.org/2000/svg}text")
    said = [word.text for word in texts if len(word.text) > 4]
    expect("pictures.py: a caption that is wider than its board", said, ["White is to move", "Black wins in 1 move under", "freestyle"])
    for name, words, text, said in [
        ("a wrong text", ["-"], "x\n", "line 1: "),
        ("no file", ["none.txt"], "", "none.txt cannot be read"),
        ("a mark of no form", ["--mark", "7,7", "-"], TEXT, "7,7 is no mark"),
        ("a mark off the board", ["--mark", "1=15,0", "-"], TEXT, "15,0 is no point of the board"),
        ("a move on a stone", ["--play", "0,0", "-"], TEXT, "a stone stands on 0,0"),
        ("a line of a position", ["--line", "-"], TEXT, "--line shows a line of a table"),
        ("a frame that is bent", ["--frame", "0,0 1,0 1,1", "-"], TEXT, "--frame names a point, or points of one line"),
        ("a frame around nothing", ["--frame", " ", "-"], TEXT, "--frame names a point, or points of one line"),
    ]:
        fails(f"pictures.py: {name}", "pictures.py", words, text, said)
    with tempfile.TemporaryDirectory() as folder:
        Path(folder, "t.txt").write_text(TABLE)
        status, _, errors = run("pictures.py", ["t.txt"], cwd=folder)
        expect("pictures.py: beside its text", (status, errors, sorted(os.listdir(folder))), (0, "", ["t.svg", "t.txt"]))
        expect(
            "pictures.py: the same of an input", run("pictures.py", ["-"], TABLE)[1],
            Path(folder, "t.svg").read_text().replace(' data-of="t.txt"', "", 1),
        )


def sessions():
    """Sessions of a player at play.py."""
    from boards import Position

    def said(words, moves, *more):
        status, output, errors = run("play.py", words, "".join(f"{move}\n" for move in moves), *more)
        return status, [line for line in output.splitlines() if not re.match(r" +(a b c|\d+ ?[ (])", line)], output, errors

    first = "The last move is {}, which is {}."
    status, words, output, errors = said([], ["h8", "undo", "undo", "h8", "7,7", "zz", "quit"])
    wanted = [
        "Black is to move.", first.format("g9", "6,6"), "Black is to move.", "Black is to move.", "no move of yours can be taken back",
    ]
    expect(
        "play.py: a move and undo", (status, words, errors),
        (
            0,
            [
                *wanted, first.format("g9", "6,6"), "Black is to move.", "a stone stands on 7,7 (h8) already",
                "zz is no point of the board, as 7,7 or h8 is",
            ],
            "",
        ),
    )
    expect("play.py: the board", "\n  9 . . . . . .(O). . . . . . . . 9\n  8 . . . . . . . X . . . . . . . 8\n" in output, True)
    expect("play.py: White", said(["--white", "--size", "9"], [])[1], [first.format("e5", "4,4"), "White is to move."])
    with tempfile.TemporaryDirectory() as folder:
        Path(folder, "t.txt").write_text(TABLE)
        status, words, output, errors = said([f"{folder}/t.txt"], ["3,7", "h1", "undo", "quit"])
        expect(
            "play.py: a table", (status, words, errors),
            (
                0,
                [
                    first.format("e8", "4,7"), "White is to move.", first.format("i8", "8,7"), "The brain has won.",
                    "the game is over; undo goes back, and quit ends", first.format("e8", "4,7"), "White is to move.",
                ],
                "",
            ),
        )
        said([], ["h8", f"picture {folder}/g.svg"])
        expect("play.py: a picture", Path(folder, "g.svg").read_text().count("#b3261e"), 0)
        Path(folder, "u.txt").write_text(TABLE.replace("nodes 3", "nodes 2").replace("8,7 wins\n4,7 rest 0 3,7>1", "4,7 rest 0"))
        fails(
            "play.py: a table that is refused", "play.py", [f"{folder}/u.txt"], "",
            "(the brain says|the brain ended with status 4): refused attack-refused 4,7 3,7 3,7",
        )
    fails("play.py: no rule", "play.py", ["--rule", "caro"], "", "caro is no rule")
    fails("play.py: no size", "play.py", ["--size", "40"], "", "a board has 5 to 32 columns and rows, and not 40 by 40")
    position = Position("renju", 15, 15, [(7, 6), (6, 7), (8, 7), (7, 8)], [(0, 0), (14, 0), (0, 14), (14, 14)])
    expect(
        "play.py: fouls are crossed", [line for line in position.drawn(position.fouls()) if "x" in line],
        ["  8 . . . . . . X x X . . . . . . 8"],
    )


def joined():
    """Books of tables and of books, each node once, and files that are refused."""
    with tempfile.TemporaryDirectory() as folder:
        for name, text in (("t", TABLE), ("no", TABLE.replace("3,7>1", "3,7>0")), ("p", TEXT)):
            Path(folder, name).write_text(text)
        made = lambda *files: run("books.py", ["--replace", "out", *files], cwd=folder)
        one = subprocess.run([PROGRAM, "bind", "t"], capture_output=True, cwd=folder, timeout=SECONDS).stdout.decode()
        expect("books.py: one table", made("t"), (0, "out: 1 entries, 3 nodes\n", ""))
        expect("books.py: the book of one table", Path(folder, "out").read_text(), one)
        Path(folder, "b").write_text(one)
        expect("books.py: more tables than one call binds", made(*70 * ["t"]), (0, "out: 70 entries, 3 nodes\n", ""))
        many = subprocess.run([PROGRAM, "bind", *64 * ["t"]], capture_output=True, cwd=folder, timeout=SECONDS).stdout.decode()
        Path(folder, "m").write_text(many)
        expect("books.py: a book and a table", made("b", "t"), (0, "out: 2 entries, 3 nodes\n", ""))
        two = subprocess.run([PROGRAM, "bind", "t", "t"], capture_output=True, cwd=folder, timeout=SECONDS).stdout.decode()
        expect("books.py: the book of both", Path(folder, "out").read_text(), two)
        expect("books.py: a table that is not accepted", made("t", "no"), (4, "no refused attack-refused 4,7 3,7 3,7\n", ""))
        expect("books.py: a position", made("t", "p"), (3, "p refused line 1\n", ""))
        fails("books.py: no such file", "books.py", [f"{folder}/out", "none"], "", "none cannot be read")
        fails("books.py: too many entries", "books.py", ["--replace", f"{folder}/out", *16 * [f"{folder}/m"]], "", "at most 1,000 entries")


if __name__ == "__main__":
    sys.exit(tried(slips, positions, trees, pictures, sessions, joined))
