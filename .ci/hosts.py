#!/usr/bin/env python3
"""Runs the scripts for hosts and commentators over cases of their own, and prints those that fail: managers and their brains, the
judge of their logs, and comments on games.
"""
import os
import re
import shutil
import subprocess
import sys
import tempfile
import time
from pathlib import Path

from trying import EXAMPLES, PROGRAM, SECONDS, TABLE, TEXT, expect, fails, run, tried

# A brain of the protocol that says and does what a test wants: what it answers to a word, what it says before, and what it does instead.
BRAIN = """import os, subprocess, sys, time
ANSWERS = {{"ABOUT": 'name="mean", version="1"', "START": "OK", "RESTART": "OK", **{answers!r}}}
for line in sys.stdin:
    word = (line.split() or [""])[0]
    if word == "END":
        break
    if word in {silent!r}:
        subprocess.Popen(["sleep", "{seconds}"]).wait()
    if word in {ends!r}:
        sys.exit(3)
    if word in {remarks!r}:
        print("MESSAGE thinking", "DEBUG depth 3", sep="\\n", flush=True)
    if word == "INFO" and {refuses!r}:
        print("UNKNOWN INFO" if "rule" in line else "ERROR a number", flush=True)
    if word in ANSWERS or word == "DONE" or word in ("BEGIN", "TURN"):
        print(ANSWERS.get(word, {move!r}), flush=True)
"""
OWN = f"{PROGRAM} brain"


def brain(folder, name="brain.py", answers=None, silent=(), ends=(), remarks=(), refuses=False, move="7,7", seconds=77):
    """The words of a brain of this kind."""
    text = BRAIN.format(answers=answers or {}, silent=silent, ends=ends, remarks=remarks, refuses=refuses, move=move, seconds=seconds)
    Path(folder, name).write_text(text)
    return f"{sys.executable} {folder}/{name}"


def games_of(output):
    """The lines of a log that tell a game's moves and its end."""
    return [line for line in output.splitlines() if re.match(r"game \d+: (?!black is)", line)]


def games():
    """Whole games of two brains under each rule, judged by the manager and by the referee."""
    for rule in ("freestyle", "exact", "renju"):
        for words in ([], ["--size", "7,6"], ["--size", "5"], ["--opening", "h8 i9 a1"], ["--opening", "7,7 8,7 7,8 8,8"]):
            status, output, errors = run("manager.py", ["--rule", rule, "--games", "2", *words])
            head = rf"rule {rule}\nsize (15|7,6|5)\n"
            game = r"game [12]: black is renju, white is renju\n(opening [a-o0-9 ]+\n)?game [12]: [a-o0-9 ]+: (black wins|white wins|a draw) after \d+ moves\n"
            expect(f"manager.py: {rule} {words}", f"{status} {output}{errors}", re.compile(rf"0 {head}({game}){{2}}"))
            # The referee says of each game what the manager said, from the log alone.
            told = "".join(f"{line}\n" for line in games_of(output))
            wanted = re.sub(r"(game \d): .*?: (?:(\w+) wins|a draw) after (\d+) moves", lambda it: f"{it[1]}: won {it[2]} {it[3]}" if it[2] else f"{it[1]}: drawn {it[3]}", told)
            expect(f"judge.py: {rule} {words}", run("judge.py", [], output), (0, wanted, ""))
            texts = run("judge.py", ["--text"], output)[1]
            expect(f"judge.py: the texts of {rule} {words}", run("judge.py", [], texts), (0, wanted, ""))
    with tempfile.TemporaryDirectory() as folder:
        Path(folder, "openings").write_text("# two openings\nh8 i9\n\n7,7 8,8 6,6\n")
        status, output, errors = run("manager.py", ["--openings", f"{folder}/openings"])
        openings = [line for line in output.splitlines() if line.startswith("opening")]
        expect("manager.py: a list of openings", (status, openings, errors), (0, 2 * ["opening h8 i9"] + 2 * ["opening h8 i7 g9"], ""))
        expect("judge.py: games of a list of openings", run("judge.py", [], output)[::2], (0, ""))
        Path(folder, "none").write_text("# nothing\n")
        fails("manager.py: a list of no openings", "manager.py", ["--openings", f"{folder}/none"], "", "none has no opening")
        fails("manager.py: no list of openings", "manager.py", ["--openings", f"{folder}/no"], "", "no cannot be read: No such file or directory")
    for words, said in ((["a", "b", "c"], "two brains play"), (["--opening", "h8", "--openings", "x"], "take one of these"), (["--games", "0"], "are 1 or more"),
                        (["no-such-brain"], "no-such-brain cannot be started"), (["--size", "big"], "big is no size"), (["--opening", "p1"], "p1 is no point of the board")):
        fails(f"manager.py: {words}", "manager.py", words, "", said)


def brains_of_others():
    """Brains that say more than an answer, that break the protocol, and that end or don't answer."""
    with tempfile.TemporaryDirectory() as folder:
        one = lambda *words: run("manager.py", words)
        passed = one(OWN, brain(folder, remarks=("START", "BEGIN", "TURN", "INFO", "ABOUT"), refuses=True, move="9,9"))
        expect("manager.py: remarks, and refusals of INFO, are passed over", (passed[0], games_of(passed[1])[0][:14], passed[2]), (1, "game 1: h8 j6 ", ""))
        shown = one("--remarks", OWN, brain(folder, remarks=("TURN",), refuses=True))[2]
        expect("manager.py: remarks are shown", re.sub(r"(mean: .*\n)+", lambda it: f"{len(it[0].splitlines())} lines\n", shown), re.compile(r"\d+ lines\n"))
        broken = [
            ("a point that is taken", {"move": "7,7"}, "its answer is 7,7"), ("words", {"move": "nowhere"}, "its answer is nowhere"), ("nothing", {"move": ""}, "its answer is "),
            ("a refusal of TURN", {"answers": {"TURN": "ERROR no"}, "refuses": False}, r"no answer to TURN 7,7 within 2 s, but ERROR no"),
            ("no board", {"answers": {"START": "ERROR too large"}}, "its answer to a new board is ERROR too large"),
            ("a brain that ends", {"ends": ("TURN",)}, "the brain ended with status 3"),
            ("a brain that ends at once", {"ends": ("ABOUT",)}, "the brain ended with status 3"),
            ("a brain that doesn't answer", {"silent": ("TURN",)}, "no answer to TURN 7,7 within 2 s"),
            ("a brain that doesn't say who it is", {"silent": ("ABOUT",)}, "no answer to ABOUT within 2 s"),
        ]
        for name, how, said in broken:
            status, output, errors = one("--games", "2", "--seconds", "2", OWN, brain(folder, **how))
            told = [re.sub(r"^(game \d): .*: (\w+ wins: .*) after \d+ moves$", r"\1 \2", line) for line in games_of(output)]
            # It is White first, and then Black.
            wanted = rf"1 game 1 black wins: {said} game 2 white wins: .*"
            expect(f"manager.py: {name}", f"{status} {' '.join(told)}{errors}", re.compile(wanted))
        began = time.monotonic()
        one("--seconds", "1", OWN, brain(folder, silent=("TURN",), seconds=7777))
        expect("manager.py: what a brain started has ended", (subprocess.run(["pgrep", "-f", "^sleep 7777$"], capture_output=True).stdout, time.monotonic() - began < 30), (b"", True))
        Path(folder, "refused").write_text(TABLE.replace("moves 2", "moves 3"))
        status, output, errors = one(OWN, f"{PROGRAM} brain {folder}/refused")
        expect("manager.py: a table that is refused", f"{status} {output}{errors}", re.compile(r"1 (.*\n)*game 1: .*: black wins: the brain ended with status 3: refused moves 3 2 after 0 moves\n"))


def bsd_gomoku():
    """Two games of the brain against gomoku of the BSD games, where that is there."""
    if not shutil.which("gomoku", path=f"{os.environ.get('PATH', '')}:/usr/games"):
        print("gomoku of the BSD games isn't here (Debian's package bsdgames): the games against it are skipped")
        fails_of = subprocess.run([EXAMPLES / "bsd_gomoku.py"], input=b"", capture_output=True, timeout=SECONDS)
        expect("bsd_gomoku.py: no gomoku", (fails_of.returncode, b"bsdgames" in fails_of.stderr), (1, True))
        return
    asked = "ABOUT\r\nSTART 15\r\nSTART 19\r\nINFO rule 0\r\nBEGIN\r\nPLAY 1,1\r\nBOARD\r\n9,9,2\r\nDONE\r\nEND\r\n"
    expect("bsd_gomoku.py: the protocol", run("bsd_gomoku.py", [], asked)[1], re.compile(r'name="BSD gomoku".*\nERROR .*\nOK\n\d+,\d+\nUNKNOWN command\n\d+,\d+\n'))
    for words in ([], ["--opening", "j10 k11 a1"]):
        status, output, _ = run("manager.py", ["--size", "19", "--seconds", "20", *words, OWN, EXAMPLES / "bsd_gomoku.py"])
        expect(f"manager.py: BSD gomoku {words}", output, re.compile(r"rule freestyle\nsize 19\ngame 1: black is renju, white is BSD gomoku\n(opening .*\n)?game 1: [a-s0-9 ]+: .* after \d+ moves\n"))
        expect(f"judge.py: BSD gomoku {words}", run("judge.py", [], output)[0], 0)


# Games of a log, what is said of the end of each, and the verdict on it under renju with the status.
ROW_OF_FIVE = "h8 a1 i8 a3 j8 a5 k8 a7 l8"
ROW_OF_SIX = "h8 a1 i8 a3 j8 a5 l8 a7 m8 a9 k8"
LOG = [
    (ROW_OF_FIVE, "black wins after 9 moves", "won black 9", 0),
    (ROW_OF_FIVE, "white wins after 9 moves", "won black 9; the log says white wins after 9 moves", 1),
    (ROW_OF_FIVE, "black wins after 11 moves", "won black 9; the log says black wins after 11 moves", 1),
    (ROW_OF_FIVE, "a draw after 9 moves", "won black 9; the log says a draw after 9 moves", 1),
    (ROW_OF_SIX, "white wins after 11 moves", "foul overline 11", 0),
    (ROW_OF_SIX, "black wins after 11 moves", "foul overline 11; the log says black wins after 11 moves", 1),
    ("h8 i9", "black wins after 2 moves", "open 2; the log says black wins after 2 moves", 1),
    ("h8 i9", "black wins: its answer is 7,7 after 2 moves", "open 2", 0),
    ("h8 i9", "black wins: its answer is 7,7 after 3 moves", "open 2; the log says black wins: its answer is 7,7 after 3 moves", 1),
    ("h8 7,7", "black wins: its answer is 7,7 after 2 moves", "illegal 2", 0),
    (f"{ROW_OF_FIVE} a9", "black wins after 10 moves", "after end 10; the log says black wins after 10 moves", 1),
    ("", "a draw", "open 0", 0),
]
PSQ = "Piskvorky 15x15, 11:11, 0\n" + "".join(f"{x},{y},12\n" for x, y in [(8, 8), (1, 15), (9, 8), (1, 13), (10, 8), (1, 11), (11, 8), (1, 9), (12, 8)]) + "one.zip\ntwo.zip\n0\n"


def judgements():
    """Games of logs of all forms, judged by themselves and beside a table, and logs that are none."""
    for moves, said, verdict, status in LOG:
        wanted = (status, f"game 1: {verdict}\n", "")
        expect(f"judge.py: {moves}, {said}", run("judge.py", ["--rule", "renju"], f"game 1: {moves}: {said}\n"), wanted)
    both = f"rule renju\ngame 1: {ROW_OF_FIVE}: black wins after 9 moves\r\ngame 2: {ROW_OF_SIX}: black wins after 11 moves\r\n"
    verdicts = "game 1: won black 9\ngame 2: foul overline 11; the log says black wins after 11 moves\n"
    expect("judge.py: two games and a rule", run("judge.py", [], both), (1, verdicts, ""))
    opened = f"rule renju\nsize 15\ngame 1: black is a, white is b: c\nopening {ROW_OF_FIVE[:14]}\ngame 1: {ROW_OF_FIVE[15:]}: black wins after 4 moves\n"
    expect("judge.py: an opening of the log", run("judge.py", [], opened), (0, "game 1: won black 4\n", ""))
    expect("judge.py: a rule that is given goes before", run("judge.py", ["--rule", "exact"], both), (1, "game 1: won black 9\ngame 2: open 11; the log says black wins after 11 moves\n", ""))
    for name, words, text in [
        ("a list of moves", [], ROW_OF_FIVE), ("a move a line", [], ROW_OF_FIVE.replace(" ", "\n")),
        ("moves with numbers", [], "1. h8 a1\n2. i8 a3\n3. j8 a5\n4. k8 a7\n5. l8\n"), ("points", [], "7,7 0,14 8,7 0,12 9,7 0,10 10,7 0,8 11,7"),
        ("a rule and a size", [], f"rule exact\nsize 15\n{ROW_OF_FIVE}"), ("a record of Piskvork", ["--rule", "renju"], PSQ), ("the same with carriage returns", [], PSQ.replace("\n", "\r\n")),
    ]:
        expect(f"judge.py: {name}", run("judge.py", words, text), (0, "game: won black 9\n", ""))
    listed = f"# two games\nrule renju\n3 {ROW_OF_FIVE}\n\n7,7 0,14\n"
    expect("judge.py: a game a line", run("judge.py", ["--list"], listed), (0, "game 1: won black 9\ngame 2: open 2\n", ""))
    expect("judge.py: a game a line, of another size", run("judge.py", ["--list", "--size", "9"], "1 a1 b2\n")[1], "game 1: open 2\n")
    text = "renju-game 1\nrule freestyle\nsize 15\nblack 7,7\nwhite 8,6\nmoves 0,0 1,0\n"
    expect("judge.py: a text after an opening", run("judge.py", ["--text", "--opening", "h8 i9"], "0,0 1,0"), (0, text, ""))
    expect("judge.py: game texts", run("judge.py", [], 2 * text), (0, "game 1: open 2\ngame 2: open 2\n", ""))
    expect("judge.py: a game text is its own", run("judge.py", ["--text"], text), (0, text, ""))
    with tempfile.TemporaryDirectory() as folder:
        for name, held in (("t", TABLE), ("no", TABLE.replace("3,7>1", "3,7>0")), ("bad", TABLE.replace("moves 2", "moves 3")), ("p", TEXT)):
            Path(folder, name).write_text(held)
        beside = lambda table, moves, *more: run("judge.py", ["--from", "p", "--table", table, *more], moves, cwd=folder)
        expect("judge.py: a game by a table", beside("t", "4,7 3,7 8,7"), (0, "game: won black 3, table follows\n", ""))
        expect("judge.py: a game that leaves a table", beside("t", "e8 0,14 i8"), (0, "game: won black 3, table departs 3\n", ""))
        expect("judge.py: a game from elsewhere", beside("t", "8,7", "--opening", "4,7 3,7"), (0, "game: won black 1, table absent\n", ""))
        expect("judge.py: a position of a table", beside("t", "4,7", "--from", "t"), (0, "game: open 1, table follows\n", ""))
        expect("judge.py: no such table", beside("none", "4,7"), (2, "game: shelf failed\n", ""))
        expect("judge.py: a table's text that is refused", beside("bad", "4,7"), (3, "game: refused moves 3 2\n", ""))
        expect("judge.py: a table that is not accepted", beside("no", "4,7"), (4, "game: refused attack-refused 4,7 3,7 3,7\n", ""))
    for name, words, said_of, said in [
        ("a word", [], "h8 zz", "'zz', which is no point"), ("a move off the board", [], "p1", "p1 is off a board of 15 by 15"),
        ("a move off the board in a log", ["--size", "9"], "game 1: j1: a draw after 1 moves", "j1 is no point of the board"),
        ("moves beside games", [], f"h8\ngame 1: {ROW_OF_FIVE}: a draw", "moves stand outside the games of the log"),
        ("a diagram", [], "\n".join(5 * ["....."]), "a game is a list of its moves"), ("no file", ["none.log"], "", "none.log cannot be read"),
        ("no position", ["--from", "none.txt"], "h8", "none.txt cannot be read"), ("no rule", ["--rule", "caro"], "h8", "caro is no rule"),
        ("an opening that wins", ["--opening", ROW_OF_FIVE], "a9", "Black has won already"),
        ("a game text without moves", [], text.replace("moves 0,0 1,0\n", ""), "game 1: after its first line stand its rule"),
        ("a list of games", [], "2 h8 i9\n2 h8 i9\n", "stands '2', which is no point, as h8 or 7,7 is; where each line is a game, --list says so"),
        ("a line that is no game", ["--list"], "h8 i9\nh8 zz\n", "game 2: zz is no point of the board"),
        ("a game text with a slip", [], text.replace("0,0 1,0", "a1"), "game 1: a1 is written 0,14"),
    ]:
        fails(f"judge.py: {name}", "judge.py", words, said_of, said)


ASKED = ["--depth", "3", "--nodes", "1000", "--last", "3"]


def commented():
    """What games.py says of games: where a win was there, who missed one, where the loser held, and what is no game."""
    game = "rule exact\n1. h8 a1 2. i8 a3 3. j8 a5 4. k8 a7 5. l8\n"
    with tempfile.TemporaryDirectory() as folder:
        said_of = lambda name, text, words=ASKED: (Path(folder, name).write_text(text), run("games.py", [*words, name], cwd=folder))[1]
        lines = [
            "before move 4, a3, White has no win by threats within 3 moves", "before move 5, j8, Black has no win by threats within 3 moves",
            "before move 6, a5, White has no win by threats within 3 moves", "before move 7, k8, Black has a win in 2 moves by fours",
            "before move 8, a7, White has no win by threats within 3 moves", "before move 9, l8, Black has a win in 1 move by fours",
            "Black won from move 7 on, with a win in 2 moves by fours", "White held last after move 4, and no more after its move 6, a5",
            "the referee says won black 9",
        ]
        expect("games.py: a game", said_of("g.txt", game), (0, "".join(f"g.txt: {line}\n" for line in lines), ""))
        story = lambda name, text: [line for line in said_of(name, text)[1].splitlines() if "before move" not in line]
        missed = "rule exact\nh8 a1 i8 a3 j8 a5 a7 a2 b9 a4\n"
        expect("games.py: a win that is missed, and none that is won", story("m.txt", missed), [
            "m.txt: White won from move 10 on, with a win in 1 move by fours", "m.txt: Black held last after move 7, and no more after its move 9, b9",
            "m.txt: Black missed a win in 2 moves by fours at move 7, with a7", "m.txt: the referee says won white 10",
        ])
        expect("games.py: a game that is open", story("o.txt", "h8 i9\n"), ["o.txt: the referee says open 2"])
        log = f"rule renju\nsize 15\ngame 1: {ROW_OF_FIVE}: black wins after 9 moves\ngame 2: {ROW_OF_SIX}: white wins after 11 moves\n"
        expect("games.py: a log", [line for line in story("l", log) if "referee" in line], ["l game 1: the referee says won black 9", "l game 2: the referee says foul overline 11"])
        listed = (Path(folder, "all").write_text(f"5 {ROW_OF_FIVE}\nh8 i9\n"), run("games.py", [*ASKED, "--list", "--short", "--rule", "exact", "all"], cwd=folder))[1]
        first = [line for line in lines if not line.startswith("before")]
        wanted = "".join(f"all game {number}: {line}\n" for number, told in ((1, first), (2, ["the referee says open 2"])) for line in told)
        expect("games.py: a game a line, in short", listed, (0, wanted, ""))
        status, output, errors = run("games.py", [*ASKED, "no", "g.txt"], cwd=folder)
        expect("games.py: a file that isn't there, and one after it", (status, output.splitlines()[-1], errors), (1, "g.txt: the referee says won black 9", "games.py: no: no cannot be read: No such file or directory\n"))
        Path(folder, "zz").write_text("zz")
        expect("games.py: no game", run("games.py", [f"{folder}/zz"])[2], re.compile(r"games.py: .*'zz', which is no point.*\n"))
        expect("games.py: a page", run("games.py", [*ASKED, "--page", "p", "g.txt", "o.txt"], cwd=folder)[0], 0)
        page = Path(folder, "p", "README.md").read_text()
        expect("games.py: the page", [line for line in page.splitlines() if line.startswith(("#", "<img", "- "))], [
            "# Games, and where a win was there", "## `g.txt`: Black wins at move 9",
            '<img src="g.svg" width="480" alt="The board of g.txt, with the moves from 7 on as stones numbered from 1">', "- " + lines[6] + ".", "- " + lines[7] + ".",
            "## `o.txt`: `open 2`", "- No win was found in its last moves.",
        ])
        table = "| Game | Its end | A win by threats from move | A win was missed |\n|---|---|---|---|\n| `g.txt` | `won black 9` | 7 |  |\n| `o.txt` | `open 2` |  |  |\n"
        expect("games.py: the games of a page", table in page, True)
        expect("games.py: its picture", Path(folder, "p", "g.svg").read_text().startswith("<svg"), True)
        expect("games.py: the page again", run("games.py", [*ASKED, "--page", "p", "o.txt"], cwd=folder)[0], 0)
        Path(folder, "p", "g.svg").write_text("<svg>mine</svg>\n")
        status, output, errors = run("games.py", [*ASKED, "--page", "p", "g.txt", "o.txt"], cwd=folder)
        wanted = (1, "games.py: g.txt: p/g.svg is there already, and is not written over: it is no picture of this game: name another folder\n")
        expect("games.py: a picture of the user's", (status, errors), wanted)
        expect("games.py: that picture is as it was", Path(folder, "p", "g.svg").read_text(), "<svg>mine</svg>\n")
        Path(folder, "own").mkdir(), Path(folder, "own", "README.md").write_text("mine\n")
        fails("games.py: a folder of another page", "games.py", [*ASKED, "--page", f"{folder}/own", f"{folder}/o.txt"], "", "own/README.md is there already, and is not written over: it is no page of games: name another folder")
        expect("games.py: that page is as it was", Path(folder, "own", "README.md").read_text(), "mine\n")
    for words, said in ((["--depth", "61", "g"], "the numbers of --depth are 1 to 60, and not 61"), (["--last", "-3", "g"], "-3 is no number of the numbers of --last"), ([], "name games, or say --check or --write")):
        expect(f"games.py: {words}", run("games.py", words)[::2], (1, f"games.py: {said}" + {"-3": ": it is decimal, without a sign or leading zeros", "61": ""}.get(words[1] if words else "", " for those of this repository") + "\n"))


if __name__ == "__main__":
    sys.exit(tried(games, brains_of_others, bsd_gomoku, judgements, commented))
