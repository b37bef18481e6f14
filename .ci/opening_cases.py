"""The cases of examples/openings.py, which .ci/composers.py runs."""
import os
import re
import signal
import subprocess
import tempfile
from pathlib import Path

# It names the program that is tried, and so comes before what asks it.
from trying import EXAMPLES, PROGRAM, SECONDS, TABLE, TEXT, asked, expect, fails, path_with, run

from cases import CORNERS, FOUR_AND_REPLY, FOUR_OF_BLACK, ONE_LEFT, TWO_LEFT, position

# Black's quiet move 2,3 (c6) makes neither a four nor a three, and wins.
QUIET = (EXAMPLES / "openings" / "quiet-move.txt").read_text()
# White's 4,4 makes a four with two ends, on a board that has the same right as left.
EVEN = position("freestyle", 8, "0,0 7,0 0,7 7,7", "2,4 3,4 5,4")
# White's 5,9 makes such a four too, and of Black's 111 points 6,2 alone, between two pairs, is a double-three.
FOULING = position("renju", 11, "6,1 5,2 7,2 6,3 10,10", "0,0 2,9 3,9 4,9")
WON = position("freestyle", 15, "4,7 5,7 6,7 7,7", CORNERS)
FOUL = position("renju", 15, "7,6 6,7 8,7 7,8", CORNERS)
LONE = position("freestyle", 15, "7,7", "0,0")
# How many faults are mended in a table.
FAULTS = 32
# Programs that neither search nor check, don't search, search only with more than twelve stones of Black, tell the memory that they have,
# and don't end.
PROGRAMS = {
    "idle": f"case $1 in quiet | check) exit 1 ;; esac\nexec '{PROGRAM}' \"$@\"",
    "spent": f"[ $1 != quiet ] || {{ echo spent; exit 5; }}\nexec '{PROGRAM}' \"$@\"",
    "late": f"cat >text\n[ $1 != quiet ] || [ $(grep black text | wc -w) -gt 13 ] || {{ echo spent; exit 5; }}\nexec '{PROGRAM}' \"$@\" <text",
    "limited": f"[ $1 = cover ] || ulimit -v >>limits\nexec '{PROGRAM}' \"$@\"",
    "stuck": f"[ $1 != quiet ] || exec sleep 60\nexec '{PROGRAM}' \"$@\"",
}


def openings():
    """An opening is taken apart, also by command lines and after an interrupt, and joined or covered in the end."""
    with path_with(**PROGRAMS) as (_, folder):
        by = lambda name: {**os.environ, "RENJU": f"{folder}/{name}"}
        ask = lambda *words, text="", **more: run("openings.py", words, text, cwd=folder, **more)
        held = lambda *kinds: {path.stem: path for kind in kinds for path in Path(folder, kind).glob("*.txt")}
        begun = "after 2,3 (c6) there are 58 replies to ask, and {} are left\n".format
        status, told, errors = ask("--jobs", "2", "o", "2,3", "-", text=QUIET)
        tables = held("o/tables", "o/served")
        moves = 1 + max(int(re.search(r"^moves (\d+)$", path.read_text(), re.M).group(1)) for path in tables.values())
        covered = f"covered in {moves} moves, 58 replies by 58 tables\n"
        head = re.fullmatch(r"o/table\.txt: moves (\d+), nodes \d+\n", told)
        expect("openings.py: an opening", (status, errors, head and head.group(1)), (0, begun(58), str(moves)))
        table = Path(folder, "o/table.txt").read_text()
        expect("openings.py: its table", asked(["check", "1000000"], table), re.compile(f"accepted in {moves} moves, \\d+ arrivals\n"))
        expect("openings.py: its position and attack", (table.splitlines()[1:5], table.splitlines()[-1][:4]), (QUIET.splitlines()[1:], "2,3 "))
        expect("openings.py: a table for each reply", (len(tables), sorted(tables)), (58, sorted(held("o/replies"))))
        for reply, path in tables.items():
            told = asked(["check", "1000000"], path.read_text())
            expect(f"openings.py: the table of {reply}", told.startswith("accepted in "), True)
            expect(f"openings.py: its position", path.read_text().splitlines()[1:5], held("o/replies")[reply].read_text().splitlines()[1:])
        # What is known isn't asked again, and a table that is lost is.
        expect("openings.py: a run that goes on", ask("--cover", "o", env=by("idle")), (0, covered, begun(0)))
        lost = sorted(held("o/tables"))[0]
        held("o/tables")[lost].unlink()
        expect("openings.py: a table that is lost", ask("--cover", "o"), (0, covered, begun(1)))
        wrong = sorted(tables.values())[0]
        wrong.write_text(re.sub(r"\nmoves .*", "\nmoves 1\nnodes 1\n0,0 wins\n", wrong.read_text(), flags=re.S))
        for words in (["o"], ["--cover", "o"]):
            told = ask(*words)[:2]
            expect(f"openings.py: a table that isn't accepted, {words}", told, (4, f"o/{wrong.parent.name}/{wrong.name} refused not-won 0,0\n"))
        liked(ask, held, by, table)
        opened(ask, held, by, covered, begun)
        evened(ask, held, by, Path(folder))


def evened(ask, held, by, folder):
    """An opening whose sides are alike, one that another answers in part, one with fouls, and one whose runs have a bound."""
    told = ask("--cover", "e", "e4", "-", text=EVEN)[:2]
    expect("openings.py: two sides that are alike", told, (0, "covered in 2 moves, 56 replies by 28 tables\n"))
    # Any of the two fives or both may be left to the rest.
    expect("openings.py: they are joined", ask("e")[1], re.compile(r"e/table\.txt: moves 2, nodes 3\n"))
    expect("openings.py: their table", asked(["check", "57"], (folder / "e/table.txt").read_text()), "accepted in 2 moves, 57 arrivals\n")
    # With Black's stone on 4,1 and none in the corner 0,0, what White answers there is what it answers to 3,1 here, right being left.
    beside = EVEN.replace("0,0 7,0", "7,0 4,1")
    told = ask("k", "4,4", "-", text=beside)[:2], ask("--known", "k/table.txt", "known", "4,4", "-", text=EVEN, env=by("spent"))[0]
    expect("openings.py: another opening", (told[0][0], told[1], "\n3,1 " in (folder / "known/tried.txt").read_text()), (0, 0, False))
    first = [path.read_text().splitlines()[:5] for path in (held("known/tables")["3,1"], held("known/replies")["3,1"])]
    expect("openings.py: what it answers", first[0][1:], first[1][1:])
    told = ask("--cover", "f", "5,9", "-", text=FOULING)[:2]
    expect("openings.py: fouls are no replies", told, (0, "covered in 2 moves, 110 replies by 110 tables\n"))
    ask("--cover", "--jobs", "1", "--memory", "100", "m", "4,4", "-", text=EVEN, env=by("limited"))
    limits = (folder / "limits").read_text().split()
    expect("openings.py: the memory of a run", (limits[0], {*limits[1:]}), ("unlimited", {"102400"}))


def liked(ask, held, by, table):
    """The parts of a like opening's table are tried at replies and mended, and else their first moves are tried."""
    folder = held("o/replies")["5,0"].parents[2]
    tried = lambda name: Path(folder, name, "tried.txt").read_text()
    # White's 7,2 stands in the corner 8,8 instead, and no reply there or at 7,2 is won by a table of its own.
    corner = QUIET.replace("7,2 5,3", "5,3").replace("5,7\n", "5,7 8,8\n")
    Path(folder, "like.txt").write_text(table)
    status, told, _ = ask("--jobs", "1", "--like", "like.txt", "corner", "2,3", "-", text=corner, env=by("spent"))
    expect("openings.py: a like opening", (status, told.partition(":")[0]), (0, "corner/table.txt"))
    accepted = asked(["check", "1000000"], Path(folder, "corner/table.txt").read_text())
    expect("openings.py: its table from a like one", accepted, re.compile(r"accepted in \d+ moves, .*\n"))
    expect("openings.py: the part of its stone's point", "7,2 like-1-8,8-40-0-0 0 " in tried("corner"), True)
    expect("openings.py: nothing is searched", "quiet" in tried("corner"), False)
    # White's 5,0 is answered by 3,4, and no reply to that is answered by another move than 3,3.
    from boards import Node, read

    like = read(table.encode())
    place = like.root().answer((5, 0))
    node = like.nodes[place]
    like.nodes[place] = Node(node.attack, False, node.rest, [])
    Path(folder, "bare.txt").write_text(like.text())
    words = ["--jobs", "1", "--deeper", "1", "--most", "20000", "--like", "bare.txt"]
    status, _, errors = ask(*words, "bare", "2,3", "-", text=QUIET, env=by("late"))
    is_told = "5,0 (f9) is taken apart by 1 attacks at most\n" in errors
    expect("openings.py: a part that is mended", (status, "5,0 like-1-5,0-40-20000-32 0 " in tried("bare"), is_told), (0, True, False))
    # Black's 8,0 wins nowhere, and where nothing is found no attack is gone on with.
    like.nodes[place] = Node((8, 0), False, node.rest, [])
    Path(folder, "bad.txt").write_text(like.text())
    status, _, errors = ask(*words[:-1], "bad.txt", "bad", "2,3", "-", text=QUIET, env=by("spent"))
    is_told, is_lost = "5,0 (f9) is taken apart by 1 attacks at most\n" in errors, "5,0 attacks-40-20000-1 4 " in tried("bad")
    expect("openings.py: a first move that is none", (status, is_told, is_lost), (5, True, True))
    unliked(ask, folder)


def unliked(ask, folder):
    """Tables that are none of a like opening, and none of another."""
    Path(folder, "start.txt").write_text(FOUR_AND_REPLY)
    Path(folder, "two.txt").write_text(TABLE)
    for name, words, said in [
        ("a start", ["start.txt"], "start.txt is no table in which the side to move wins"),
        ("a position", ["o/position.txt"], "o/position.txt is no table in which the side to move wins"),
        ("another first move", ["two.txt", "o"], "the first move of two.txt is not 2,3 (c6), or it wins at once"),
    ]:
        status, told, errors = ask("--like", *words, *([] if words[1:] else ["q", "2,3", "-"]), text=QUIET)
        expect(f"openings.py: {name} as a like table", (status, told, errors), (1, "", f"openings.py: {said}\n"))
    for name in ["two.txt", "start.txt", "o/position.txt"]:
        said = f"openings.py: the first move of {name} is not 2,3 (c6), or it wins at once\n"
        expect(f"openings.py: {name} as a known table", ask("--known", name, "o"), (1, "", said))
    expect("openings.py: a known table that is missing", ask("--known", "none.txt", "o")[0], 1)


def mended():
    """Faults of a table are mended by wins, for all that come to the same nodes, and else for the line of the fault alone."""
    from boards import Node, answered, read
    from mending import EACH, tries

    position, table = read(QUIET.encode()), read(asked(["quiet", "12", "100000"], QUIET).encode())
    check = lambda text: answered(["check", 1_000_000], text)
    search = lambda text, nodes: None if text == QUIET else asked(["quiet", "12", str(nodes)], text)
    for place, node in enumerate(table.nodes):
        # Black has no second stone on 3,2, and of the first position no win is found anew.
        spoilt = [*table.nodes[:place], Node((3, 2), node.wins, node.rest, node.replies), *table.nodes[place + 1 :]]
        found = mend(position, spoilt, check, search)
        expect(f"mending.py: a fault at node {place}", found and found.root().attack, None if node is table.root() else (2, 3))
    mended_lines(position, table)
    limits, plain = (1, 2, 3), [(2, 1), (3, 1), (4, 1), (1, 1), (4, 2), (3, 2), (2, 2), (2, 3), (3, 3)]
    told = [tries(4, limits, it) for it in (0, 1, EACH // 2, EACH, EACH + 1)]
    expect("mending.py: dear searches", told, [plain, plain, [(2, 2), (3, 2), *plain], [(2, 3), (3, 3), *plain], plain])


def mend(position, nodes, check, search):
    """What comes of the nodes of a table once its faults are mended, if it can be."""
    from boards import read
    from mending import Mending

    mending = Mending()
    text = mending.mended(position, mending.add(nodes), check, search, 3 * (100_000,), FAULTS)
    return text and read(text.encode())


def mended_lines(position, table):
    """With which moves lines are answered once they were refused."""
    from boards import numbers, spelled
    from mending import OFTEN

    # After 2,3 White's 5,0, 4,1 and 0,5 are answered by one node with 3,4, and that lists 3,3. What is found at the end of a line is a point.
    empties, head = position.empties(), QUIET.replace("position", "table", 1)

    def moves(lines, *games, found=lambda point: f"moves 1\nnodes 1\n{point} wins\n"):
        """With which moves a table answers the replies of some games, once lines were refused."""
        left, points, stones = iter(lines), iter(empties), len(QUIET.split()) + len(lines[0].split())
        check = lambda text: next(((f"refused no-answer {line}\n", 4) for line in left), ("", 0))
        search = lambda text, nodes: head + found(spelled(next(points))) if len(text.split()) == stones else None
        found = mend(position, table.nodes, check, search)
        answer = lambda node, replies: answer(found.nodes[node.answer(replies[0])], replies[1:]) if replies else node.attack
        return found and [empties.index(answer(found.root(), [*map(numbers, game.split())])) for game in games]

    told = moves(["2,3 5,0 3,4 3,3", "2,3 4,1 3,4 3,3"], "5,0 3,3", "4,1 3,3", "0,5 3,3")
    expect("mending.py: a node that two lines come to", told, [0, 1, 0])
    # 8,7 is answered as what else isn't listed, by 4,1 with a move more.
    told = moves(["2,3 8,7", "2,3 8,8"], "8,7", "8,8", "8,6", "5,0")
    expect("mending.py: a shorter answer to the rest", told, [0, 1, 0, empties.index((3, 4))])
    # A longer answer with one attack is that to the rest once it was wanted often.
    long = lambda point: "moves 9\nnodes 9\n1,1 wins\n" + "".join(f"1,1 rest {it}\n" for it in range(8))
    wanted = [f"2,3 {it},8" for it in range(OFTEN)]
    told = [moves(wanted[:it], "8,7", found=long) for it in (OFTEN - 1, OFTEN)]
    expect("mending.py: an answer that is wanted often", told, [[empties.index((4, 1))], [empties.index((1, 1))]])
    expect("mending.py: many faults", moves((FAULTS + 1) * ["2,3 5,0 3,4 3,3"]), None)


def joined(position, attack, texts):
    """What `join` says of the texts of tables after an attack."""
    with tempfile.TemporaryDirectory() as folder:
        files = [f"{folder}/{number}" for number, _ in enumerate(texts)]
        for path, text in zip(files, texts):
            Path(path).write_text(text)
        return asked(["join", ",".join(map(str, attack)), *files], position.text())


def fouled():
    """A reply that is a foul needs no answer."""
    from attacking import Attacking
    from boards import answered, read

    # White's 6,7 makes a four, whose five point 7,7 is a double-three for Black.
    start = read(position("renju", 15, "9,5 8,6 2,7 7,8 7,9", "3,7 4,7 5,7 14,14").encode())
    search = lambda text, nodes: None if text == start.text() else asked(["quiet", "2", str(nodes)], text)
    found = Attacking(search, None, joined, 100).table(start, [(6, 7)], 1)
    told = found and (read(found.encode()).root().attack, *answered(["check", "1000"], found))
    # An arrival at the root, and one after each of the 214 replies that are no foul.
    expect("attacking.py: a four whose block is a foul", told, ((6, 7), "accepted in 2 moves, 215 arrivals\n", 0))


def attack(start, hints, attacks, is_lost, join=joined):
    """How many attacks were tried, and the first move of what was found, where no search or table wins at some positions."""
    from attacking import Attacking
    from boards import answered, read

    def search(text, nodes):
        told, status = answered(["quiet", "12", nodes], text)
        return told if status == 0 and not is_lost(text) else None

    head = lambda text: "".join(["renju-position 1\n", *text.splitlines(keepends=True)[1:5]])
    check = lambda text: not is_lost(head(text)) and answered(["check", 1_000_000], text)[1] == 0
    found = Attacking(search, check, join, 1_000)
    table = found.table(start, hints, attacks)
    return found.tried, table and answered(["check", 1_000_000], table)[1] == 0 and read(table.encode()).root().attack


def attacked():
    """Where no search wins an attack does, and after a reply that it leaves another one."""
    import attacking
    from attacking import ATTACKS, Attacking, candidates, replies_near
    from boards import read

    start, sizes, is_start = read(QUIET.encode()), [], lambda text: text == QUIET
    # White has four of a row, and Black's 2,3 is their five point.
    expect("attacking.py: an attack", attack(start, [(8, 8)], 1, is_start), (1, (2, 3)))
    expect("attacking.py: no attack", attack(start, [], 0, is_start), (0, None))
    # An attack that wins nothing once the other side has passed isn't gone on with.
    lone, texts = read(LONE.encode()), []
    nothing = Attacking(lambda text, nodes: texts.append(text), None, joined, 1_000)
    told = nothing.table(lone, [], 2 * ATTACKS), nothing.tried, len({*texts})
    expect("attacking.py: passes that aren't won", told, (None, *2 * [len(candidates(lone, []))]))
    # White's 5,0 is left, and is taken apart once its searches were in vain.
    left = start.after((2, 3)).after((5, 0)).text()
    tried, found = attack(start, [], 3 * ATTACKS, lambda text: text in (QUIET, left))
    expect("attacking.py: a reply that is left", (1 < tried, found), (True, (2, 3)))

    def first(position, attack, texts):
        """As `join`, but 8,8 is told to have no answer where it is asked for the first time."""
        sizes.append(len(texts))
        return joined(position, attack, texts) if sizes[1:] else "no answer 8,8\n"

    attacking.replies_near = lambda *words: [it for it in replies_near(*words) if it != (8, 8)]
    expect("attacking.py: a reply without an answer", (*attack(start, [], 1, is_start, first), sizes[-1] - sizes[0]), (1, (2, 3), 1))
    attacking.replies_near = replies_near
    expect("attacking.py: no room", attack(start, [], 1, is_start, lambda *words: "table full\n"), (1, None))


def numbered():
    """The proof numbers of a position, and the attacks that are tried there."""
    from attacking import HOPELESS, SEARCHES, Attack, Turn, candidates
    from boards import read

    start = read(QUIET.encode())
    after = lambda reply: Turn(start.after((2, 3)).after(reply))
    turn = Turn(start)
    numbers = [turn.number()]
    for turn.searches in range(1, len(SEARCHES) + 1):
        numbers.append(turn.number())
    for turn.untried in ([(2, 3)], []):
        numbers.append(turn.number())
    turn.attacks.append(Attack(turn, (2, 3)))
    turn.attacks[0].left = {reply: after(reply) for reply in [(5, 0), (0, 5)]}
    numbers.append(turn.number())
    turn.table = QUIET
    most = SEARCHES[-1][1]
    expect("attacking.py: proof numbers", [*numbers, turn.number()], [1, *(it for _, it in SEARCHES), most, HOPELESS, 2, 0])
    # White's four in a row has one end, or two.
    row = "renju-position 1\nrule freestyle\nsize 15\nblack {}\nwhite 4,7 5,7 6,7 7,7\n".format
    expect("attacking.py: a five point", candidates(read(row("0,0 2,0 4,0 3,7").encode()), [(9, 9)]), [(8, 7)])
    expect("attacking.py: two of them", candidates(read(row("0,0 2,0 4,0 6,0").encode()), []), [])
    expect("attacking.py: a foul", (7, 7) in candidates(read(FOUL.encode()), [(7, 7)]), False)
    expect("attacking.py: a hint", candidates(read(LONE.encode()), [(14, 14)])[0], (14, 14))


def parts():
    """The part of a table after replies."""
    # After 4,7 Black has four in a row: White's 3,7 is answered by 8,7, and any other reply by 3,7.
    head = "renju-table 1\nrule freestyle\nsize 15\nblack 4,7 5,7 6,7 7,7\nwhite {}\nmoves 1\nnodes 1\n{} wins\n".format
    expect("parts.py: a listed reply", run("parts.py", ["-", "3,7"], TABLE), (0, head("0,0 2,0 4,0 3,7", "8,7"), ""))
    expect("parts.py: another reply", run("parts.py", ["-", "a1"], TABLE), (0, head("0,0 2,0 4,0 0,14", "3,7"), ""))
    fails("parts.py: a win", "parts.py", ["-", "0,14", "1,14"], TABLE, r"with 1,14 \(b1\) the game is over")
    fails("parts.py: a position", "parts.py", ["-", "3,7"], TEXT, "the text is a position, and no table")
    fails("parts.py: a stone", "parts.py", ["-", "4,7"], TABLE, r"a stone stands on 4,7 \(e8\) already")


def opened(ask, held, by, covered, begun):
    """Replies that are left with few nodes are asked with more, by command lines and by a run after an interrupt."""
    status, told, _ = ask("--depth", "3", "--nodes", "1", "--most", "4", "few", "2,3", "-", text=QUIET)
    left = sorted({*held("few/replies")} - {*held("few/tables", "few/served")})
    said = status, told.partition(":")[0], sorted(re.findall(r"\d+,\d+", told))
    expect("openings.py: replies that are left", said, (5, f"{len(left)} of 58 replies are left with 4", left))
    spent = [asked(["quiet", "3", "4"], held("few/replies")[it].read_text()) for it in left]
    expect("openings.py: what was asked of them", (len(left) > 1, {*spent}), (True, {"spent\n"}))
    lines = ask("--lines", "--depth", "12", "few")[1].splitlines() + ask("--lines", "--depth", "3", "--nodes", "2", "few")[1].splitlines()[:1]
    folder = held("few/replies")[left[0]].parent
    subprocess.run(["sh", "-c", "\n".join(lines)], cwd=folder.parents[1], timeout=SECONDS)
    # The first attack of a table falls on a stone, and one line didn't come to its end.
    spoilt, empty = folder / f"{left[0]}.12.200000.answer", folder / f"{left[1]}.1.1.answer"
    spoilt.write_text(re.sub(r"\n\d+,\d+( .*\n)$", r"\n2,3\1", spoilt.read_text()))
    empty.write_text("")
    status, told, errors = ask("--cover", "few")
    is_told = f"few/replies/{spoilt.name} is left there: renju check says refused attack-refused 2,3\n" in errors
    expect("openings.py: what command lines wrote", (len(lines), status, told, is_told), (len(left) + 1, 0, covered, True))
    expect("openings.py: what is left of it", sorted(folder.glob("*.answer")), sorted([spoilt, empty]))
    expect("openings.py: what was spent", f"{left[0]} quiet-3-2 5 0.0\n" in Path(folder.parent, "tried.txt").read_text(), True)
    status, told, errors = ask("--jobs", "1", "--deeper", "5", "--nodes", "1", "--most", "1", "deep", "2,3", "-", text=QUIET)
    # White's 7,3 makes a four of its column that 7,4 blocks, and the other way round.
    fours = [f"{it} is taken apart by 5 attacks at most" for it in ("7,3 (h6)", "7,4 (h5)")]
    table = Path(folder.parents[1], "deep", "table.txt").read_text()
    expect("openings.py: replies that are taken apart", (status, errors.splitlines()[1:3]), (0, fours))
    expect("openings.py: their table", asked(["check", "1000000"], table), re.compile(r"accepted in \d+ moves, .*\n"))
    words = [EXAMPLES / "openings.py", "i", "2,3", "few/position.txt"]
    stuck = subprocess.Popen(words, cwd=folder.parents[1], env=by("stuck"), stdout=subprocess.PIPE, stderr=subprocess.PIPE)
    expect("openings.py: a run that doesn't end", stuck.stderr.readline().decode(), begun(58))
    stuck.send_signal(signal.SIGINT)
    stuck.communicate(timeout=SECONDS)
    expect("openings.py: an interrupt", (stuck.returncode, ask("--cover", "i")[:2]), (130, (0, covered)))


def unopened():
    """What is no opening, and folders that are of something else."""
    fails("openings.py: no folder", "openings.py", ["/no/folder"], "", "/no/folder is no folder of this script; X,Y and FILE begin one")
    with tempfile.TemporaryDirectory() as folder:
        Path(folder, "mine").mkdir()
        Path(folder, "mine", "opening.txt").write_text("mine\n")
        run("openings.py", ["--lines", "o", "4,4", "-"], EVEN, cwd=folder)
        for name, words, text, said in [
            ("a folder of the user's", ["mine", "4,4", "-"], EVEN, "mine is there already, and is no folder of this script; name another"),
            ("another attack", ["o", "1,4", "-"], EVEN, "o is of another opening; name another folder"),
            ("another position", ["o", "4,4", "-"], QUIET, "o is of another opening; name another folder"),
            ("two points", ["p", "4,4 5,5", "-"], EVEN, "X,Y is one point, as 7,7 or h8"),
            ("a stone", ["p", "3,4", "-"], EVEN, r"a stone stands on 3,4 \(d4\) already"),
            ("a foul", ["p", "7,7", "-"], FOUL, r"7,7 \(h8\) is a double-three, and leaves nothing to take apart"),
            ("a win", ["p", "8,7", "-"], WON, r"8,7 \(i8\) wins at once, and leaves nothing to take apart"),
            ("a reply that wins", ["p", "4,4", "-"], position(*FOUR_OF_BLACK), r"4,4 \(e1\) lets 4,0 \(e5\) win, and leaves nothing to take apart"),
            ("the last point", ["p", "4,4", "-"], position(*ONE_LEFT), r"4,4 \(e1\) fills the board, and leaves nothing to take apart"),
            ("the last reply", ["p", "3,4", "-"], position(*TWO_LEFT), r"3,4 \(d1\) lets the board be filled, and leaves nothing to take apart"),
        ]:
            status, output, errors = run("openings.py", words, text, cwd=folder)
            expect(f"openings.py: {name}", f"{status} {output}{errors}", re.compile(rf"1 openings.py: {said}\n"))
        expect("openings.py: what was there", (sorted(os.listdir(folder)), os.listdir(f"{folder}/mine")), (["mine", "o"], ["opening.txt"]))


GROUPS = (openings, unopened, parts, mended, fouled, attacked, numbered)
