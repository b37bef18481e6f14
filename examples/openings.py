#!/usr/bin/env python3
"""Takes an opening apart: of a position and an attack it looks for a win after each reply, with all processors, keeps what is found in
a folder, and has `renju join` make one table of them in the end, FOLDER/table.txt.

    openings.py [--depth D] [--nodes N] [--most M] [--deeper A] [--like FILE] [--known FILE] [--jobs J] [--memory MB] [--cover]
                FOLDER [X,Y FILE]
    openings.py --lines [--depth D] [--nodes N] FOLDER [X,Y FILE]

A folder begins with X,Y, the attack, and FILE, or - for standard input, a text that examples/position.py takes, or a table, whose
position is meant. All that is known stands in its files, so that an interrupted run goes on where it was, with the folder alone:
replies/X,Y.txt is the position after the reply X,Y, tables/X,Y.txt or served/X,Y.txt the table of it, and each line of tried.txt has a
reply, what was tried there, the status and the seconds. Options are given again; what was mended and isn't accepted yet begins anew.

Replies far from all stones come first. At each reply the tables found so far are tried: the nodes of one, under the position of the
reply, are given to `renju check`, which costs less than a search, and where they are accepted the text is kept in FOLDER/served. Else
`renju quiet D NODES` is asked, and its table is kept in FOLDER/tables. NODES begins with N, and the replies that are left are asked
again with ten times as many each time, up to M. Of replies that a symmetry of the board exchanges the first is asked. A run may take
MB of memory, or all runs at once half of the machine's, and where it runs out the reply is left.

Each --like FILE is a table of a like position, whose first move is the attack too: one with a stone elsewhere, which was won before.
It is kept in FOLDER/like, and what the first that answers a reply has there, its part, is tried before other tables. Where `renju check`
refuses a part it tells a line of moves that leads to the fault: `renju quiet` is asked with a tenth of N at the positions of that line, and
a win takes the place of what the part has there, until the part is accepted, or a line has no position that is won so. At the replies that
are left then it is mended with more faults, and with ten times as many nodes from the end of the line on, and fifty times as many at its
beginning, which comes first where faults are many. In the end so are the other parts: those of more like tables, what a table answers to
the point that stands to its stone as the reply does to the stone here, and at a reply beside its stone what it answers to the stone here.

Each --known FILE is a table of another position with the same first move. Where a reply leads to what comes about there after a reply,
as it stands or by a symmetry, what it answers is tried before all others.

With --deeper A a reply that is left is taken apart by attacks, as examples/attacking.py tells: by a tenth of A at most once its part was
mended, by A once it was mended with more, and then the replies are asked with more than N nodes. What an interrupt ends of that begins
anew, from its first attack.

--lines prints a command line of the shell for each reply that is left, for GNU parallel. What such a line writes stands beside the
position in FOLDER/replies, and when the script goes on its table is taken in, if `renju check` accepts it.

Where one table has no room for all, or with --cover, `renju cover` is asked in place of `join` whether the tables win together.

Standard error tells how far it is. The script itself never says that an opening is won: it prints the moves and the nodes of the table
that `join` wrote, or else the answer of `join` or `cover`, with the path of a file for its number; or which replies are left. The
status is that of `join` or `cover`, or 5 where replies are left.
"""
import argparse
import os
import re
import shlex
import signal
import sys
import threading
import time
from collections import Counter
from concurrent.futures import ThreadPoolExecutor, wait
from pathlib import Path
from tempfile import TemporaryDirectory

sys.dont_write_bytecode = True

from attacking import Attacking, apart, end_of, first_move, under
from boards import ENDING, PROGRAM, Table, Wrong, answered, asked, bytes_of, end_runs, numbers, read, read_file, saying, spelled, tell
from mending import Mending
from outputs import replace
from parts import after as part_after
from position import EXCHANGING, IMAGES, image, points, rule_of, size_of, understood
from solutions import all_of, both
from solving import DEPTHS, NODES, SECONDS_OF_SILENCE, Clock, add_jobs, ranged

HEAD = re.compile(r"renju-opening 1\nattack (\d+,\d+)\n")
# The most files that `renju join` and `cover` take, and the most arrivals that `check` and `cover` take.
MOST_FILES, MOST_ARRIVALS = 1_000, 1_000_000_000_000
# How many tables that have served are tried at a reply each time, and how many others, and with how many arrivals.
TRIES, OTHERS, FEW_ARRIVALS = 8, 3, 10_000_000_000
TIMES = 10
# How parts of like tables are mended: how many faults of each, and with how many times the least nodes. The first part at a reply is tried
# as it stands, then mended quickly, and in the end with more; and then the others.
AS_IT_STANDS, QUICKLY, THOROUGHLY, OTHERS_MENDED = (0, (0, 0, 0)), (32, (1, 1, 1)), (256, (1, 10, 50)), (32, (1, 10, 50))
# With how many arrivals a part that is mended is checked, and a table of another reply to an attack.
MENDED_ARRIVALS = 3_000_000_000
# The statuses of `quiet`, and of `check` of another's nodes, after which a script goes on, and that of `join` where a reply is open.
DONE, UNREAD, REFUSED, SPENT, MEMORY, FULL, OPEN = 0, 3, 4, 5, 6, 12, 9
ANSWER = re.compile(r"(\d+,\d+)\.(\d+)\.(\d+)\.answer")


def replies_to(after):
    """The replies that go on, far ones first, of those that a symmetry of the position exchanges the first one in reading order; and
    each other one by that first one and the symmetry that takes it there.
    """
    fits = [it for it in IMAGES if after.width == after.height or it not in EXCHANGING]
    same = [it for it in fits if image(after, it).text() == after.text()]
    moved = lambda point, name: IMAGES[name](*point, after.width - 1, after.height - 1)
    stones, fouls, images, found = after.stones(), after.fouls(), {}, []
    for point in after.empties():
        if point not in fouls and point not in images:
            found.append(point)
            images.update({moved(point, name): (point, name) for name in same if moved(point, name) != point})
    return sorted(found, key=lambda point: -min(apart(point, stone) for stone in stones)), images


def meant(reply, here, there):
    """The replies of a like position that answer to one here: the same point, that which stands to a stone there as the reply does to the
    stone here, and for a point beside a stone that stands elsewhere here the point where it stands.
    """
    elsewhere = [it for it in there.stones() if it not in here.stones()]
    moved = [it for it in getattr(here, here.side()) if it not in there.stones()]
    shifted = [(reply[0] + p[0] - q[0], reply[1] + p[1] - q[1]) for p in elsewhere for q in moved]
    beside = [it for it in moved if any(apart(reply, stone) <= 1 for stone in elsewhere)]
    return [it for it in dict.fromkeys([reply, *shifted, *beside]) if there.has(it) and it not in there.stones()]


class Opening:
    """A folder: a position and an attack, the replies, the tables found or served at them, and what was tried."""

    def __init__(self, folder):
        self.folder, self.lock = Path(folder), threading.Lock()
        self.attack = numbers(HEAD.fullmatch((self.folder / "opening.txt").read_text()).group(1))
        self.position = read_file(self.folder / "position.txt")
        self.after = self.position.after(self.attack)
        self.replies, self.images = replies_to(self.after)
        for kind in ("replies", "tables", "served"):
            (self.folder / kind).mkdir(exist_ok=True)
        for reply in self.replies:
            if not self.path("replies", reply).exists():
                replace(self.path("replies", reply), self.after.after(reply).text())
        self.found, self.served = ({it for it in self.replies if self.path(kind, it).exists()} for kind in ("tables", "served"))
        self.log = self.folder / "tried.txt"
        self.tried, self.uses, self.answers = {}, Counter(), {}
        # Of each like table, by its number, the position and the root, which is a node of those that are mended.
        self.like, self.mending = {}, Mending()
        self.begin()

    def begin(self):
        """Reads what was tried, without a line that an interrupt left without its end, and which answers stand beside the replies."""
        text = self.log.read_text() if self.log.exists() else ""
        whole = text[: text.rfind("\n") + 1]
        replace(self.log, whole)
        for line in whole.splitlines():
            self.note(*line.split()[:3])
        for path in sorted((self.folder / "replies").glob("*.answer")):
            found = ANSWER.fullmatch(path.name)
            if found:
                self.answers.setdefault(numbers(found.group(1)), []).append((path, f"quiet-{found.group(2)}-{found.group(3)}"))
        for path in sorted((self.folder / "like").glob("*.txt"), key=lambda path: int(path.stem)):
            table = read_file(path)
            self.like[int(path.stem)] = table.position, self.mending.add(table.nodes)

    def add_like(self, tables):
        """Keeps like tables, those that it hasn't."""
        texts = [path.read_text() for path in (self.folder / "like").glob("*.txt")]
        for table in tables:
            if table.text() not in texts:
                number = len(self.like) + 1
                self.like[number] = table.position, self.mending.add(table.nodes)
                (self.folder / "like").mkdir(exist_ok=True)
                replace(self.folder / "like" / f"{number}.txt", table.text())

    def know(self, file):
        """Puts what a table of another position answers beside the replies that lead to the same positions, as they are or by a symmetry.
        Its nodes are read where one does.
        """
        there, table, right, last = known_after(file, self), None, self.after.width - 1, self.after.height - 1
        if (there.rule, there.width, there.height) != (self.after.rule, self.after.width, self.after.height):
            return
        for name in [it for it in IMAGES if right == last or it not in EXCHANGING]:
            stones = {(IMAGES[name](*it, right, last), side) for it, side in there.stones().items()}
            back = {IMAGES[name](*it, right, last): it for it in there.empties()}
            for reply in [it for it in self.left() if it not in self.answers]:
                here = {*self.after.after(reply).stones().items()}
                if stones < here and len(here) == len(stones) + 1:
                    table = table or like_table(file)
                    [(point, _)] = here - stones
                    path = self.path("replies", reply).with_suffix(".1.1.answer")
                    replace(path, asked(["image", name], part_after(table, back[point]).text()))
                    self.answers[reply] = [(path, "quiet-1-1")]

    def alike(self, reply):
        """The parts of like tables for a reply: what is told of each in tried.txt, and its root."""
        for number, (position, root) in self.like.items():
            for it in meant(reply, self.after, position.after(self.attack)):
                place = self.mending.nodes[root].answer(it)
                if place is not None:
                    yield f"like-{number}-{spelled(it)}", place

    def path(self, kind, reply):
        return self.folder / kind / f"{spelled(reply)}.txt"

    def left(self):
        return [it for it in self.replies if it not in self.found and it not in self.served]

    def note(self, reply, what, status):
        self.tried[reply, what] = int(status)
        if what.startswith("table-") and int(status) == DONE:
            self.uses[numbers(what[6:])] += 1

    def add(self, reply, what, status, seconds):
        """Notes what was tried at a reply, and how it ended."""
        with self.lock:
            self.note(spelled(reply), what, status)
            with open(self.log, "a") as out:
                out.write(f"{spelled(reply)} {what} {status} {seconds:.1f}\n")

    def is_lost(self, reply, what):
        """Whether this was tried at a reply, without a table, and not for want of memory alone."""
        return self.tried.get((spelled(reply), what), DONE) not in (DONE, MEMORY)

    def put(self, kind, reply, text):
        """Keeps the table of a reply."""
        replace(self.path(kind, reply), text)
        with self.lock:
            (self.found if kind == "tables" else self.served).add(reply)

    def sources(self, reply):
        """The replies whose tables are to be tried at this one: those that served most before, and then near ones."""
        with self.lock:
            found = sorted(self.found, key=lambda it: (-self.uses[it], apart(it, reply), it))
        left = [it for it in found if not self.is_lost(reply, f"table-{spelled(it)}")]
        return [*[it for it in left if self.uses[it]][:TRIES], *[it for it in left if not self.uses[it]][:OTHERS]]

    def hints(self, reply):
        """The attacks that won where other replies were taken apart, those of near replies first."""
        with self.lock:
            won = [numbers(it) for (it, what), status in self.tried.items() if what.startswith("attacks-") and status == DONE]
        near = sorted((it for it in won if it in self.found), key=lambda it: apart(it, reply))
        return [*dict.fromkeys(first_move(self.path("tables", it).read_text()) for it in near)]

    def file(self, reply):
        """The file of a reply's table."""
        return self.path("tables" if reply in self.found else "served", reply)

    def files(self):
        """The files of the replies' tables, in reading order."""
        return [str(self.file(it)) for it in sorted(self.replies, key=lambda it: it[::-1])]

    def turned(self):
        """The files of the replies that a symmetry makes of others, whose tables it turns."""
        for reply, (first, symmetry) in self.images.items():
            if not self.path("served", reply).exists():
                replace(self.path("served", reply), asked(["image", symmetry], self.file(first).read_text()))
        return [str(self.path("served", it)) for it in self.images]


def begun(folder, attack, position):
    """Makes the folder of an opening."""
    end = end_of(position, attack)
    if end:
        raise Wrong(f"{both(attack, position)} {end}, and leaves nothing to take apart")
    if len(replies_to(position.after(attack))[0]) > MOST_FILES:
        raise Wrong(f"there are more than {MOST_FILES:,} replies, and renju cover takes no more files")
    folder = Path(folder)
    if folder.exists() and (not folder.is_dir() or any(folder.iterdir())):
        raise Wrong(f"{folder} is there already, and is no folder of this script; name another")
    folder.mkdir(exist_ok=True)
    replace(folder / "position.txt", position.text())
    # Its head comes last: a folder without it has not begun.
    replace(folder / "opening.txt", f"renju-opening 1\nattack {spelled(attack)}\n")


class Work:
    """The runs of the program at the replies that are left."""

    def __init__(self, opening, given):
        self.opening, self.given, self.depth, self.jobs, self.memory = opening, given, given.depth, given.jobs, given.memory
        self.clock = Clock()
        # The searches by attacks at replies, which are gone on with once more of them are allowed.
        self.attacking = {}
        # With how many nodes positions after more moves are searched at first.
        self.least = max(1, given.nodes // TIMES)

    def round(self, nodes, *ways):
        """Asks each reply that is left in some ways, one after the other, until it has a table."""
        left = self.opening.left()
        began, pool = time.monotonic(), ThreadPoolExecutor(self.jobs)
        runs = [pool.submit(lambda reply: any(way(reply) for way in ways), reply) for reply in left]
        try:
            going = runs
            while going:
                done, going = wait(going, SECONDS_OF_SILENCE)
                for run in done:
                    run.result()
                self.say(nodes, len(left), len(going), time.monotonic() - began)
        except BaseException:
            end_runs()
            raise
        finally:
            for run in runs:
                run.cancel()
            pool.shutdown()

    def say(self, nodes, all_of_round, going, seconds):
        """Tells how far it is, and how long the round takes at its pace so far."""
        opening, ended = self.opening, all_of_round - going
        more = f", {seconds * going / ended:.0f} s more at this pace" if ended and going else ""
        known = len(opening.found) + len(opening.served)
        told = f"{known} of {len(opening.replies)} replies have a table, {len(opening.served)} of them another's"
        self.clock.say(f"{told}; {ended} of {all_of_round} asked with {nodes:,}{more}")

    def run(self, words, text):
        """What the program says, its status, and its seconds."""
        began = time.monotonic()
        told, status = answered(words, text, self.memory)
        # An interrupt comes to the runs too, maybe before this script has ended them.
        if status == -signal.SIGINT or status < 0 and ENDING:
            raise Wrong("interrupted")
        # A run that the system has ended for want of memory has no status of its own.
        status = MEMORY if status < 0 else status
        if status not in (DONE, UNREAD, REFUSED, SPENT, MEMORY, OPEN, FULL):
            raise Wrong(f"renju {' '.join(map(str, words))} ended with status {status}: {told.strip() or 'it printed nothing'}")
        return told, status, time.monotonic() - began

    def take_in(self, reply):
        """Takes in what a command line has written beside the position of a reply, and removes it. It says whether there was a table."""
        for path, what in self.opening.answers.pop(reply, []):
            text = path.read_text(errors="replace")
            if text.startswith("renju-table 1\n"):
                text = under(self.opening.after.after(reply), text)
                told, status, _ = self.run(["check", MOST_ARRIVALS], text)
                if status != DONE:
                    tell(f"{path} is left there: renju check says {told.strip() or 'nothing'}")
                    continue
                self.opening.put("tables", reply, text)
            elif text == "spent\n":
                self.opening.add(reply, what, SPENT, 0)
            else:
                # Its line has not ended yet, or was interrupted.
                continue
            path.unlink()
        return reply in self.opening.found

    def mend(self, reply, which, way):
        """Tries some of the parts of like tables at a reply, mended by searches. It says whether one is accepted there."""
        opening, after, (faults, times) = self.opening, self.opening.after.after(reply), way
        limits = [min(it * self.least, self.given.most) for it in times]
        for what, place in [*opening.alike(reply)][which]:
            what, began = f"{what}-{self.depth}-{limits[-1]}-{faults}", time.monotonic()
            if not opening.is_lost(reply, what):
                text = opening.mending.mended(after, place, self.check, self.found, limits, faults)
                if self.keep(reply, what, text, began):
                    return True
        return False

    def keep(self, reply, what, text, began):
        """Keeps the table that was found at a reply, if one was, and what was tried there."""
        if text:
            self.opening.put("tables", reply, text)
        self.opening.add(reply, what, DONE if text else REFUSED, time.monotonic() - began)
        return bool(text)

    def check(self, text):
        """What `check` says of a table's text, and the status."""
        return self.run(["check", MENDED_ARRIVALS], text)[:2]

    def found(self, text, nodes):
        """The text of a table that a search with so many nodes finds at a position, or None."""
        told, status, _ = self.run(["quiet", self.depth, min(nodes, self.given.most)], text)
        return told if status == DONE else None

    def join(self, position, attack, texts):
        """What `join` says of an attack at a position and tables of replies to it: a table, or which reply has no answer."""
        with TemporaryDirectory() as folder:
            files = [Path(folder, f"{number}.txt") for number, _ in enumerate(texts)]
            for path, text in zip(files, texts):
                path.write_text(text)
            told, status, _ = self.run(["join", spelled(attack), *files], position.text())
        return told if status in (DONE, OPEN) else ""

    def serve(self, reply):
        """Tries the tables found so far at a reply. It says whether one is accepted there."""
        opening = self.opening
        for source in opening.sources(reply):
            text = under(opening.after.after(reply), opening.path("tables", source).read_text())
            _, status, seconds = self.run(["check", FEW_ARRIVALS], text)
            if status == DONE:
                opening.put("served", reply, text)
            opening.add(reply, f"table-{spelled(source)}", status, seconds)
            if status == DONE:
                return True
        return False

    def search(self, reply, nodes):
        """Searches a table at a reply, where it wasn't done before. It says whether there is one."""
        what = f"quiet-{self.depth}-{nodes}"
        if self.opening.is_lost(reply, what):
            return False
        text, status, seconds = self.run(["quiet", self.depth, nodes], self.opening.after.after(reply).text())
        if status == DONE:
            self.opening.put("tables", reply, text)
        self.opening.add(reply, what, status, seconds)
        return status == DONE

    def attack(self, reply, attacks):
        """Looks for a table at a reply by so many attacks, where it wasn't done before. It says whether there is one."""
        what, began = f"attacks-{self.depth}-{self.least}-{attacks}", time.monotonic()
        if not attacks or self.opening.is_lost(reply, what):
            return False
        tell(f"{both(reply, self.opening.after)} is taken apart by {attacks} attacks at most")
        if reply not in self.attacking:
            self.attacking[reply] = Attacking(self.found, lambda text: self.check(text)[1] == DONE, self.join, self.least)
        text = self.attacking[reply].table(self.opening.after.after(reply), self.opening.hints(reply), attacks)
        if text:
            del self.attacking[reply]
        return self.keep(reply, what, text, began)


def settled(opening, given):
    """Asks the replies that are left: parts as they stand and a search, parts that are mended quickly and few attacks, parts that are
    mended with more and all attacks, searches with more nodes each time, and other parts. It answers with the nodes of the last search.
    """
    work, nodes = Work(opening, given), min(given.nodes, given.most)
    searched = lambda reply: work.search(reply, nodes)
    mended = lambda way, which=slice(1): lambda reply: work.mend(reply, which, way)
    attacked = lambda attacks: lambda reply: work.attack(reply, attacks)
    work.round(nodes, work.take_in, mended(AS_IT_STANDS), work.serve, searched)
    work.round(nodes, work.serve, mended(QUICKLY), attacked(given.deeper // TIMES))
    work.round(nodes, mended(THOROUGHLY), work.serve, attacked(given.deeper))
    while nodes < given.most:
        nodes = min(TIMES * nodes, given.most)
        work.round(nodes, work.serve, searched)
    if opening.like:
        work.round(nodes, mended(OTHERS_MENDED, slice(1, None)), work.serve)
    return nodes


def lines(opening, depth, nodes):
    """Prints a command line for each reply that is left."""
    for reply in opening.left():
        path = opening.path("replies", reply)
        out = path.with_suffix(f".{depth}.{nodes}.answer")
        print(f"{shlex.quote(PROGRAM)} quiet {depth} {nodes} < {shlex.quote(str(path))} > {shlex.quote(str(out))}")
    return DONE


def joined(opening):
    """Has the program join the tables into one, and keeps it. It answers what is told, and the status."""
    files = [*opening.files(), *opening.turned()]
    if len(files) > MOST_FILES:
        return "", FULL
    told, status = answered(["join", spelled(opening.attack), *files], opening.position.text())
    if status != DONE:
        return named(told, files), status
    replace(opening.folder / "table.txt", told)
    return f"{opening.folder / 'table.txt'}: {', '.join(told.splitlines()[5:7])}\n", status


def covered(opening):
    """Has the program cover the position by the tables. It answers what is told, and the status."""
    files = opening.files()
    told, status = answered(["cover", MOST_ARRIVALS, spelled(opening.attack), *files], opening.position.text())
    return named(told, files), status


def named(told, files):
    """What is told with the path of the file that it counts."""
    return re.sub(r"^file (\d+)", lambda number: files[int(number.group(1)) - 1], told)


def is_opening(folder):
    path = folder / "opening.txt"
    return path.is_file() and bool(HEAD.fullmatch(path.read_text(errors="replace")))


def opening_of(given):
    """The opening of the folder, which begins where an attack and a position are given and it isn't there."""
    folder, likes = Path(given.folder), [(file, like_table(file)) for file in given.like]
    has_begun = is_opening(folder)
    if given.attack:
        position = understood(bytes_of(given.file), given.rule and rule_of(given.rule), given.size and size_of(given.size))
        attack, *more = points(given.attack, position) or [None]
        if not attack or more:
            raise Wrong("X,Y is one point, as 7,7 or h8")
        if not has_begun:
            begun(folder, attack, position)
    elif not has_begun:
        raise Wrong(f"{folder} is no folder of this script; X,Y and FILE begin one")
    opening = Opening(folder)
    if given.attack and (opening.attack, opening.position.text()) != (attack, position.text()):
        raise Wrong(f"{folder} is of another opening; name another folder")
    for file, table in likes:
        if table.root().attack != opening.attack or table.root().wins:
            raise other_first_move(file, opening)
    opening.add_like([table for _, table in likes])
    for file in given.known:
        opening.know(file)
    return opening


def other_first_move(file, opening):
    return Wrong(f"the first move of {file} is not {both(opening.attack, opening.position)}, or it wins at once")


def known_after(file, opening):
    """The position after the first move of a file's table, which has to be that of the opening, as its head and its last line say."""
    text = bytes_of(file).decode(errors="replace")
    lines = text.splitlines(keepends=True)
    if not text.startswith("renju-table 1\n") or not re.match(f"{spelled(opening.attack)} (only|rest) ", lines[-1]):
        raise other_first_move(file, opening)
    try:
        return read("".join(["renju-position 1\n", *lines[1:5]]).encode()).after(opening.attack)
    except Wrong as error:
        raise Wrong(f"{file}: {error}")


def like_table(file):
    table = read_file(file)
    if not isinstance(table, Table) or table.start:
        raise Wrong(f"{file} is no table in which the side to move wins")
    return table


def memory_of(given):
    """How many bytes a run may take."""
    if given.memory:
        return given.memory << 20
    return os.sysconf("SC_PHYS_PAGES") * os.sysconf("SC_PAGE_SIZE") // 2 // given.jobs


def main():
    words = argparse.ArgumentParser(description=__doc__, formatter_class=argparse.RawDescriptionHelpFormatter)
    words.add_argument("--depth", type=ranged(*DEPTHS, "DEPTH"), default=40, metavar="D", help="the most moves after a reply; 40")
    words.add_argument("--nodes", type=ranged(*NODES, "NODES"), default=200_000, metavar="N", help="NODES at first; 200,000")
    words.add_argument("--most", type=ranged(*NODES, "NODES"), default=4_000_000, metavar="M", help="the most of NODES; 4,000,000")
    words.add_argument("--like", action="append", default=[], metavar="FILE", help="a table of a like opening")
    words.add_argument("--known", action="append", default=[], metavar="FILE", help="a table of another opening")
    words.add_argument("--deeper", type=ranged(0, 1_000_000, "ATTACKS"), default=0, metavar="A", help="attacks at a reply; 0")
    add_jobs(words)
    words.add_argument("--memory", type=ranged(64, 1_000_000, "MB"), metavar="MB", help="the most memory of a run")
    words.add_argument("--lines", action="store_true", help="print command lines, and run nothing")
    words.add_argument("--cover", action="store_true", help="cover the position by the tables, and don't join them")
    words.add_argument("--rule", help="the rule of a text that says none"), words.add_argument("--size", help="its size")
    words.add_argument("folder", metavar="FOLDER"), words.add_argument("attack", nargs="?", metavar="X,Y")
    words.add_argument("file", nargs="?", metavar="FILE")
    given = words.parse_args()
    if given.attack and not given.file:
        words.error("FILE goes with X,Y; - is standard input")
    opening = opening_of(given)
    left = opening.left()
    if given.lines:
        return lines(opening, given.depth, given.nodes)
    # The first run of the program may build it, which takes as much memory as it needs.
    asked(["foul"], opening.position.text())
    tell(f"after {both(opening.attack, opening.position)} there are {len(opening.replies)} replies to ask, and {len(left)} are left")
    given.memory = memory_of(given)
    nodes = settled(opening, given)
    left = opening.left()
    if left:
        print(f"{len(left)} of {len(opening.replies)} replies are left with {nodes:,}: {all_of(left, opening.after)}")
        return SPENT
    told, status = ("", FULL) if given.cover else joined(opening)
    if status == FULL:
        told, status = covered(opening)
    sys.stdout.write(told)
    return status


if __name__ == "__main__":
    saying(main)
