#!/usr/bin/env python3
"""Finds all first moves that win, so that a composer knows whether a problem is sound, and which replies hold after a move.

    solutions.py [--depth D] [--nodes N] [--jobs J] [--picture FILE.svg] [FILE]
    solutions.py --after X,Y [..] [FILE]

FILE, or standard input, is a text that examples/position.py takes, or a table, whose position is meant. Each empty point is tried as
the first move of the side to move. It wins where every reply that goes on leaves a win by fours or by threats within D moves in all,
each of them a table of `renju fours` or `renju solve` with N; it fails where `solve` says `none` after some reply, or the reply wins
or ends the game; and else it is undecided. So a move that fails may still win in more moves, or by moves that threaten less. Of each
move that wins it is told in how many moves, with D lowered until there is none, and whether by fours alone.

--after tells of one first move which replies hold, or the first 20 of them, which are undecided, and how many lose. --picture draws the board with the moves
that are told as rings: the winning ones numbered as in the list, undecided ones as ?, and replies that hold as a star.

The status is 0 where one first move alone wins and none is undecided, 4 where more win, 9 where none wins, and 5 where it is undecided;
with --after 0 where no reply holds, 4 where one does, and 5 where it is undecided.
"""
import argparse
import sys
from collections import Counter
from dataclasses import dataclass

sys.dont_write_bytecode = True

from boards import Table, Wrong, answered, bytes_of, counted, named, numbers, other, read, saying, spelled
from outputs import write
from pictures import picture, words_of
from position import points, rule_of, size_of, understood
from solving import DEPTHS, NODES, NONE, Clock, add_jobs, each, found, ranged

WINS, FAILS, UNDECIDED = "wins", "fails", "undecided"
# How many replies that refuted other moves are tried first, and how many undecided replies leave a move undecided.
HABITS, PATIENCE = 4, 8
# How many points are listed.
MOST_LISTED = 20


@dataclass
class Verdict:
    """What is known of a first move: whether it wins, in how many moves and how, and by fours; or the reply that holds or is undecided."""

    state: str
    moves: int = 0
    by: str = ""
    reply: object = None
    is_least: bool = True
    fours: int = 0

    def words(self):
        """In how many moves it wins, and how."""
        fours = f", and by fours in {self.fours}" if self.fours > self.moves else ""
        return f"in {counted(self.moves)}{'' if self.is_least else ' or fewer'}, by {self.by}{fours}"


class Position:
    """A position whose first moves are tried, with what was learnt of replies that hold."""

    def __init__(self, position, nodes):
        self.position, self.nodes = position, nodes
        self.side, self.foe = position.side(), other(position.side())
        self.refuted = Counter()

    def moves(self):
        """The first moves, in reading order: empty points that are no fouls."""
        fouls = self.position.fouls()
        return [point for point in self.position.empties() if point not in fouls]

    def verdict(self, point, depth):
        """Whether a first move wins within so many moves."""
        after = self.position.after(point)
        if after.won_at():
            return Verdict(WINS, 1, "a five")
        if not after.empties() or depth == 1:
            return Verdict(FAILS)
        fives = after.fives(self.foe)
        if fives:
            return Verdict(FAILS, reply=fives[0])
        blocks = after.fives(self.side)
        return self.forced(after, blocks, depth) if blocks else self.unforced(after, depth)

    def forced(self, after, blocks, depth):
        """The verdict where the move makes a four: a reply elsewhere leaves a five."""
        fouls = after.fouls()
        replies = [point for point in blocks if point not in fouls]
        moves, by = 2, "fours"
        for reply in replies:
            table = found("fours", after.after(reply), depth - 1, self.nodes)
            if not isinstance(table, Table):
                by = "threats"
                break
            moves = max(moves, 1 + table.moves)
        return Verdict(WINS, moves, by) if by == "fours" else self.answered(after, replies, depth, 2)

    def unforced(self, after, depth):
        """The verdict where the move makes no four. Replies that held before are tried first, then all that hold against fours."""
        fouls, stones = after.fouls(), after.stones()
        habits = [point for point, _ in self.refuted.most_common(HABITS) if point not in stones and point not in fouls]
        tried = self.answered(after, habits, depth, 2)
        if tried.state == FAILS:
            return tried
        replies, moves = holding(after, depth - 1, self.nodes)
        if replies is None:
            replies, moves = [point for point in after.empties() if point not in fouls], 2
        return self.answered(after, replies, depth, 1 + moves)

    def answered(self, after, replies, depth, moves):
        """The verdict over some replies, where all others lose within so many moves in all."""
        undecided = []
        for reply in replies:
            then = after.after(reply)
            table = NONE if not then.empties() else found("solve", then, depth - 1, self.nodes)
            if table == NONE:
                self.refuted[reply] += 1
                return Verdict(FAILS, reply=reply)
            if isinstance(table, Table):
                moves = max(moves, 1 + table.moves)
            else:
                undecided.append(reply)
                if len(undecided) == PATIENCE:
                    break
        return Verdict(UNDECIDED, reply=undecided[0]) if undecided else Verdict(WINS, moves, "threats")

    def least(self, point, depth):
        """The verdict, in as few moves as there are."""
        best = self.verdict(point, depth)
        fours = best.moves if best.by == "fours" else 0
        while best.state == WINS and best.moves > 1:
            shorter = self.verdict(point, best.moves - 1)
            if shorter.state != WINS:
                best.is_least = shorter.state == FAILS
                break
            best = shorter
        best.fours = fours
        return best


def holding(after, depth, nodes):
    """The replies that hold against fours, as `defend` lists them, and within how many moves all others lose. None where it is spent."""
    told, status = answered(["defend", depth, nodes], after.text())
    if status == 5:
        return None, depth
    if status != 0:
        raise Wrong(f"renju defend {depth} {nodes} ended with status {status}: {told.strip() or 'it printed nothing'}")
    if told.startswith("renju-table"):
        return [], read(told.encode()).moves
    return [numbers(line) for line in told.splitlines()[1:]], depth


def both(point, position):
    return f"{spelled(point)} ({named(point, position.height)})"


def all_of(some, position):
    """The points of a list, or the first of them where they are many."""
    more = f" and {len(some) - MOST_LISTED} more" if len(some) > MOST_LISTED else ""
    return (" ".join(both(point, position) for point in some[:MOST_LISTED]) or "none") + more


def first_moves(own, given):
    """Tells all first moves that win. It answers the status, and the marks and words of a picture."""
    position, clock = own.position, Clock()
    moves, verdicts = own.moves(), {}
    for point, verdict in zip(moves, each(given.jobs, lambda it: own.least(it, given.depth), moves)):
        verdicts[point] = verdict
        clock.say(f"{len(verdicts)} of {len(moves)} first moves")
    wins = sorted((it for it in moves if verdicts[it].state == WINS), key=lambda it: verdicts[it].moves)
    undecided = [it for it in moves if verdicts[it].state == UNDECIDED]
    said = f"{len(wins)} of {counted(len(moves), 'first move')} {'wins' if len(wins) == 1 else 'win'} within {counted(given.depth)}"
    print(f"{position.to_move()}\n{said}, by fours or threats with {given.nodes:,}")
    for number, point in enumerate(wins, 1):
        print(f"{number}. {both(point, position)} {verdicts[point].words()}")
    print(f"undecided: {all_of(undecided, position)}")
    marks = [*((str(number), point) for number, point in enumerate(wins, 1)), *(("?", point) for point in undecided)]
    status = 4 if len(wins) > 1 else 5 if undecided else 0 if wins else 9
    return status, marks, [said[0].upper() + said[1:], *([f"{counted(len(undecided), 'first move')} undecided"] if undecided else [])]


def replies(own, point, given):
    """Tells which replies hold after a first move. It answers the status, and the marks and words of a picture."""
    position, after, clock = own.position, own.position.after(point), Clock()
    if point in position.fouls():
        raise Wrong(f"{both(point, position)} is a {position.fouls()[point]}, and no move")
    if after.won_at() or not after.empties() or given.depth == 1:
        raise Wrong(f"{both(point, position)} {'wins at once' if after.won_at() else 'is the last move within DEPTH, or of the board'}")
    legal = [it for it in after.empties() if it not in after.fouls()]
    held, _ = holding(after, given.depth - 1, given.nodes)
    held = legal if held is None else held
    states = Counter()
    for reply, state in zip(held, each(given.jobs, lambda it: reply_state(after, it, given), held)):
        states[reply] = state
        clock.say(f"{len(states)} of {len(held)} replies")
    holds, undecided = [[it for it in held if states[it] == state] for state in (FAILS, UNDECIDED)]
    said = f"after {both(point, position)} {'1 reply holds' if len(holds) == 1 else f'{len(holds)} replies hold'}"
    bound = f"for {counted(given.depth)}, against fours and threats with {given.nodes:,}"
    print(f"{position.to_move()}\n{said} {bound}: {all_of(holds, position)}")
    print(f"undecided: {all_of(undecided, position)}\n{len(legal) - len(holds) - len(undecided)} of {len(legal)} replies lose")
    marks = [("A", point), *(("*", it) for it in holds), *(("?", it) for it in undecided)]
    return 4 if holds else 5 if undecided else 0, marks, [said[0].upper() + said[1:]]


def reply_state(after, reply, given):
    """Whether a reply that holds against fours makes the first move fail, or leaves it a win, or is undecided."""
    then = after.after(reply)
    if then.won_at() or not then.empties():
        return FAILS
    table = found("solve", then, given.depth - 1, given.nodes)
    return WINS if isinstance(table, Table) else FAILS if table == NONE else UNDECIDED


def draw(path, position, marks, captions):
    """Draws the board with its marks."""
    words = [word for sign, point in marks[:999] for word in ("--mark", f"{sign}={spelled(point)}")]
    words += [word for line in [*captions, position.to_move()] for word in ("--caption", line)]
    is_ours = lambda there: there.startswith("<svg ") and "data-of=\"solutions\"" in there.split("\n", 1)[0]
    write(path, picture(position, words_of(words), "solutions"), is_ours, "it is no picture of this script; name another file")


def main():
    words = argparse.ArgumentParser(description=__doc__, formatter_class=argparse.RawDescriptionHelpFormatter)
    words.add_argument("--depth", type=ranged(*DEPTHS, "DEPTH"), default=5, metavar="D", help="the most moves of a win; 5")
    words.add_argument("--nodes", type=ranged(*NODES, "NODES"), default=100_000, metavar="N", help="as for `renju solve`; 100,000")
    add_jobs(words)
    words.add_argument("--rule", help="the rule of a text that says none"), words.add_argument("--size", help="its size")
    words.add_argument("--after", metavar="X,Y", help="the replies to a first move"), words.add_argument("--picture", metavar="FILE.svg")
    words.add_argument("file", nargs="?", metavar="FILE")
    given = words.parse_args()
    position = understood(bytes_of(given.file), given.rule and rule_of(given.rule), given.size and size_of(given.size))
    own = Position(position, given.nodes)
    if given.after:
        found_points = points(given.after, position)
        if len(found_points) != 1:
            raise Wrong("--after names one point")
        status, marks, captions = replies(own, found_points[0], given)
    else:
        status, marks, captions = first_moves(own, given)
    if given.picture:
        draw(given.picture, position, marks, captions)
    return status


if __name__ == "__main__":
    saying(main)
