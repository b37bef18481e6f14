#!/usr/bin/env python3
"""Checks the line of a solution: says of each attack in it whether every reply is found to lose, and of which the first is not; and
writes the table whose attacks are those of the line.

    line.py [--depth D] [--nodes N] [--jobs J] [--names] [--out TABLE] FILE X,Y ..

FILE, or - for standard input, is a text that examples/position.py takes, or a table, whose position is meant. The moves are those of
both sides in turn, as h8 or 7,7, with or without numbers. An attack wins where every reply that goes on is answered: the reply of the
line by the next attack, if that wins, and any other by a table of `renju solve`; with the attacks before it there are at most D
moves in all, and D is the number of the line's attacks, or 5, if it is not given. It fails where `solve` says `none` after some
reply, or where the reply wins or ends the game, and it is undecided where N was too few for some reply. An attack that fails may
win in more moves, or by moves that threaten less. Where an attack does not win, the move is told that `solve` plays in its place, and
no table is checked: that a later attack wins is then this script's word, over tables of `solve`.

Where all attacks win, a table of them and their answers is made and handed to `renju check`, whose answer is told; --out writes it
to a file that isn't there. So examples/page.py and a brain play the solution as it was composed. --names writes points as h8.

The status is 0 where the table is accepted, 4 where an attack fails, and 5 where one is undecided.
"""
import argparse
import sys
from collections import Counter
from dataclasses import dataclass

sys.dont_write_bytecode = True

from boards import Node, Table, Wrong, answered, bytes_of, counted, named, other, reached, saying, spelled
from foul import an
from outputs import claim, write
from position import points, rule_of, size_of, understood
from solving import DEPTHS, NODES, NONE, Clock, add_jobs, each, found, ranged

LEAST_DEPTH = 5
MOST_ARRIVALS = 1_000_000_000_000
WINS, FAILS, UNDECIDED = "wins", "fails", "undecided"
STATUSES = {WINS: 0, FAILS: 4, UNDECIDED: 5}
# How many undecided replies leave an attack undecided.
PATIENCE = 8


class Nodes:
    """The nodes of a table that is made, each once, with the most moves of the attacker from each on."""

    def __init__(self):
        self.numbers, self.nodes, self.depths = {}, [], []

    def add(self, node):
        """The number of a node."""
        text = node.text()
        if text not in self.numbers:
            self.numbers[text] = len(self.nodes)
            self.nodes.append(node)
            self.depths.append(1 + max((self.depths[place] for place in node.named()), default=0))
        return self.numbers[text]

    def take(self, table):
        """The number of the root of a table, whose nodes are added."""
        new = []
        for node in table.nodes:
            new.append(self.add(node.renumbered(new)))
        return new[-1]

    def answering(self, attack, rest, answers):
        """The number of a node with an attack, where the replies have these answers, and any other has that of the rest."""
        if rest is None and answers:
            rest = Counter(answers.values()).most_common(1)[0][0]
        listed = sorted(((reply, place) for reply, place in answers.items() if place != rest), key=lambda it: it[0][::-1])
        return self.add(Node(attack, False, rest, listed))

    def table(self, position, root):
        """The table of a root, with the nodes that it reaches."""
        return Table(position, self.depths[root], reached(self.nodes, [root])[0])


@dataclass
class Verdict:
    """What is found of an attack: whether it wins, and why not, or its node."""

    state: str
    why: str = ""
    node: object = None


class Judge:
    """Judges the attacks of a line, from the last one to the first."""

    def __init__(self, position, moves, given):
        self.moves, self.given, self.nodes, self.clock = moves, given, Nodes(), Clock()
        self.attacks = range(0, len(moves), 2)
        self.depth = given.depth or max(LEAST_DEPTH, len(self.attacks))
        if self.depth < len(self.attacks):
            raise Wrong(f"the line has {len(self.attacks)} attacks, and --depth allows {self.depth}")
        self.positions, self.ended = [position], ""
        for number, move in enumerate(moves, 1):
            before = self.positions[-1]
            if self.ended:
                raise Wrong(f"move {number - 1} {self.ended}, and nothing comes after it")
            self.positions.append(before.after(move))
            self.ended = self.end_of(before, move)
        self.tell = lambda point: named(point, position.height) if given.names else f"{spelled(point)} ({named(point, position.height)})"

    @staticmethod
    def end_of(position, move):
        """How a move ends the game, in words, or nothing."""
        if move in position.fouls():
            return f"is {an(position.fouls()[move])}"
        after = position.after(move)
        return "wins" if after.won_at() else "" if after.empties() else "fills the board"

    def verdicts(self):
        """The verdicts on the attacks, by their place in the line."""
        found = {}
        for place in reversed(self.attacks):
            found[place] = self.verdict(place, found.get(place + 2))
        return found

    def left(self, place):
        """How many moves there are for an attack and those after it."""
        return self.depth - place // 2

    def verdict(self, place, following):
        """The verdict on an attack, where that on the next one is known."""
        position, attack = self.positions[place], self.moves[place]
        end = self.end_of(position, attack)
        if end == "wins":
            return Verdict(WINS, node=self.nodes.add(Node(attack, True, None, [])))
        if end:
            return Verdict(FAILS, f"it {end}")
        after, side = self.positions[place + 1], position.side()
        if self.left(place) == 1:
            return Verdict(FAILS, f"it does not win, and no move is left of {self.depth}")
        fives = after.fives(other(side))
        if fives:
            return Verdict(FAILS, f"{self.tell(fives[0])} wins")
        blocks, fouls = after.fives(side), after.fouls()
        rest = self.nodes.add(Node(blocks[0], True, None, [])) if blocks else None
        replies = [reply for reply in blocks or after.empties() if reply not in fouls]
        known = {self.moves[place + 1]: following.node} if following and following.state == WINS else {}
        return self.answered(place, rest, [*replies, *(reply for reply in known if reply not in replies)], known)

    def answered(self, place, rest, replies, known):
        """The verdict on an attack after which some replies have to be answered, of which some are, and any other by that of the rest."""
        after, answers, undecided = self.positions[place + 1], {}, []
        ask = lambda reply: known[reply] if reply in known else self.answer(after.after(reply), self.left(place) - 1)
        for count, (reply, answer) in enumerate(zip(replies, each(self.given.jobs, ask, replies)), 1):
            self.clock.say(f"move {place + 1}: {count} of {len(replies)} replies")
            if answer == NONE:
                return Verdict(FAILS, f"{self.tell(reply)} holds against threats within {counted(self.left(place) - 1)}")
            if isinstance(answer, str):
                undecided.append(reply)
            else:
                answers[reply] = self.nodes.take(answer) if isinstance(answer, Table) else answer
            if len(undecided) == PATIENCE:
                break
        if undecided:
            return Verdict(UNDECIDED, f"{' '.join(map(self.tell, undecided))} undecided with {self.given.nodes:,}")
        return Verdict(WINS, node=self.nodes.answering(self.moves[place], rest, answers))

    def answer(self, position, depth):
        """The table of a win, or the word that says that there is none or that it is undecided."""
        return found("solve", position, depth, self.given.nodes) if position.empties() else NONE

    def instead(self, place):
        """What wins in place of an attack."""
        answer = self.answer(self.positions[place], self.left(place))
        if isinstance(answer, Table):
            return f"{self.tell(answer.root().attack)} wins in {counted(answer.moves)}"
        bound = f"within {counted(self.left(place))}"
        return f"there is no win by threats {bound}" if answer == NONE else f"whether there is a win {bound} is undecided"


def lines_of(judge, verdicts):
    """The line, move by move, with what is found of each attack."""
    for place, move in enumerate(judge.moves):
        said = f"{place + 1}. {judge.tell(move)}"
        if place not in verdicts:
            end = judge.end_of(judge.positions[place], move)
            yield f"{said}{f', which {end}' if end else ''}"
        elif verdicts[place].state != WINS:
            yield f"{said} {'fails' if verdicts[place].state == FAILS else 'is undecided'}: {verdicts[place].why}; {judge.instead(place)}"
        elif judge.nodes.nodes[verdicts[place].node].wins:
            yield f"{said} makes five"
        else:
            yield f"{said} wins within {counted(judge.nodes.depths[verdicts[place].node])}, whatever the reply"


def main():
    words = argparse.ArgumentParser(description=__doc__, formatter_class=argparse.RawDescriptionHelpFormatter)
    words.add_argument("--depth", type=ranged(*DEPTHS, "DEPTH"), metavar="D", help="the most moves of the win")
    words.add_argument("--nodes", type=ranged(*NODES, "NODES"), default=100_000, metavar="N", help="as for `renju solve`; 100,000")
    add_jobs(words)
    words.add_argument("--names", action="store_true", help="h8 for 7,7"), words.add_argument("--out", metavar="TABLE")
    words.add_argument("--rule", help="the rule of a text that says none"), words.add_argument("--size", help="its size")
    words.add_argument("file", metavar="FILE"), words.add_argument("moves", nargs="+", metavar="X,Y")
    given = words.parse_args()
    position = understood(bytes_of(given.file), given.rule and rule_of(given.rule), given.size and size_of(given.size))
    moves = points(" ".join(given.moves), position)
    if not moves:
        raise Wrong("name the moves of the line, as h8 or 7,7")
    if given.out:
        claim(given.out)
    judge = Judge(position, moves, given)
    print(position.to_move())
    verdicts = judge.verdicts()
    for line in lines_of(judge, verdicts):
        print(line)
    lost = [place for place in sorted(verdicts) if verdicts[place].state != WINS]
    if lost:
        print(f"the first attack that is not found to win is move {lost[0] + 1}")
        return next((STATUSES[FAILS] for place in lost if verdicts[place].state == FAILS), STATUSES[UNDECIDED])
    table = judge.nodes.table(position, verdicts[0].node)
    told, status = answered(["check", MOST_ARRIVALS], table.text())
    found_so = "every attack wins" if status == 0 else "the table is not accepted"
    print(f"{found_so}; renju check says of their table: {told.strip() or f'nothing, and status {status}'}")
    if given.out and status == 0:
        write(given.out, table.text())
    return status


if __name__ == "__main__":
    saying(main)
