"""Mends tables of like positions: `renju check` tells of a table that it refuses a line of moves that leads to a fault, and a win that a
search finds at a position of that line takes the place of what the table has there.
"""
import threading
from collections import Counter
from dataclasses import dataclass

from boards import Node, Position, Table, numbers, read

# The statuses of a run that finds what it was asked for, and of `check` of a table that isn't accepted.
DONE, REFUSED = 0, 4
# The faults after which the game is over.
ENDS = ("reply-wins", "reply-draws")
# How often an attack is wanted against replies of the rest until it answers them all.
OFTEN = 3
# Of so many faults one is mended by the dearest searches, at so many positions of its line.
EACH, EARLY = 16, 2


@dataclass
class Step:
    """Where on a line of moves the side of the table moves: the reply that led there, the position, and the number of the node, if any."""

    reply: object
    position: Position
    place: object


class Mending:
    """The nodes of tables. What is mended at one position is mended in them, and so wherever the same nodes are come to."""

    def __init__(self):
        self.nodes, self.lock = [], threading.Lock()
        # How often a reply of the rest was given an answer that begins with an attack, by the number of the node and the attack.
        self.rests = Counter()
        # The replies that were given another answer, each with its node; and of each win that was looked for with how many nodes it was,
        # and its nodes, or None.
        self.changed, self.wins = set(), {}

    def add(self, nodes):
        """Adds the nodes of a table. It answers with the last, the root."""
        with self.lock:
            first = len(self.nodes)
            self.nodes += [it.renumbered(range(first, first + len(nodes))) for it in nodes]
            return len(self.nodes) - 1

    def depths(self, root):
        """The most moves from each node on that a node reaches, by its number, lower ones first."""
        found, left = {}, [root]
        while left:
            named = self.nodes[left[-1]].named()
            deeper = [it for it in named if it not in found]
            left += deeper
            if not deeper:
                found[left.pop()] = 1 + max((found[it] for it in named), default=0)
        return found

    def table(self, position, root):
        """The table of a position whose root is a node, and the numbers that its nodes have here."""
        with self.lock:
            depths = self.depths(root)
            new = {place: number for number, place in enumerate(depths)}
            return Table(position, depths[root], [self.nodes[it].renumbered(new) for it in depths]), [*depths]

    def mended(self, position, root, check, search, limits, faults):
        """The text of the table of a position whose root is a node, mended until it is accepted, or None where it has more faults. `check`
        answers what is told of a text, and the status; `search` answers the text of a position with that of a table, or None. A search has
        so many nodes at first, more, and at most.
        """
        for fault in range(faults + 1):
            table, places = self.table(position, root)
            text = table.text()
            told, status = check(text)
            if status == DONE:
                return text
            is_mended = fault < faults and status == REFUSED
            root = self.without_fault(line(told, table, places), search, limits, fault) if is_mended else None
            if root is None:
                break
        return None

    def without_fault(self, steps, search, limits, fault):
        """The root once a fault of so many before it is mended, or None: a win is looked for at the positions of its line."""
        for count, nodes in tries(len(steps), limits, fault):
            found = self.win(steps[count - 1].position.text(), search, nodes)
            if found is not None:
                with self.lock:
                    return self.replaced(steps[:count], found)
        return None

    def win(self, text, search, nodes):
        """The root of a win at a position, or None. It is looked for once with so many nodes, and has nodes of its own each time."""
        most, found = self.wins.get(text, (0, None))
        if found is None and most < nodes:
            told = search(text, nodes)
            found = told and read(told.encode()).nodes
            with self.lock:
                # Another search may have found one meanwhile.
                found = found or self.wins.get(text, (0, None))[1]
                self.wins[text] = nodes, found
        return found and self.add(found)

    def replaced(self, steps, found):
        """The root once a node answers the reply of the last step, or all of the rest where what answers that has no fewer moves, or where
        an answer with the same attack was wanted often. The node before is changed for all that come to it, or where that was done already
        it is copied, and its copy takes its place in turn.
        """
        *before, last = steps
        if not before:
            return found
        place, reply = before[-1].place, last.reply
        node = self.nodes[place]
        others = [(it, name) for it, name in node.replies if it != reply]
        is_rest, moves = len(others) == len(node.replies) and node.rest is not None, self.depths(found)[found]
        attack = self.nodes[found].attack
        self.rests[place, attack] += is_rest
        is_shorter = is_rest and moves <= self.depths(node.rest)[node.rest] and (place, moves) not in self.changed
        if is_shorter or is_rest and self.rests[place, attack] == OFTEN:
            self.changed.add((place, moves))
            self.nodes[place] = Node(node.attack, node.wins, found, node.replies)
            return before[0].place
        node = Node(node.attack, node.wins, node.rest, sorted([*others, (reply, found)], key=lambda it: it[0][::-1]))
        if (place, reply) not in self.changed:
            self.changed.add((place, reply))
            self.nodes[place] = node
            return before[0].place
        self.nodes.append(node)
        return self.replaced(before, len(self.nodes) - 1)


def tries(length, limits, fault):
    """At which positions of a line a win is looked for, and with how many nodes: in their order, but at the first in the end, where it is
    the dearest; and else from the last one on with more, and at the first after a reply with most. Where faults are many these come before
    all others now and then.
    """
    few, more, most = limits
    inner = range(2, length + 1)
    dear = {EACH // 2: more, 0: most}.get(fault % EACH) if fault else None
    first = [(it, dear) for it in inner[:EARLY]] if dear else []
    last = [(it, most) for it in inner[:EARLY]]
    return [*first, *((it, few) for it in [*inner, 1]), *((it, more) for it in reversed(inner)), *last]


def line(told, table, places):
    """The steps of the line that leads to a fault of a table: `refused WHY` and its moves are told."""
    _, why, *moves = told.split()
    points, number = [*map(numbers, moves)], len(table.nodes) - 1
    steps = [Step(None, table.position, places[number])]
    for attack, reply in zip(points[::2], points[1::2]):
        number = table.nodes[number].answer(reply)
        place = None if number is None else places[number]
        steps.append(Step(reply, steps[-1].position.after(attack).after(reply), place))
    return steps[:-1] if why in ENDS else steps
