#!/usr/bin/env python3
"""Prints a table as an indented tree of moves, from a file that the words name or from standard input, and of a book its entries.

    tree.py [--names] [--depth N] [--entry N] [FILE]

Each line has the replies that are answered alike, and the answer; what follows it stands further in. A node that is named again
is told once, with a number in brackets. --names writes points as players do, h8 for 7,7; --depth N stops after so many moves. Of a
book --entry N tells one entry.
"""
import argparse
import sys
import textwrap
from collections import Counter

sys.dont_write_bytecode = True

from boards import MOST_NODES, named, saying, spelled, tables_in
from solving import ranged

WIDTH = 120
# Lines of later moves stand no further in, and say which move it is.
DEEPEST = 60


class Tree:
    """The lines of a table. It walks with a list of what is left to tell, so that a long chain needs no recursion."""

    def __init__(self, table, has_names, depth):
        height = table.position.height
        self.point = (lambda point: named(point, height)) if has_names else spelled
        self.table, self.nodes, self.depth = table, table.nodes, depth
        every = [*table.nodes, *([table.start] if table.start else [])]
        self.times = Counter(place for node in every for place in set(node.named()))
        self.told = {}

    def lines(self):
        yield self.headline()
        left = self.answers(self.table.start, 0) if self.table.start else [(0, "", len(self.nodes) - 1)]
        while left:
            level, words, place = left.pop()
            indent = "  " * min(level, DEEPEST) + (f"move {level + 1}: " if level > DEEPEST else "")
            words += self.answer(place) if place is not None else ".."
            yield from textwrap.wrap(words, max(WIDTH, len(indent) + 40), initial_indent=indent, subsequent_indent=" " * (len(indent) + 4))
            if place is not None and place not in self.told:
                if self.times[place] > 1 and not self.nodes[place].wins:
                    self.told[place] = len(self.told) + 1
                left += self.answers(self.nodes[place], level + 1)

    def headline(self):
        return f"{self.table.words()}."

    def answer(self, place):
        """The attack of a node, and what stands after it."""
        node = self.nodes[place]
        if node.wins:
            ending = " wins"
        elif place in self.told:
            ending = f", as in [{self.told[place]}]"
        elif not node.named():
            ending = ", and no reply goes on"
        else:
            ending = f" [{len(self.told) + 1}]" if self.times[place] > 1 else ""
        return self.point(node.attack) + ending

    def answers(self, node, level):
        """What is left to tell of the replies to a node, last first: how far in, the replies, and the node that answers them."""
        if self.depth and level >= self.depth:
            return [(level, "", None)] if node.named() else []
        groups = {}
        for reply, place in node.replies:
            groups.setdefault(place, []).append(self.point(reply))
        found = [(level, f"{' '.join(replies)}: ", place) for place, replies in groups.items()]
        if node.rest is not None:
            found.append((level, f"any {'other' if found else 'reply'}: ", node.rest))
        return found[::-1]


def main():
    words = argparse.ArgumentParser(description=__doc__, formatter_class=argparse.RawDescriptionHelpFormatter)
    words.add_argument("--names", action="store_true", help="h8 for 7,7")
    words.add_argument("--depth", type=ranged(1, MOST_NODES, "N"), default=0, metavar="N", help="stop after so many moves")
    words.add_argument("file", nargs="?", metavar="FILE", help="a table or a book, or - for standard input")
    words.add_argument("--entry", type=int, metavar="N", help="one entry of a book, counted from 1")
    given = words.parse_args()
    for number, table in tables_in(given.file, given.entry):
        if number is not None:
            print(f"entry {number}:")
        for line in Tree(table, given.names, given.depth).lines():
            print(line)


if __name__ == "__main__":
    saying(main)
