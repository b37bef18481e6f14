#!/usr/bin/env python3
"""Prints the table of a position after moves of a table, its part: what the table answers there, and no more.

    parts.py FILE X,Y ..

FILE, or - for standard input, is a table. X,Y .. are replies of the other side, as h8 or 7,7, in the order of play; before each the
table's own attack is played. The part says how many moves it has at most, and may have fewer than are left of the table's.
"""
import argparse
import sys

sys.dont_write_bytecode = True

from boards import Position, Table, Wrong, bytes_of, named, reached, read, saying, spelled
from position import points


def part(table, place, position):
    """The table of a position whose root is a node of another table."""
    nodes, _ = reached(table.nodes, [place])
    found = Table(position, 0, nodes)
    found.moves = found.depths()[-1]
    return found


def after(table, reply):
    """The part of a table after its attack and a reply."""
    root, position = table.root(), table.position
    position = (position.after(root.attack) if root.attack else position).after(reply)
    if position.won_at():
        raise Wrong(f"with {spelled(reply)} ({named(reply, position.height)}) the game is over")
    place = root.answer(reply)
    if place is None:
        raise Wrong(f"the table answers nothing to {spelled(reply)} ({named(reply, position.height)})")
    return part(table, place, position)


def main():
    words = argparse.ArgumentParser(description=__doc__, formatter_class=argparse.RawDescriptionHelpFormatter)
    words.add_argument("file", metavar="FILE"), words.add_argument("replies", nargs="+", metavar="X,Y")
    given = words.parse_args()
    table = read(bytes_of(given.file))
    if not isinstance(table, Table):
        raise Wrong(f"the text is a {'position' if isinstance(table, Position) else 'book'}, and no table")
    for reply in points(" ".join(given.replies), table.position):
        table = after(table, reply)
    sys.stdout.write(table.text())


if __name__ == "__main__":
    saying(main)
