#!/usr/bin/env python3
"""Looks for the shortest win by threats, with DEPTH and NODES of `renju solve` raised from small ones, and tells how far it is.

    deepen.py [--depth D] [--nodes N] [--minutes M] [--out FILE] [FILE]

FILE, or standard input, is a text that examples/position.py takes, or a table. NODES begins with 10,000, and is ten times as much in
each round, up to N; DEPTH goes from 1 to D in each round, past what is decided. It ends where a win has been found and there is none
in fewer moves, where there is none within D moves, after M minutes, or when it is interrupted. The best table that was found is
written to --out each time that there is a better one, and else to standard output at the end. What it does stands on standard error.

The status is 0 where a win is found, 9 where there is none within D moves, and 5 where it is undecided.
"""
import argparse
import sys
import time
from concurrent.futures import ThreadPoolExecutor, TimeoutError

sys.dont_write_bytecode = True

from boards import Table, Wrong, bytes_of, counted, end_runs, saying, tell
from outputs import claim, replace
from position import rule_of, size_of, understood
from solving import DEPTHS, NODES, NONE, SECONDS_OF_SILENCE, found, ranged

FIRST_NODES, TIMES = 10_000, 10
MOST_MINUTES = 100_000


class Over(Exception):
    """The time is over."""


class Search:
    """What is known: the best table, and within how many moves there is no win."""

    def __init__(self, position, depth, minutes, out):
        self.position, self.depth, self.out = position, depth, out
        self.best, self.none = None, 0
        self.began, self.end = time.monotonic(), time.monotonic() + 60 * minutes
        self.pool = ThreadPoolExecutor(1)

    def seconds(self):
        return f"{time.monotonic() - self.began:.0f} s"

    def state(self):
        none = f"no win within {self.none}" if self.none else "nothing is decided"
        return f"{none}; a win in {self.best.moves}" if self.best else none

    def ask(self, depth, nodes):
        """The answer of `solve`, with a line for each time of silence."""
        answer = self.pool.submit(found, "solve", self.position, depth, nodes)
        while True:
            left = self.end - time.monotonic()
            try:
                return answer.result(max(0, min(SECONDS_OF_SILENCE, left)))
            except TimeoutError:
                if left <= SECONDS_OF_SILENCE:
                    raise Over
                tell(f"{self.state()}; {depth} of {self.most()} with {nodes:,}, {self.seconds()}")

    def most(self):
        """The most moves that are still asked."""
        return self.best.moves - 1 if self.best else self.depth

    def round(self, nodes):
        """Asks each number of moves that isn't decided."""
        for depth in range(self.none + 1, self.most() + 1):
            answer = self.ask(depth, nodes)
            if isinstance(answer, Table):
                self.best = answer
                if self.out:
                    replace(self.out, answer.text())
                tell(f"{self.state()}, {self.seconds()}")
                return
            if answer == NONE:
                self.none = depth
                tell(f"{self.state()}, {self.seconds()}")

    def run(self, nodes):
        """Rounds, until all is decided or NODES is at its most."""
        now = min(FIRST_NODES, nodes)
        while self.none < self.most():
            best, none = self.best, self.none
            self.round(now)
            if self.best is not best:
                continue
            if now == nodes and none == self.none:
                return f"more than {nodes:,} is wanted"
            now = min(TIMES * now, nodes)
        return "all is decided"


def told(search):
    """What is known in the end, in words."""
    best, none = search.best, search.none
    if best and none == best.moves - 1:
        return f"{best.words()}, and in no fewer by threats"
    if best:
        return f"{best.words()}; no win by threats within {none}, and {none + 1} to {best.moves - 1} undecided"
    if none == search.depth:
        return f"no win by threats within {counted(none)}"
    return f"no win by threats within {counted(none)}, and {none + 1} to {search.depth} undecided"


def main():
    words = argparse.ArgumentParser(description=__doc__, formatter_class=argparse.RawDescriptionHelpFormatter)
    words.add_argument("--depth", type=ranged(*DEPTHS, "DEPTH"), default=20, metavar="D", help="the most moves; 20")
    words.add_argument("--nodes", type=ranged(*NODES, "NODES"), default=NODES[1], metavar="N", help="the most of NODES; 10,000,000")
    words.add_argument("--minutes", type=ranged(1, MOST_MINUTES, "MINUTES"), default=MOST_MINUTES, metavar="M", help="the time")
    words.add_argument("--out", metavar="FILE", help="where the best table is written, a file that isn't there")
    words.add_argument("--rule", help="the rule of a text that says none"), words.add_argument("--size", help="its size")
    words.add_argument("file", nargs="?", metavar="FILE")
    given = words.parse_args()
    position = understood(bytes_of(given.file), given.rule and rule_of(given.rule), given.size and size_of(given.size))
    if given.out:
        claim(given.out)
    tell(position.to_move())
    search = Search(position, given.depth, given.minutes, given.out)
    is_wrong = False
    try:
        why = search.run(given.nodes)
    except (Over, KeyboardInterrupt, Wrong) as ended:
        # What was found is told, whatever ended the search.
        is_wrong, why = isinstance(ended, Wrong), {Over: "the time is over", KeyboardInterrupt: "interrupted"}.get(type(ended)) or str(ended)
        end_runs()
    tell(f"{told(search)}; {why}, {search.seconds()}")
    if search.best and not given.out:
        sys.stdout.write(search.best.text())
    return 0 if search.best else 1 if is_wrong else 9 if search.none == search.depth else 5


if __name__ == "__main__":
    saying(main)
