#!/usr/bin/env python3
"""Judges games: takes their moves from a manager's log or another record, writes each as a game text, and prints what
`renju referee` says of it.

    judge.py [--rule RULE] [--size N or W,H] [--opening 'X,Y ..'] [--from FILE] [--table FILE] [--text] [--list] [LOG]

LOG, or standard input, has the lines of examples/manager.py, as `game 1: h8 i9 g7: black wins after 3 moves`; or `renju-game`
texts, one after the other; or a record of Piskvork (.psq), which doesn't tell its rule; or the moves of one game, as h8 or 7,7, with
or without numbers, in one line or in many; or with --list many games, a game a line. Lines `rule RULE`, `size N` and `opening h8 i9` may stand before games; --rule, --size
and --opening go before these. A game begins on the empty board, or at the position of --from (a text that examples/position.py
takes, or a table), after the moves of the opening. With --table it is compared with the table in FILE. --text writes the game
texts, and asks nobody.

A line is printed for each game: `won black 9`, `foul overline 7`, `drawn 225`, `open 12`, `illegal 3` or `after end 10`, as
docs/FORMATS.md has them, and of a table whether it was followed. The status is 0 where the log says nothing else of any game. It
is 1 where it says another end or another number of moves, or cannot be read. Else it is that of `renju referee`: 2 where the
table's file cannot be read, 3 where its text is refused, 4 where the table is not accepted, 5 where it has too many arrivals, 6
where memory ran out, and 11 where a text is too long.
"""
import argparse
import subprocess
import sys

sys.dont_write_bytecode = True

from boards import PROGRAM, saying
from position import rule_of, size_of, understood
from records import bytes_of, records_in


def judged(text, table):
    """The verdict on a game text, or what is said in place of it, and the status."""
    done = subprocess.run([PROGRAM, "referee", *([table] if table else [])], input=text.encode(), stdout=subprocess.PIPE)
    return ", ".join(done.stdout.decode().splitlines()), done.returncode


def judge(record, table):
    """Prints the verdict on a game, and answers a status."""
    verdict, status = judged(record.text(), table)
    if status != 0:
        print(f"{record.name}: {verdict or 'no verdict'}")
        return status
    if record.differs(verdict):
        print(f"{record.name}: {verdict}; the log says {record.said}")
        return 1
    print(f"{record.name}: {verdict}")
    return 0


def main():
    words = argparse.ArgumentParser(description=__doc__, formatter_class=argparse.RawDescriptionHelpFormatter)
    words.add_argument("--rule"), words.add_argument("--size"), words.add_argument("--opening", default="")
    words.add_argument("--from", dest="first"), words.add_argument("--table"), words.add_argument("--text", action="store_true")
    words.add_argument("--list", action="store_true", help="each line is a game"), words.add_argument("log", nargs="?")
    given = words.parse_args()
    rule, size = given.rule and rule_of(given.rule), given.size and size_of(given.size)
    first = understood(bytes_of(given.first), rule, size) if given.first else None
    statuses = []
    for record in records_in(bytes_of(given.log), rule, size, given.opening, first, given.list):
        if given.text:
            sys.stdout.write(record.text())
        else:
            statuses.append(judge(record, given.table))
    return next((status for status in statuses if status), 0)


if __name__ == "__main__":
    saying(main)
