"""What `renju` finds in a position, asked with how much it may look at, and many positions asked at once."""
import argparse
import os
import time
from concurrent.futures import ThreadPoolExecutor

from boards import Wrong, answered, read, tell

DEPTHS, NODES = (1, 60), (1, 10_000_000)
NONE, SPENT, FULL = "none", "spent", "table full"
# The statuses with which `fours` and `solve` find no win.
STATUSES = {NONE: 9, SPENT: 5, FULL: 12}
SECONDS_OF_SILENCE = 10


def found(command, position, depth, nodes):
    """The table of a win that `fours` or `solve` of the program finds, or its word: none, spent or table full."""
    told, status = answered([command, depth, nodes], position.text())
    if status == 0:
        return read(told.encode())
    word = told.strip()
    if STATUSES.get(word) != status:
        raise Wrong(f"renju {command} {depth} {nodes} ended with status {status}: {word or 'it printed nothing'}")
    return word


def ranged(least, most, what):
    """Reads a number of the command line that has a range."""

    def number(word):
        try:
            value = int(word.replace(",", "").replace("_", ""))
        except ValueError:
            raise argparse.ArgumentTypeError(f"{what} is {least:,} to {most:,}, and {word} is no number")
        if not least <= value <= most:
            raise argparse.ArgumentTypeError(f"{what} is {least:,} to {most:,}, and not {word}")
        return value

    return number


def add_jobs(words):
    words.add_argument("--jobs", type=ranged(1, 1000, "JOBS"), default=processors(), metavar="N", help="runs at once; %(default)s here")


def processors():
    return len(os.sched_getaffinity(0)) if hasattr(os, "sched_getaffinity") else os.cpu_count() or 1


def each(jobs, work, items):
    """What a function makes of each item, in the order of the items, with so many at work at once."""
    pool = ThreadPoolExecutor(jobs)
    futures = [pool.submit(work, item) for item in items]
    try:
        for future in futures:
            yield future.result()
    finally:
        for future in futures:
            future.cancel()
        pool.shutdown()


class Clock:
    """Tells on standard error how far a long work is, at most once in some seconds."""

    def __init__(self):
        self.began = self.told = time.monotonic()

    def seconds(self):
        return int(time.monotonic() - self.began)

    def say(self, words):
        if time.monotonic() - self.told >= SECONDS_OF_SILENCE:
            self.told = time.monotonic()
            tell(f"{words}, {self.seconds()} s")
