#!/usr/bin/env python3
"""Makes one book of any number of tables and books, for a brain to play by, lists what a book holds, and takes entries out.

    books.py [--replace] OUT FILE ..
    books.py --list BOOK ..
    books.py --take N BOOK
    books.py --drop N BOOK

`renju bind` binds 64 files at a time; this joins the books that it writes, and those among the files, into one in OUT with each node
once, so that entries share nodes whatever book they come from. The entries come in the order of the files. A book has 1,000
entries and 1,000,000 nodes at most. OUT comes first, and is written over only where it is a book that is among the files too, or
with --replace.

--list tells the entries of books, --take writes the table of entry N, counted from 1, to standard output, and --drop the book
without it. Of these BOOK may be - for standard input.

What is written is not checked here: `renju book WORK` does that, and `renju brain OUT` before it plays. The status is 0, or that of
`renju bind` where it refuses a file, with what it says, or 1 where the files are too many or one cannot be read.
"""
import argparse
import re
import subprocess
import sys

sys.dont_write_bytecode = True

import boards
from boards import MOST_ENTRIES, MOST_NODES, PROGRAM, Wrong, bytes_of, counted, read_file, saying
from outputs import write

FILES, LINES = 64, 6
FIRST = "renju-book 1"
# The numbers of nodes in the line of a node or of a root.
NUMBERS = re.compile(r"(?<=rest )\d+|(?<=>)\d+|(?<=root )\d+")


def text_of(path):
    try:
        return bytes_of(path).decode("ascii")
    except UnicodeDecodeError:
        raise Wrong(f"{path} cannot be read: it is no text of ours")


def bound(files):
    """The book of so many tables as one call of `renju bind` takes."""
    try:
        done = subprocess.run([PROGRAM, "bind", *files], stdout=subprocess.PIPE, stdin=subprocess.DEVNULL)
    except OSError as error:
        raise Wrong(f"{PROGRAM} cannot be started: {error.strerror}")
    if done.returncode != 0:
        told = re.sub(r"^file (\d+)", lambda number: files[int(number.group(1)) - 1], done.stdout.decode())
        sys.stdout.write(told)
        sys.exit(done.returncode)
    return done.stdout.decode()


def books_of(files):
    """The books of the files in their order: one that is a book, with its path, and those that `bind` writes of the tables between."""
    tables = []
    for path in [*files, None]:
        text = text_of(path) if path else FIRST
        is_book = is_book_text(text)
        if is_book or len(tables) == FILES:
            yield from [("", bound(tables))] if tables else []
            tables = []
        if path:
            if is_book:
                yield path, text
            else:
                tables.append(path)


def is_book_text(text):
    return text.split("\n", 1)[0] == FIRST


class Book:
    """Nodes, each once, and the lines of entries."""

    def __init__(self):
        self.numbers, self.entries = {}, []

    def add(self, text):
        """Adds a book, which is one that `renju bind` wrote or a text of that form."""
        lines = text.split("\n")
        count = int(lines[1].split()[1])
        here = []
        renumbered = lambda line: NUMBERS.sub(lambda number: str(here[int(number.group())]), line)
        for line in lines[2 : 2 + count]:
            here.append(self.numbers.setdefault(renumbered(line), len(self.numbers)))
        rest = lines[3 + count : -1]
        for at in range(0, len(rest), LINES):
            self.entries.append([*rest[at : at + LINES - 1], renumbered(rest[at + LINES - 1])])
        if len(self.entries) > MOST_ENTRIES or len(self.numbers) > MOST_NODES:
            raise Wrong(f"a book has at most {MOST_ENTRIES:,} entries and {MOST_NODES:,} nodes")

    def text(self):
        entries = [line for entry in self.entries for line in entry]
        return "\n".join([FIRST, f"nodes {len(self.numbers)}", *self.numbers, f"entries {len(self.entries)}", *entries, ""])


def join(out, files, is_replaced):
    """Makes one book of the files."""
    book = Book()
    for path, text in books_of(files):
        try:
            book.add(text)
        except (IndexError, ValueError):
            # It is no book in the one spelling, and reading it strictly says why.
            read_file(path)
            raise
    may_be_written = lambda there: is_book_text(there) and (is_replaced or out in files)
    write(out, book.text(), may_be_written, "OUT comes first, and --replace writes over a book")
    print(f"{out}: {len(book.entries)} entries, {len(book.numbers)} nodes")


def book_in(path):
    found = read_file(path)
    if not isinstance(found, boards.Book):
        raise Wrong(f"{path} is no book")
    return found


def listed(paths):
    """A line for each entry of books."""
    for path in paths:
        for number, table in enumerate(book_in(path).tables(), 1):
            stones, nodes = counted(len(table.position.stones()), "stone"), counted(len(table.nodes), "node")
            name = f"{path}: " if paths[1:] else ""
            print(f"{name}entry {number}: {table.words()}; {stones} on {table.position.size()}, {nodes}")


def main():
    words = argparse.ArgumentParser(description=__doc__, formatter_class=argparse.RawDescriptionHelpFormatter)
    does = words.add_mutually_exclusive_group()
    does.add_argument("--list", action="store_true", help="list the entries of books")
    does.add_argument("--take", type=int, metavar="N", help="write the table of an entry")
    does.add_argument("--drop", type=int, metavar="N", help="write the book without an entry")
    does.add_argument("--replace", action="store_true", help="write over a book that is there")
    words.add_argument("files", nargs="*", metavar="FILE", help="OUT, and then tables and books; or books")
    given = words.parse_args()
    if given.list and given.files:
        return listed(given.files)
    if given.take is not None or given.drop is not None:
        (path,) = given.files if len(given.files) == 1 else words.error("name one book")
        book, number = book_in(path), given.drop if given.take is None else given.take
        book.entry(number)
        left = [it for it in range(1, len(book.entries) + 1) if it != number]
        if given.take is None and not left:
            raise Wrong("a book has one entry at least")
        sys.stdout.write(book.of(left).text() if given.take is None else book.table(number).text())
        return 0
    if len(given.files) < 2:
        words.error("name OUT, and then the tables and books that it is made of; --list BOOK lists a book")
    return join(given.files[0], given.files[1:], given.replace)


if __name__ == "__main__":
    saying(main)
