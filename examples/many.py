#!/usr/bin/env python3
"""Runs one command of `renju` over many texts, as many at once as there are processors, and prints a line for each, in their order.

    many.py [--jobs J] [--keep FOLDER] 'WORDS' FILE ..

WORDS are those of the program, as 'solve 12 100000', 'defend 4 1000' or foul; each FILE stands on standard input of a run of its
own. A line has the file, what was answered, in short, and the seconds that it took. With --keep the whole answers are kept in
FOLDER, each in a file of its own, with a list of what is done: an interrupted run that is begun again goes on where it was, and
a text that has changed is asked again.

The status is 0 where each run ended with status 0, 5 or 9, and else that of the first which didn't, or 1.
"""
import argparse
import hashlib
import sys
import threading
import time
from pathlib import Path

sys.dont_write_bytecode = True

from boards import Table, Wrong, answered, bytes_of, counted, read, saying
from outputs import distinct, replace
from solving import add_jobs, each

HEAD = "renju-answers 1"
COMMANDS = ("check", "foul", "fours", "threats", "solve", "quiet", "image", "referee", "defend", "book")
LONGEST = 100


def in_short(told, status):
    """What was answered, in a line."""
    if told.startswith("renju-table"):
        found = read(told.encode())
        return f"{found.words()}, {counted(len(found.nodes), 'node')}" if isinstance(found, Table) else told.split("\n", 1)[0]
    lines = told.splitlines() or [f"no answer, status {status}"]
    words = " ".join(lines) if len(lines) < 20 else f"{lines[0]} .."
    return words if len(words) <= LONGEST else f"{words[: LONGEST - 3]} .."


class Kept:
    """A folder of answers, and its list of what is done: of each text its hash, the words, the status and the seconds."""

    def __init__(self, folder, words, files):
        self.folder, self.words, self.lock, self.done = folder and Path(folder), " ".join(words), threading.Lock(), {}
        if not self.folder:
            return
        distinct([(file, self.answer(file)) for file in files])
        self.list = self.folder / "done.txt"
        try:
            if self.folder.exists() and any(self.folder.iterdir()) and not self.list.exists():
                raise Wrong(f"{folder} is there already, and holds no answers of this script; name another folder")
            self.folder.mkdir(exist_ok=True)
            self.begin()
        except OSError as error:
            raise Wrong(f"{folder} cannot be used: {error.strerror}")

    def begin(self):
        """Reads the list. A line that an interrupt left without its end isn't counted."""
        text = self.list.read_text(errors="replace") if self.list.exists() else f"{HEAD}\n"
        if not text.startswith(f"{HEAD}\n"):
            raise Wrong(f"{self.list} is no list of answers; name another folder")
        whole = text[: text.rfind("\n") + 1]
        replace(self.list, whole)
        for line in whole.splitlines()[1:]:
            name, words, digest, status, seconds = line.split("\t")
            self.done[name, words] = digest, int(status), float(seconds)

    def answer(self, file):
        """The file of an answer."""
        return self.folder / f"{Path(file).name}.{self.words.replace(' ', '-').replace('/', '-')}.answer"

    def find(self, file, data):
        """The answer that was kept of the same text, with its status and seconds, or None."""
        digest, status, seconds = self.done.get((self.answer(file).name, self.words), (None, 0, 0)) if self.folder else (None, 0, 0)
        if digest != hashlib.sha256(data).hexdigest() or not self.answer(file).exists():
            return None
        return self.answer(file).read_text(), status, seconds

    def add(self, file, data, told, status, seconds):
        if self.folder:
            with self.lock:
                replace(self.answer(file), told)
                line = [self.answer(file).name, self.words, hashlib.sha256(data).hexdigest(), str(status), f"{seconds:.1f}\n"]
                with open(self.list, "a") as out:
                    out.write("\t".join(line))


def run(words, file, kept):
    """What is answered over a file: a line, and the status."""
    try:
        data = bytes_of(file)
    except Wrong as error:
        return str(error), 1
    found = kept.find(file, data)
    if not found:
        began = time.monotonic()
        told, status = answered(words, data)
        found = told, status, time.monotonic() - began
        # A run that was ended by an interrupt has no answer.
        if status >= 0:
            kept.add(file, data, *found)
    told, status, seconds = found
    return f"{file}: {in_short(told, status)}, {seconds:.1f} s", status


def main():
    words = argparse.ArgumentParser(description=__doc__, formatter_class=argparse.RawDescriptionHelpFormatter)
    add_jobs(words)
    words.add_argument("--keep", metavar="FOLDER", help="where answers are kept")
    words.add_argument("words", metavar="WORDS", help="words of renju, in quotes")
    words.add_argument("files", nargs="+", metavar="FILE")
    given = words.parse_args()
    command = given.words.split()
    if not command or command[0] not in COMMANDS:
        raise Wrong(f"{given.words or 'nothing'} is no command over texts: it is one of {', '.join(COMMANDS)} with its numbers, in quotes")
    kept, statuses = Kept(given.keep, command, given.files), []
    for line, status in each(given.jobs, lambda file: run(command, file, kept), given.files):
        print(line, flush=True)
        statuses.append(status)
    return next((max(status, 1) for status in statuses if status not in (0, 5, 9)), 0)


if __name__ == "__main__":
    saying(main)
