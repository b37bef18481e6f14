"""What the tests of scripts and documents share: how a script or a launcher is run, and how what it does is compared.

A test script is a list of groups, and `tried` runs them: what fails is printed, each in a line that begins with FAILED. Its first word
names the program that the scripts use; without a word it is the one that `rt ci` leaves. With --help it tells what it is.
"""
import os
import re
import signal
import subprocess
import sys
import tempfile
from contextlib import contextmanager
from pathlib import Path

sys.dont_write_bytecode = True
TOP = Path(__file__).resolve().parent.parent
EXAMPLES = TOP / "examples"
PROGRAM = os.path.abspath(sys.argv[1] if sys.argv[1:] else TOP / "crates" / "renju" / "out" / "renju")
if {"-h", "--help"} & {*sys.argv[1:]}:
    print(f".ci/{Path(sys.argv[0]).name} [PROGRAM]\n\n{sys.modules['__main__'].__doc__.strip()}")
    sys.exit(0)
if not os.access(PROGRAM, os.X_OK):
    sys.exit(f"FAILED {Path(sys.argv[0]).name}: there is no program {PROGRAM}")
SECONDS = 300
os.environ["RENJU"] = PROGRAM
sys.path.insert(0, str(EXAMPLES))

TEXT = "renju-position 1\nrule freestyle\nsize 15\nblack 5,7 6,7 7,7\nwhite 0,0 2,0 4,0\n"
TABLE = (EXAMPLES / "two-move-win.txt").read_text()

failed = []
# Where the tests run in the background interrupts may be ignored, and would be by all that they start.
signal.signal(signal.SIGINT, signal.default_int_handler)


def expect(name, got, wanted):
    """What is wanted is a text, or a pattern that the whole text fits."""
    fits = wanted.fullmatch(got) if isinstance(wanted, re.Pattern) else got == wanted
    if not fits:
        failed.append(f"FAILED {name}: {got!r}; wanted {wanted.pattern if isinstance(wanted, re.Pattern) else wanted!r}")


def asked(words, text):
    """What the program prints of a text."""
    done = subprocess.run([PROGRAM, *words], input=text.encode(), capture_output=True, timeout=SECONDS)
    return done.stdout.decode()


def run(script, words=(), text=b"", **more):
    text = text.encode() if isinstance(text, str) else text
    done = subprocess.run([EXAMPLES / script, *map(str, words)], input=text, capture_output=True, timeout=SECONDS, **more)
    return done.returncode, done.stdout.decode(), done.stderr.decode()


def fails(name, script, words, text, said):
    """A script that says what is wrong, in a line of its own, and ends with status 1."""
    status, output, errors = run(script, words, text)
    expect(name, f"{status} {output}{errors}", re.compile(rf"1 {re.escape(script)}: .*{said}.*\n"))


@contextmanager
def path_with(**commands):
    """An environment whose path begins with a folder of commands, each a script of the shell, and that folder."""
    with tempfile.TemporaryDirectory() as folder:
        for name, text in commands.items():
            Path(folder, name).write_text(f"#!/bin/sh\n{text}\n")
            Path(folder, name).chmod(0o755)
        yield {**os.environ, "PATH": f"{folder}:{os.environ['PATH']}"}, folder


def launched(script, words, **more):
    more = {"input": b"", **more} if "stdin" not in more else more
    done = subprocess.run([TOP / script, *words], stdout=subprocess.PIPE, stderr=subprocess.PIPE, timeout=SECONDS, **more)
    return done.returncode, done.stdout.decode(), done.stderr.decode()


def tried(*groups):
    """Runs the groups, prints what failed, and tells the status to end with."""
    for group in groups:
        group()
    print("".join(f"{line}\n" for line in failed), end="")
    return 1 if failed else 0
