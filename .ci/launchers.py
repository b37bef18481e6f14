#!/usr/bin/env python3
"""Runs the launchers with a toolchain that is a script, and the first command of README with the real one, and prints what fails, each in
a line that begins with FAILED.
"""
import os
import pty
import re
import shutil
import signal
import subprocess
import sys
import tempfile
from contextlib import contextmanager
from pathlib import Path

from trying import PROGRAM, SECONDS, TOP, expect, launched, path_with, tried

# The first command of README compiles the program, on a machine that may have other work.
SECONDS_TO_COMPILE = 900
# The parts of the help, each with its command, and first that of all of them.
PARTS = [("", "")]
for line in (TOP / "docs" / "help.txt").read_text().splitlines(True):
    if line.startswith("== "):
        PARTS.append((line[3:].strip(), ""))
    else:
        PARTS[-1] = (PARTS[-1][0], PARTS[-1][1] + line)


def unproved():
    """What `unproved` makes of the words, of the toolchain's answer, and of an input that cannot be had. The toolchain is a script here."""
    notice = "unproved: this takes about two minutes of a processor; what is answered is NOT PROVED, and ./renju {} proves it\n"
    echo = 'echo "$@"; cat; echo "checked: ended status=9" >&2; echo "run=ended status=9 runners=1 proved=no" >&2; exit 9'
    with path_with(rt=echo) as (env, folder):
        expect(
            "unproved: the words", launched("unproved", ["fours", "5", "3"], input=b"text\n", env=env, cwd=folder),
            (9, "try --seconds 600 -- fours 5 3\ntext\n", notice.format("fours 5 3")),
        )
        expect(
            "unproved: no input is asked", launched("unproved", ["drill", "0"], input=b"text\n", env=env)[1],
            "try --seconds 600 -- drill 0\n",
        )
        Path(folder, "a table").write_text("")
        told = f"try --seconds 600 --data table={folder}/a table -- brain table\n"
        expect("unproved: a file", launched("unproved", ["brain", "a table"], env=env, cwd=folder)[1], told)
        files = f"try --seconds 600 --data table1={folder}/a table --data table3={folder}/a table -- bind table1 table2 table3\n"
        expect(
            "unproved: files", launched("unproved", ["bind", "a table", "none", "a table"], input=b"text\n", env=env, cwd=folder)[1], files,
        )
        covered = f"try --seconds 600 --data table3={folder}/a table -- cover 1 7,7 table3\ntext\n"
        expect(
            "unproved: files of a cover", launched("unproved", ["cover", "1", "7,7", "a table"], input=b"text\n", env=env, cwd=folder)[1], covered,
        )
        joined = f"try --seconds 600 --data table2={folder}/a table -- join 7,7 table2\ntext\n"
        expect("unproved: files of a join", launched("unproved", ["join", "7,7", "a table"], input=b"text\n", env=env, cwd=folder)[1], joined)
        expect("unproved: no file", launched("unproved", ["brain", "none"], env=env, cwd=folder)[1], "try --seconds 600 -- brain table\n")
        ours, theirs = pty.openpty()
        status, output, errors = launched("unproved", ["brain"], stdin=theirs, env=env)
        expect(
            "unproved: a brain at a terminal", f"{status} {output}{errors}",
            re.compile("70 unproved: brain answers here only once its input has ended, .*\n"),
        )
        os.close(ours), os.close(theirs)
    with path_with(rt='echo "src/main.rt:1: it is no program" >&2; exit 1') as (env, _):
        status, output, errors = launched("unproved", ["foul"], env=env)
        expect(
            "unproved: no answer", f"{status} {output}{errors}",
            f"70 {notice.format('foul')}src/main.rt:1: it is no program\n"
            "unproved: the program gave no answer; one has at most 1 MiB, and 600 seconds\n",
        )
    with tempfile.TemporaryDirectory() as folder:
        for name in ("bash", "readlink", "dirname"):
            os.symlink(shutil.which(name), f"{folder}/{name}")
        expect(
            "unproved: no toolchain", launched("unproved", ["foul"], env={"PATH": folder}),
            (70, "", "unproved: the toolchain's command rt is not on the path\n"),
        )


def first_command():
    """The first command that README shows, as a user runs it in a clone with nothing built."""
    if not shutil.which("rt"):
        print("rt is missing here: the first command of README is not run")
        return
    command, output = re.search(r"^```\n\$ (\./unproved .*)\n((?:.+\n)+)```$", (TOP / "README.md").read_text(), re.M).groups()
    done = subprocess.run(["bash", "-c", command], cwd=TOP, stdin=subprocess.DEVNULL, capture_output=True, timeout=SECONDS_TO_COMPILE)
    expect("README.md: the first command", (done.returncode, done.stdout.decode()), (0, output))


@contextmanager
def small_repository(minute=60):
    """A repository with the launcher, whose minute may be short: the program's crate, one below it, and one that it doesn't need."""
    with tempfile.TemporaryDirectory() as folder:
        top = Path(folder, "a repository")
        for crate in ("low", "apart", "renju"):
            for part, file in (("src", "lib.rt"), ("must-fail", "wrong.edit"), ("out", "kept")):
                (top / "crates" / crate / part).mkdir(parents=True)
                (top / "crates" / crate / part / file).write_text("")
        (top / "crates" / "renju" / "stdin").write_text("")
        (top / "crates.txt").write_text("# the crates\nrenju: low std\napart:\nlow:\n")
        (top / "HANDLES").write_text("Handles allowed: none.\n")
        (top / "docs").mkdir()
        shutil.copy(TOP / "docs" / "help.txt", top / "docs")
        (top / "renju").write_text((TOP / "renju").read_text().replace("read -r -t 60", f"read -r -t {minute}"))
        (top / "renju").chmod(0o755)
        yield top


# A toolchain that tells which files it was given, proves two crates and leaves a program that prints its words.
TOOLCHAIN = """[ "$*" = ci ] || exit 2
find . -type f | grep -v '^./.git/' | sort >"$SEEN"
cat crates.txt >>"$SEEN"
echo "== low"; echo "fn low::one: proved"; sleep {pause}; echo "rt: low proved"
{between}
mkdir -p crates/renju/out
printf '#!/bin/sh\\necho "$@"\\nexit 9\\n' >crates/renju/out/renju && chmod +x crates/renju/out/renju
echo "== renju"; echo "rt: renju proved"; echo "rt: renju ran, and wrote what its file stdout has"; echo "2 passed, 0 failed" """
FAILING = """echo "== low"; echo "fn low::one: proved"; echo "src/lib.rt:7:5: error: it is two"; echo "logic=not-proved"
echo "rt: low NOT PROVED"; echo "rt: renju NOT PROVED: its library low failed"; echo "rt: FAILED: low renju"
echo "0 passed, 2 failed"; exit 1"""
BUILDING = "building renju, which proves its 2 crates: 1 to 1 min, depending on the machine, where \\d+ processors do nothing else\n"


@contextmanager
def builder(pause=0, between=":", toolchain=TOOLCHAIN):
    """An environment whose toolchain is a script, and whose folder for what is passing is empty, with that folder."""
    with tempfile.TemporaryDirectory() as kept, tempfile.TemporaryDirectory() as told:
        with path_with(rt=toolchain.replace("{pause}", str(pause)).replace("{between}", between)) as (env, _):
            yield {**env, "TMPDIR": kept, "SEEN": f"{told}/seen"}, Path(kept)


def built():
    """The launcher builds where a source is newer: over a copy of what the program needs, telling how far it is."""
    with small_repository(minute=1) as top, builder(pause=1.5) as (env, kept):
        # A busy machine may have more silence.
        silence = "(at work on {}, \\d+ s\n)"
        told = f"{silence.format('low')}+1 of 2 low, \\d+ s\n{silence.format('renju')}*2 of 2 renju, \\d+ s\n"
        status, output, errors = launched(top / "renju", ["drill", "0"], env=env)
        expect("renju: a build", f"{status} {output}{errors}", re.compile(f"9 drill 0\n{BUILDING}{told}renju is built, \\d+ s\n"))
        files = "./HANDLES\n./crates.txt\n./crates/low/src/lib.rt\n./crates/renju/src/lib.rt\n./crates/renju/stdin\n"
        expect("renju: what a build is given", Path(env["SEEN"]).read_text(), f"{files}low:\nrenju: low std\n")
        expect("renju: nothing is left behind", [*kept.iterdir()], [])
        link = kept / "link"
        link.symlink_to(top / "renju")
        expect("renju: no build, over a link from another folder", launched(link, ["foul"], env=env, cwd=kept), (9, "foul\n", ""))
    with small_repository() as top, builder(between=f"touch \"$CHANGED\"") as (env, kept):
        (top / ".git").mkdir()
        env["CHANGED"] = str(top / "crates" / "low" / "src" / "lib.rt")
        for name in ("a source that changes in mid-build", "the build after it"):
            expect(f"renju: {name}", "building" in launched(top / "renju", ["foul"], env=env)[2], True)
        expect("renju: nothing is left beside the history", [*(top / ".git").iterdir(), *kept.iterdir()], [])


def asked_itself():
    """A script has the launcher run the program once, and then asks the program itself."""
    with small_repository() as top:
        shutil.copytree(TOP / "examples", top / "examples")
        program = top / "crates" / "renju" / "out" / "renju"
        shutil.copy(PROGRAM, program)
        (top / "renju").write_text(f"#!/bin/sh\necho launched >>'{top}/log'\n[ -e '{top}/built' ] || exit 70\nexec '{program}' \"$@\"\n")
        env = {name: value for name, value in os.environ.items() if name != "RENJU"}
        words, text = [top / "examples" / "solutions.py", "--depth", "2", "--jobs", "1"], (TOP / "examples" / "three-in-a-row.txt").read_bytes()
        ask = lambda: subprocess.run(words, input=text, capture_output=True, env=env, timeout=SECONDS)
        expect("solutions.py: no program", (ask().returncode, {*(top / "log").read_text().split()}), (1, {"launched"}))
        (top / "built").write_text("")
        (top / "log").unlink()
        done = ask()
        two = "2 of 219 first moves win within 2 moves" in done.stdout.decode()
        expect("solutions.py: the launcher runs once", (done.returncode, two, (top / "log").read_text()), (4, True, "launched\n"))


def unbuilt():
    """Without a toolchain the program that is there runs; and a build that fails says which crates did and why."""
    with small_repository() as top, builder() as (env, _):
        launched(top / "renju", ["foul"], env=env)
        os.utime(top / "crates" / "low" / "src" / "lib.rt", (4e9, 4e9))
        without = {**env, "PATH": "/usr/bin:/bin"}
        if shutil.which("rt", path=without["PATH"]):
            print("rt is in /usr/bin or /bin here: the launcher is not run without it")
        else:
            newer = "renju: a source is newer than the program, which runs as it is: the toolchain's command rt is not on the path\n"
            expect("renju: no toolchain", launched(top / "renju", ["foul"], env=without), (9, "foul\n", newer))
            os.remove(top / "crates" / "renju" / "out" / "renju")
            nothing = "renju is not built: the toolchain's command rt is not on the path\n"
            expect("renju: no program", launched(top / "renju", ["foul"], env=without), (70, "", nothing))
    with small_repository() as top, builder(toolchain=FAILING) as (env, kept):
        status, output, errors = launched(top / "renju", ["foul"], env=env)
        why = "the crate low failed:\nsrc/lib.rt:7:5: error: it is two\nrt: low NOT PROVED\nrt: FAILED: low renju\n"
        expect("renju: a build that fails", f"{status} {output}{errors}", re.compile(f"70 {BUILDING}{re.escape(why)}renju is not built\n"))
        expect("renju: nothing is left behind by a failure", [*kept.iterdir()], [])
    with small_repository() as top, builder() as (env, _):
        (top / "HANDLES").unlink()
        status, output, errors = launched(top / "renju", ["foul"], env=env)
        expect("renju: a copy that fails", f"{status} {output}{errors}", re.compile(f"70 {BUILDING}cp: .*HANDLES.*\nrenju is not built\n"))
    with small_repository() as top, builder(between="echo 'rt: renju: the program ended with status 1'; exit 1") as (env, _):
        errors = launched(top / "renju", ["foul"], env=env)[2]
        expect("renju: a program that fails", errors.splitlines()[2:], ["rt: renju: the program ended with status 1", "renju is not built"])


def interrupted():
    """An end in mid-build leaves nothing, and what a second launcher waits for it takes over."""
    for send, status in (("terminate", 143), ("send_signal", 130)):
        with small_repository() as top, builder(pause=30) as (env, kept):
            build = subprocess.Popen([top / "renju", "foul"], stdin=subprocess.DEVNULL, stderr=subprocess.PIPE, env=env)
            build.stderr.readline()
            build.terminate() if send == "terminate" else build.send_signal(signal.SIGINT)
            expect(f"renju: an end in mid-build with {status}", (build.wait(10), build.stderr.read()), (status, b"renju is not built\n"))
            build.stderr.close()
            expect(f"renju: nothing is left behind by an end with {status}", [*kept.iterdir()], [])
    with small_repository() as top, builder(pause=2) as (env, _):
        first = subprocess.Popen([top / "renju", "foul"], stdin=subprocess.DEVNULL, stdout=subprocess.PIPE, stderr=subprocess.PIPE, env=env)
        first.stderr.readline()
        waits = "renju: another build is at work here, and is waited for\n" if shutil.which("flock") else ""
        if waits:
            expect("renju: a second build", launched(top / "renju", ["foul"], env=env), (9, "foul\n", waits))
        expect("renju: the first of two builds", first.communicate()[0], b"foul\n")


# Words without a form, and what is said of them.
WRONG_WORDS = [
    ([], "the first word is a command; ./renju help names them"),
    (["solv", "5", "5"], "there is no command solv; ./renju help names them"),
    ([""], "there is no command ; ./renju help names them"),
    (["solve"], "the form is renju solve DEPTH NODES < POSITION; ./renju help solve tells more"),
    (["solve", "5", "5", "5"], "the form is renju solve DEPTH NODES < POSITION; ./renju help solve tells more"),
    (["solve", "1000", "5"], "DEPTH is 1 to 60, not 1000; ./renju help solve tells more"),
    (["solve", "05", "5"], "DEPTH is 1 to 60, not 05; ./renju help solve tells more"),
    (["solve", "5", "-1"], "NODES is 1 to 10,000,000, not -1; ./renju help solve tells more"),
    (["check", "99999999999999999999"], "WORK is 1 to 1,000,000,000,000, not 99999999999999999999; ./renju help check tells more"),
    (["foul", "5"], "the form is renju foul < POSITION; ./renju help foul tells more"),
    (["image", "half, flip-x"], re.compile("SYMMETRY is one of identity, .*, not half, flip-x; ./renju help image tells more")),
    (["brain", ""], "FILE is empty; ./renju help brain tells more"),
    (["referee", "t", "t"], "the form is renju referee [FILE] < GAME; ./renju help referee tells more"),
    (["bind"], "FILE is 1 to 64 paths, not 0; ./renju help bind tells more"),
    (["bind", "t", ""], "FILE is empty; ./renju help bind tells more"),
    (["bind", *65 * ["t"]], "FILE is 1 to 64 paths, not 65; ./renju help bind tells more"),
    (["cover", "1"], "the form is renju cover WORK ATTACK FILE .. < POSITION; ./renju help cover tells more"),
    (["cover", "1", "-"], "FILE is 1 to 1,000 paths, not 0; ./renju help cover tells more"),
    (["cover", "0", "-", "t"], "WORK is 1 to 1,000,000,000,000, not 0; ./renju help cover tells more"),
    (["cover", "1", "7,32", "t"], "ATTACK is X,Y or -, not 7,32; ./renju help cover tells more"),
    (["cover", "1", "31,31", "t", ""], "FILE is empty; ./renju help cover tells more"),
    (["join"], "the form is renju join ATTACK FILE .. < POSITION; ./renju help join tells more"),
    (["join", "7,7"], "FILE is 1 to 1,000 paths, not 0; ./renju help join tells more"),
    (["join", "-", "t"], "ATTACK is X,Y, not -; ./renju help join tells more"),
    (["join", "31,31", ""], "FILE is empty; ./renju help join tells more"),
]


def helped():
    """The help is told without a build, and what is said of words without a form, before the program answers them."""
    with small_repository() as top:
        without = {**os.environ, "PATH": "/usr/bin:/bin"}
        parts = dict(PARTS)
        for name, text in parts.items():
            expect(f"renju: help {name}", launched(top / "renju", ["help", *name.split()], env=without), (0, text, ""))
        expect("renju: --help", launched(top / "renju", ["--help"], env=without), (0, parts[""], ""))
        none = "renju: there is no command tell; ./renju help names them\n"
        expect("renju: help of no command", launched(top / "renju", ["help", "tell"], env=without), (1, "", none))
        program = top / "crates" / "renju" / "out" / "renju"
        shutil.copy(PROGRAM, program)
        os.utime(program, (4e9, 4e9))
        for words, said in WRONG_WORDS:
            status, output, errors = launched(top / "renju", words)
            expect(f"renju: {words}", (status, output.partition(" ")[0]), (1, "usage:"))
            wanted = re.compile(f"renju: {said.pattern}\n") if isinstance(said, re.Pattern) else f"renju: {said}\n"
            expect(f"renju: what is said of {words}", errors, wanted)


def bounds():
    """The ranges that the help tells are those of the program: at their ends it takes a word, and one further it has no form."""
    for command, text in PARTS[1:]:
        form, ranges = text.splitlines()[0], dict(re.findall(r"^  ([A-Z]+)  +(\S+(?: \S+)*)", text, re.M))
        words = re.sub(r" [<>].*| \.\.|[][]", "", form).split()[2:]
        expect(f"help.txt: the words of {command} that have a range", [*ranges], words)
        for at, name in enumerate(words):
            for word, is_taken in ends_of(ranges[name]):
                given = [word if other == at else ends_of(ranges[it])[0][0] for other, it in enumerate(words)]
                done = subprocess.run([PROGRAM, command, *given], stdin=subprocess.DEVNULL, capture_output=True, timeout=SECONDS)
                expect(f"help.txt: {name} of {command} is {word}", done.returncode != 1, is_taken)


def ends_of(told):
    """Words at the ends of a range and past them, each with whether it is in the range."""
    if told.startswith("one of "):
        return [(it, True) for it in told[7:].split(", ")] + [("other", False)]
    if "path" in told:
        return [("none", True), ("", False)]
    if told in ("X,Y", "X,Y or -"):
        taken = {"-": told != "X,Y"}
        return [(it, taken.get(it, it in ("0,0", "31,31"))) for it in ("31,31", "0,0", "-", "32,0", "0,32", "00,1", "--", "")]
    least, most = (int(it.replace(",", "")) for it in told.split(" to "))
    return [(str(it), least <= it <= most) for it in (least, most, least - 1, most + 1)]


def examples():
    """The examples of the help end with status 0, and the command's statuses are among those that all have."""
    numbers = re.findall(r"^ +(\d+)  ", dict(PARTS)[""].partition("Statuses:")[2], re.M)
    for command, text in PARTS[1:]:
        told = re.search(r"^Statuses: (.*)\.$", text, re.M | re.S)
        lost = {*re.findall(r"\b\d+\b", re.sub(r"\(.*?\)", "", told[1]))} - {*numbers} if told else "no statuses"
        expect(f"help.txt: statuses of {command}", sorted(lost), [])
        lines = re.findall(r"^  \$ \./renju (.*)", text, re.M)
        expect(f"help.txt: an example of {command}", [it.split()[0] for it in lines], [command])
        for line in lines:
            done = subprocess.run(f"'{PROGRAM}' {line}", shell=True, cwd=TOP, capture_output=True, timeout=SECONDS)
            expect(f"help.txt: {line}", (done.returncode, done.stdout != b""), (0, True))


if __name__ == "__main__":
    sys.exit(tried(unproved, first_command, built, asked_itself, unbuilt, interrupted, helped, bounds, examples))
