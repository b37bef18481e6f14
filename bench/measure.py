"""What the scripts beside it share: the program, or another one with the same words, and the time of a run.

Times are those of the processor, which tell more on a busy machine than those of a clock. Where a run takes no longer than a start of
the program, and the machine is busy, they tell little: with INSTRUCTIONS=50 in the environment `compare` counts the instructions of the
first 50 texts instead, by callgrind of valgrind. It is imported before anything is made, so that a script with --help tells what it is
at once.
"""
import os
import re
import resource
import shutil
import subprocess
import sys

HERE = os.path.dirname(os.path.abspath(__file__))
# Of how many texts the instructions are counted, or 0 where times are measured.
COUNTED = os.environ.get("INSTRUCTIONS", "0")
if not COUNTED.isdecimal():
    sys.exit(f"INSTRUCTIONS is a number of texts, not {COUNTED}")
COUNTED = int(COUNTED)
if COUNTED and not shutil.which("valgrind"):
    sys.exit("INSTRUCTIONS asks for valgrind, which is missing here")


def told(kind, error, trace):
    """Ends at an interrupt, or where the reader has gone, without a trace."""
    if not issubclass(kind, (KeyboardInterrupt, BrokenPipeError)):
        sys.__excepthook__(kind, error, trace)
        return
    # What isn't written yet has no reader.
    os.dup2(os.open(os.devnull, os.O_WRONLY), 1)


sys.excepthook = told
if set(sys.argv[1:]) & {"-h", "--help"}:
    name = os.path.basename(sys.argv[0])
    print(f"bench/{name} [PROGRAM [WORD ..]]\n\n{sys.modules['__main__'].__doc__.strip()}")
    sys.exit(0)


def programs():
    """Our program, which is built if it isn't built yet, and the program that the caller's words name, if any."""
    if sys.argv[1:] and not shutil.which(sys.argv[1]):
        sys.exit(f"{os.path.basename(sys.argv[0])}: {sys.argv[1]} is no program that can be run; --help tells the words")
    top = os.path.dirname(HERE)
    subprocess.run([os.path.join(top, "renju")], stdout=subprocess.DEVNULL)
    return [[os.path.join(top, "crates", "renju", "out", "renju")]] + ([sys.argv[1:]] if len(sys.argv) > 1 else [])


def spent():
    """The seconds of the processor that the ended runs have taken."""
    used = resource.getrusage(resource.RUSAGE_CHILDREN)
    return used.ru_utime + used.ru_stime


def run(command, words, text):
    """The seconds of a run, what it printed, and its status."""
    before = spent()
    done = subprocess.run(command + words, input=text, stdout=subprocess.PIPE)
    return spent() - before, done.stdout, done.returncode


def counted(command, words, text):
    """The instructions of a run, what it printed, and its status."""
    counting = ["valgrind", "--tool=callgrind", "--callgrind-out-file=/dev/null"]
    done = subprocess.run(counting + command + words, input=text, stdout=subprocess.PIPE, stderr=subprocess.PIPE)
    return int(re.search(rb"Collected : (\d+)", done.stderr).group(1)), done.stdout, done.returncode


def best(command, words, text, wanted, runs=5):
    """The least seconds of some runs, each of which has to print what is wanted."""
    least = float("inf")
    for _ in range(runs):
        seconds, printed, status = run(command, words, text)
        if wanted not in printed:
            sys.exit(f"{' '.join(command + words)}: status {status}, printed {printed[:200]!r}")
        least = min(least, seconds)
    return least


def in_turns(all_programs, words, text, runs=5):
    """For each program the least seconds of some runs over the text, the least of some starts alone, and what it answers. The
    programs and the starts take turns, so that a change of the machine's pace meets all of them."""
    took = [[float("inf"), float("inf"), None] for _ in all_programs]
    for _ in range(runs):
        for program, best in zip(all_programs, took):
            seconds, *answer = run(program, words, text)
            best[0] = min(best[0], seconds)
            best[1] = min(best[1], run(program, [], b"")[0])
            best[2] = answer
    return took


def compare(all_programs, words, texts, looked, what="positions", runs=5):
    """Prints for each program how many of what it looks at it does per second, with its starts taken off. All have to answer the same."""
    if COUNTED:
        compare_counts(all_programs, words, texts[:COUNTED])
        return
    took = [in_turns(all_programs, words, text, runs) for text in texts]
    for i, program in enumerate(all_programs):
        started = sum(each[i][1] for each in took)
        seconds = sum(each[i][0] for each in took) - started
        print(f"{' '.join(program)}: {looked} {what} in {seconds:.3f} s, {looked / seconds:,.0f} {what}/s; so many starts alone {started:.3f} s")
    if any(best[2] != each[0][2] for each in took for best in each):
        sys.exit("the programs do not answer the same")


def compare_counts(all_programs, words, texts):
    """Prints for each program how many instructions a text takes, with those of a start taken off. All have to answer the same."""
    answers = []
    for program in all_programs:
        start = counted(program, [], b"")[0]
        runs = [counted(program, words, text) for text in texts]
        each = sum(it[0] - start for it in runs) / len(texts)
        print(f"{' '.join(program)}: {each:,.0f} instructions for each of {len(texts)}; a start {start:,}")
        answers.append([it[1:] for it in runs])
    if any(it != answers[0] for it in answers):
        sys.exit("the programs do not answer the same")
