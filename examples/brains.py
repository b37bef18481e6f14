"""A brain as a manager of games sees it: a program that is sent lines of the Gomocup protocol through a pipe, and answers them.

It may say MESSAGE and DEBUG at any time, and may answer a line that has no answer, as INFO, by UNKNOWN or ERROR: such lines are
passed over. What it started ends with it.
"""
import os
import re
import select
import signal
import subprocess
import time

from boards import Wrong

RULE_NUMBERS = {"freestyle": 0, "exact": 1, "renju": 4}
# Lines that a brain may write at any time, and those by which it may answer a line that has no answer.
REMARKS, REFUSALS = ("MESSAGE", "DEBUG"), ("UNKNOWN", "ERROR")
# What a brain answers to a question of the protocol.
ANSWER = re.compile(r"OK|\d+,\d+|.*name=.*|")
# A line is no longer than that; a brain that goes on is no brain.
MOST_BYTES = 1_000_000


class Brain:
    """A running brain. A line is sent, and an answer is waited for no longer than the seconds that are given."""

    def __init__(self, command, seconds=60, remark=lambda line: None):
        self.command, self.seconds, self.remark = command, seconds, remark
        # The bytes after the last line that was read, that line, and how many lines without an answer were sent since the last answer.
        self.kept, self.last, self.unanswered, self.passed_over = b"", "", 0, ""
        try:
            self.running = subprocess.Popen(command, bufsize=0, stdin=subprocess.PIPE, stdout=subprocess.PIPE, start_new_session=True)
        except OSError as error:
            raise Wrong(f"{' '.join(map(str, command))} cannot be started: {error.strerror}")

    def send(self, *lines):
        """Sends lines that have no answer."""
        self.write(lines)
        self.unanswered += len(lines)

    def write(self, lines):
        try:
            self.running.stdin.write("".join(f"{line}\r\n" for line in lines).encode())
        except (BrokenPipeError, ValueError):
            raise Wrong(self.gone())

    def ask(self, *lines):
        """Sends lines, and waits for the one answer to the last of them."""
        self.write(lines)
        self.passed_over, end = "", time.monotonic() + self.seconds
        while True:
            answer = self.line(lines[-1], end)
            if not self.is_passed_over(answer):
                self.unanswered = 0
                return answer
            self.passed_over = answer
            self.remark(answer)

    def line(self, asked, end):
        """The next line that it writes."""
        while b"\n" not in self.kept:
            left = end - time.monotonic()
            if left <= 0 or not select.select([self.running.stdout], [], [], left)[0]:
                said = f", but {self.passed_over}" if self.passed_over else ""
                raise Wrong(f"no answer to {asked} within {self.seconds} s{said}")
            piece = self.running.stdout.read(4096)
            if not piece:
                raise Wrong(self.gone())
            self.kept += piece
            if len(self.kept) > MOST_BYTES:
                raise Wrong(f"its answer to {asked} has more than {MOST_BYTES:,} bytes")
        line, _, self.kept = self.kept.partition(b"\n")
        self.last = line.decode("ascii", "replace").strip()
        return self.last

    def is_passed_over(self, line):
        word = line.partition(" ")[0].upper()
        if word in REFUSALS and self.unanswered:
            self.unanswered -= 1
            return True
        return word in REMARKS

    def gone(self):
        """What a brain said in place of an answer, as that its table is refused, and how it ended."""
        said, end = self.kept, time.monotonic() + 1
        while time.monotonic() < end and select.select([self.running.stdout], [], [], end - time.monotonic())[0]:
            piece = self.running.stdout.read(4096)
            if not piece:
                break
            said += piece
        # What it said last is why it ended, unless it is an answer.
        said = said.decode("ascii", "replace").strip() or (self.last if not ANSWER.fullmatch(self.last) else "")
        return f"the brain ended with status {self.status(1)}" + (f": {said}" if said else "")

    def status(self, seconds):
        """Its status, once it has ended, or once it is killed."""
        try:
            return self.running.wait(seconds)
        except subprocess.TimeoutExpired:
            self.kill()
            return self.running.wait()

    def end(self):
        """Asks it to end, and tells its status."""
        try:
            self.send("END")
            self.running.stdin.close()
        except (Wrong, OSError):
            pass
        status = self.status(self.seconds)
        self.kill()
        self.running.stdout.close()
        return status

    def kill(self):
        """Ends it and what it started."""
        try:
            os.killpg(self.running.pid, signal.SIGKILL)
        except (ProcessLookupError, PermissionError):
            pass
        self.running.wait()
