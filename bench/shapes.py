"""Runs a program on the shapes of bench/README.md and prints one table of instructions, user seconds and answers, and how chains grow.

Words: the program, and the one that writes the texts to be verified, if that is another. Instructions are counted by valgrind, or by perf
where valgrind is not there. The least user seconds of some runs count. z3 answers the same questions about magnitudes, where it is there.
The exit status is 1 where an answer is not the expected one.
"""

import math
import os
import re
import resource
import shutil
import signal
import subprocess
import sys
import tempfile
from collections import namedtuple

HERE = os.path.dirname(os.path.abspath(__file__))
JOINED = [sys.executable, f"{HERE}/../tools/join.py"]
BOOK = [*JOINED, f"{HERE}/../library/book-1"]
BOOKS = [*JOINED, f"{HERE}/../library"]
THEOREMS = 263  # of all books
RUNS = 5
LIMIT = 60  # processor seconds of a run
# Counting takes some fifty times as long as the run: it has a limit of its own, and is not tried where the run took longer than this.
COUNT_LIMIT, COUNTED = 180, 3
CHAINS = (50, 100, 200, 400, 500)
GROWTH = (*zip(CHAINS, CHAINS[1:]), (100, 400))  # between which sizes of chains
REFUSED = 7

# What is run: the words after the program, what makes its text, the answer, whether z3 is asked the same questions, and the version of a
# derivation text that is verified.
Row = namedtuple("Row", "shape size words maker answer is_asked version", defaults=[False, 1])
Ran = namedtuple("Ran", "seconds out")


def rows():
    for size in CHAINS:
        yield grown("chain", size, "accepted 1", True)
    for size in (40, 80):
        yield grown("claims", size, "accepted 1", True)
    yield grown("differing", 80, "accepted 1", True)
    for shape in ("cancelling", "cancelling-strict"):
        for size in (10, 20, 30, 40):
            yield grown(shape, size, "unlicensed T 1")
    yield Row("Book I", 93, ["check"], BOOK, "accepted 93", True)
    for form in ("lean", "blanks", "most-blanks"):
        yield Row(f"Book I, {form}", 93, ["check"], script("book_one.py", form), "accepted 93")
    yield Row("Books I to IV", THEOREMS, ["check"], BOOKS, f"accepted {THEOREMS}")
    for kind in range(REFUSED):
        made = script("growing.py", "refused", "2000", str(kind))
        yield Row(f"refused, step {kind}", 2000, ["check"], made, "unlicensed T 1")
    for size in (50, 500):
        yield Row("trial", size, ["trial", str(size)], ["true"], f"trial {size} theorems {size}")
    yield Row("verify, Book I", 93, ["verify"], BOOK, "verified 93")
    for version in (1, 2):
        yield Row(f"verify, I to IV, v{version}", THEOREMS, ["verify"], BOOKS, f"verified {THEOREMS}", version=version)
    yield Row("verify, sums", 40, ["verify"], script("sums.py", "40"), "verified 40")


def script(name, *words):
    return [sys.executable, f"{HERE}/{name}", *words]


def grown(shape, size, answer, is_asked=False):
    return Row(shape, size, ["check"], script("growing.py", shape, str(size)), answer, is_asked)


def run(words, text, to, limit):
    """One run with its user seconds and what it wrote, or None where it does not end within the limit."""
    before = resource.getrusage(resource.RUSAGE_CHILDREN).ru_utime
    with open(text, "rb") as given, open(to, "wb") as out:
        ran = subprocess.run(words, stdin=given, stdout=out, stderr=subprocess.DEVNULL, preexec_fn=lambda: at_most(limit), check=False)
    if ran.returncode in (-signal.SIGXCPU, -signal.SIGKILL):
        return None
    seconds = resource.getrusage(resource.RUSAGE_CHILDREN).ru_utime - before
    with open(to, encoding="ascii") as out:
        return Ran(seconds, [line.strip() for line in out if not line.startswith("|")])


def at_most(limit):
    resource.setrlimit(resource.RLIMIT_CPU, (limit, limit + 1))


def least(words, text, to):
    """The run of several that took the least, or the only one where that takes long."""
    best = run(words, text, to, LIMIT)
    for _ in range(RUNS - 1):
        if best is None or best.seconds > 1:
            break
        best = min(best, run(words, text, to, LIMIT) or best)
    return best


class Counter:
    """Counts the instructions of a run."""

    def __init__(self, room):
        self.log = f"{room}/count"
        self.said = f"{room}/said"
        valgrind = ["valgrind", "--tool=callgrind", "--callgrind-out-file=/dev/null", f"--log-file={self.log}"]
        perf = ["perf", "stat", "-x,", "-e", "instructions:u", "-o", self.log]
        for self.front, self.number in ((valgrind, r"Collected : (\d+)"), (perf, r"(?m)^(\d+),")):
            if shutil.which(self.front[0]) and self.count(["true"], os.devnull) is not None:
                return
        self.front = None

    def count(self, words, text):
        """How many, or None where that cannot be counted or takes too long."""
        if self.front is None or run([*self.front, *words], text, self.said, COUNT_LIMIT) is None:
            return None
        with open(self.log, encoding="utf-8", errors="replace") as log:
            found = re.search(self.number, log.read())
        return int(found.group(1)) if found else None


class Table:
    def __init__(self, program, writer, room):
        self.program, self.writer, self.room = program, writer, room
        self.counter = Counter(room)
        self.z3 = shutil.which("z3")
        self.wrong = 0
        self.costs = {}

    def print(self, shape, size, count, ran, answer):
        """A row, with what is known of its costs."""
        millions = "-" if count is None else "%.1f" % (count / 1e6)
        seconds = "-" if ran is None else "%.3f" % ran.seconds
        print("%-20s %5d %14s %9s  %s" % (shape, size, millions, seconds, answer), flush=True)

    def measured(self, words, text, to):
        ran = least(words, text, to)
        is_counted = ran is not None and ran.seconds < COUNTED
        return ran, self.counter.count(words, text) if is_counted else None

    def row(self, row):
        text, to = f"{self.room}/text", f"{self.room}/out"
        with open(text, "wb") as made:
            subprocess.run(row.maker, stdout=made, check=True)
        if row.words == ["verify"]:
            book, text = text, f"{self.room}/derivation"
            if run([self.writer, "check"], book, text, LIMIT) is None:
                self.print(row.shape, row.size, None, None, "its text was not written in time")
                return
            if row.version == 2:
                run([self.writer, "upgrade"], text, book, LIMIT)
                text = book
        ran, count = self.measured([self.program, *row.words], text, to)
        self.costs[row.shape, row.size] = count, ran and ran.seconds
        if ran is None:
            self.print(row.shape, row.size, None, None, "not ended")
            return
        answer = ran.out[-1] if ran.out else ""
        is_right = (answer + " ").startswith(row.answer + " ")
        self.wrong += not is_right
        self.print(row.shape, row.size, count, ran, answer if is_right else f"{answer}   WRONG: not {row.answer}")
        if row.is_asked and is_right and self.z3:
            self.ask(row, to)

    def ask(self, row, derivation):
        """Asks z3 what the derivation shows was asked."""
        questions, to = f"{self.room}/questions", f"{self.room}/answers"
        with open(questions, "wb") as made:
            subprocess.run(script("questions.py", derivation), stdout=made, check=True)
        with open(questions, encoding="ascii") as made:
            expected = [line.split("; ")[1].strip() for line in made if line.startswith("(check-sat)")]
        ran, count = self.measured([self.z3, questions], os.devnull, to)
        answer = f"{len(expected)} questions, {expected.count('unsat')} unsat"
        if ran is None:
            answer = "not ended"
        elif ran.out != expected:
            self.wrong += 1
            answer += "   WRONG: not its answers"
        self.print(f"  z3, {row.shape}", row.size, count, ran, answer)

    def growth(self):
        """The power of n with which the cost of a chain grows from one size to another."""
        for one, two in GROWTH:
            pairs = zip(self.costs["chain", one], self.costs["chain", two], ("instructions", "seconds"))
            known = [(math.log(b / a), by) for a, b, by in pairs if a and b]
            if known:
                power, by = known[0]
                print("chain, %d to %d: grows with the power %.2f of n, by %s" % (one, two, power / math.log(two / one), by))


def main(program, writer=None):
    with tempfile.TemporaryDirectory() as room:
        table = Table(program, writer or program, room)
        by = "not counted: neither valgrind nor perf can" if table.counter.front is None else "counted by " + table.counter.front[0]
        print(f"instructions in millions, {by}")
        print("%-20s %5s %14s %9s  %s" % ("shape", "n", "instructions", "user s", "answer"))
        for row in rows():
            table.row(row)
        table.growth()
        if table.z3 is None:
            print("z3 is not here, so it was not asked the same questions")
    if table.wrong:
        sys.exit(f"{table.wrong} answers are not the expected ones")


if __name__ == "__main__":
    main(*sys.argv[1:])
