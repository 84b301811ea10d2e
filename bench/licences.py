"""Times one `hence` in scopes of more and more points, with facts in proportion, and counts the linear questions.

Words: the program. For each scope a book of one theorem is made: points, lines and circles, with facts on all of them. Its one step is
a `hence` that is licensed or refused, by arithmetic or by a transfer rule. The least processor time of some runs counts, less that of
the same book with a step that is a fact. The questions are the calls of the linear decision in one run, counted by valgrind
where it is there.
"""

import os
import re
import resource
import shutil
import subprocess
import sys
import tempfile

RUNS = 5
POINTS = (5, 10, 20, 40)
# the calls that decide one linear system: the facts' rows; more facts or a goal's beside them, of a row that says `not 0` both tries; rows
# from nothing. Those that hand on to these may have no call of their own in the program
QUESTIONS = (
    "e_simplex::solved_rows::prepare",
    "e_simplex::table::Table::grown",
    "e_simplex::table::Table::with_all",
    "e_simplex::decision::decide",
)


def names(letter, count):
    return [f"{letter}{i}" for i in range(count)]


def facts(points, lines, circles):
    """Facts in proportion to the points: some of diagrams for each, and one or two of magnitudes."""
    given = []
    n = len(points)
    for i, p in enumerate(points):
        line, circle = lines[i % len(lines)], circles[i % len(circles)]
        following, next_one = points[(i + 1) % n], points[(i + 2) % n]
        given.append(f"on {p} {line}")
        given.append(f"not on {following} {line}")
        given.append(f"{p} != {following}")
        if i >= len(circles):
            given.append(f"on {p} {circle}")
        if i % 2 == 0:
            given.append(f"between {p} {following} {next_one}")
        if i + 2 < n:
            given.append(f"seg {p} {following} = seg {following} {next_one}")
        if i + 3 < n and i % 3 == 0:
            given.append(f"ang {p} {following} {next_one} < ang {following} {next_one} {points[i + 3]}")
    for i, circle in enumerate(circles):
        given.append(f"center {points[i]} {circle}")
    return given


STEPS = {
    "a fact": lambda p, n: f"{p[0]} != {p[1]}",
    "arithmetic, licensed": lambda p, n: f"seg {p[0]} {p[1]} = seg {p[n - 2]} {p[n - 1]}",
    "arithmetic, refused": lambda p, n: f"seg {p[0]} {p[1]} < seg {p[n - 2]} {p[n - 1]}",
    "transfer, licensed": lambda p, n: f"seg {p[0]} {p[2]} = seg {p[0]} {p[(n - 1) // 2 * 2]}",
    "transfer, refused": lambda p, n: f"on {p[(n - 2) // 2 * 2 + 1]} A0",
}


def book(count, step):
    points = names("p", count)
    lines = names("L", max(2, min(24, count // 2)))
    circles = names("A", 2)
    text = ["theorem T", "points " + " ".join(points), "lines " + " ".join(lines), "circles " + " ".join(circles)]
    text += ["given " + fact for fact in facts(points, lines, circles)]
    text += ["show p0 = p0", "proof", "hence " + STEPS[step](points, count), "by eqr-p p0 : p0 = p0", "qed", "end", ""]
    return "\n".join(text)


def timed(program, path):
    least, last = None, ""
    for _ in range(RUNS):
        before = resource.getrusage(resource.RUSAGE_CHILDREN)
        with open(path, "rb") as text:
            ran = subprocess.run([program, "check"], stdin=text, stdout=subprocess.PIPE)
        after = resource.getrusage(resource.RUSAGE_CHILDREN)
        took = after.ru_utime + after.ru_stime - before.ru_utime - before.ru_stime
        least = took if least is None else min(least, took)
        last = [line for line in ran.stdout.decode().splitlines() if not line.startswith("|")][-1]
    return least, last


def calls(program, path, counted):
    """How often the functions whose names begin so are called, or None where that cannot be counted or the program has none of them."""
    valgrind = shutil.which("valgrind")
    with open(program, "rb") as code:
        symbols = code.read()
    if valgrind is None or not any(name.encode() in symbols for name in counted):
        return None
    with tempfile.TemporaryDirectory() as folder:
        out = os.path.join(folder, "calls")
        with open(path, "rb") as text:
            subprocess.run([valgrind, "--tool=callgrind", f"--callgrind-out-file={out}", program, "check"], stdin=text, stdout=subprocess.DEVNULL, stderr=subprocess.DEVNULL)
        times, named, called = 0, {}, ""
        for line in open(out):
            found = re.match(r"(c?)fn=\((\d+)\)(?: (.*))?", line)
            if found:
                number, name = found.group(2), found.group(3)
                if name:
                    named[number] = name
                if found.group(1):
                    called = named.get(number, "")
            elif line.startswith("calls="):
                if called.startswith(counted):
                    times += int(line[6:].split()[0])
                called = ""
        return times


def main(program):
    print("%-22s %7s %10s %7s %9s  %s" % ("hence", "points", "seconds", "ratio", "questions", "answer"))
    with tempfile.TemporaryDirectory() as folder:
        base = {}
        for step in STEPS:
            before = None
            for count in POINTS:
                path = os.path.join(folder, "book")
                with open(path, "w") as text:
                    text.write(book(count, step))
                took, answer = timed(program, path)
                if step == "a fact":
                    base[count] = took
                    alone = took
                else:
                    alone = max(took - base[count], 0.0001)
                ratio = "" if before is None else "%.1f" % (alone / before)
                before = alone
                print("%-22s %7d %10.4f %7s %9s  %s" % (step, count, alone, ratio, calls(program, path, QUESTIONS), answer))


if __name__ == "__main__":
    main(sys.argv[1])
