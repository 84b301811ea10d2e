"""Runs the linear decision on systems made from seeds, and prints a table of their times and memory.

The peak that the system tells of a child is never below that of this interpreter, so it is an upper bound of the program's own.
"""

import os
import resource
import subprocess
import sys
import time

SIZES = ((20, 10), (50, 30), (100, 60), (200, 150), (400, 200), (1000, 500))
SEEDS = (1, 2, 3)


def run(program, words):
    """Seconds, the peak in KiB and the line of one run."""
    start = time.perf_counter()
    child = subprocess.Popen([program, *words], stdout=subprocess.PIPE)
    line = child.stdout.read().decode().strip()
    _, status, usage = os.wait4(child.pid, 0)
    child.returncode = status
    return time.perf_counter() - start, usage.ru_maxrss, line


def main(program):
    print("%5s %5s %-5s %9s %9s  %s" % ("rows", "terms", "end", "seconds", "KiB below", "answer"))
    for rows, terms in SIZES:
        for end in ("open", "shut"):
            runs = [run(program, [str(rows), str(terms), str(seed), end]) for seed in SEEDS]
            seconds, peak, line = max(runs)
            print("%5d %5d %-5s %9.3f %9d  %s" % (rows, terms, end, seconds, peak, line.split(": ")[1]))


if __name__ == "__main__":
    main(sys.argv[1])
