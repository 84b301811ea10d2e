"""Runs `PROGRAM check` on books and prints a table of their sizes, times and memory.

Words: the program, and the books in ascending order. Each book is run several times, and the least time counts.
"""

import fcntl
import os
import resource
import subprocess
import sys
import time

RUNS = 5


def timed(program, book):
    """Seconds, processor seconds of the child, its status and its last line."""
    before = resource.getrusage(resource.RUSAGE_CHILDREN)
    with open(book, "rb") as text:
        start = time.perf_counter()
        ran = subprocess.run([program, "check"], stdin=text, stdout=subprocess.PIPE)
        seconds = time.perf_counter() - start
    after = resource.getrusage(resource.RUSAGE_CHILDREN)
    processor = after.ru_utime + after.ru_stime - before.ru_utime - before.ru_stime
    return seconds, processor, ran.returncode, ran.stdout.decode().splitlines()[-1]


def peak(program, book):
    """The most KiB that the program had in memory.

    The peak that getrusage tells of a child is never below that of this interpreter, which is more than the program
    takes. So the system is asked while the program waits to write: the pipe holds one page, so it lives until its
    last page is read.
    """
    most = 0
    reads, writes = os.pipe()
    fcntl.fcntl(writes, fcntl.F_SETPIPE_SZ, 4096)
    with open(book, "rb") as text, os.fdopen(reads, "rb", 0) as written:
        run = subprocess.Popen([program, "check"], stdin=text, stdout=writes)
        os.close(writes)
        while written.read(4096):
            with open(f"/proc/{run.pid}/status") as status:
                own = [line.split()[1] for line in status if line.startswith("VmHWM:")]
            most = max([most, *map(int, own)])
        run.wait()
    return most


def main(program, books):
    head = ("book", "bytes", "seconds", "processor", "ratio", "peak KiB", "answer")
    print("%-8s %9s %9s %10s %6s %9s  %s" % head)
    before = None
    for book in books:
        runs = [timed(program, book) for _ in range(RUNS)]
        seconds, processor = min(r[0] for r in runs), min(r[1] for r in runs)
        if any(r[2] != 0 for r in runs):
            sys.exit(f"{book}: {runs[0][3]}")
        size = os.path.getsize(book)
        ratio = "" if before is None else "%.2f" % (processor / before)
        before = processor
        row = ("%d MiB" % (size >> 20), size, seconds, processor, ratio, peak(program, book), runs[0][3])
        print("%-8s %9d %9.3f %10.3f %6s %9d  %s" % row)


if __name__ == "__main__":
    main(sys.argv[1], sys.argv[2:])
