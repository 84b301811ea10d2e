"""Times `PROGRAM verify` on derivation texts that `PROGRAM check` writes, and its peer Metamath on a database, where that is there.

Words: the program. The least of five runs counts. The ratio is that of processor times to the text before; the rate is in
megabytes (10^6 bytes) of text a second.
"""

import os
import resource
import subprocess
import sys
import tempfile

RUNS = 5
HERE = os.path.dirname(os.path.abspath(__file__))
DATABASES = "/usr/share/metamath/databases"
DATABASE = "iset.mm"


def processor(words, text=None, folder=None):
    """The least processor seconds of some runs, and what the last one printed."""
    least, out = None, b""
    for _ in range(RUNS):
        before = resource.getrusage(resource.RUSAGE_CHILDREN)
        with open(text or os.devnull, "rb") as given:
            out = subprocess.run(words, stdin=given, stdout=subprocess.PIPE, check=False, cwd=folder).stdout
        after = resource.getrusage(resource.RUSAGE_CHILDREN)
        took = after.ru_utime + after.ru_stime - before.ru_utime - before.ru_stime
        least = took if least is None else min(least, took)
    return least, out.decode(errors="replace")


def row(name, size, took, ratio, answer):
    print("%-34s %9d %9.3f %6s %8.2f  %s" % (name, size, took, ratio, size / 1e6 / took, answer))


def main(program):
    print("%-34s %9s %9s %6s %8s  %s" % ("text", "bytes", "processor", "ratio", "MB/s", "answer"))
    before, last = None, None
    with tempfile.TemporaryDirectory() as room:
        for theorems in (40, 80, 160):
            book = subprocess.run([sys.executable, f"{HERE}/sums.py", str(theorems)], stdout=subprocess.PIPE, check=True).stdout
            text = f"{room}/{theorems}.text"
            with open(text, "wb") as to:
                subprocess.run([program, "check"], input=book, stdout=to, check=True)
            took, out = processor([program, "verify"], text)
            row(f"verify, {theorems} theorems", os.path.getsize(text), took, "" if before is None else "%.2f" % (took / before), out.strip())
            before, last = took, text
        took, out = processor(["wc", "-w", last])
        row("wc -w of the last", os.path.getsize(last), took, "", out.split()[0])
        print("verify takes %.1f times as long as wc -w" % (before / took))
    try:
        size = os.path.getsize(f"{DATABASES}/{DATABASE}")
        reads, _ = processor(["metamath", f"read {DATABASE}", "exit"], folder=DATABASES)
        took, out = processor(["metamath", f"read {DATABASE}", "verify proof *", "exit"], folder=DATABASES)
    except OSError:
        print("Metamath (Debian: metamath, metamath-databases) is not here")
        return
    answer = [line.strip() for line in out.splitlines() if "verified" in line or "error" in line]
    row("metamath, iset.mm", size, took, "", answer[-1] if answer else "")
    row("metamath, iset.mm, reading alone", size, reads, "", "")


if __name__ == "__main__":
    main(sys.argv[1])
