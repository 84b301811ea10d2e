#!/usr/bin/env python3
"""Samples what each check of the gate costs, while `rt ci` runs beside it. Ended by SIGTERM, it prints the
processor minutes of each crate for its proof, its tests and its must-fail edits, with the minutes of the
clock at which each began and ended.

    python3 tools/gate_cost.py & rt ci; kill $!
"""

import os
import signal
import sys
import time

PERIOD = 1.0
TICKS = os.sysconf("SC_CLK_TCK")
KINDS = ("proof", "tests", "edits")


def checks():
    """The running processes of checks: an identity, the crate, the kind, and seconds of a processor so far."""
    for pid in filter(str.isdigit, os.listdir("/proc")):
        try:
            with open(f"/proc/{pid}/cmdline", "rb") as it:
                words = it.read().decode(errors="replace").split("\0")
            if not words[0].endswith("/rattle") or "--crate-name" not in words:
                continue
            with open(f"/proc/{pid}/stat") as it:
                fields = it.read().rpartition(")")[2].split()
            folder = os.readlink(f"/proc/{pid}/cwd")
        except (OSError, IndexError):
            continue
        crate = words[words.index("--crate-name") + 1]
        kind = "edits" if "rt-edit-" in folder else "tests" if "--test" in words else "proof"
        yield (pid, fields[19]), crate, kind, sum(map(int, fields[11:13])) / TICKS


def show(costs, spans):
    table = {}
    for crate, kind, seconds in costs.values():
        table.setdefault(crate, dict.fromkeys(KINDS, 0.0))[kind] += seconds / 60
    print(f"{'crate':16} {'proof':>6} {'tests':>6} {'edits':>6} {'sum':>7}   from and to, in minutes")
    for crate, kinds in sorted(table.items(), key=lambda it: -sum(it[1].values())):
        row = " ".join(f"{kinds[kind]:6.1f}" for kind in KINDS)
        when = ", ".join(
            f"{kind} {spans[crate, kind][0] / 60:.0f} to {spans[crate, kind][1] / 60:.0f}"
            for kind in KINDS
            if (crate, kind) in spans
        )
        print(f"{crate:16} {row} {sum(kinds.values()):7.1f}   {when}")
    print(f"{sum(map(lambda it: it[2], costs.values())) / 60:.1f} processor minutes in all", flush=True)


def main():
    costs, spans, began = {}, {}, time.time()

    def end(*_):
        show(costs, spans)
        sys.exit(0)

    signal.signal(signal.SIGTERM, end)
    while True:
        for key, crate, kind, seconds in checks():
            now = time.time() - began
            costs[key] = crate, kind, seconds
            spans[crate, kind] = spans.get((crate, kind), (now,))[0], now
        time.sleep(PERIOD)


main()
