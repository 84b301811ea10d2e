"""The process of a worker: reads jobs from standard input, writes answers to standard output.

Each job has so much processor time, and the process so much memory; a job that passes either ends
the process, and the pool begins another.
"""

from __future__ import annotations

import os
import resource
import sys
from pathlib import Path

sys.dont_write_bytecode = True
if __package__ in (None, ""):
    sys.path[0] = str(Path(__file__).resolve().parents[2])

from euclid import program  # noqa: E402
from euclid.serve.jobs import JOBS  # noqa: E402
from euclid.serve.pool import Data, read, write  # noqa: E402

SECONDS, MEGABYTES = 5, 256


def limit_time() -> None:
    """Gives the next job its processor time."""
    used = resource.getrusage(resource.RUSAGE_SELF)
    whole = int(used.ru_utime + used.ru_stime) + SECONDS + 1
    resource.setrlimit(resource.RLIMIT_CPU, (whole, resource.getrlimit(resource.RLIMIT_CPU)[1]))


def answer(job: Data) -> Data:
    """The answer to a job; what goes wrong in it is told, and ends nothing."""
    try:
        return JOBS[str(job["kind"])](job)
    except MemoryError:
        os._exit(3)
    except Exception as error:  # whatever a stranger has sent
        return {"error": f"{type(error).__name__}: {error}"[:200]}


def main() -> None:
    """Jobs until the pool is gone."""
    program.most_seconds = SECONDS
    out, source = os.fdopen(os.dup(1), "wb"), sys.stdin.buffer
    os.dup2(2, 1)  # nothing else goes to the pool
    resource.setrlimit(resource.RLIMIT_AS, (MEGABYTES << 20, MEGABYTES << 20))
    while (job := read(source)) is not None:
        limit_time()
        write(out, answer(job))


if __name__ == "__main__":
    main()
