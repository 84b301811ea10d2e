"""What was accepted, verified by `elements verify` and by tools/verify.py, which share no code."""

from __future__ import annotations

import subprocess
import sys

from .answers import check
from .diagnose import Report
from .checking import Verdict
from .program import SECONDS, Missing, run
from .places import TOP

VERIFIER = TOP / "tools" / "verify.py"


class Differ(Exception):
    """The program and a verifier do not agree: the message says how."""


def verified_twice(report: Report) -> None:
    """Verifies the derivations of the accepted theorems. Raises `Differ`, or `Missing`."""
    answer = check(accepted_text(report))
    count = report.count(Verdict.ACCEPTED)
    said = {"elements check": f"accepted {count}" if answer.is_accepted() and answer.count == count else answer.kind}
    said["elements verify"] = run(["verify"], answer.derivation).output.strip().rsplit("\n", 1)[-1]
    said["tools/verify.py"] = other_verdict(answer.derivation)
    wanted = {"elements check": f"accepted {count}", "elements verify": f"verified {count}",
              "tools/verify.py": f"verified {count}"}
    if said != wanted:
        told = ", ".join(f"`{who}` says `{what}`" for who, what in said.items())
        raise Differ(f"the verifiers differ, of {count} accepted: {told}; please report this")


def accepted_text(report: Report) -> str:
    """The items that were accepted, with empty lines for all else."""
    kept = {line.number for item, outcome in zip(report.book.items, report.outcomes.items)
            if outcome.verdict == Verdict.ACCEPTED for line in item.lines}
    return "".join((line.text if line.number in kept else "") + "\n" for line in report.book.lines)


def other_verdict(text: str) -> str:
    """What tools/verify.py says of a derivation text."""
    try:
        done = subprocess.run([sys.executable, str(VERIFIER)], input=text.encode("latin-1"), capture_output=True,
                              timeout=SECONDS * 10, check=False)
    except (OSError, subprocess.TimeoutExpired) as error:
        raise Missing(f"tools/verify.py could not be run: {error}") from None
    if done.returncode not in (0, 1, 2):
        raise Missing(f"tools/verify.py ended with the status {done.returncode}")
    return done.stdout.decode("latin-1").strip()
