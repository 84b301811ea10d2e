"""Runs `bin/euclid` as people do."""

from __future__ import annotations

import contextlib
import io
import os
import subprocess
import sys
from dataclasses import dataclass
from pathlib import Path

from euclid.cli import main

TOP = Path(__file__).resolve().parents[2]


@dataclass
class Done:
    """What a run gave."""

    status: int
    stdout: str
    stderr: str


def inside(*words: str) -> Done:
    """The same in this process, which is quicker."""
    out, errors = io.StringIO(), io.StringIO()
    with contextlib.redirect_stdout(out), contextlib.redirect_stderr(errors):
        status = main(list(words))
    return Done(status, out.getvalue(), errors.getvalue())


def euclid(*words: str, text: bytes = b"", folder: Path = TOP, **variables: str) -> Done:
    """A run with these words, on this standard input, in this folder."""
    environment = os.environ | {"PYTHONIOENCODING": "utf-8", "NO_COLOR": "1"} | variables
    done = subprocess.run([sys.executable, str(TOP / "bin" / "euclid"), *words], input=text, capture_output=True,
                          cwd=folder, env=environment, timeout=120, check=False)
    return Done(done.returncode, done.stdout.decode("utf-8", "replace"), done.stderr.decode("utf-8", "replace"))
