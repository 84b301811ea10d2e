"""Finds the program `elements`, and runs it within limits of time and memory."""

from __future__ import annotations

import os
import resource
import shutil
import subprocess
from collections.abc import Sequence
from dataclasses import dataclass
from functools import lru_cache
from pathlib import Path

from .places import TOP

SECONDS, MEGABYTES = 60.0, 2048
PLACES = (TOP / "release" / "elements", TOP / "crates" / "elements" / "out" / "elements")
SUMS = TOP / "release" / "SHA256SUMS"


class Missing(Exception):
    """There is no program, or it could not be run as it should: the message says which."""


@dataclass(frozen=True)
class Run:
    """What a run of the program gave."""

    status: int
    output: str

    def lines(self) -> list[str]:
        """The lines of the output."""
        return self.output.split("\n")[:-1] if self.output.endswith("\n") else self.output.split("\n")


most_seconds = float("inf")  # of any run of this process; a server of strangers narrows it


@lru_cache(maxsize=1)
def program() -> Path:
    """Where `elements` is: the variable ELEMENTS, the release, what the gate built, or the path."""
    named = os.environ.get("ELEMENTS")
    if named:
        found = shutil.which(named)
        if found is None:
            raise Missing(f"the variable ELEMENTS names {named}, which is no program")
        return Path(found).resolve()
    for place in PLACES:
        if place.is_file() and os.access(place, os.X_OK):
            return place
    on_path = shutil.which("elements")
    if on_path is None:
        raise Missing("no program `elements`: release/elements is not there, and neither is one on the path")
    return Path(on_path)


def limited(seconds: float, megabytes: int) -> None:
    """Sets the limits of the process that is about to begin; narrower ones of this process stay."""
    whole = max(1, int(seconds + 0.999))
    for kind, soft, hard in ((resource.RLIMIT_CPU, whole, whole + 1), (resource.RLIMIT_AS, megabytes << 20, megabytes << 20)):
        most = resource.getrlimit(kind)[1]
        if most != resource.RLIM_INFINITY:
            soft, hard = min(soft, most), min(hard, most)
        resource.setrlimit(kind, (soft, hard))


def run(words: Sequence[str], text: str | bytes, seconds: float = SECONDS, megabytes: int = MEGABYTES) -> Run:
    """Runs `elements` with these words on a text, which is Latin-1 where it is a string."""
    data = text.encode("latin-1") if isinstance(text, str) else text
    seconds = min(seconds, most_seconds)
    command = ["elements " + " ".join(words)]
    try:
        done = subprocess.run([str(program()), *words], input=data, stdout=subprocess.PIPE, stderr=subprocess.PIPE,
                              timeout=seconds * 2 + 5, check=False, preexec_fn=lambda: limited(seconds, megabytes))
    except subprocess.TimeoutExpired:
        raise Missing(f"`{command[0]}` ran out of time, after {seconds:g} seconds") from None
    except OSError as error:
        raise Missing(f"`{program()}` cannot be run: {error.strerror}") from None
    if done.returncode < 0:
        raise Missing(f"`{command[0]}` was ended by signal {-done.returncode}: out of time ({seconds:g} s) "
                      f"or memory ({megabytes} MB)")
    output = done.stdout.decode("latin-1")
    if output.rstrip("\n").rsplit("\n", 1)[-1] in ("no memory", "read fault", "write fault"):
        raise Missing(f"`{command[0]}` answered: {output.rstrip().rsplit(chr(10), 1)[-1]}")
    return Run(done.returncode, output)


@lru_cache(maxsize=1)
def version() -> str:
    """The program's version, where its sum is that of the release; else `unreleased`; and its sum."""
    import hashlib

    own = hashlib.sha256(program().read_bytes()).hexdigest()
    said = SUMS.read_text(encoding="ascii").split() if SUMS.is_file() else []
    name = said[2] if said[:2] == ["#", "elements"] and own in said else "unreleased"
    return f"{name} (sha256 {own[:12]})"


def released() -> str:
    """The newest version that CHANGELOG.md names."""
    page = TOP / "CHANGELOG.md"
    if page.is_file():
        for line in page.read_text(encoding="utf-8").split("\n"):
            words = line.strip("#[] ").split()
            if line.startswith("## ") and words and words[0].strip("[]")[:1].isdigit():
                return words[0].strip("[],")
    return ""
