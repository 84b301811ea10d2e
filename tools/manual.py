#!/usr/bin/env python3
"""Runs the commands that pages show, and compares what they print with what the pages show.

    python3 tools/manual.py             compares, and prints each block that differs
    python3 tools/manual.py --write     puts what the commands print into the pages
    python3 tools/manual.py --write PAGE ..    into these

A block of code counts where its first line begins with `$ euclid`. Each line of it that begins with `$ ` is a command, of
the shell, and below it is what it prints to both streams, up to the next command. A line `..` stands for any lines; the
block is then left alone by --write where it fits. A block runs in a folder of its own, with copies of library/ and
examples/, so that commands that write do no harm. The program is release/elements, or the one that ELEMENTS names.
"""

import os
import re
import shutil
import subprocess
import sys
import tempfile
from concurrent.futures import ThreadPoolExecutor
from pathlib import Path

TOP = Path(__file__).resolve().parent.parent
PAGES = ["README.md", "CONTRIBUTING.md", "docs/*.md", "examples/**/*.md", "library/**/*.md", "editors/*.md"]
PROMPT, ELLIPSIS = "$ ", ".."
COPIED = ("library", "examples")
SECONDS = 120


def blocks_of(text):
    """The blocks that count: the numbers of the first and of the last line of each, from 0, and its lines."""
    start, found = None, []
    lines = text.split("\n")
    for number, line in enumerate(lines):
        if not line.startswith("```"):
            continue
        if start is None:
            start = number + 1
        else:
            if lines[start].startswith(PROMPT + "euclid"):
                found.append((start, number, lines[start:number]))
            start = None
    return found


def parts_of(lines):
    """The commands of a block, each with the lines that are shown below it."""
    parts = []
    for line in lines:
        if line.startswith(PROMPT):
            parts.append((line, []))
        else:
            parts[-1][1].append(line)
    return parts


def fits(shown, printed):
    """Whether lines are as shown, where `..` stands for any lines."""
    pattern = "".join("(?s:.*)" if line == ELLIPSIS else re.escape(line) + "\n" for line in shown)
    return re.fullmatch(pattern, "".join(line + "\n" for line in printed)) is not None


def printed(command, folder, top):
    """The lines that a command prints."""
    path = f"{top / 'bin'}:{os.environ.get('PATH', '')}"
    environment = {**os.environ, "PATH": path, "NO_COLOR": "1", "COLUMNS": "100", "LC_ALL": "C.UTF-8"}
    try:
        done = subprocess.run(["bash", "-c", command], cwd=folder, env=environment, stdin=subprocess.DEVNULL,
                              stdout=subprocess.PIPE, stderr=subprocess.STDOUT, timeout=SECONDS, check=False)
    except subprocess.TimeoutExpired:
        return [f"no end after {SECONDS} seconds"]
    text = done.stdout.decode("utf-8", "replace")
    return text.removesuffix("\n").split("\n") if text else []


def renewed(lines, top):
    """The lines of a block with what its commands print; lines that fit stay as they are."""
    new = []
    with tempfile.TemporaryDirectory() as name:
        for each in COPIED:
            if (top / each).is_dir():
                shutil.copytree(top / each, Path(name) / each)
        for command, shown in parts_of(lines):
            found = printed(command.removeprefix(PROMPT), name, top)
            new += [command, *(shown if fits(shown, found) else found)]
    return new


def renewed_pages(top, pages=None):
    """Each page that has such blocks: its path, and for each block its place, its lines, and these renewed."""
    pages = pages or [page for pattern in PAGES for page in sorted(top.glob(pattern))]
    found = [(page, block) for page in pages for block in blocks_of(page.read_text(encoding="utf-8"))]
    with ThreadPoolExecutor(2) as pool:
        news = pool.map(lambda pair: renewed(pair[1][2], top), found)
        return [(page, *block, new) for (page, block), new in zip(found, news)]


def check(top, pages=None):
    """The lines of pages that commands do not print so, as findings."""
    for page, start, _, lines, new in renewed_pages(top, pages):
        if lines != new:
            pairs = enumerate(zip(lines + [""], new + [""]))
            at, (line, instead) = next(((at, pair) for at, pair in pairs if pair[0] != pair[1]), (0, ("", "")))
            yield page, start + at + 1, f"the command prints {instead!r}, not {line!r}: see tools/manual.py"


def write(top, pages=None):
    """Puts what the commands print into the pages."""
    for page, start, end, _, new in reversed(renewed_pages(top, pages)):
        lines = page.read_text(encoding="utf-8").split("\n")
        if lines[start:end] != new:
            print(f"{page.relative_to(top)}:{start + 1}: renewed")
            page.write_text("\n".join([*lines[:start], *new, *lines[end:]]), encoding="utf-8")


def main(words):
    if words[:1] == ["--write"]:
        write(TOP, [Path(word).resolve() for word in words[1:]])
        return 0
    if words:
        print(__doc__)
        return 3
    findings = list(check(TOP))
    for page, number, what in findings:
        print(f"{page.relative_to(TOP)}:{number}: {what}")
    return 1 if findings else 0


if __name__ == "__main__":
    sys.exit(main(sys.argv[1:]))
