#!/usr/bin/env python3
"""The one text of a library: its files in order, after those of the libraries that it needs.

    python3 tools/join.py FOLDER [--files]

A library is a folder with a `book.toml`: `title`, `needs` (folders, relative to it, whose files come before) and `files`,
in order. What is needed more than once comes once, before its first user. With --files the names of the files are
printed, a line each, in place of what they hold.
"""

import sys
import tomllib
from pathlib import Path


class Faulty(Exception):
    """A library that cannot be joined, and why."""


def files_of(folder, done=None, above=()):
    """The files of the library in this folder, in order, without those of libraries that are done."""
    done = set() if done is None else done
    page = folder / "book.toml"
    if folder in above:
        raise Faulty(f"{page}: it needs itself")
    if folder in done:
        return []
    try:
        book = tomllib.loads(page.read_text(encoding="utf-8"))
    except (OSError, ValueError) as error:
        raise Faulty(f"{page}: {error}") from error
    files = []
    for other in book["needs"]:
        files += files_of((folder / other).resolve(), done, (*above, folder))
    done.add(folder)
    return files + [folder / name for name in book["files"]]


def joined(folder):
    """The bytes of all files of the library in this folder."""
    return b"".join(path.read_bytes() for path in files_of(Path(folder).resolve()))


def main(folder, *options):
    try:
        if options == ("--files",):
            print("\n".join(map(str, files_of(Path(folder).resolve()))))
        else:
            sys.stdout.buffer.write(joined(folder))
    except (Faulty, OSError, KeyError) as error:
        print(f"join: {error}", file=sys.stderr)
        return 2
    return 0


if __name__ == "__main__":
    sys.exit(main(*sys.argv[1:]) if sys.argv[1:] else __doc__)
