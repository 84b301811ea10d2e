"""The words that several commands take."""

from __future__ import annotations

import argparse
from collections.abc import Iterable
from pathlib import Path


def add_paths(parser: argparse.ArgumentParser) -> None:
    """The words that name books and libraries."""
    parser.add_argument("paths", nargs="*", type=Path, metavar="BOOK|LIBRARY",
                        help="files, or folders with a book.toml; where there is none, the folder you are in")


def add_json(parser: argparse.ArgumentParser) -> None:
    """The word for tools."""
    parser.add_argument("--json", action="store_true", help="one object of JSON a line")


def add_step(parser: argparse.ArgumentParser) -> None:
    """The words that name a step."""
    parser.add_argument("title", metavar="TITLE", help="the title of a theorem")
    parser.add_argument("step", type=positive, metavar="STEP", help="the number of a step in it, from 1")


def positive(word: str) -> int:
    """A number of at least 1."""
    if not word.isdigit() or not 1 <= int(word[:9]) <= 99_999:
        raise argparse.ArgumentTypeError(f"`{word}` is no number of a step")
    return int(word)


def close_to(word: str, words: Iterable[str]) -> str:
    """A hint at words that are like this one."""
    import difflib

    found = difflib.get_close_matches(word, list(words), 3, 0.75)
    return f"; did you mean {' or '.join(f'`{each}`' for each in found)}?" if found else ""
