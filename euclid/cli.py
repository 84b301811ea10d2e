"""The command line: finds the command, and turns what goes wrong into exit statuses."""

from __future__ import annotations

import argparse
import importlib
import os
import sys
from typing import NoReturn, Protocol, cast

from . import program
from .library import Faulty, Place
from .messages import FAILED, FAULTY, WRONG_USE, Message, WrongUse, tell

COMMANDS = (
    "apply",
    "check",
    "draw",
    "facts",
    "fill",
    "find",
    "fmt",
    "give",
    "graph",
    "lsp",
    "pages",
    "rename",
    "serve",
    "strip",
    "trim",
    "why",
)


class Command(Protocol):
    """A module of `euclid.commands`."""

    HELP: str  # the first line is its summary; at the end is an example

    def arguments(self, parser: argparse.ArgumentParser) -> None:
        """Declares the words that it takes."""

    def run(self, args: argparse.Namespace) -> int:
        """Does it, and gives the exit status."""


class Parser(argparse.ArgumentParser):
    """A parser that ends with the status of wrong use."""

    def error(self, message: str) -> NoReturn:
        print(f"euclid: {message}\nsee: {self.prog} --help", file=sys.stderr)
        raise SystemExit(WRONG_USE)


def command(name: str) -> Command:
    """The module of a command."""
    return cast(Command, importlib.import_module(f"euclid.commands.{name}"))


def parser_of(name: str) -> Parser:
    """The parser of one command."""
    module = command(name)
    raw = argparse.RawDescriptionHelpFormatter
    parser = Parser(prog=f"euclid {name}", description=module.HELP, formatter_class=raw, allow_abbrev=False)
    module.arguments(parser)
    return parser


def overview() -> str:
    """What `euclid --help` says."""
    rows = [f"  {name:8} {command(name).HELP.strip().splitlines()[0]}" for name in COMMANDS]
    return "\n".join(["usage: euclid COMMAND ..", "", "The companion of `elements`, the proof checker for System E.", "",
                      *rows, "", "example: euclid check library/book-1", "",
                      "euclid COMMAND --help has each, with an example; euclid --version names both programs."])


def main(words: list[str]) -> int:
    """Runs one command line, and gives its exit status."""
    try:
        return dispatch(words)
    except SystemExit as end:
        return end.code if isinstance(end.code, int) else WRONG_USE
    except WrongUse as wrong:
        print(f"euclid: {wrong}", file=sys.stderr)
        return WRONG_USE
    except Faulty as fault:
        tell(Message(Place(fault.path, fault.line), "error", fault.message))
        return FAULTY
    except program.Missing as missing:
        print(f"euclid: {missing}", file=sys.stderr)
        return FAILED
    except BrokenPipeError:
        os.dup2(os.open(os.devnull, os.O_WRONLY), sys.stdout.fileno())
        return 0
    except KeyboardInterrupt:
        return 130
    except OSError as error:
        said = f"{error.filename}: {error.strerror}" if error.filename and error.strerror else f"{type(error).__name__}: {error}"
        print(f"euclid: {said}", file=sys.stderr)
        return FAILED
    except (MemoryError, RecursionError) as error:
        print(f"euclid: {type(error).__name__}: {error}", file=sys.stderr)
        return FAILED


def dispatch(words: list[str]) -> int:
    """The command that the first word names."""
    if not words or words[0] in ("--help", "-h", "help"):
        print(overview())
        return 0 if words else WRONG_USE
    if words[0] == "--version":
        print(f"euclid of elements {program.released() or 'unreleased'}\nelements {program.version()} at {program.program()}")
        return 0
    if words[0] not in COMMANDS:
        raise WrongUse(f"no command is named `{words[0]}`; the commands are {' '.join(COMMANDS)}")
    args = parser_of(words[0]).parse_intermixed_args(words[1:])
    status = command(words[0]).run(args)
    sys.stdout.flush()
    return status
