"""`euclid lsp`."""

from __future__ import annotations

import argparse
import os
import sys

from ..lsp.server import Server

HELP = """A language server for editors, over standard input and output.

It speaks the Language Server Protocol 3.17: docs/editors.md says how an editor starts it.

example: nvim --cmd 'set rtp+=editors/vim' --cmd 'luafile editors/nvim/elements.lua' library/book-1/I.05.book
"""


def arguments(parser: argparse.ArgumentParser) -> None:
    """The words of the command."""
    parser.add_argument("--stdio", action="store_true", help="the only way to speak with it, and what it does anyway")


def run(args: argparse.Namespace) -> int:
    """One session. The thread that reads may still wait for bytes, so the process ends at once."""
    status = Server(sys.stdin.buffer, sys.stdout.buffer).serve()
    sys.stderr.flush()
    os._exit(status)
