"""`euclid serve`."""

from __future__ import annotations

import argparse
import os
from pathlib import Path

from ..messages import WrongUse
from ..program import program
from ..places import TOP
from ..serve.pool import Pool
from ..serve.server import Server, Site

HELP = """Serves a page on which books are written and checked: a classroom on one machine.

FOLDER has the lessons, files of TOML; without it those of the repository are shown. It listens on
this machine alone, unless --listen names an address of it. Nothing is stored, and nothing is asked
of any other machine.

example: euclid serve --port 8080
"""
WARM = "theorem warm\npoints a b\ngiven a != b\nshow b != a\nproof\napply I.10 a b as c\nqed\nend\n"  # what a worker begins with
LIBRARIES = {"Book I": "library/book-1", "School": "library/school", "Books I to IV": "library"}


def arguments(parser: argparse.ArgumentParser) -> None:
    """The words of the command."""
    parser.add_argument("folder", nargs="?", type=Path, default=TOP / "lessons", metavar="FOLDER", help="the lessons")
    parser.add_argument("--listen", default="127.0.0.1", metavar="ADDRESS", help="the address to listen on")
    parser.add_argument("--port", type=int, default=8737, help="the port; 0 takes a free one")
    parser.add_argument("--workers", type=int, default=os.cpu_count() or 1, help="how many checks at once")


def run(args: argparse.Namespace) -> int:
    """Serves until it is interrupted."""
    if not args.folder.is_dir():
        raise WrongUse(f"{args.folder} is no folder")
    if not 1 <= args.workers <= 64 or not 0 <= args.port < 65536:
        raise WrongUse("there are 1 to 64 workers, and ports up to 65535")
    program()
    libraries = {name: str(TOP / folder) for name, folder in LIBRARIES.items() if (TOP / folder).is_dir()}
    pool = Pool(args.workers, warm={"kind": "check", "text": WARM, "folder": libraries.get("Book I", ""), "euclid": True})
    server = Server((args.listen, args.port), Site(str(args.folder.resolve()), libraries), pool)
    host = f"[{args.listen}]" if ":" in args.listen else args.listen
    print(f"http://{host}:{server.server_address[1]}/", flush=True)
    try:
        server.serve_forever()
    except KeyboardInterrupt:
        pass
    finally:
        server.server_close()
        pool.end()
    return 0
