"""Writes files: each whole, under another name, and then put in its place."""

from __future__ import annotations

import os
import tempfile
from pathlib import Path


def exchange(path: Path, text: str) -> None:
    """Puts a text, Latin-1 as books are read, in the place of what a file has.

    At every moment the file has the old text or the new one.
    """
    exchange_bytes(path, text.encode("latin-1"))


def exchange_bytes(path: Path, data: bytes, is_synced: bool = True) -> None:
    """Puts bytes in the place of what a file has; what is no plain file is written as it is."""
    given, path = path, path.resolve()
    if path.exists() and not path.is_file():
        path.write_bytes(data)
        return
    try:
        handle, name = tempfile.mkstemp(prefix=f".{path.name}.", dir=path.parent)
    except OSError as error:  # it names the other name
        raise OSError(error.errno, error.strerror, str(given)) from None
    try:
        with os.fdopen(handle, "wb") as file:
            file.write(data)
            file.flush()
            if is_synced:
                os.fsync(file.fileno())
        if path.exists():
            os.chmod(name, path.stat().st_mode & 0o7777)
        else:
            os.chmod(name, 0o666 & ~current_umask())
        os.replace(name, path)
    except BaseException:
        os.unlink(name)
        raise


def current_umask() -> int:
    """The mask of new files."""
    mask = os.umask(0o022)
    os.umask(mask)
    return mask
