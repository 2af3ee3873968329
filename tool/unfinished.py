"""Outputs that are being written: each is a hidden file beside its name, locked by the process that
writes it. One that no process has locked was left by a process that was killed."""

from __future__ import annotations

import contextlib
import fcntl
import functools
import glob
import os
import stat
import tempfile
from collections.abc import Iterator
from contextlib import contextmanager
from typing import BinaryIO

MARK = ".zehimbado"
# So many characters of the output's name are in that of the hidden file, which may not be too long.
FRONT = 50


@contextmanager
def begun(target: str) -> Iterator[tuple[BinaryIO, str]]:
    """A hidden file beside a file of this name, open to be written, and its own name. Where it is
    not renamed it is removed at the end."""
    folder, base = os.path.split(target)
    remove_left(folder)
    file, name = _locked(folder, base)
    try:
        with file:
            yield file, name
    finally:
        with contextlib.suppress(FileNotFoundError):
            os.unlink(name)


def _locked(folder: str, base: str) -> tuple[BinaryIO, str]:
    """A new hidden file that this process has locked, and its name."""
    while True:
        prefix = f".{base[:FRONT]}."
        handle, name = tempfile.mkstemp(prefix=prefix, suffix=MARK, dir=folder)
        # A file that can't be locked is nowhere taken for one that was left.
        with contextlib.suppress(OSError):
            fcntl.flock(handle, fcntl.LOCK_EX)
        # Before it was locked another process may have taken it for one.
        if os.fstat(handle).st_nlink:
            return os.fdopen(handle, "wb"), name
        os.close(handle)


@functools.lru_cache(maxsize=None)
def remove_left(folder: str) -> None:
    """Removes the hidden files of a folder that killed processes have left, once in each run."""
    for name in glob.iglob(os.path.join(glob.escape(folder), f".*{MARK}")):
        with contextlib.suppress(OSError):
            _remove_unlocked(name)


def _remove_unlocked(name: str) -> None:
    """Removes a file if no process has locked it; an error where one has."""
    handle = os.open(name, os.O_RDONLY | os.O_NOFOLLOW | os.O_NONBLOCK)
    try:
        if stat.S_ISREG(os.fstat(handle).st_mode):
            fcntl.flock(handle, fcntl.LOCK_EX | fcntl.LOCK_NB)
            os.unlink(name)
    finally:
        os.close(handle)
