"""Children that end with the script, and a lock that ends with it."""

from __future__ import annotations

import contextlib
import fcntl
import os
import signal
import subprocess
import sys
from collections.abc import Iterator, Sequence
from contextlib import contextmanager
from pathlib import Path
from types import FrameType
from typing import Any

from tool.trouble import SIGNALLED, note

ENDING = (signal.SIGTERM, signal.SIGHUP)
# How long a child has to end by itself.
PATIENCE = 10


def _leave(number: int, _: FrameType | None) -> None:
    """Ends the script, and with it what it has started."""
    sys.exit(SIGNALLED + number)


def end_at_signals() -> None:
    """Has the script leave in order where it is asked to end, also at Ctrl-C, unless that is
    ignored."""
    for number in ENDING:
        signal.signal(number, _leave)
    if signal.getsignal(signal.SIGINT) is signal.SIG_DFL:
        signal.signal(signal.SIGINT, signal.default_int_handler)


@contextmanager
def child(words: Sequence[str], **how: Any) -> Iterator[subprocess.Popen[bytes]]:
    """A process in a group of its own, which is ended and waited for if this is left early."""
    with subprocess.Popen(words, start_new_session=True, **how) as running:
        try:
            yield running
        except BaseException:
            end(running)
            raise


def end(running: subprocess.Popen[bytes]) -> None:
    """Asks a process and its group to end, waits for it, and ends it where it does not."""
    ignored = (*ENDING, signal.SIGINT)
    handlers = {number: signal.signal(number, signal.SIG_IGN) for number in ignored}
    try:
        for number in (signal.SIGTERM, signal.SIGKILL):
            with contextlib.suppress(ProcessLookupError):
                os.killpg(running.pid, number)
            with contextlib.suppress(subprocess.TimeoutExpired):
                running.wait(PATIENCE)
                return
    finally:
        for number, handler in handlers.items():
            signal.signal(number, handler)


@contextmanager
def lock(path: Path, waits: str) -> Iterator[None]:
    """Holds a lock of the file. The system ends it with the process that holds it.

    Where another process holds it, `waits` is said first.
    """
    with path.open("rb") as file:
        try:
            fcntl.flock(file, fcntl.LOCK_EX | fcntl.LOCK_NB)
        except BlockingIOError:
            note(waits)
            fcntl.flock(file, fcntl.LOCK_EX)
        yield
