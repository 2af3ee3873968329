"""The files that commands read and write.

`-` is standard input or standard output. An output has its name only when it is whole: until then
it is a temporary file beside it. So a failure leaves an older file as it was, and an output that is
one of the inputs is refused.
"""

from __future__ import annotations

import io
import os
import shutil
import sys
import tempfile
from collections.abc import Iterable, Iterator, Sequence
from contextlib import contextmanager
from itertools import chain
from typing import BinaryIO

from tool import unfinished
from tool.trouble import (
    BAD_DATA,
    NO_INPUT,
    NO_OUTPUT,
    NO_STANDARD_OUTPUT,
    USAGE,
    ClosedPipe,
    Trouble,
)

STANDARD = "-"
# What is read at once.
BLOCK = 1 << 18
STREAMS = (0, 1, 2)


class Unfinished(Exception):
    """What was to be written is not whole: an older file of that name stays as it is."""


def keep_streams() -> None:
    """Opens the null device for each standard stream that is closed.

    Else the next file that is opened would be taken for it. Python has no object for such a stream.
    """
    for number in STREAMS:
        try:
            os.fstat(number)
        except OSError:
            os.open(os.devnull, os.O_RDWR)


def is_standard(name: str | None) -> bool:
    """Whether the name is that of a standard stream."""
    return name is None or name == STANDARD


def shown_name(name: str) -> str:
    """The name of an input in messages."""
    return "standard input" if name == STANDARD else name


@contextmanager
def opened_to_read(name: str) -> Iterator[BinaryIO]:
    """A file, or standard input, open for reading."""
    if name == STANDARD:
        if sys.stdin is None:
            raise Trouble(NO_INPUT, "cannot read standard input: it is closed")
        yield sys.stdin.buffer
        return
    try:
        file = open(name, "rb")  # pylint: disable=consider-using-with
    except OSError as error:
        raise Trouble(NO_INPUT, f"cannot read {name}: {error.strerror}") from error
    with file:
        yield file


def read_bytes(name: str) -> bytes:
    """The bytes of a file, or of standard input."""
    with opened_to_read(name) as file:
        try:
            return file.read()
        except OSError as error:
            raise _unread(name, error) from error


def read_input(name: str, most: int, what: str) -> bytes:
    """The bytes of a file that may have so many; of a longer one no more are read. `what`
    says what it is to be, as a case."""
    with opened_to_read(name) as file:
        try:
            data = file.read(most + 1)
        except OSError as error:
            raise _unread(name, error) from error
    if len(data) > most:
        said = f"{shown_name(name)} is longer than {most:,} bytes, which {what} has at most"
        raise Trouble(BAD_DATA, said)
    return data


def blocks_of(name: str) -> Iterator[list[bytes]]:
    """Yields the lines of a file, some at a time, each with its line feed."""
    with opened_to_read(name) as file:
        while True:
            try:
                lines = file.readlines(BLOCK)
            except OSError as error:
                raise _unread(name, error) from error
            if not lines:
                return
            yield lines


def lines_of(name: str) -> Iterator[str]:
    """Yields the lines of a text file. A byte that is not UTF-8 is a lone surrogate."""
    return chain.from_iterable(_text_blocks(name))


def _text_blocks(name: str) -> Iterator[list[str]]:
    """Yields the lines of a text file, some at a time."""
    with opened_to_read(name) as file:
        text = io.TextIOWrapper(file, "utf-8", errors="surrogateescape", newline="\n")
        try:
            while lines := text.readlines(BLOCK):
                yield lines
        except OSError as error:
            raise _unread(name, error) from error
        finally:
            # The file is closed, or standard input stays open, where it was opened.
            text.detach()


def _unread(name: str, error: OSError) -> Trouble:
    return Trouble(NO_INPUT, f"cannot read {shown_name(name)}: {error.strerror}")


@contextmanager
def rereadable(name: str) -> Iterator[str]:
    """The name of a file with the same bytes that can be read twice."""
    if name != STANDARD and (os.path.isfile(name) or not os.path.exists(name)):
        yield name
        return
    with tempfile.TemporaryDirectory(prefix="zehimbado-") as folder:
        copy = os.path.join(folder, "copy")
        with opened_to_read(name) as file, written(copy) as sink:
            shutil.copyfileobj(file, sink)
        yield copy


@contextmanager
def written(name: str | None, inputs: Sequence[str | None] = ()) -> Iterator[BinaryIO]:
    """Standard output, or a file that has its name when this ends without an exception."""
    if name is None or name == STANDARD:
        with standard_output() as sink:
            yield sink
        return
    refuse_inputs(name, inputs)
    try:
        with _named(name) as sink:
            yield sink
    except OSError as error:
        if error.filename is not None and not _is_beside(name, str(error.filename)):
            raise
        raise Trouble(NO_OUTPUT, f"cannot write {name}: {error.strerror}") from error


def _is_beside(name: str, other: str) -> bool:
    """Whether a file is an output or its temporary one."""
    folders = [os.path.dirname(os.path.realpath(it)) for it in (name, other)]
    return folders[0] == folders[1]


@contextmanager
def standard_output() -> Iterator[BinaryIO]:
    """Standard output, which is flushed at the end."""
    if sys.stdout is None:
        raise Trouble(NO_STANDARD_OUTPUT, "cannot write standard output: it is closed")
    try:
        yield sys.stdout.buffer
        sys.stdout.flush()
    except BrokenPipeError as error:
        leave_output()
        raise ClosedPipe from error
    except OSError as error:
        if error.filename is not None:
            # Another file: a write to a stream that is open has no name.
            raise
        leave_output()
        said = f"cannot write standard output: {error.strerror}"
        raise Trouble(NO_STANDARD_OUTPUT, said) from error


def leave_output() -> None:
    """Ends standard output, so that Python writes nothing more to it."""
    os.dup2(os.open(os.devnull, os.O_WRONLY), 1)


def write_lines(lines: Iterable[str], name: str | None = None, inputs: Sequence[str] = ()) -> None:
    """Writes lines to standard output, or to a file."""
    with written(name, inputs) as sink:
        sink.writelines(f"{line}\n".encode("utf-8", errors="surrogateescape") for line in lines)


def refuse_inputs(name: str, inputs: Sequence[str | None]) -> None:
    """Refuses a file that is one of the inputs, by whatever path or link."""
    for source in inputs:
        if _is_same_file(name, source):
            said = f"{name} is what is read: the output needs another file"
            raise Trouble(USAGE, said)


def _is_same_file(name: str, source: str | None) -> bool:
    """Whether an output is the file that is read."""
    try:
        if source is not None and source != STANDARD:
            return os.path.isfile(name) and os.path.samefile(name, source)
        return os.path.isfile(name) and os.path.samestat(os.stat(name), os.fstat(0))
    except OSError:
        return False


@contextmanager
def _named(name: str) -> Iterator[BinaryIO]:
    """The file of this name: a device or a pipe as it is, else a new file that takes the name."""
    if os.path.exists(name) and not os.path.isfile(name):
        with open(name, "wb") as sink:
            yield sink
        return
    target = os.path.realpath(name)
    with unfinished.begun(target) as (sink, temporary):
        yield sink
        sink.flush()
        os.chmod(temporary, _mode_of(target))
        os.replace(temporary, target)


def _mode_of(target: str) -> int:
    """The permissions of a file that is there, or else of a new one."""
    try:
        return os.stat(target).st_mode & 0o7777
    except OSError:
        mask = os.umask(0)
        os.umask(mask)
        return 0o666 & ~mask
