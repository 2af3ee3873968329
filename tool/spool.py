"""Columns of numbers that are too long for memory: they wait in a temporary file, and are packed
from there into a page, as base 64 of what zlib packs."""

from __future__ import annotations

import base64
import json
import tempfile
import zlib
from array import array
from collections.abc import Callable, Iterator
from typing import Any

# A column writes so many of its numbers or bytes at once.
AT_ONCE = 1 << 13
# Each column begins at a multiple of so many bytes, so that the page reads it where it is.
ALIGNED = 8
LEVEL = 6


class Spool:
    """A temporary file with pieces of columns."""

    def __init__(self) -> None:
        self._file = tempfile.TemporaryFile()  # pylint: disable=consider-using-with

    def write(self, data: bytes) -> tuple[int, int]:
        """Writes a piece, and returns where it is and how long."""
        self._file.seek(0, 2)
        place = self._file.tell()
        self._file.write(data)
        return place, len(data)

    def read(self, place: int, size: int) -> bytes:
        """The piece at a place."""
        self._file.seek(place)
        return self._file.read(size)

    def close(self) -> None:
        """The pieces are not needed any more."""
        self._file.close()


class Column:
    """Numbers of one kind, by the letter of Python's array: I and i have 32 bits, H 16 and B 8."""

    def __init__(self, spool: Spool, kind: str):
        self.kind = kind
        self.count = 0
        self._spool = spool
        self._rows = array(kind)
        self._pieces: list[tuple[int, int]] = []
        self.append = self._rows.append

    def extend(self, numbers: bytes | tuple[int, ...]) -> None:
        """Adds numbers."""
        self._rows.extend(numbers)
        if len(self._rows) >= AT_ONCE:
            self.flush()

    def flush(self) -> None:
        """Writes what is not in the file yet, and empties the memory."""
        if self._rows:
            self._pieces.append(self._spool.write(self._rows.tobytes()))
            self.count += len(self._rows)
            del self._rows[:]

    def pieces(self) -> Iterator[bytes]:
        """Yields the bytes of the column, some at a time."""
        self.flush()
        for place, size in self._pieces:
            yield self._spool.read(place, size)


class Packer:
    """Packs columns one after another, then their head and its length, and writes them."""

    def __init__(self, write: Callable[[bytes], object]):
        self._write = write
        self._pack = zlib.compressobj(LEVEL)
        self._rest = b""
        self._size = 0

    def put(self, column: Column) -> list[Any]:
        """Packs a column, and returns its kind, its place and its length."""
        place = self._size
        for piece in column.pieces():
            self._add(piece)
        self._add(bytes(-self._size % ALIGNED))
        return [column.kind, place, column.count]

    def end(self, head: dict[str, Any]) -> None:
        """Packs the head, and its length behind it."""
        text = json.dumps(head, separators=(",", ":")).encode()
        self._add(text + len(text).to_bytes(4, "little"))
        self._encode(self._pack.flush(), is_last=True)

    def _add(self, data: bytes) -> None:
        """Packs bytes."""
        self._size += len(data)
        self._encode(self._pack.compress(data), is_last=False)

    def _encode(self, data: bytes, is_last: bool) -> None:
        """Writes packed bytes, three of them as four digits."""
        data = self._rest + data
        whole = len(data) if is_last else len(data) - len(data) % 3
        self._rest = data[whole:]
        self._write(base64.b64encode(data[:whole]))
