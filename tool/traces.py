"""Traces of loads and stores, by the rules of docs/trace.md: the first fault, the requests, and the
values that plain bytes give.

This is a second reader of traces, written from the documents alone. The program decides what a
valid trace is, and makes the script; the requests here find the answers of a load in a report.
"""

from __future__ import annotations

import re
from dataclasses import dataclass, field

from tool.texts import INPUT_BYTES, MOST_BYTES, MOST_REQUESTS, lines_of, number_of, words_of
from tool.trouble import BAD_DATA, Trouble

MOST_CUBES = 8
MOST_LENGTH = 4_096
MOST_LINE = 4_294_967_295
# Bytes of a block of a bank, of what a request reaches at least, and of a masked write.
BLOCK = 256
GRAIN = 16
HALF = 8
PAIRS = re.compile(r"(?:[0-9a-fA-F]{2})+")


@dataclass(frozen=True)
class Shape:
    """The numbers of a cube. Its blocks have 256 bytes."""

    vault_bits: int
    bank_bits: int
    rows: int

    @property
    def capacity(self) -> int:
        """The bytes of the cube."""
        return BLOCK * self.rows << (self.vault_bits + self.bank_bits)


@dataclass(frozen=True)
class Access:
    """A load of some bytes, or a store of these bytes, at a place of a cube."""

    line: int
    cube: int
    place: int
    length: int
    stored: bytes | None = None

    @property
    def end(self) -> int:
        """The place after the last byte."""
        return self.place + self.length


@dataclass(frozen=True)
class Request:
    """A request of the script: its command, cube, address and payload."""

    command: str
    cube: int
    address: int
    payload: bytes = b""

    @property
    def text(self) -> str:
        """The request as a report has it, without its host."""
        words = f"{self.command} {self.cube} {self.address:#x}"
        return f"{words} {self.payload.hex()}" if self.payload else words

    def __str__(self) -> str:
        return f"0 {self.text}"


@dataclass(frozen=True)
class Load:
    """A load: its access, its requests, and the bytes of their answers before its own."""

    access: Access
    first: int
    count: int
    skip: int


@dataclass
class Trace:
    """The cubes and the accesses of a trace, its requests, and where they have each load."""

    shapes: list[Shape] = field(default_factory=list)
    accesses: list[Access] = field(default_factory=list)
    requests: list[Request] = field(default_factory=list)
    loads: list[Load] = field(default_factory=list)


class BadTrace(Exception):
    """The first fault of a trace: the line, from 1, and the kind."""

    def __init__(self, line: int, kind: str):
        self.line = min(line, MOST_LINE)
        self.kind = kind
        super().__init__(f"bad trace {self.line} {kind}")


def first_fault(data: bytes) -> BadTrace | None:
    """The first fault of a trace, or None."""
    try:
        read(data)
    except BadTrace as fault:
        return fault
    return None


def trace_of(data: bytes, name: str) -> Trace:
    """The trace of a file."""
    if len(data) > INPUT_BYTES:
        said = f"{name} has {len(data):,} bytes, and a trace has at most {INPUT_BYTES:,}"
        raise Trouble(BAD_DATA, said)
    try:
        return read(data)
    except BadTrace as fault:
        raise Trouble(BAD_DATA, f"{name} is not a trace: {fault}") from fault


def read(data: bytes) -> Trace:
    """The trace that the bytes are. Raises BadTrace."""
    try:
        lines = lines_of(data.decode("utf-8"))
    except UnicodeDecodeError:
        raise BadTrace(0, "text") from None
    trace = Trace()
    for number, line in enumerate(lines, 1):
        words = [word.text for word in words_of(line)]
        if words:
            read_line(trace, number, words)
    if not trace.shapes:
        raise BadTrace(len(lines), "cubes")
    return trace


def read_line(trace: Trace, number: int, words: list[str]) -> None:
    """Adds what a line states to the trace."""
    line = Line(number, words)
    if words[0] == "cube":
        trace.shapes.append(shape_of(trace, line))
    else:
        add(trace, access_of(trace, line))


@dataclass
class Line:
    """The words of a line that are left."""

    number: int
    words: list[str]

    def bad(self, kind: str) -> BadTrace:
        """A fault of this line."""
        return BadTrace(self.number, kind)

    def word(self) -> str:
        """The next word."""
        if not self.words:
            raise self.bad("words")
        return self.words.pop(0)

    def value(self) -> int:
        """The number that the next word is."""
        number = number_of(self.word())
        if number is None:
            raise self.bad("number")
        return number

    def below(self, bound: int, kind: str) -> int:
        """The same, less than a bound."""
        number = self.value()
        if number >= bound:
            raise self.bad(kind)
        return number

    def end(self) -> None:
        """No word is left."""
        if self.words:
            raise self.bad("words")


def shape_of(trace: Trace, line: Line) -> Shape:
    """The shape of one more cube."""
    line.word()
    if trace.accesses:
        raise line.bad("word")
    if len(trace.shapes) >= MOST_CUBES:
        raise line.bad("cubes")
    vault_bits, bank_bits = line.below(6, "range"), line.below(5, "range")
    rows = line.below(1025, "range")
    if rows == 0:
        raise line.bad("range")
    line.end()
    shape = Shape(vault_bits, bank_bits, rows)
    if sum(it.capacity for it in (*trace.shapes, shape)) > MOST_BYTES:
        raise line.bad("capacity")
    return shape


def access_of(trace: Trace, line: Line) -> Access:
    """The load or the store of a line."""
    if not trace.shapes:
        raise line.bad("cubes")
    cube = line.below(len(trace.shapes), "cube")
    verb = line.word()
    if verb not in ("load", "store"):
        raise line.bad("word")
    place = line.value()
    stored = bytes_of(line) if verb == "store" else None
    length = line.value() if stored is None else len(stored)
    if not 1 <= length <= MOST_LENGTH:
        raise line.bad("length")
    if place + length > trace.shapes[cube].capacity:
        raise line.bad("range")
    line.end()
    return Access(line.number, cube, place, length, stored)


def bytes_of(line: Line) -> bytes:
    """The bytes of pairs of hexadecimal digits."""
    digits = line.word()
    if not PAIRS.fullmatch(digits):
        raise line.bad("hex")
    return bytes.fromhex(digits)


def add(trace: Trace, access: Access) -> None:
    """Adds an access and its requests."""
    requests = requests_of(access)
    if len(trace.requests) + len(requests) > MOST_REQUESTS:
        raise BadTrace(access.line, "toomany")
    if access.stored is None:
        first, skip = len(trace.requests), access.place % GRAIN
        trace.loads.append(Load(access, first, len(requests), skip))
    trace.requests += requests
    trace.accesses.append(access)


def requests_of(access: Access) -> list[Request]:
    """The requests of an access, in ascending places."""
    requests = []
    for address, size in pieces_of(access):
        if access.stored is None:
            requests.append(Request(f"rd{size}", access.cube, address))
        elif size < GRAIN:
            requests.append(masked(access, address))
        else:
            offset = address - access.place
            payload = access.stored[offset : offset + size]
            requests.append(Request(f"wr{size}", access.cube, address, payload))
    return requests


def pieces_of(access: Access) -> list[tuple[int, int]]:
    """Where an access is cut: places and sizes, those of masked writes with size 8."""
    pieces: list[tuple[int, int]] = []
    run: list[int] = []
    for grain in range(access.place // GRAIN * GRAIN, access.end, GRAIN):
        whole = access.place <= grain and grain + GRAIN <= access.end
        if access.stored is None or whole:
            if run and grain % BLOCK == 0:
                pieces += runs_of(run)
                run = []
            run.append(grain)
        else:
            pieces += runs_of(run)
            run = []
            halves = (grain, grain + HALF)
            pieces += [(it, HALF) for it in halves if it < access.end and access.place < it + HALF]
    return pieces + runs_of(run)


def runs_of(grains: list[int]) -> list[tuple[int, int]]:
    """The requests for neighbouring grains of one block: 16 in one, 9 to 15 as 8 and the rest."""
    if len(grains) <= 8 or len(grains) == BLOCK // GRAIN:
        return [(grains[0], GRAIN * len(grains))] if grains else []
    return [(grains[0], GRAIN * 8), (grains[8], GRAIN * (len(grains) - 8))]


def masked(access: Access, half: int) -> Request:
    """The masked write of what a store has of eight bytes."""
    stored = access.stored or b""
    places = range(half, half + HALF)
    inside = [access.place <= it < access.end for it in places]
    data = bytes(stored[it - access.place] if here else 0 for it, here in zip(places, inside))
    mask = bytes(0xFF if here else 0 for here in inside)
    return Request("bwr", access.cube, half, data + mask)


def plain_values(trace: Trace) -> list[bytes]:
    """The values of the loads, by bytes that are zero at first."""
    memory = [bytearray(shape.capacity) for shape in trace.shapes]
    values = []
    for access in trace.accesses:
        cells = memory[access.cube]
        if access.stored is None:
            values.append(bytes(cells[access.place : access.end]))
        else:
            cells[access.place : access.end] = access.stored
    return values
