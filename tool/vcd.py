"""Writes value change dumps (VCD), the waves that GTKWave shows, and GTKWave's save files."""

from __future__ import annotations

from collections.abc import Iterator
from dataclasses import dataclass
from typing import Union

# The identifiers of signals are written with these signs.
SIGNS = [chr(code) for code in range(33, 127)]
TEXT = "string"
NUMBER = "integer"
FLIT = "flit"
BIT = "bit"
EVENT = "event"
# How each kind is declared: its word in a dump, and its bits.
DECLARED = {
    TEXT: ("string", 1),
    NUMBER: ("integer", 32),
    FLIT: ("wire", 128),
    BIT: ("wire", 1),
    EVENT: ("event", 1),
}
# How GTKWave shows each kind, as the number that its save files have: as text, decimal, in
# hexadecimal, as bits.
SHOWN = {TEXT: "820", NUMBER: "24", FLIT: "22", BIT: "28", EVENT: "28"}
OPENS_GROUP, CLOSES_GROUP = "@800200", "@1000200"
# How a save file opens the window: some 40 steps from the first one, with room for the names and
# the values at the marker.
WINDOW = (
    "[timestart] 0",
    "[size] 1400 960",
    "[pos] 0 0",
    "*-3.000000 0 -1 -1",
    "[sst_width] 160",
    "[signals_width] 320",
    "[sst_expanded] 0",
)
# By the older form, since Python 3.9 computes it.
Value = Union[int, str]


@dataclass(frozen=True)
class Signal:
    """A signal: the scopes that it is in, its name, and its kind."""

    scopes: tuple[str, ...]
    name: str
    kind: str

    @property
    def path(self) -> str:
        """The name with its scopes, as save files have it."""
        bits = f"[{DECLARED[FLIT][1] - 1}:0]" if self.kind == FLIT else ""
        return ".".join([*self.scopes, self.name]) + bits


class Dump:
    """A dump: signals first, and then their changes."""

    def __init__(self) -> None:
        self.signals: list[Signal] = []
        self._kinds: list[str] = []
        self._marks: list[str] = []
        self._values: list[Value | None] = []

    def add(self, scopes: tuple[str, ...], name: str, kind: str = NUMBER) -> int:
        """Adds a signal, and returns its number."""
        number = len(self.signals)
        self.signals.append(Signal(scopes, name, kind))
        self._kinds.append(kind)
        self._marks.append(_identifier(number))
        self._values.append(None)
        return number

    def mark(self, number: int) -> str:
        """The identifier of a signal, for changes that are not compared."""
        return self._marks[number]

    def head(self) -> Iterator[str]:
        """Yields the lines before the first change."""
        yield "$comment one time unit is one step of the schedule $end"
        yield "$timescale 1 ns $end"
        open_scopes: tuple[str, ...] = ()
        order = sorted(range(len(self.signals)), key=lambda number: self.signals[number].scopes)
        for number in order:
            signal = self.signals[number]
            yield from _scope_lines(open_scopes, signal.scopes)
            open_scopes = signal.scopes
            word, width = DECLARED[signal.kind]
            bits = f" [{width - 1}:0]" if signal.kind == FLIT else ""
            yield f"$var {word} {width} {self._marks[number]} {signal.name}{bits} $end"
        yield from _scope_lines(open_scopes, ())
        yield "$enddefinitions $end"

    def change(self, number: int, value: Value, lines: list[str]) -> None:
        """Adds the line of a change, where the signal does not have the value already."""
        if self._values[number] == value:
            return
        self._values[number] = value
        kind, mark = self._kinds[number], self._marks[number]
        if kind == NUMBER:
            lines.append(f"b{value:b} {mark}")
        elif kind == TEXT:
            lines.append(f"s{value} {mark}")
        else:
            lines.append(f"{value}{mark}")


def save_lines(dump: str, groups: dict[str, list[Signal]]) -> Iterator[str]:
    """Yields the lines of a save file of GTKWave, with the signals in groups."""
    yield "[*] Open it together with its dump: gtkwave --save=THIS DUMP"
    yield f'[dumpfile] "{dump}"'
    yield from WINDOW
    for name, signals in groups.items():
        yield from (OPENS_GROUP, f"-{name}")
        for signal in signals:
            # GTKWave shows what is after the last point: that of a vault would lack its vault.
            inner = " ".join([*signal.scopes[2:], signal.name])
            renamed = f"+{{{inner}}} " if len(signal.scopes) > 2 else ""
            yield from (f"@{SHOWN[signal.kind]}", f"{renamed}{signal.path}")
        yield from (CLOSES_GROUP, f"-{name}")


def _identifier(number: int) -> str:
    """The identifier of a signal in the dump."""
    sign = SIGNS[number % len(SIGNS)]
    return sign if number < len(SIGNS) else _identifier(number // len(SIGNS) - 1) + sign


def _scope_lines(now: tuple[str, ...], then: tuple[str, ...]) -> Iterator[str]:
    """Yields the lines that leave some scopes and enter others."""
    same = 0
    while same < min(len(now), len(then)) and now[same] == then[same]:
        same += 1
    for _ in now[same:]:
        yield "$upscope $end"
    for scope in then[same:]:
        yield f"$scope module {scope} $end"
