"""Reports of whole cases, and whether a report is that of a case."""

from __future__ import annotations

import ctypes
from collections.abc import Callable, Sequence
from dataclasses import dataclass

from hmc.calls import RawUnit, Status, check_number, library, refuse_case

# The first room for a report. A longer one takes a second call.
REPORT_ROOM = 1 << 20


@dataclass(frozen=True)
class Unit:
    """A logic unit of a shipped kind (docs/units.md) that never worked: kind 0 reverses blocks, and
    1 numbers them; it does the command `unit` with the number `code` of a cube."""

    kind: int
    cube: int
    code: int


# The units of the program, in their slots.
PROGRAM_UNITS = (Unit(0, 0, 0), Unit(1, 0, 1))


def raw_units(units: Sequence[Unit]) -> ctypes.Array[RawUnit]:
    """The units as the calls take them; there is room for one at least, since a pointer is wanted
    also where there are none."""
    for unit in units:
        for number in (unit.kind, unit.cube, unit.code):
            check_number("unit", number, 8)
    return (RawUnit * max(1, len(units)))(*(RawUnit(it.kind, it.cube, it.code) for it in units))


def written(
    room: int, write: Callable[[ctypes.Array[ctypes.c_char], int, ctypes.c_size_t], int]
) -> tuple[int, str]:
    """The status and the text of a call that writes a text into a room, and says its length also
    where it doesn't fit: then there is a second call."""
    length = ctypes.c_size_t()
    text = ctypes.create_string_buffer(room)
    status = write(text, room, length)
    if status == Status.NONE and length.value > room:
        text = ctypes.create_string_buffer(length.value)
        status = write(text, length.value, length)
    return status, text.raw[: length.value].decode()


@dataclass(frozen=True)
class Report:
    """A report (docs/report.md), and whether it ends with a landing that passed."""

    text: str
    passed: bool


def run_case(case: str, units: Sequence[Unit] = ()) -> Report:
    """The report of a case with at most 8 logic units."""
    text, raw = case.encode(), raw_units(units)

    def write(out: ctypes.Array[ctypes.c_char], room: int, length: ctypes.c_size_t) -> int:
        status: int = library.hmc_run_case(text, len(text), raw, len(units), out, room, length)
        return status

    status, report = written(REPORT_ROOM, write)
    if status not in (Status.OK, Status.PASSED):
        raise refuse_case("run_case", status, text)
    return Report(report, status == Status.PASSED)


@dataclass(frozen=True)
class Verdict:
    """What a check says of a report. Where it is that of the case, `number` is how many entries it
    has, else the first line, from 1, that shows that it isn't."""

    lawful: bool
    number: int


def check(case: str, report: str, units: Sequence[Unit] = ()) -> Verdict:
    """Whether a report is that of a case with at most 8 logic units."""
    text, lines, number = case.encode(), report.encode(), ctypes.c_uint32()
    status = library.hmc_check(
        text, len(text), lines, len(lines), raw_units(units), len(units), number
    )
    if status not in (Status.OK, Status.UNLAWFUL):
        raise refuse_case("check", status, text)
    return Verdict(status == Status.OK, number.value)
