"""What a file begins with: whether it is a report at all. A reader asks first, so that it
doesn't explain the first odd thing in a file that is something else."""

from __future__ import annotations

import re
from collections.abc import Iterable, Iterator
from itertools import chain, islice

from tool import files
from tool.report import LINES
from tool.trouble import BAD_DATA, Trouble, quoted

# So many lines are looked at.
LOOKED_AT = 64
# A line that cases have, and reports don't.
OF_CASE = re.compile(r"\s*(?:\[\[?\w+|(?:profile|script|schedule|cubes|links)\s*=)")
# Of bytes that are no text: controls, and bytes that aren't UTF-8.
BINARY = re.compile("[\0-\x08\x0e-\x1f\udc80-\udcff]")


def report_lines(name: str) -> Iterator[str]:
    """The lines of a report. A file that is none is refused before any of it is read as one."""
    return looked_at(files.lines_of(name), files.shown_name(name))


def looked_at(lines: Iterable[str], name: str) -> Iterator[str]:
    """The lines again, after the first ones of them were looked at."""
    source = iter(lines)
    first = list(islice(source, LOOKED_AT))
    why = why_none(first)
    if why:
        raise Trouble(BAD_DATA, f"{name} is not a report: {why}")
    return chain(first, source)


def why_none(lines: list[str]) -> str:
    """Why a file with these first lines is no report; empty where it may be one, or where it has no
    line. Capital letters are another fault: the line with them is named."""
    if any(map(OF_CASE.match, lines)):
        return "it has the lines of a case"
    if any(first_word(line).lower() in LINES for line in lines):
        ends = [line.endswith("\r\n") for line in lines if line.endswith("\n")]
        has_returns = bool(ends) and all(ends)
        return "its lines end with carriage returns, and those of reports don't" * has_returns
    if any(map(BINARY.search, lines)):
        return "it has bytes that are no text"
    return f"no line begins with {quoted(first_word(lines[0]))}" if lines else ""


def first_word(line: str) -> str:
    """What a line has before its first blank."""
    return line.rstrip("\r\n").partition(" ")[0]
