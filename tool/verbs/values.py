"""Prints the value of each load of a trace, from a report of its script, and compares it with plain
bytes. Each that differs is marked, and the status is 1 then."""

from __future__ import annotations

from argparse import Namespace
from typing import Optional

from tool import files, texts, trace_values, traces
from tool.opening import report_lines
from tool.traces import Load
from tool.trouble import DIFFERENT, note
from tool.verbs import Parser
from tool.verbs.words import refuse_two_standard

# A load, its value if there is one, and that of plain bytes.
Row = tuple[Load, Optional[bytes], bytes]


def add_words(parser: Parser) -> None:
    """Adds the words that the command takes."""
    parser.add_argument("trace", metavar="TRACE")
    parser.add_argument("report", nargs="?", default="-", metavar="REPORT")


def run(words: Namespace) -> int:
    """Prints the values, and compares them with plain bytes."""
    refuse_two_standard(words.trace, words.report)
    data = files.read_input(words.trace, texts.INPUT_BYTES, "a trace")
    trace = traces.trace_of(data, files.shown_name(words.trace))
    values = trace_values.values_of(trace, report_lines(words.report))
    rows = list(zip(trace.loads, values, traces.plain_values(trace)))
    files.write_lines(value_line(*row) for row in rows)
    return count(rows)


def value_line(load: Load, value: bytes | None, due: bytes) -> str:
    """A load and its value; where it differs, the line of the trace and what plain bytes give."""
    access = load.access
    shown = "unknown" if value is None else value.hex()
    line = f"{access.cube} load {access.place:#x} {access.length} {shown}"
    if value in (None, due):
        return line
    return f"{line} differs: line {access.line} of the trace, plain bytes give {due.hex()}"


def count(rows: list[Row]) -> int:
    """States how many values differ from plain bytes, and how many are not known."""
    different = sum(value not in (None, due) for _, value, due in rows)
    unknown = sum(value is None for _, value, _ in rows)
    if different:
        note(f"{different} of {len(rows)} loads differ from plain bytes")
    if unknown:
        note(f"{unknown} of {len(rows)} loads have no value: the report lacks an answer")
    return DIFFERENT if different else 0
