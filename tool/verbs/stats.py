"""Writes numbers of a run, as CSV or as JSON lines: flits, retries, queues, tokens and requests.
The report has to be that of the case."""

from __future__ import annotations

import csv
import io
import json
from argparse import ArgumentTypeError, Namespace
from collections.abc import Iterable, Iterator
from itertools import chain

from tool import files
from tool.fit import checked
from tool.rounds import still_since
from tool.stats import Row, Stats
from tool.trouble import note
from tool.verbs import Parser
from tool.verbs.words import read_case, refuse_two_standard


def add_words(parser: Parser) -> None:
    """Adds the words that the command takes."""
    parser.add_argument("report", metavar="REPORT")
    parser.add_argument("case", metavar="CASE")
    parser.add_argument("-o", dest="output", metavar="FILE", help="write the numbers to a file")
    window = "a window has as many steps as N rounds; without it, it is the whole run"
    parser.add_argument("--rounds", type=rounds, default=0, metavar="N", help=window)
    forms = parser.add_mutually_exclusive_group()
    forms.add_argument("--csv", action="store_true", help="commas between; so it is without words")
    forms.add_argument("--json", action="store_true", help="an object a line")


def rounds(text: str) -> int:
    """A number of rounds."""
    if not text.isascii() or not text.isdigit() or int(text) < 1:
        raise ArgumentTypeError(f"{text} is no number of rounds")
    return int(text)


def run(words: Namespace) -> int:
    """Writes the numbers."""
    refuse_two_standard(words.report, words.case)
    stats = Stats(read_case(words.case), words.rounds)
    rows = stats.rows(checked(files.lines_of(words.report), stats.document))
    lines = map(json_line, rows) if words.json else csv_lines(rows)
    files.write_lines(lines, words.output, [words.report, words.case])
    said = still_since(stats.document, stats.moved, stats.steps) if stats.is_busy else ""
    if said:
        note(said)
    return 0


def json_line(row: Row) -> str:
    """A row as an object."""
    return json.dumps(row._asdict())


def csv_lines(rows: Iterable[Row]) -> Iterator[str]:
    """The rows with commas between their fields, after their names."""
    text = io.StringIO()
    write = csv.writer(text, lineterminator="")
    for row in chain([Row._fields], rows):
        write.writerow(row)
        yield text.getvalue()
        text.seek(0)
        text.truncate()
