"""Writes a page of a run, to be opened in a browser: one file, which loads nothing. The report has
to be that of the case."""

from __future__ import annotations

import os
from argparse import Namespace

from tool import files, page
from tool.fit import checked
from tool.trouble import USAGE, Trouble
from tool.verbs import Parser
from tool.verbs.words import read_case, refuse_two_standard
from tool.view import View


def add_words(parser: Parser) -> None:
    """Adds the words that the command takes."""
    parser.add_argument("report", metavar="REPORT")
    parser.add_argument("case", metavar="CASE")
    parser.add_argument("-o", dest="output", metavar="PAGE", help="write the page to a file")
    mark_help = "mark the line of this number, as one that check names; more than one may be given"
    parser.add_argument(
        "--mark", type=int, action="append", default=[], metavar="LINE", help=mark_help
    )


def run(words: Namespace) -> int:
    """Writes the page."""
    refuse_two_standard(words.report, words.case)
    view = View(read_case(words.case))
    inputs = [words.report, words.case]
    try:
        with files.written(words.output, inputs) as sink:
            view.read(checked(files.lines_of(words.report), view.document))
            refuse_marks(words.mark, view.steps)
            title = os.path.basename(files.shown_name(words.report))
            page.write(view, title, words.mark, sink.write)
    finally:
        view.close()
    return 0


def refuse_marks(marks: list[int], steps: int) -> None:
    """Refuses a mark at a line that is that of no step."""
    for mark in marks:
        if not 1 <= mark <= steps:
            raise Trouble(USAGE, f"--mark {mark}: the report has {steps:,} lines of steps")
