"""Prints a report as JSON lines, an object a line; with --decode each flit has its fields too."""

from __future__ import annotations

from argparse import Namespace

from tool import files, jsonl
from tool.fit import checked, refuse_without_idle, whole
from tool.opening import report_lines
from tool.verbs import Parser
from tool.verbs.words import add_profile, read_case, refuse_two_standard


def add_words(parser: Parser) -> None:
    """Adds the words that the command takes."""
    parser.add_argument("report", nargs="?", default="-", metavar="REPORT")
    parser.add_argument("--case", metavar="CASE", help="compare each line with this case")
    parser.add_argument("--decode", action="store_true", help="add the fields of each flit")
    add_profile(parser)


def run(words: Namespace) -> int:
    """Prints the objects."""
    refuse_two_standard(words.report, words.case)
    document = read_case(words.case) if words.case else None
    lines = report_lines(words.report)
    if document is None:
        refuse_without_idle(words.report)
    if document or words.decode:
        decoder = jsonl.decoder_of(document, words.profile) if words.decode else None
        blocks = jsonl.with_decoded(checked(lines, document), decoder)
    else:
        blocks = whole(lines, jsonl.object_of)
    with files.written(None) as sink:
        for piece in jsonl.pieces(blocks):
            sink.write(piece)
    return 0
