"""Explains flits, a line `bad ..` that names a fault of a case or trace, or each flit of a report.

WORDS are the digits of flits, the first flit of a packet first: they may have 0x in front,
underscores and blanks. Or they are a line of a report that has a flit (`sent`, `landed` or
`passed`; docs/report.md explains the others), a line `bad ..` and perhaps its case or trace, or the
name of a report. With - flits are read from standard input.
"""

from __future__ import annotations

import os
from argparse import Namespace
from collections.abc import Iterator
from itertools import chain

from tool import explain, explain_fault, files, jsonl, texts
from tool.decode import Decoder, text_of
from tool.fit import checked, refuse_without_idle
from tool.lines import Line
from tool.opening import report_lines
from tool.pasted import flits_in
from tool.report import Block
from tool.trouble import BAD_DATA, USAGE, Trouble, cut
from tool.verbs import Parser
from tool.verbs.words import add_profile, read_case

BAD = "bad"
BAD_WORDS = 4


def add_words(parser: Parser) -> None:
    """Adds the words that the command takes."""
    add_profile(parser)
    reversed_help = "the last byte of each flit is first, as a 128-bit bus is printed"
    parser.add_argument("--reversed", action="store_true", help=reversed_help)
    parser.add_argument("--case", metavar="CASE", help="of a report: compare it, know its profiles")
    parser.add_argument("words", nargs="+", metavar="WORD", help="as above")


def run(words: Namespace) -> int:
    """Explains what the words are."""
    given: list[str] = words.words
    if given[0].split(" ")[0] == BAD:
        return explain_line(" ".join(given).split(" "), given)
    if len(given) == 1 and given[0] != files.STANDARD and os.path.isfile(given[0]):
        return explain_report(given[0], words)
    text = "\n".join(given) if len(given) == 1 else " ".join(given)
    if text == files.STANDARD:
        text = files.read_bytes(text).decode("utf-8", errors="surrogateescape")
    flits = flits_in(text, words.reversed)
    files.write_lines(explain.explain_flits(flits, words.profile))
    return 0


def explain_line(words: list[str], given: list[str]) -> int:
    """Explains a line that names a fault, in a case or a trace if one is given."""
    line, names = " ".join(words[:BAD_WORDS]), given[1:]
    if given[0] == BAD:
        names = given[BAD_WORDS:]
    if len(names) > 1:
        raise Trouble(USAGE, "the line of a fault, and at most one file")
    meaning = explain_fault.meaning_of(line)
    if meaning is None:
        raise Trouble(BAD_DATA, f"{cut(line)} is not a line of the program")
    if names:
        is_trace = words[1] == explain_fault.TRACE
        what = "a trace" if is_trace else "a case"
        data = files.read_input(names[0], texts.INPUT_BYTES, what)
        explained = explain_fault.explain_in_trace if is_trace else explain_fault.explain_in_case
        meaning += explained(line, data, files.shown_name(names[0]))
    files.write_lines(meaning)
    return 0


def explain_report(name: str, words: Namespace) -> int:
    """Shows each flit of a report, decoded."""
    document = read_case(words.case) if words.case else None
    lines = report_lines(name)
    if document is None:
        refuse_without_idle(name)
    decoder = jsonl.decoder_of(document, words.profile)
    files.write_lines(decoded(checked(lines, document), decoder))
    return 0


def decoded(blocks: Iterator[Block[Line]], decoder: Decoder) -> Iterator[str]:
    """Yields each line with a flit, its number in front, and after it what the flit is."""
    for number, line, text in chain.from_iterable(block.rows() for block in blocks):
        fields = decoder.flit(line)
        if fields:
            yield f"{number}: {text.rstrip()}  {text_of(fields)}"
