"""Runs the case that is made from a number, by the proved program, and writes its final lines. The
exit status is the program's."""

from __future__ import annotations

from argparse import Namespace

from tool import build, run as runs
from tool.verbs import Parser


def add_words(parser: Parser) -> None:
    """Adds the words that the command takes."""
    help_text = "one to twenty decimal digits of a number less than 2^64"
    parser.add_argument("number", metavar="NUMBER", help=help_text)
    parser.add_argument("-o", dest="output", metavar="REPORT", help="write the lines to a file")


def run(words: Namespace) -> int:
    """Runs the case of a number."""
    return runs.run_made(words.number, words.output, build.proved_program)
