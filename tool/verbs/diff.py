"""Shows where two reports differ, and what came before. The status is 1 where they do."""

from __future__ import annotations

from argparse import Namespace
from functools import partial

from tool import diff, files
from tool.opening import looked_at
from tool.trouble import DIFFERENT
from tool.verbs import Parser
from tool.verbs.words import add_profile, refuse_two_standard


def add_words(parser: Parser) -> None:
    """Adds the words that the command takes."""
    parser.add_argument("first", metavar="A")
    parser.add_argument("second", metavar="B")
    all_help = "each difference that is not a consequence of an earlier one"
    parser.add_argument("--all", action="store_true", help=all_help)
    parser.add_argument("--from", dest="start", type=int, default=1, metavar="LINE")
    lines_help = "how many earlier lines are shown of each part"
    parser.add_argument("--context", type=int, default=diff.SHOWN, metavar="N", help=lines_help)
    add_profile(parser)


def run(words: Namespace) -> int:
    """Prints the differences."""
    refuse_two_standard(words.first, words.second)
    names = (files.shown_name(words.first), files.shown_name(words.second))
    how = diff.How(names, words.profile, words.context, words.start, words.all)
    with files.rereadable(words.first) as first, files.rereadable(words.second) as second:
        for path, name in zip((first, second), names):
            looked_at(files.lines_of(path), name)
        lines = diff.compare(partial(files.lines_of, first), partial(files.lines_of, second), how)
    files.write_lines(lines)
    return DIFFERENT if lines else 0
