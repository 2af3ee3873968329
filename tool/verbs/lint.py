"""Shows all faults of a case, each at its place, without the program. The status is 65 where there
are any. A document that is not TOML has one fault, where its reader stopped. Of a valid case it
shows each `noise` that leaves out some directions."""

from __future__ import annotations

from argparse import Namespace

from tool import explain_fault, files, remarks
from tool.trouble import BAD_DATA, note
from tool.verbs import Parser
from tool.verbs.words import case_bytes


def add_words(parser: Parser) -> None:
    """Adds the words that the command takes."""
    parser.add_argument("case", metavar="CASE")


def run(words: Namespace) -> int:
    """Shows the faults."""
    data, name = case_bytes(words.case), files.shown_name(words.case)
    lines = explain_fault.lint(data, name)
    files.write_lines(lines or remarks.of_noise(data, name))
    if not lines:
        return 0
    note(f"{name} is not a valid case")
    return BAD_DATA
