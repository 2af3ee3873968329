"""Makes a case of a test bench's log of events: its requests are the script, and its events the
schedule, with the steps that a bench cannot see directly before their first visible effect. CASE
has the cubes and links; its own script and schedule are left out."""

from __future__ import annotations

from argparse import Namespace

from tool import convert, documents, files, observed
from tool.verbs import Parser
from tool.verbs.words import read_case, refuse_two_standard


def add_words(parser: Parser) -> None:
    """Adds the words that the command takes."""
    parser.add_argument("log", metavar="LOG")
    parser.add_argument("case", metavar="CASE")
    parser.add_argument("-o", dest="output", metavar="CASE", help="write the case to a file")
    cycle_help = "each part acts on what was there a cycle before: order the events of each time"
    parser.add_argument("--cycles", action="store_true", help=cycle_help)
    trained_help = "the log begins where the links train: put no training in front"
    parser.add_argument("--trained", action="store_true", help=trained_help)


def run(words: Namespace) -> int:
    """Writes the case."""
    refuse_two_standard(words.log, words.case)
    files.refuse_inputs(words.output or files.STANDARD, [words.log, words.case])
    document = read_case(words.case)
    events = observed.events_of(files.lines_of(words.log), document, words.cycles)
    case = convert.converted(events, document, trains=not words.trained)
    files.write_lines(documents.text_of(case).splitlines(), words.output, [words.log, words.case])
    return 0
