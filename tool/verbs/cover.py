"""Says what reports have reached and what they have not, and how to reach it: text, or JSON, or a
page with tables. The case of a report is the file of the same name that ends with .toml, whose name
may stand for the report; --case names another one. Each report has to be that of its case."""

from __future__ import annotations

from argparse import ArgumentTypeError, Namespace
from collections.abc import Iterator

from tool import coverage, files
from tool.cover import Cover
from tool.fit import checked
from tool.trouble import DIFFERENT, USAGE, Trouble, note
from tool.verbs import Parser
from tool.verbs.words import read_case, refuse_two_standard


def add_words(parser: Parser) -> None:
    """Adds the words that the command takes."""
    parser.add_argument("reports", metavar="REPORT", nargs="+")
    case_help = "the case of the first report, then that of the second one, and so on"
    parser.add_argument("--case", action="append", default=[], metavar="CASE", help=case_help)
    parser.add_argument("-o", dest="output", metavar="FILE", help="write it to a file")
    least_help = "end with status 1 where fewer of 100 points were reached"
    parser.add_argument("--least", type=percent, default=0, metavar="PERCENT", help=least_help)
    forms = parser.add_mutually_exclusive_group()
    forms.add_argument("--json", action="store_true", help="an object with all points")
    forms.add_argument("--html", action="store_true", help="a page with tables of all points")


def percent(text: str) -> int:
    """A number from 0 to 100."""
    if not text.isascii() or not text.isdigit() or int(text) > 100:
        raise ArgumentTypeError(f"{text} is no number from 0 to 100")
    return int(text)


def run(words: Namespace) -> int:
    """Writes what the reports have reached."""
    cases = cases_of(words.reports, words.case)
    reports = [beside(name, ".toml", ".report") for name in words.reports]
    cover = Cover()
    for report, case in zip(reports, cases):
        document = read_case(case)
        cover.read(document, checked(files.lines_of(report), document))
    counts, number = [*cover.all()], len(cases)
    lines: Iterator[str] = coverage.text_lines(counts)
    if words.json:
        lines = iter([coverage.json_text(counts, number)])
    elif words.html:
        lines = coverage.page_lines(counts, number)
    files.write_lines(lines, words.output, [*reports, *cases])
    reached = coverage.reached(counts)
    if 100 * reached >= words.least * len(counts):
        return 0
    note(f"{reached} of {len(counts)} points are less than {words.least} percent")
    return DIFFERENT


def cases_of(reports: list[str], cases: list[str]) -> list[str]:
    """The case of each report: the one that is named, or the file beside it."""
    if len(cases) > len(reports):
        raise Trouble(USAGE, "there are more cases than reports")
    refuse_two_standard(*reports, *cases)
    alone = reports[len(cases) :]
    if files.STANDARD in alone:
        raise Trouble(USAGE, "a report on standard input needs --case")
    return cases + [beside(name, ".report", ".toml") for name in alone]


def beside(name: str, old: str, new: str) -> str:
    """The name with another ending, where it ends so."""
    return name[: -len(old)] + new if name.endswith(old) else name
