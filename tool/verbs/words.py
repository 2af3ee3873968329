"""Words that several commands take."""

from __future__ import annotations

from tool import case, files, texts
from tool.case import Document
from tool.kit import CALLED
from tool.trouble import BAD_DATA, USAGE, Trouble
from tool.verbs import Parser


def add_run_words(parser: Parser) -> None:
    """The words of `run` and `try`."""
    parser.add_argument("file", nargs="?", metavar="FILE", help="a case; - is standard input")
    parser.add_argument("-o", dest="output", metavar="REPORT", help="write the report to a file")
    parser.add_argument("--no-idle", action="store_true", help="leave out steps that did nothing")
    parser.add_argument("--only", metavar="PATTERN", help="lines with this regular expression")
    parser.add_argument("--quiet", action="store_true", help="the final lines alone")


def add_profile(parser: Parser) -> None:
    """The profile of links, where no case says it."""
    parser.add_argument(
        "--profile", type=int, choices=(1, 2), default=1, help="of the links: 1, or 2"
    )


def case_bytes(name: str) -> bytes:
    """The bytes of a case, which may have no fault. A longer one than the program reads is
    refused, before it is read as one."""
    return files.read_input(name, texts.INPUT_BYTES, "a case")


def read_case(name: str) -> Document:
    """The document of a valid case."""
    document, fault = case.read(case_bytes(name))
    if fault:
        shown = files.shown_name(name)
        raise Trouble(BAD_DATA, f"{shown} is not a valid case: {fault}; {CALLED} lint shows it")
    return document


def refuse_two_standard(*names: str | None) -> None:
    """Refuses that two inputs are both standard input."""
    if names.count(files.STANDARD) > 1:
        raise Trouble(USAGE, "only one input can be standard input")
