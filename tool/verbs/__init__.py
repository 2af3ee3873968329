"""The commands of `./zehimbado`: one file each, and a line each in the table below.

A new command is a file of this folder with two functions, and its line in COMMANDS:

    def add_words(parser: Parser) -> None   adds the words that the command takes
    def run(words: Namespace) -> int        does it, and returns the exit status

A failure is raised as tool.trouble.Trouble, with its status. Files are read and written by
tool.files, so that `-`, full disks and closed pipes are dealt with in one place. docs/tool.md has a
section for each command, with an example that the tests run.
"""

from __future__ import annotations

import argparse
import importlib
from dataclasses import dataclass
from typing import NoReturn, Protocol, cast

from tool.kit import CALLED
from tool.trouble import USAGE, Trouble


# The commands that run the proved program, or print its path.
RUN_PROVED = ("run", "make", "bound", "check", "judge", "trace", "build")


class Parser(argparse.ArgumentParser):
    """A parser whose faults end with the status of wrong words."""

    def error(self, message: str) -> NoReturn:
        raise Trouble(USAGE, f"{message}\n{self.format_usage().rstrip()}")


class Verb(Protocol):
    """The module of a command. Its docstring is the help of the command."""

    __doc__: str

    def add_words(self, parser: Parser) -> None:
        """Adds the words that the command takes."""

    def run(self, words: argparse.Namespace) -> int:
        """Does what the command does, and returns the exit status."""


@dataclass(frozen=True)
class Command:
    """A command: how it is called, what it does in a line, and the file of this folder."""

    usage: str
    summary: str
    module: str

    @property
    def name(self) -> str:
        """The first word of the call."""
        return self.usage.split(" ")[0]

    def load(self) -> Verb:
        """The module of the command, which is read only when it is used."""
        return cast(Verb, importlib.import_module(f"tool.verbs.{self.module}"))

    def parser(self) -> Parser:
        """The parser of the words after the command."""
        verb = self.load()
        parser = Parser(
            prog=f"{CALLED} {self.name}", description=verb.__doc__, allow_abbrev=False
        )
        verb.add_words(parser)
        if self.name in RUN_PROVED:
            said = "take the program of the release, whatever sources it is of"
            parser.add_argument("--released", action="store_true", help=said)
        return parser


COMMANDS = {
    command.name: command
    for command in (
        Command("run [FILE]", "replay a case by the proved program, and write its report", "run"),
        Command("try [FILE]", "the same by a program that is built without proofs", "try_"),
        Command("make NUMBER", "run the case of a number, and write its final lines", "make"),
        Command("bound [FILE]", "how many whole rounds after a case drain it", "bound"),
        Command("check CASE REPORT", "whether a report is that of a case, by the program", "check"),
        Command("lint CASE", "all faults of a case, each at its place", "lint"),
        Command("show CASE", "the topology of a case, in text or as SVG; routes", "show"),
        Command("explain WORD..", "flits in fields, or what a fault of a case means", "explain"),
        Command("json [REPORT]", "a report as JSON lines, its flits decoded on request", "json"),
        Command("diff A B", "where two reports differ, and what came before", "diff"),
        Command("wave REPORT CASE", "a report as a VCD file, for GTKWave", "wave"),
        Command("view REPORT CASE", "a page of a run, to be seen in a browser", "view"),
        Command("stats REPORT CASE", "numbers of a run by windows, as CSV or JSON", "stats"),
        Command("cover REPORT..", "what reports have reached, and what they have not", "cover"),
        Command("convert LOG CASE", "a test bench's log of events as a schedule", "convert"),
        Command("sample SEED", "a random case, by its seed", "sample"),
        Command("shrink CASE -- ..", "the smallest case for which a command still fails", "shrink"),
        Command("trace [TRACE]", "loads and stores of bytes as a script, or as a case", "trace"),
        Command("values TRACE REPORT", "the values of the loads of a trace", "values"),
        Command("build", "prove and build the program, and print its path", "build"),
    )
}
