"""Prints how many packets are under way where the schedule of a case of one cube and one link ends,
and how many whole rounds drain them. The proved program finds both; the exit status is its own."""

from __future__ import annotations

import io
from argparse import Namespace

from tool import build, files, run as runs
from tool.explain_fault import MEANINGS, SINGLE
from tool.trouble import note
from tool.verbs import Parser


def add_words(parser: Parser) -> None:
    """Adds the words that the command takes."""
    parser.add_argument("file", nargs="?", metavar="FILE", help="a case; - is standard input")


def run(words: Namespace) -> int:
    """Runs the proved program, and says on standard error what its answer means."""
    options, answer = runs.Options(words.file), io.BytesIO()
    with runs.opened_case(options) as source:
        command = [str(build.proved_program()), "bound"]
        status = runs.run_program(command, source, answer, keep=runs.keep_all)
    lines = answer.getvalue().decode().splitlines()
    files.write_lines(lines)
    if status == 0:
        explain(lines)
    elif lines == [SINGLE]:
        note(f"status {status}: {MEANINGS['net']['single']}")
    else:
        runs.explain_status(status, options)
    return status


def explain(lines: list[str]) -> None:
    """Says what the two lines of the program mean."""
    numbers = dict(line.split(" ") for line in lines)
    count, rounds = int(numbers["underway"]), numbers["bound"]
    packets = "1 packet is" if count == 1 else f"{count:,} packets are"
    note(f"{packets} under way where the schedule ends")
    condition = "if no host gives a request in them and no changed flit passes a check"
    note(f"`round {rounds}` after it drains the network, {condition}")
