"""Replays a case by the proved program. Its exit status is the program's."""

from __future__ import annotations

from argparse import Namespace

from tool import build, run as runs
from tool.verbs import Parser
from tool.verbs.words import add_run_words


def add_words(parser: Parser) -> None:
    """Adds the words that the command takes."""
    add_run_words(parser)


def run(words: Namespace) -> int:
    """Runs the proved program, which is built first where it is not there."""
    return runs.run_case(runs.Options(**vars(words)), build.proved_program)
