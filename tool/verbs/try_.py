"""Replays a case by a program that is built without proofs, and otherwise does as `run` does."""

from __future__ import annotations

from argparse import Namespace

from tool import run as runs, trial
from tool.verbs import Parser
from tool.verbs.words import add_run_words


def add_words(parser: Parser) -> None:
    """Adds the words that the command takes."""
    add_run_words(parser)


def run(words: Namespace) -> int:
    """Runs the unproved program, which is built first where it is not there."""
    return runs.run_case(runs.Options(**vars(words)), trial.program)
