"""Proves and builds the program where needed, and prints its path. Where the kit is not here that
is the path of the program of the release."""

from __future__ import annotations

from argparse import Namespace

from tool import build, files, kit
from tool.verbs import Parser


def add_words(_: Parser) -> None:
    """The command takes no words."""


def run(_: Namespace) -> int:
    """Prints the path of the proved program."""
    is_proved_here = kit.is_here() and not build.Choice.is_released and not kit.INSTALLED.is_file()
    path = build.built_program() if is_proved_here else build.proved_program()
    files.write_lines([str(path)])
    return 0
