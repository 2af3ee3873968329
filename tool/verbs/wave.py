"""Writes the waves of a report as a VCD file, a step a time unit. The report has to be that of the
case."""

from __future__ import annotations

import os
from argparse import Namespace

from tool import files, vcd
from tool.fit import checked
from tool.opening import report_lines
from tool.trouble import USAGE, Trouble
from tool.verbs import Parser
from tool.verbs.words import read_case, refuse_two_standard
from tool.wave import Wave


def add_words(parser: Parser) -> None:
    """Adds the words that the command takes."""
    parser.add_argument("report", metavar="REPORT")
    parser.add_argument("case", metavar="CASE")
    parser.add_argument("-o", dest="output", metavar="VCD", help="write the waves to a file")
    parser.add_argument("--save", metavar="GTKW", help="write a save file of GTKWave, with -o")


def run(words: Namespace) -> int:
    """Writes the waves."""
    refuse_two_standard(words.report, words.case)
    inputs = [words.report, words.case]
    if words.save:
        refuse_save(words, inputs)
    waves = Wave(read_case(words.case))
    lines = report_lines(words.report)
    with files.written(words.output, inputs) as sink:
        for piece in waves.pieces(checked(lines, waves.document)):
            sink.write(piece)
    if words.save:
        dump = os.path.abspath(words.output)
        files.write_lines(vcd.save_lines(dump, waves.groups()), words.save, inputs)
    return 0


def refuse_save(words: Namespace, inputs: list[str]) -> None:
    """Refuses a save file without a dump, or in the place of another file."""
    if files.is_standard(words.output):
        raise Trouble(USAGE, "--save needs -o: a save file names its dump")
    if os.path.realpath(words.save) == os.path.realpath(words.output):
        raise Trouble(USAGE, f"{words.save} is the dump: the save file needs another file")
    files.refuse_inputs(words.save, inputs)
