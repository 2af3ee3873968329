"""Judges a report by itself: whether it is the report of a case. The proved program does so.

The status is 0 where it is, and 8 where it isn't. Then the first line that no report of the case
has there is shown, the line that is due, the step of the schedule, and what came before.
"""

from __future__ import annotations

import io
import tempfile
from argparse import Namespace
from typing import BinaryIO, cast

from tool import build, case, files, run as runs, toml_reader, verdict
from tool.opening import looked_at
from tool.trouble import Trouble, note
from tool.verbs import Parser
from tool.verbs.words import case_bytes, refuse_two_standard

# The status of the program for a report that no run of the case has.
UNLAWFUL = 8
TOO_LONG = 5


def add_words(parser: Parser) -> None:
    """Adds the words that the command takes."""
    parser.add_argument("case", metavar="CASE", help="- is standard input")
    parser.add_argument("report", metavar="REPORT", help="- is standard input")


def run(words: Namespace) -> int:
    """Prints the verdict of the program, and explains one that isn't lawful."""
    refuse_two_standard(words.case, words.report)
    name = files.shown_name(words.report)
    data = case_bytes(words.case)
    with files.rereadable(words.report) as report:
        verdict.refuse_foreign(looked_at(files.lines_of(report), name), name)
        status, lines = judged(data, report)
        if status == UNLAWFUL and not toml_reader.is_here():
            note(f"the verdict isn't explained: {toml_reader.MISSING}")
        elif status == UNLAWFUL:
            given = verdict.Given(list(files.lines_of(report)), name)
            source = verdict.Source(case.read(data)[0], data, files.shown_name(words.case))
            lines += verdict.explained(verdict.number_of(lines), given, due_lines(data), source)
    files.write_lines(lines)
    if status == TOO_LONG:
        note(f"status {status}: the case and the report are longer than 67,108,864 bytes")
    elif status != UNLAWFUL:
        runs.explain_status(status, runs.Options(words.case))
    return status


def judged(data: bytes, report: str) -> tuple[int, list[str]]:
    """The status of the program for a case and a report, and the lines that it writes."""
    head = f"case {len(data)}\n".encode()
    with tempfile.TemporaryFile() as whole:
        whole.write(head + data)
        for lines in files.blocks_of(report):
            whole.writelines(lines)
        status, answer = answered("check", cast(BinaryIO, whole))
    return status, answer.decode().splitlines()


def due_lines(data: bytes) -> list[str]:
    """The report of the case."""
    with tempfile.TemporaryFile() as whole:
        whole.write(data)
        status, answer = answered("run", cast(BinaryIO, whole))
    if status not in runs.WHOLE:
        raise Trouble(status, f"status {status}: the program gives no report of the case")
    return answer.decode().splitlines()


def answered(word: str, whole: BinaryIO) -> tuple[int, bytes]:
    """The status of the proved program for a word and an input, and what it writes."""
    whole.seek(0)
    answer = io.BytesIO()
    status = runs.run_program([str(build.proved_program()), word], whole, answer, runs.keep_all)
    return status, answer.getvalue()
