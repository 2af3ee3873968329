"""Runs the program on a case, and shows of its report what is asked for."""

from __future__ import annotations

import re
import select
import subprocess
import sys
from collections.abc import Callable, Iterator
from contextlib import contextmanager
from dataclasses import dataclass
from pathlib import Path
from typing import IO, BinaryIO

from tool import case, explain_fault, files, processes, toml_reader
from tool.final import FINAL
from tool.trouble import SIGNALLED, USAGE, ClosedPipe, Trouble, note, quoted, say

MEANINGS = {
    1: "out of memory",
    2: "wrong arguments",
    3: "reading the input failed",
    4: "writing the report failed",
    5: "the input is longer than 4,194,304 bytes",
    6: "the input is not a valid case; the line `bad ..` gives its first fault",
    7: "a check succeeded over flits that masks changed; the report ends with that landing",
}
# The statuses after which all is written that the program has to write.
WHOLE = (0, 6, 7)
WRONG_WORDS = 2
WRITE_FAULT = 4
BAD_CASE = 6
# What `make` takes.
NUMBER = "one to twenty decimal digits of a number less than 2^64, 18,446,744,073,709,551,616"
# The first words of the lines that end a report in place of the final lines.
ENDS = (b"bad ", b"passed ")
FINAL_WORDS = tuple(f"{word} ".encode() for word in FINAL)

Keep = Callable[[bytes], bool]


@dataclass(frozen=True)
class Options:
    """What is run on, where the report goes, and which of its lines."""

    file: str | None = None
    output: str | None = None
    no_idle: bool = False
    only: str | None = None
    quiet: bool = False


def run_case(options: Options, program: Callable[[], Path]) -> int:
    """Replays a case by a program, and returns its exit status."""
    keep = keep_of(options)
    with opened_case(options) as source:
        status = write_answer(["run"], source, options, program, keep)
    explain_status(status, options)
    return status


def run_made(number: str, output: str | None, program: Callable[[], Path]) -> int:
    """Runs the case of a number by a program, and returns its exit status."""
    options = Options(output=output)
    status = write_answer(["make", number], subprocess.DEVNULL, options, program)
    if status == WRONG_WORDS:
        note(f"status {status}: {quoted(number)} is not {NUMBER}")
    else:
        explain_status(status, options)
    return status


@contextmanager
def opened_case(options: Options) -> Iterator[BinaryIO]:
    """The case, or what else is run on, open for reading."""
    if options.file is None and sys.stdin is not None and sys.stdin.isatty():
        said = "no FILE is given, and standard input is a terminal: name a file"
        raise Trouble(USAGE, said)
    files.refuse_inputs(options.output or files.STANDARD, [options.file])
    with files.opened_to_read(options.file or files.STANDARD) as source:
        yield source


def write_answer(
    words: list[str],
    source: BinaryIO | int,
    options: Options,
    program: Callable[[], Path],
    keep: Keep | None = None,
) -> int:
    """Runs a program with these words, and writes what is kept of its answer."""
    status = WRITE_FAULT
    try:
        with files.written(options.output, [options.file]) as sink:
            status = run_program([str(program()), *words], source, sink, keep)
            if status not in WHOLE and not files.is_standard(options.output):
                raise files.Unfinished
    except files.Unfinished:
        note(f"{options.output} is left as it was: the report is not whole")
    return status


def keep_of(options: Options) -> Keep | None:
    """The test that a line must meet to be shown, or None where all lines are shown."""
    tests: list[Keep] = []
    if options.quiet:
        tests.append(lambda line: line.startswith((*FINAL_WORDS, *ENDS)))
    if options.no_idle:
        tests.append(lambda line: not line.startswith(b"idle "))
    if options.only is not None:
        pattern = pattern_of(options.only)
        tests.append(lambda line: pattern.search(line) is not None)
    return (lambda line: all(test(line) for test in tests)) if tests else None


def keep_all(_: bytes) -> bool:
    """Keeps each line."""
    return True


def pattern_of(text: str) -> re.Pattern[bytes]:
    """The regular expression that the text is."""
    try:
        return re.compile(text.encode())
    except re.error as error:
        raise Trouble(USAGE, f"{text} is not a regular expression: {error}") from error


def run_program(words: list[str], source: BinaryIO | int, sink: BinaryIO, keep: Keep | None) -> int:
    """Runs a program from the source to the sink, and returns its exit status."""
    sink.flush()
    out: IO[bytes] | int = sink if keep is None else subprocess.PIPE
    with processes.child(words, stdin=source, stdout=out) as running:
        if keep is not None and running.stdout:
            sink.writelines(filter(keep, running.stdout))
            sink.flush()
    status = status_of(running.returncode)
    if status == WRITE_FAULT and keep is None and is_closed(sink):
        raise ClosedPipe
    return status


def is_closed(sink: BinaryIO) -> bool:
    """Whether the sink is a pipe that no one reads any more."""
    poll = select.poll()
    poll.register(sink.fileno(), select.POLLOUT)
    return any(events & select.POLLERR for _, events in poll.poll(0))


def status_of(returned: int) -> int:
    """The exit status, as a shell gives it for a program that a signal ended."""
    return returned if returned >= 0 else SIGNALLED - returned


def explain_status(status: int, options: Options) -> None:
    """States on standard error what the status means, where it is not 0."""
    if status == 0:
        return
    note(f"status {status}: {MEANINGS.get(status, 'a signal ended the program')}")
    if status == BAD_CASE and options.file is not None and not files.is_standard(options.file):
        show_fault(options.file)


def show_fault(name: str) -> None:
    """Shows on standard error where the first fault of a case is, if this Python can read cases."""
    if not toml_reader.is_here():
        note(f"where the fault is isn't shown: {toml_reader.MISSING}")
        return
    data = files.read_bytes(name)
    fault = case.read(data)[1]
    if fault:
        say("\n".join(explain_fault.explain_in_case(str(fault), data, name)))
