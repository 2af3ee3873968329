"""Prints the script of a trace of loads and stores, made by the proved program, and has its exit
status. With --case it prints a whole case instead. docs/trace.md has the form of a trace."""

from __future__ import annotations

import tempfile
from argparse import Namespace
from collections.abc import Iterator
from contextlib import contextmanager
from dataclasses import fields
from typing import BinaryIO, cast

from tool import build, explain_fault, files, run as runs, trace_case, trace_formats, traces
from tool.trace_case import Sizes
from tool.traces import Shape
from tool.trouble import USAGE, Trouble, note, say
from tool.verbs import Parser

# The sizes of a case, each with its word.
SIZES = {field.name: f"--{field.name}" for field in fields(Sizes)} | {"output": "--output-queue"}
SHAPE = ("VAULT_BITS", "BANK_BITS", "ROWS")


def add_words(parser: Parser) -> None:
    """Adds the words that the command takes."""
    parser.add_argument("trace", nargs="?", metavar="TRACE", help="- is standard input")
    parser.add_argument("-o", dest="output", metavar="FILE", help="write to a file")
    formats = sorted(trace_formats.FORMATS)
    parser.add_argument("--from", dest="form", choices=formats, help="the format of another tool")
    cube_help = "the shape of a cube of such a trace, once for each cube"
    parser.add_argument(
        "--cube", type=int, nargs=3, action="append", metavar=SHAPE, help=cube_help
    )
    kinds = parser.add_mutually_exclusive_group()
    kinds.add_argument("--trace", dest="printed", action="store_true", help="print the trace")
    kinds.add_argument("--case", action="store_true", help="print a case around the script")
    for name, word in SIZES.items():
        parser.add_argument(word, dest=f"size_{name}", type=int, metavar="N", help="of the case")


def run(words: Namespace) -> int:
    """Prints the script, the case or the trace."""
    refuse_lone_words(words)
    options = runs.Options(words.trace, words.output)
    with source_of(words, options) as source:
        if words.case:
            trace = traces.trace_of(source.read(), shown_name(words))
            text = trace_case.text_of(trace, sizes_of(words))
            files.write_lines(text.splitlines(), words.output, inputs_of(words))
        elif words.printed:
            with files.written(words.output, inputs_of(words)) as sink:
                sink.write(source.read())
        else:
            return write_script(source, options, words)
    return 0


def refuse_lone_words(words: Namespace) -> None:
    """Refuses words that mean nothing without another one."""
    if bool(words.form) != bool(words.cube):
        raise Trouble(USAGE, "a trace of another tool needs --from, and --cube for each cube")
    given = [word for name, word in SIZES.items() if getattr(words, f"size_{name}") is not None]
    if given and not words.case:
        raise Trouble(USAGE, f"{given[0]} is a number of a case: it needs --case")


@contextmanager
def source_of(words: Namespace, options: runs.Options) -> Iterator[BinaryIO]:
    """The trace, open for reading. It is converted if it has another format."""
    with runs.opened_case(options) as source:
        if words.form is None:
            yield source
            return
        shapes = shapes_of(words.cube)
        text = source.read().decode("utf-8", errors="replace")
    with tempfile.TemporaryFile() as converted:
        converted.write(trace_formats.convert(text, words.form, shapes))
        converted.seek(0)
        yield cast(BinaryIO, converted)


def shapes_of(given: list[list[int]]) -> list[Shape]:
    """The shapes that the words give."""
    lines = [" ".join(map(str, ("cube", *numbers))) for numbers in given]
    try:
        return traces.read("\n".join(lines).encode()).shapes
    except traces.BadTrace as fault:
        meaning = explain_fault.MEANINGS["trace"][fault.kind]
        raise Trouble(USAGE, f"{lines[fault.line - 1]}: {meaning}") from fault


def sizes_of(words: Namespace) -> Sizes:
    """The numbers of the case that the words give, and else the usual ones."""
    given = {name: getattr(words, f"size_{name}") for name in SIZES}
    return Sizes(**{name: number for name, number in given.items() if number is not None})


def write_script(source: BinaryIO, options: runs.Options, words: Namespace) -> int:
    """Gives the trace to the proved program, and writes its answer."""
    status = runs.write_answer(["trace"], source, options, build.proved_program)
    if status != runs.BAD_CASE:
        runs.explain_status(status, options)
        return status
    note("status 6: the input is not a trace; the line `bad trace ..` gives its first fault")
    if words.form is None and not files.is_standard(words.trace):
        show_fault(words.trace)
    return status


def show_fault(name: str) -> None:
    """Shows on standard error where the first fault of a trace is."""
    data = files.read_bytes(name)
    fault = traces.first_fault(data)
    if fault:
        say("\n".join(explain_fault.explain_in_trace(str(fault), data, name)))


def inputs_of(words: Namespace) -> list[str]:
    """What is read, which is not to be written."""
    return [words.trace or files.STANDARD]


def shown_name(words: Namespace) -> str:
    """The name of the trace in messages."""
    return files.shown_name(words.trace or files.STANDARD)
