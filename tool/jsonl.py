"""A report as JSON lines: one object a line, with the fields of docs/grammar-report.md.

The text of a line becomes the text of its object, without a record between them.
"""

from __future__ import annotations

import json
import re
from collections.abc import Callable, Iterable, Iterator
from dataclasses import fields
from typing import Any, NamedTuple

from tool import report
from tool.case import Document
from tool.decode import Decoder, Fields
from tool.fit import COUNTED_WORDS, Fronted
from tool.lines import REGISTERS, Entry, Executed, Line
from tool.report import FORMS, LINES, Block, Known, Words, not_a_line

# Fields whose name in JSON is taken in Python.
RENAMED = {"from_": "from", "idle_step": "step"}
_BOOLEANS = ("false", "true")
# How the object of an entry begins, before its number; and how each object ends.
BEGINS = '{"entry": '
ENDS = "}\n"
# The places of words that are written otherwise in JSON, and how.
Converts = tuple[tuple[int, Callable[[str], str]], ...]


class Shape(NamedTuple):
    """How the lines with one first word become objects. Those of entries begin after the number."""

    match: Callable[[str], re.Match[str] | None]
    # To be formatted with the words of a line.
    template: str
    converts: Converts
    is_counted: bool


def _number(word: str) -> str:
    return str(int(word, 16))


def _place(word: str) -> str:
    return f'"{word}"' if word == REGISTERS else word


def _unit(words: str) -> str:
    """The value of the field `vault`, with the field `bank` where a vault has executed."""
    return _place(words).replace(" ", ', "bank": ')


def _request(text: str) -> str:
    """A request. Its bytes or its value are there where it carries them."""
    it = report.request_of(text)
    carried = f', "value": {it.value}' if it.bytes is None else f', "bytes": "{it.bytes}"'
    return (
        f'{{"poisoned": {_BOOLEANS[it.poisoned]}, "command": "{it.command}", "cube": {it.cube}, '
        f'"address": {it.address}{carried if it.bytes or it.value is not None else ""}}}'
    )


def _answer(text: str) -> str:
    """An answer, with the fields that it has."""
    it = report.answer_of(text)
    rows = [f'"kind": "{it.kind}"']
    rows += [] if it.flag is None else [f'"flag": {_BOOLEANS[it.flag]}']
    rows += [] if it.bytes is None else [f'"bytes": "{it.bytes}"']
    rows += [] if it.value is None else [f'"value": {it.value}']
    rows += [] if it.error is None else [f'"error": {it.error}']
    return f"{{{', '.join(rows)}}}"


# The words of lines that are neither the number nor, in quotes, the text of their field.
IN_JSON: dict[Words, Callable[[str], str]] = {
    report.TAG: lambda word: "null" if word == "-" else word,
    report.ADDRESS: _number,
    report.VALUE: _number,
    report.PLACE: _place,
    report.PORT: lambda word: word.removeprefix("p"),
    report.UNIT: _unit,
    report.REQUESTED: Known(_request).__getitem__,
    report.ANSWERED: Known(_answer).__getitem__,
}
# The type of the fields that are in quotes.
QUOTED = "str"


def _shape_of(kind: Any) -> Shape:
    """The shape of the lines of a kind."""
    # The word for the vault is the one for the bank too.
    named = [field for field in fields(kind) if (kind, field.name) != (Executed, "bank")]
    rows = [f'"{RENAMED.get(it.name, it.name)}": {_mark_of(it.type)}' for it in named]
    begins = ', "line"' if issubclass(kind, Entry) else '{"line"'
    template = ", ".join([f'{begins}: "{kind.line}"', *rows])
    words = enumerate(LINES[kind.line][1])
    converts = tuple((at, IN_JSON[it]) for at, it in words if it in IN_JSON)
    match = FORMS[kind.line].pattern.fullmatch
    return Shape(match, f"{template}{ENDS}", converts, kind.line in COUNTED_WORDS)


def _mark_of(kind: Any) -> str:
    return '"%s"' if kind == QUOTED else "%s"


_KINDS = (*Entry.__subclasses__(), *Line.__subclasses__())
_SHAPES = {kind.line: _shape_of(kind) for kind in _KINDS if kind.line}


def object_of(text: str) -> Fronted[str]:
    """The front of a line, and its object. That of an entry begins after its number."""
    first = text.partition(" ")[0]
    if first not in _SHAPES:
        raise not_a_line(text)
    match, template, converts, is_counted = _SHAPES[first]
    found = match(text)
    if not found:
        raise not_a_line(text)
    words = found.groups()
    shown = template % (_converted(words, converts) if converts else words)
    return f"{first} {words[0]}" if is_counted else first, shown


def _converted(words: tuple[str, ...], converts: Converts) -> tuple[str, ...]:
    """The words of a line as JSON has them."""
    values = [*words]
    for at, convert in converts:
        values[at] = convert(words[at])
    return tuple(values)


def decoder_of(document: Document | None, profile: int) -> Decoder:
    """A decoder of the flits of a case, or of links that all have this profile."""
    return Decoder.of_case(document) if document else Decoder(profile)


def with_decoded(blocks: Iterable[Block[Line]], decoder: Decoder | None) -> Iterator[Block[str]]:
    """Yields the objects of lines, with the fields of their flits where there is a decoder."""
    known = Known(object_of)
    for block in blocks:
        shown = [known[text][1] for text in block.texts]
        if decoder is not None:
            shown = [_with_fields(it, decoder.flit(line)) for it, line in zip(shown, block.made)]
        yield Block(block.start, block.texts, shown)


def pieces(blocks: Iterable[Block[str]]) -> Iterator[bytes]:
    """Yields the objects of some lines at a time."""
    for block in blocks:
        count = len(block.made)
        parts = [BEGINS] * (3 * count)
        parts[1::3] = map(str, range(block.start, block.start + count))
        parts[2::3] = block.made
        # A line that ends a report has no number, and only such lines come after it.
        while count and block.made[count - 1][0] == "{":
            count -= 1
            parts[3 * count : 3 * count + 2] = ["", ""]
        yield "".join(parts).encode()


def _with_fields(shown: str, decoded: Fields) -> str:
    """An object with the field of a flit that is decoded, where its line has a flit."""
    if not decoded:
        return shown
    return f'{shown.removesuffix(ENDS)}, "decoded": {json.dumps(decoded)}{ENDS}'
