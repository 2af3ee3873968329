"""Reads the lines of reports, some at a time.

A line is read by one pattern, which is put together from those of its words. Equal lines share one
record: most lines of a report come again and again.
"""

from __future__ import annotations

import re
from collections.abc import Callable, Iterable, Iterator
from dataclasses import dataclass
from functools import lru_cache
from itertools import chain, count, islice
from typing import Any, Generic, NamedTuple, TypeVar

from tool.commands import BY_WORD, REQUEST
from tool.final import FINAL
from tool.lines import (
    REGISTERS,
    SLOTS,
    Answer,
    Bad,
    Counters,
    Cube,
    Discarded,
    Dropped,
    Entry,
    Executed,
    Gave,
    Host,
    Idle,
    Landed,
    Lifted,
    Line,
    Memory,
    Passed,
    Register,
    Request,
    Retired,
    Sent,
    Shifted,
    Spread,
    State,
    Through,
    Tokens,
    Took,
    Unlocked,
)
from tool.trouble import NotALine, quoted

# The first words of the lines after which those of other steps may come.
GOES_ON = frozenset(kind.line for kind in Entry.__subclasses__()) - {Passed.line}
# The front of the lines that end a report, or are its only one.
ENDING = tuple(f"{word} " for word in (*FINAL, Passed.line, "bad"))
# The front of lines that seldom come twice: their flits differ.
SELDOM_TWICE = ("sent ", "landed ")
# So many lines are read at once.
AT_ONCE = 1024
# So much that comes again and again is remembered at most.
MOST_KNOWN = 50_000

Made = TypeVar("Made")
# The number of a line, its record, and its text.
Numbered = tuple[int, Line, str]
# The places of groups whose value is not their word, and what gives their value.
Converts = tuple[tuple[int, Callable[[str], Any]], ...]


class Words(NamedTuple):
    """The words of a field: their pattern, what they are, and their value."""

    pattern: str
    what: str
    convert: Callable[[str], Any] = str


def _hexadecimal(text: str) -> int:
    return int(text, 16)


_NUMBER = "(?:0|[1-9][0-9]*)"
_REQUEST = rf"(?:poison )?[a-z0-9]+ {_NUMBER} 0x(?:0|[1-9a-f][0-9a-f]*)(?: [0-9a-f]+)?"
_BYTES = "(?:[0-9a-f]{2})+"
_ANSWERS = f"silent|done [01]|read [01] {_BYTES}|register [0-9a-f]{{8}}|stored|error {_NUMBER}"
_ANSWER = rf"(?:{_ANSWERS})(?![^ \n])"

NUMBER = Words(_NUMBER, "a number", int)
TAG = Words(f"{_NUMBER}|-", "a tag or `-`", lambda word: None if word == "-" else int(word))
FLIT = Words("[0-9a-f]{32}", "a flit of 32 digits")
BYTES = Words(_BYTES, "bytes of two digits each")
ADDRESS = Words("0x(?:0|[1-9a-f][0-9a-f]*)", "an address, as 0x40", _hexadecimal)
VALUE = Words("[0-9a-f]{8}", "a value of eight digits", _hexadecimal)
WHAT = Words("train|clear|start|null|pret|tret|new|again", "a kind of flit, as new or null")
OUTCOME = Words(
    "quiet|trained|gathered|accepted|poisoned|repeat|ran (?:start|clear)"
    "|aborted (?:length|command|reserved|crc|order)",
    "an outcome, as gathered or accepted",
)
GOAL = Words(f"v{_NUMBER}|r|p[0-3]", "a vault, registers or a port, as v0, r or p1")
PLACE = Words(
    f"{_NUMBER}|r", "a vault, or r", lambda word: word if word == REGISTERS else int(word)
)
PORT = Words("p[0-3]", "a port, as p0", lambda word: int(word[1:]))
UNIT = Words(f"{_NUMBER} {_NUMBER}|r", "a vault and a bank, or r")
STEP = Words(
    f"(?:give|take|send|land|unlock|retire|registers) {_NUMBER}"
    f"|(?:shift|spread|through) {_NUMBER} {_NUMBER}|bank {_NUMBER} {_NUMBER} {_NUMBER}"
    f"|lift {_NUMBER} (?:{_NUMBER}|r)",
    "a step",
)
CAUSE = Words("ended|fence|tags|full|empty|starved|nopacket|busy", "a cause, as empty or full")
STATE = Words("drained|busy", "drained or busy")
WORD = Words("[a-z]+", "a word")


@lru_cache(MOST_KNOWN)
def request_of(text: str) -> Request:
    """A request in the words of a report."""
    words = text.split(" ")
    is_poisoned = words[0] == "poison"
    word, cube, address, *rest = words[is_poisoned:]
    command = BY_WORD.get(word)
    if command is None or command.family != REQUEST:
        raise NotALine(f"unexpected {quoted(word)}: the word of a request is expected")
    front = (is_poisoned, word, int(cube), int(address, 16))
    if word == "mdwr":
        if not rest or not rest[0].isdigit():
            raise NotALine("the value of a register is expected after mdwr")
        return Request(*front, value=int(rest[0]))
    carried = rest[0] if rest else ""
    if len(carried) != 2 * command.payload_bytes:
        digits = 2 * command.payload_bytes
        raise NotALine(f"{word} carries {digits} digits, and here are {len(carried)}")
    return Request(*front, bytes=carried or None)


@lru_cache(MOST_KNOWN)
def answer_of(text: str) -> Answer:
    """An answer in the words of a report."""
    kind, *words = text.split(" ")
    if kind == "done":
        return Answer(kind, flag=words[0] == "1")
    if kind == "read":
        return Answer(kind, flag=words[0] == "1", bytes=words[1])
    if kind == "register":
        return Answer(kind, value=int(words[0], 16))
    return Answer(kind, error=int(words[0])) if kind == "error" else Answer(kind)


def _executed(cube: int, unit: str, *rest: Any) -> Executed:
    """The record of `executed`, which has a bank only where a vault executed the request."""
    if unit == REGISTERS:
        return Executed(cube, unit, None, *rest)
    vault, bank = unit.split(" ")
    return Executed(cube, int(vault), int(bank), *rest)


REQUESTED = Words(_REQUEST, "a request", request_of)
ANSWERED = Words(_ANSWER, "an answer", answer_of)

# The words of each line after its first one.
LINES: dict[str, tuple[Callable[..., Line], tuple[Words, ...]]] = {
    "gave": (Gave, (NUMBER, TAG, REQUESTED)),
    "sent": (Sent, (NUMBER, WHAT, FLIT)),
    "landed": (Landed, (NUMBER, FLIT, OUTCOME)),
    "passed": (Passed, (NUMBER, FLIT)),
    "shifted": (Shifted, (NUMBER, NUMBER, GOAL)),
    "dropped": (Dropped, (NUMBER, NUMBER)),
    "spread": (Spread, (NUMBER, NUMBER, NUMBER)),
    "executed": (_executed, (NUMBER, UNIT, NUMBER, TAG, REQUESTED, ANSWERED)),
    "lifted": (Lifted, (NUMBER, PLACE, PORT)),
    "took": (Took, (NUMBER, NUMBER, ANSWERED)),
    "discarded": (Discarded, (NUMBER,)),
    "through": (Through, (NUMBER, NUMBER, NUMBER)),
    "unlocked": (Unlocked, (NUMBER,)),
    "retired": (Retired, (NUMBER,)),
    "idle": (Idle, (STEP, CAUSE)),
    "memory": (Memory, (NUMBER, ADDRESS, BYTES)),
    "register": (Register, (NUMBER, NUMBER, VALUE)),
    "tokens": (Tokens, (NUMBER,) * 7),
    "counters": (Counters, (NUMBER,) * 7),
    "host": (Host, (NUMBER,) * 4),
    "cube": (Cube, (NUMBER,) * 3),
    "state": (State, (STATE,)),
    "bad": (Bad, (WORD, NUMBER, WORD)),
}


class Form(NamedTuple):
    """How the lines with one first word are read: their pattern, and what is made of its groups."""

    pattern: re.Pattern[str]
    make: Callable[..., Line]


def _form_of(first: str, make: Callable[..., Line], words: tuple[Words, ...]) -> Form:
    """The form of the lines with this first word, with or without their line feed."""
    pattern = re.compile("".join([first, *(f" ({it.pattern})" for it in words), "\n?"]))
    converts = tuple((at, it.convert) for at, it in enumerate(words) if it.convert is not str)
    return Form(pattern, _maker(make, converts))


def _maker(make: Callable[..., Line], converts: Converts) -> Callable[..., Line]:
    """What makes a record of groups: the values at these places are not their words."""

    def from_words(*groups: str) -> Line:
        values: list[Any] = [*groups]
        for at, convert in converts:
            values[at] = convert(values[at])
        return make(*values)

    def from_number(number: str, *groups: str) -> Line:
        return make(int(number), *groups)

    if not converts:
        return make
    if converts == ((0, int),):
        # The lines of flits are read by this: they are most of those that do not come again.
        return from_number
    return from_words


FORMS = {first: _form_of(first, make, words) for first, (make, words) in LINES.items()}


def read_line(text: str) -> Line:
    """The record of a line."""
    form = FORMS.get(text.partition(" ")[0])
    found = form and form.pattern.fullmatch(text)
    if not form or not found:
        raise not_a_line(text)
    return form.make(*found.groups())


def not_a_line(text: str) -> NotALine:
    """What is wrong with a text that is no line of a report."""
    if "\r" in text:
        return NotALine("it has a carriage return, and lines of reports have none")
    first = text.partition(" ")[0]
    if first not in LINES:
        return NotALine(f"no line begins with {quoted(first.strip())}")
    return NotALine(_fault_of(text[len(first) :].removesuffix("\n"), LINES[first][1]))


def _fault_of(text: str, form: tuple[Words, ...]) -> str:
    """What is wrong with the words of a line after its first one."""
    at = 0
    for words in form:
        found = re.compile(f" (?:{words.pattern})(?= |$)").match(text, at)
        if found is None:
            word = text[at:].removeprefix(" ").partition(" ")[0]
            if not word:
                return f"a word is missing: {words.what} is expected"
            return f"unexpected {quoted(word)}: {words.what} is expected"
        at = found.end()
    return f"unexpected {quoted(text[at:].strip())}: the line ends before it"


class Known(dict[str, Made]):
    """What is made of a text, once: most lines of a report come again and again."""

    def __init__(self, make: Callable[[str], Made]):
        super().__init__()
        self.make = make

    def __missing__(self, text: str) -> Made:
        made = self.make(text)
        if len(self) >= MOST_KNOWN:
            self.clear()
        self[text] = made
        return made


@dataclass(frozen=True, **SLOTS)
class Block(Generic[Made]):
    """Lines of a report that follow one another: the number of the first one, their texts, and what
    was made of each. The number of an entry is that of its step."""

    start: int
    texts: list[str]
    made: list[Made]

    def rows(self) -> Iterator[tuple[int, Made, str]]:
        """Yields the number of each line, what was made of it, and its text."""
        return zip(count(self.start), self.made, self.texts)


class _Lines(Known[Made]):
    """What is made of lines. One that ends a report is not kept, so each of them is noticed."""

    is_ending = False

    def __missing__(self, text: str) -> Made:
        if text.startswith(SELDOM_TWICE):
            return self.make(text)
        if not text.startswith(ENDING):
            return super().__missing__(text)
        self.is_ending = True
        return self.make(text)


class Reader(Generic[Made]):
    """Reads the lines of one report, in order: each becomes what is made of it."""

    def __init__(self, make: Callable[[str], Made]):
        self._known = _Lines(make)

    def blocks(self, lines: Iterable[str]) -> Iterator[Block[Made]]:
        """Yields the lines, some at a time, each with or without its line feed.

        A line that no report has there is refused after all lines before it were given.
        """
        source, start, last = iter(lines), 1, ""
        while texts := list(islice(source, AT_ONCE)):
            made, said = self._read(texts)
            if self._known.is_ending:
                words = [text.partition(" ")[0] for text in texts[: len(made)]]
                place, wrong, last = _order_fault(words, last)
                made, said = made[:place], wrong or said
            if made:
                yield Block(start, texts[: len(made)], made)
            if said:
                raise NotALine(f"line {start + len(made)}{said}")
            start += len(texts)

    def _read(self, texts: list[str]) -> tuple[list[Made], str]:
        """What is made of these lines up to the first that is none, and what is wrong with it."""
        made: list[Made] = []
        try:
            made.extend(map(self._known.__getitem__, texts))
        except NotALine as error:
            return made, f" is not a line of a report: {error}"
        return made, ""


def numbered(lines: Iterable[str]) -> Iterator[Numbered]:
    """Yields the number of each line, from 1, its record, and its text."""
    return chain.from_iterable(block.rows() for block in Reader(read_line).blocks(lines))


def _order_fault(words: list[str], last: str) -> tuple[int, str, str]:
    """The place of the first line that cannot come there, by the first words of lines, what is
    wrong with it, and the word of the last line that ends a report; it is empty before them."""
    for place, word in enumerate(words):
        said = _end_fault(word, last) if last else ""
        if said:
            return place, said, last
        if word not in GOES_ON:
            last = word.removesuffix("\n")
    return len(words), "", last


def _end_fault(word: str, before: str) -> str:
    """Why a line cannot come after a final line, `passed`, or `bad`; nothing where it can."""
    if before in ("passed", "bad"):
        return f": `{before}` is the last line of a report"
    if word not in FINAL or FINAL.index(word) < FINAL.index(before):
        return f": `{word}` cannot come after a final line `{before}`"
    return ": `state` is the last line of a report" if word == before == "state" else ""


def is_final(line: str) -> bool:
    """Whether the line is one of those that end a report."""
    return line.split(" ", 1)[0] in FINAL
