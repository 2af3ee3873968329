"""Compares a report with the case that it is said to be of, line by line.

Each line of a step has to be one of the step at its place in the schedule, a request the next one
of its host's script, and a flit that lands the one that was sent, under the mask of the step. The
final lines have to be those of the network, and what they count what the lines before them show.
"""

from __future__ import annotations

import os
from collections import Counter, deque
from collections.abc import Callable, Iterable, Iterator
from itertools import islice

from tool import files, report, schedule, script
from tool.case import Document, plan_of
from tool.final import FINAL
from tool.lines import Entry, Gave, Landed, Line, Passed, Sent
from tool.report import Block, Made, Reader, read_line
from tool.trouble import NotALine

# The lines that end a report.
ENDS = frozenset((*FINAL, "passed"))
LEFT_OUT = "lines of steps are left out"
NO_IDLE = "no line before it begins with `idle`. If no step was idle, name the case (--case)"
# The step of a line, which is empty where it is of none, and its record.
Named = tuple[str, Line]


class NotThisCase(NotALine):
    """A line that the report of this case cannot have."""

    def __init__(self, number: int, said: str):
        super().__init__(f"line {number} is not one of this case: {said}")


class Fit:
    """What the next lines of a report may be."""

    def __init__(self, document: Document):
        plan = plan_of(document)
        self._steps = schedule.steps_in(document["schedule"], plan)
        self._requests = [deque(it) for it in script.requests_in(document["script"], plan.hosts)]
        self._lines: list[deque[str]] = [deque() for _ in range(plan.directions)]
        self._final = _final_lines(document, plan.hosts)
        self._mask = ""

    def blocks(self, blocks: Iterable[Block[Named]]) -> Iterator[Block[Line]]:
        """Yields the lines, after they were compared."""
        number, last = 0, ""
        for read in blocks:
            steps, lines = zip(*read.made)
            block = Block(read.start, read.texts, [*lines])
            self._compare(block, [*steps])
            number, last = block.start + len(block.made), block.made[-1].line
            yield block
        if last not in ("passed", "bad"):
            self._end(max(number, 1))

    def _compare(self, block: Block[Line], named: list[str]) -> None:
        """Compares lines with their steps, and then with what is known of each."""
        steps = list(islice(self._steps, len(named)))
        wanted = [step for step, _ in steps] + [""] * (len(named) - len(steps))
        fits = len(named) if named == wanted else _first_difference(named, wanted)
        compared = block.made[: min(fits, len(steps))]
        for place, compare in enumerate(map(_COMPARED.get, map(type, compared))):
            if compare:
                self._mask = steps[place][1]
                compare(self, block.start + place, compared[place])
        for number, line, _ in islice(block.rows(), len(steps), fits):
            self._compare_final(number, line)
        if fits < len(named):
            _refuse_step(block.start + fits, block.made[fits], wanted[fits])

    def gave(self, number: int, line: Gave) -> None:
        """Compares a request with the next one of the script."""
        left = self._requests[line.host]
        if not left or left.popleft() != line.request:
            said = f"it is not the next request of host {line.host} in the script"
            raise NotThisCase(number, said)

    def sent(self, _: int, line: Sent) -> None:
        """Remembers a flit that is sent."""
        self._lines[line.direction].append(line.flit)

    def landed(self, number: int, line: Landed | Passed) -> None:
        """Compares a flit with the one that was sent."""
        waiting = self._lines[line.direction]
        flit = waiting.popleft() if waiting else ""
        if self._mask and flit:
            flit = f"{int(flit, 16) ^ int(self._mask, 16):032x}"
        if flit != line.flit:
            said = f"`{flit}` lands there" if flit else "no flit is on the line"
            raise NotThisCase(number, said)

    def _compare_final(self, number: int, line: Line) -> None:
        """Compares a line after the last step with the final lines that are due."""
        if line.line in ("memory", "register", "bad"):
            return
        wanted = self._final.popleft() if self._final else ("", 0)
        place = getattr(line, _PLACES[line.line], 0) if line.line in _PLACES else 0
        if (line.line, place) != wanted:
            raise NotThisCase(number, f"the final line there begins with {_name(wanted)}")

    def _end(self, number: int) -> None:
        """The report ends before this line."""
        step, _ = next(self._steps, ("", ""))
        if step:
            raise NotThisCase(number, f"the report ends before it, and the step there is `{step}`")
        if self._final:
            raise NotThisCase(number, f"the report ends before its line {_name(self._final[0])}")


def _first_difference(mine: list[str], theirs: list[str]) -> int:
    """The place of the first words that differ. There are some."""
    return next(place for place, (it, other) in enumerate(zip(mine, theirs)) if it != other)


def _refuse_step(number: int, line: Line, step: str) -> None:
    """Refuses a line that is not one of its step, but for `bad`, after which nothing comes."""
    if isinstance(line, Entry):
        said = f"the step there is `{step}`" if step else "the schedule has no step left"
        raise NotThisCase(number, f"`{line.line}` is a line of `{line.step}`, and {said}")
    if line.line != "bad":
        said = f"`{line.line}` is a final line, and the step there is `{step}`"
        raise NotThisCase(number, said)


_COMPARED: dict[type[Line], Callable[..., None]] = {
    Gave: Fit.gave,
    Sent: Fit.sent,
    Landed: Fit.landed,
    Passed: Fit.landed,
}
# The field that tells final lines with one first word from each other.
_PLACES = {"tokens": "direction", "counters": "direction", "host": "host", "cube": "cube"}


def _name(wanted: tuple[str, int]) -> str:
    word, place = wanted
    return f"`{word} {place}`" if word in _PLACES else f"`{word}`" if word else "nothing"


def _final_lines(document: Document, hosts: int) -> deque[tuple[str, int]]:
    """The first words and numbers of the final lines from `tokens` on."""
    counts = {"tokens": 2 * len(document["links"]), "counters": 2 * len(document["links"])}
    counts |= {"host": hosts, "cube": len(document["cubes"]), "state": 1}
    return deque((word, place) for word, number in counts.items() for place in range(number))


# What the final lines count, by their field: the first word of the lines that are counted, and the
# field that has the number after it.
COUNTED = {
    ("counters", "sent"): ("sent", "direction"),
    ("counters", "landed"): ("landed", "direction"),
    ("host", "given"): ("gave", "host"),
    ("host", "taken"): ("took", "host"),
    ("cube", "executed"): ("executed", "cube"),
    ("cube", "dropped"): ("dropped", "cube"),
}
COUNTED_WORDS = frozenset(word for word, _ in COUNTED.values())
# The front of a line, and what is made of it: the front is the first word, and the number after it
# where lines with it are counted.
Fronted = tuple[str, Made]


class Whole:
    """Whether a report without a case has all its lines, as far as it shows that itself."""

    def __init__(self) -> None:
        # How many lines have each first word, with the number after it where that is counted.
        self._counts: Counter[str] = Counter()
        self._first_end = 0

    def blocks(self, blocks: Iterable[Block[Fronted[Made]]]) -> Iterator[Block[Made]]:
        """Yields what is made of lines, after they were compared with those before them."""
        for block in blocks:
            fronts, made = zip(*block.made)
            self._counts.update(fronts)
            if not ENDS.isdisjoint(fronts):
                for number, text in enumerate(block.texts, block.start):
                    self._compare_end(number, text)
            yield Block(block.start, block.texts, [*made])
        if not self._counts:
            raise NotALine("there is no line, and a report has one at least")

    def _compare_end(self, number: int, text: str) -> None:
        """Compares a line, if it is one that ends a report, with those before it."""
        if text.partition(" ")[0] not in ENDS:
            return
        # Where this is the first line, the report has no lines of steps at all.
        self._first_end = self._first_end or number
        if self._first_end == 1:
            return
        if not self._counts["idle"]:
            raise NotALine(f"line {number}: {LEFT_OUT}: {NO_IDLE}")
        line = report.read_line(text)
        for (word, field), (kind, of) in COUNTED.items():
            if word == line.line:
                found = self._counts[f"{kind} {getattr(line, of)}"]
                self._count(number, line, field, found)

    @staticmethod
    def _count(number: int, line: Line, field: str, found: int) -> None:
        if getattr(line, field) != found:
            said = f"`{line.line}` counts {getattr(line, field)} {field}, and {found} lines show it"
            raise NotALine(f"line {number}: {LEFT_OUT}: {said}")


def _with_front(text: str) -> Fronted[Line]:
    """The front of a line, and its record."""
    first, _, words = text.partition(" ")
    front = f"{first} {words.partition(' ')[0]}" if first in COUNTED_WORDS else first
    return front, read_line(text)


def _with_step(text: str) -> Named:
    """The step of a line, and its record."""
    line = read_line(text)
    return line.step if isinstance(line, Entry) else "", line


def fitting(lines: Iterable[str], document: Document) -> Iterator[Block[Line]]:
    """Yields the records of a report that fits this case."""
    return Fit(document).blocks(Reader(_with_step).blocks(lines))


def whole(lines: Iterable[str], make: Callable[[str], Fronted[Made]]) -> Iterator[Block[Made]]:
    """Yields what is made of the lines of a report that is whole as far as it shows."""
    return Whole().blocks(Reader(make).blocks(lines))


def checked(lines: Iterable[str], document: Document | None) -> Iterator[Block[Line]]:
    """Yields the records of a report that fits this case, or that is whole as far as it shows."""
    return fitting(lines, document) if document else whole(lines, _with_front)


def refuse_without_idle(name: str) -> None:
    """Refuses a file that has final lines and no idle line, before any of it is read."""
    if files.is_standard(name) or not os.path.isfile(name):
        return
    number = 0
    for lines in files.blocks_of(name):
        for text in lines:
            number += 1
            if text.startswith(b"idle "):
                return
            if text.startswith((b"tokens ", b"passed ")) and number > 1:
                raise NotALine(f"line {number}: {LEFT_OUT}: {NO_IDLE}")
