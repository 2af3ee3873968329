"""Compares two reports: the lines where they differ, and what came before.

A first pass finds the lines that differ. Only then is it known which earlier lines matter, and a
second pass over one of the reports finds these.
"""

from __future__ import annotations

from collections import deque
from collections.abc import Callable, Iterable, Iterator
from dataclasses import dataclass
from itertools import islice, zip_longest

from tool import explain, packets, report
from tool.subjects import Subject, name_of, parts_of, pattern_of, subjects_of
from tool.trouble import cut

# How many earlier lines of a request or a direction are shown.
SHOWN = 6
ENDED = "(the report ends here)"
# So many characters of a line are shown at most: those of the program are shorter.
MOST_OF_LINE = 2048
Lines = Callable[[], Iterable[str]]
# What a line is about.
About = Callable[[str], list[Subject]]


@dataclass(frozen=True)
class How:
    """The names of the reports, the profile of the links, and what is shown."""

    names: tuple[str, str]
    profile: int = 1
    context: int = SHOWN
    start: int = 1
    is_all: bool = False


@dataclass(frozen=True)
class Difference:
    """The number of a line that differs, and the line in each report; None where one has ended."""

    number: int
    sides: tuple[str | None, str | None]

    @property
    def present(self) -> list[str]:
        """The lines that are there."""
        return [side for side in self.sides if side is not None]


def compare(first: Lines, second: Lines, how: How) -> list[str]:
    """The lines that state where two reports differ; none where they are equal."""
    found = list(differences(first(), second(), how))
    lines: list[str] = []
    for place, difference in enumerate(found):
        before = Before(difference, how)
        before.read(islice(first(), difference.number - 1))
        lines += [""] * (place > 0) + shown(difference, before, how)
    return lines


def differences(first: Iterable[str], second: Iterable[str], how: How) -> Iterator[Difference]:
    """Yields the first difference; and the others that are of no part that differed before."""
    differed: set[Subject] = set()
    pairs = zip_longest(first, second)
    for number, pair in enumerate(islice(pairs, how.start - 1, None), start=how.start):
        if pair[0] == pair[1]:
            continue
        sides = [None if side is None else side.removesuffix("\n") for side in pair]
        found = Difference(number, (sides[0], sides[1]))
        parts = {part for side in found.present for part in parts_of(side)}
        if parts & differed or (differed and not parts):
            continue
        differed |= parts
        yield found
        if not how.is_all or None in sides:
            return


class Before:
    """The last lines before a difference that are about the same, and the flits of its packet."""

    def __init__(self, difference: Difference, how: How, about: About = subjects_of):
        subjects = [it for side in difference.present for it in about(side)]
        self._patterns = {subject: pattern_of(subject) for subject in dict.fromkeys(subjects)}
        self.lines: dict[Subject, deque[str]] = {
            subject: deque(maxlen=how.context) for subject in self._patterns
        }
        self._flits: dict[tuple[str, ...], list[str]] = {}
        self._profile = how.profile

    def read(self, lines: Iterable[str]) -> None:
        """Takes the lines before the difference."""
        rows = [(pattern.match, self.lines[subject]) for subject, pattern in self._patterns.items()]
        for number, line in enumerate(lines, start=1):
            for is_of, kept in rows:
                if is_of(line):
                    line = line.removesuffix("\n")
                    kept.append(f"  {number}: {line}")
                    self.add(line)

    def add(self, line: str) -> None:
        """Adds a line to the packet that its direction is at."""
        key, flit = flit_of(line)
        if key:
            flits = [*self._flits.get(key, []), flit]
            self._flits[key] = flits if goes_on(line, flits) else []
        elif line.startswith("unlocked "):
            # The receiver has dropped what it had gathered.
            self._flits["landed", line.split(" ")[1]] = []

    def explained(self, line: str) -> list[str]:
        """The lines that explain the packet of the line's flit, up to that flit."""
        key, flit = flit_of(line)
        flits = [bytes.fromhex(it) for it in (*self._flits.get(key, []), flit)]
        return explain.explain_flits(flits, self._profile)


def flit_of(line: str) -> tuple[tuple[str, ...], str]:
    """The flit of a line and whose it is, the sends or the landings of a direction."""
    words = line.split(" ")
    if words[0] == "sent" and len(words) == 4 and explain.flit_of(words[3]):
        return ("sent", words[1]), words[3]
    if words[0] in ("landed", "passed") and len(words) > 2 and explain.flit_of(words[2]):
        return ("landed", words[1]), words[2]
    return (), ""


def goes_on(line: str, flits: list[str]) -> bool:
    """Whether the packet of the line's flit goes on. A receiver says so itself: masks may have
    changed the length that its first flit names."""
    if line.startswith("landed "):
        return line.endswith(" gathered")
    length = packets.length_of(bytes.fromhex(flits[0]))
    return len(flits) < length <= packets.MOST_FLITS


def shown(difference: Difference, before: Before, how: How) -> list[str]:
    """The two lines that differ, what differs in their flits, and what came before them."""
    is_final = all(report.is_final(side) for side in difference.present)
    kind = ", a final line" if is_final else ""
    lines = [f"the reports differ at line {difference.number}{kind}"]
    for name, side in zip(how.names, difference.sides):
        lines.append(f"{name}: {ENDED if side is None else cut(side, MOST_OF_LINE)}")
    lines += flit_difference(difference, before, how)
    for subject, earlier in before.lines.items() if how.context else ():
        lines.append(f"before, in both reports, {name_of(subject)}:")
        lines += earlier or ["  nothing"]
    return lines


def flit_difference(difference: Difference, before: Before, how: How) -> list[str]:
    """The fields that differ, where both lines have a flit of one direction and it differs."""
    if len(difference.present) < 2:
        return []
    (key, flit), (other_key, other) = map(flit_of, difference.present)
    if not key or key != other_key or flit == other:
        return []
    explained = [before.explained(side) for side in difference.present]
    lines = []
    for name, mine, theirs in zip(how.names, explained, reversed(explained)):
        lines.append(f"in the flit of {name}:")
        lines += [f"  {line.strip()}" for line in mine if line not in theirs]
    return lines
