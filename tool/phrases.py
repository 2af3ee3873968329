"""The rows of phrases.txt: words of pages, with a quantity for each number among them.

`python3 -m tool.counts --write` puts these numbers into their pages. A row of every page has the
number itself too, `{8: MOST_CUBES} cubes`, since the same words may have another number somewhere:
only that number is replaced, in the pages and then in the row.
"""

from __future__ import annotations

import re
from functools import cache, partial
from pathlib import Path
from typing import NamedTuple

from tool import numbers
from tool.kit import TOP
from tool.quantities import value_of
from tool.sources import LETTERS, int_of

PATH = Path(__file__).resolve().parent / "phrases.txt"
FIRST = ("README.md", "CONTRIBUTING.md", "CHANGES.md")
MORE = ("docs/*.md", "crates/*/CALLING.md", "bindings/*.md")
PAGES = sorted({*FIRST, *(str(it.relative_to(TOP)) for part in MORE for it in TOP.glob(part))})
DIGITS = r"[0-9][0-9,]*[0-9](?:\.[0-9]+)?|[0-9](?:\.[0-9]+)?"
ANY = rf"(?:{DIGITS})|\b(?:{'|'.join(LETTERS)})\b"
EVERY = "every page"
# What stands for a number: its quantity, in rows of every page behind the number.
PLACE = re.compile(r"\{(?:([0-9]+): )?([^}]*)\}")


class Row(NamedTuple):
    """A row: its page, why no script makes its numbers, where none does, and its words."""

    page: str
    by: str
    words: str

    @property
    def pattern(self) -> re.Pattern[str]:
        """The words, with a number for each `{..}`, and wherever lines end."""
        return pattern_of(self.words)

    @property
    def quantities(self) -> list[str]:
        """What is between the braces, without the numbers."""
        return [it[2] for it in PLACE.finditer(self.words)]

    @property
    def last(self) -> list[int]:
        """The numbers that a row of every page has, as they were when it was last written."""
        return [int(it[1]) for it in PLACE.finditer(self.words) if it[1]]

    def means(self, found: re.Match[str]) -> bool:
        """Whether these words are meant: those of every page with the row's numbers alone."""
        return not self.last or [int_of(it) for it in found.groups()] == self.last


@cache
def pattern_of(words: str) -> re.Pattern[str]:
    """The pattern of the words of a row."""
    parts = re.split(r"\{[^}]*\}", words)
    number = rf"((?i:{ANY}))(?!,?[0-9])(?:st|nd|rd|th)?"
    return re.compile(number.join(numbers.spaced(part) for part in parts))


@cache
def rows() -> list[Row]:
    """The rows, each with the page of its section."""
    page, found = "", []
    for line in PATH.read_text(encoding="utf-8").splitlines():
        if line.startswith("    "):
            by, _, words = line.strip().rpartition(" :: ")
            found.append(Row(page, by, words))
        elif line and not line.startswith("#"):
            page = line
    return found


def rows_of(page: str) -> list[Row]:
    """Those of a page, and of every page."""
    return [it for it in rows() if it.page in (page, EVERY)]


def like(shown: str, number: int) -> str:
    """A number in digits or in letters, as the one that is shown, where it has letters."""
    if int_of(shown) == number:
        return shown
    word = next((it for it, value in LETTERS.items() if value == number), "")
    if shown[0].isdigit() or not word:
        return numbers.shown(number)
    return word.capitalize() if shown[0].isupper() else word


def written(row: Row, found: re.Match[str]) -> str:
    """What was found of a row, with the quantities for its numbers, where it is meant."""
    if not row.means(found):
        return found[0]
    text, at = "", found.start()
    for place, quantity in enumerate(row.quantities, start=1):
        text += found.string[at : found.start(place)] + like(found[place], value_of(quantity))
        at = found.end(place)
    return text + found.string[at : found.end()]


def put_right(row: Row, text: str) -> str:
    """A text in which the numbers of a row are its quantities."""
    return row.pattern.sub(partial(written, row), text)


def page_with(page: str, text: str) -> str:
    """A page in which they are those of each row."""
    for row in rows_of(page):
        if not row.by:
            text = put_right(row, text)
    return text


def now(found: re.Match[str]) -> str:
    """What stands for a number, with the number as it is now."""
    return f"{{{value_of(found[2])}: {found[2]}}}" if found[1] else found[0]


def write() -> None:
    """Brings the numbers of the rows of every page along."""
    PATH.write_text(PLACE.sub(now, PATH.read_text(encoding="utf-8")), encoding="utf-8")
