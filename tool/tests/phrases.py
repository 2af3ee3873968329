"""The numbers of a page, and what says where each comes from: the rows of tool/phrases.txt."""

from __future__ import annotations

import re
from collections.abc import Callable, Iterator
from functools import cache, partial

from tool import counts, stated
from tool.phrases import DIGITS, Row, put_right, rows_of
from tool.quantities import value_of
from tool.sources import LETTERS, int_of
from tool.tests import pages

# Letters from three on are numbers. One, two, half and twice are words of the language: they count
# what the same sentence names.
WORDS = "|".join(it for it, number in LETTERS.items() if number > 2)
HEX = "0x[0-9a-f]+"
FOUND = re.compile(
    rf"(?<![\w.])(?:{HEX}|{DIGITS})(?:st|nd|rd|th)?(?!\w)|\b(?:{WORDS})\b", re.IGNORECASE
)
# What is no sentence: blocks and code, which other tests compare, and targets of links.
APART = re.compile(rf"{pages.BLOCK.pattern}|`[^`]*`|\]\([^)]*\)", re.MULTILINE | re.DOTALL)
# What is named by a number, and how the numbers of it end.
NAMED = {
    "[Hh]ost": "MOST_HOSTS - 1",
    "cube": "MOST_CUBES - 1",
    "port": "PORTS - 1",
    "[Ll]ink": "MOST_LINKS - 1",
    "[Dd]irection": "last_direction",
    "[Ss]lot": "hmc_schedule/meaning.SLOTS - 1",
    "tag": "TAGS - 1",
    "[Ee]rror": "last_error",
    "[Ss]tatus(?:es)?": "last_status",
    "[Ff]loor": "floors",
}
# Numbers that are no quantities.
NAMES = [
    re.compile(it, re.MULTILINE)
    for it in (
        r"^ *[0-9]+\. ",  # the numbers of a list
        r"\b(?:UTF-8|Debian 12|TLM-2\.0|TOML 1\.1|Apache-2\.0)\b",  # names
        r"\bSpecification\s+2\.1\b",  # the version that is modelled
        r"\b2\^(?:32|64)(?: - 1)?",  # the bounds of the types u32 and u64
        r"\b2\^",  # the base of a power
        r"\bC\+\+20\b",  # a version of a language
        r"\b[A-Za-z]\s[+-]\s+1\b",  # one more, or one less
        r"\b(?:from|at)\s+[01](?=[.,;: ])",  # where a numbering begins
        r"[\w-]+\.toml\b",  # names of files
    )
]


Span = tuple[int, int]


def blanked(text: str, pattern: re.Pattern[str]) -> str:
    """The text with signs that are no words in place of what the pattern finds."""
    return pattern.sub(lambda found: re.sub(r"[^\n]", "`", found[0]), text)


@cache
def text_of(page: str) -> str:
    """A page without the rows of tables that a script writes."""
    text = pages.text_of(page)
    for tables in counts.PAGES.get(page, ()):
        text = counts.page_with(text, tables()[:2])
    return text


def spans(text: str, row: Row) -> list[tuple[int, int]]:
    """Where the numbers of a row are in a page."""
    places = range(1, len(row.quantities) + 1)
    matches = row.pattern.finditer(text)
    return [found.span(at) for found in matches if row.means(found) for at in places]


def differing(found: re.Match[str], row: Row) -> Iterator[str]:
    """Yields each number of such words that isn't the quantity of its row."""
    for shown, quantity in zip(found.groups(), row.quantities):
        if int_of(shown) != value_of(quantity):
            yield f"{found[0]}: {shown} is not {quantity}, {value_of(quantity)}"


def wrong(text: str, row: Row) -> Iterator[str]:
    """Yields each number of a page that isn't the quantity of its row."""
    for found in row.pattern.finditer(text):
        yield from differing(found, row)


def names_of(name: str, text: str) -> Iterator[re.Match[str]]:
    """Yields where things of this name are named by numbers, as `ports 0 to 3`."""
    more = r"(?:(?:,| to|,? and|,? or|\.\.)\s+[0-9]+)*"
    return re.finditer(rf"\b{name}s?(?: |\n *(?![0-9]+\. ))[0-9]+{more}(?!\w|,[0-9])", text)


def beyond(text: str) -> Iterator[str]:
    """Yields what has a number by which nothing of its kind is named."""
    for name, last in NAMED.items():
        for found in names_of(name, text):
            if max(map(int, re.findall("[0-9]+", found[0]))) > value_of(last):
                yield found[0]


def made(page: str, text: str) -> Iterator[tuple[int, int]]:
    """Yields where the numbers are that tool.numbers puts into a page."""
    for number in stated.NUMBERS.get(page, ()):
        found = number.pattern.search(text)
        assert found, number.words
        yield found.span(2)


def written_in(page: str, text: str) -> Iterator[tuple[Callable[[str], str], list[Span]]]:
    """Yields where the numbers are that a script writes, with what writes those of each row. Those
    of every page are left out: they know their number by what it is."""
    for number in stated.NUMBERS.get(page, ()):
        (found,) = number.pattern.finditer(text)
        yield partial(stated.put, number=number), [found.span(2)]
    for row in rows_of(page):
        if row.page == page and not row.by:
            yield partial(put_right, row), spans(text, row)


def unknown(page: str) -> Iterator[tuple[int, str]]:
    """Yields each number of a page of which nothing says where it comes from, with its line."""
    text = text_of(page)
    left = blanked(text, APART)
    known = [*made(page, text), *(it for row in rows_of(page) for it in spans(text, row))]
    known += [it.span() for pattern in NAMES for it in pattern.finditer(text)]
    known += [it.span() for name in NAMED for it in names_of(name, text)]
    for found in FOUND.finditer(left):
        if not any(start <= found.start() < end for start, end in known):
            around = text[max(0, found.start() - 40) : found.end() + 30]
            yield text.count("\n", 0, found.start()) + 1, pages.flat(around)
