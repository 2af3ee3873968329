"""How the quantities of pages are read from the files that have them."""

from __future__ import annotations

import re
from collections.abc import Callable

from tool import numbers, packets
from tool.numbers import named, text_of

Quantity = Callable[[], int]
TENS = "twenty thirty forty fifty sixty seventy eighty ninety".split()
LETTERS = {word: at for at, word in enumerate(numbers.SPELLED)}
LETTERS |= {word: 10 * at for at, word in enumerate(TENS, start=2)}
LETTERS |= {"hundred": 100, "thousand": 1000, "million": 1_000_000}


def int_of(shown: str) -> int:
    """The number that a page shows: digits with commas, or letters."""
    word = shown.replace(",", "")
    return int(word) if word.isdigit() else LETTERS[shown.lower()]


def of(value: numbers.Value) -> Quantity:
    """The quantity of a number as pages show it, in digits or in letters."""
    return lambda: int_of(value())


def constant(path: str, name: str) -> int:
    """A constant of a file of code, in decimal digits, or as a power of two."""
    found = re.search(rf"\bconst {name}: \w+ = (1 << )?([0-9_]+);", text_of(path))
    assert found, f"{path}: {name}"
    number = int(found[2].replace("_", ""))
    return 1 << number if found[1] else number


def behind(path: str, pattern: str) -> Quantity:
    """The number that a file has behind these words, the same wherever they are."""
    return of(named(path, pattern))


def in_letters(path: str, pattern: str) -> Quantity:
    """The number that a comment of a file has in letters."""

    def value() -> int:
        (found,) = re.findall(pattern, text_of(path))
        return LETTERS[found]

    return value


def greatest(path: str, pattern: str) -> Quantity:
    """The greatest number that a file has behind these words."""
    return lambda: max(map(int, re.findall(rf"{pattern}([0-9]+)", text_of(path))))


def times(path: str, pattern: str) -> Quantity:
    """How often a file has this pattern."""
    return lambda: len(re.findall(pattern, text_of(path), re.MULTILINE))


def within(path: str, begin: str, end: str, pattern: str) -> Quantity:
    """How often a file has this pattern from some words to others."""

    def value() -> int:
        after = text_of(path).split(begin, 1)[1].split(end, 1)[0]
        return len(re.findall(pattern, after, re.MULTILINE))

    return value


def times_before(path: str, end: str, pattern: str) -> Quantity:
    """How often a file has this pattern before some words."""
    return lambda: len(re.findall(pattern, text_of(path).split(end)[0], re.MULTILINE))


def bits_of(name: str, profile: int = 1) -> Quantity:
    """How many bits a field of a packet has."""
    tails = packets.REQUEST_TAIL[profile] + packets.RESPONSE_TAIL[profile]
    known = (*packets.REQUEST_HEADER, *tails)
    return lambda: next(it.high - it.low + 1 for it in known if it.name == name)
