"""Lines, words and numbers of scripts and schedules, and the limits of docs/case.md."""

from __future__ import annotations

import re
from dataclasses import dataclass, field
from functools import lru_cache

ADDRESSES = 1 << 34
REGISTER_VALUES = 1 << 32
MOST_REQUESTS = 65_536
MOST_STEPS = 1_000_000
MOST_ROUNDS = 1_000_000
INPUT_BYTES = 4_194_304
MOST_BYTES = 16_777_216
PORTS = 4
# The slots of logic units.
SLOTS = 8

WORD = re.compile(r"[^ \t]+")
NUMBER = re.compile(r"0x[0-9a-fA-F]{1,20}|[0-9]{1,20}")
# So many words are remembered with their numbers: most come again and again.
MOST_KNOWN = 4096


@dataclass(frozen=True)
class Word:
    """A word of a line, and its place in it, from 0."""

    text: str
    start: int


@dataclass(frozen=True)
class TextFault:
    """The first fault of a text: the line, from 1, the kind, and the number of the word.

    A word that is missing has the number of the words that are there.
    """

    line: int
    kind: str
    word: int


@dataclass(frozen=True)
class CubeParts:
    """What a schedule may name of a cube."""

    vaults: int
    banks: int
    joined: tuple[int, ...]


@dataclass(frozen=True)
class Plan:
    """What a script and a schedule may name of a network."""

    hosts: int
    directions: int
    cubes: list[CubeParts] = field(default_factory=list)

    @property
    def round_steps(self) -> int:
        """The steps of one round."""
        steps = 2 * self.hosts + 2 * self.directions
        for cube in self.cubes:
            steps += len(cube.joined) + 2 * cube.vaults + cube.vaults * cube.banks + 2
        return steps


def lines_of(text: str) -> list[str]:
    """The lines of a text, each without its line feed and one carriage return before it."""
    return [line.removesuffix("\r") for line in text.split("\n")]


def words_of(line: str) -> list[Word]:
    """The words of a line. A comment has none."""
    words = [Word(found.group(), found.start()) for found in WORD.finditer(line)]
    return [] if words and words[0].text.startswith("#") else words


def plain_words_of(line: str) -> list[str]:
    """The words of a line without their places. A comment has none."""
    words = WORD.findall(line)
    return [] if words and words[0].startswith("#") else words


@lru_cache(MOST_KNOWN)
def number_of(word: str) -> int | None:
    """The number that a word is, or None."""
    if not NUMBER.fullmatch(word):
        return None
    return int(word[2:], 16) if word.startswith("0x") else int(word)


def value_of(word: str) -> int:
    """The number that a word is, which has been read without a fault."""
    number = number_of(word)
    assert number is not None
    return number


def is_below(word: str, bound: int) -> bool:
    """Whether the word is a number less than the bound."""
    number = number_of(word)
    return number is not None and number < bound
