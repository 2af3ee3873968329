"""The commands of requests: the word, the code and the bytes of payload of each."""

from __future__ import annotations

from collections.abc import Iterator
from dataclasses import dataclass

from hmc.calls import Error, Status


@dataclass(frozen=True)
class Command:
    """A command of a request."""

    word: str
    code: int
    payload_bytes: int


def _rows() -> Iterator[tuple[tuple[str, ...], int, int]]:
    """Yields words whose codes follow each other, the first code, and their payload."""
    sizes = range(16, 129, 16)
    for words, code in (("wr", 8), ("pwr", 24)):
        for number, size in enumerate(sizes):
            yield (f"{words}{size}",), code + number, size
    yield ("wr256",), 79, 256
    yield ("pwr256",), 95, 256
    yield tuple(f"rd{size}" for size in sizes), 48, 0
    yield ("rd256",), 119, 0
    yield ("mdwr",), 16, 16
    yield ("mdrd",), 40, 0
    yield ("bwr", "2add8", "add16"), 17, 16
    yield ("pbwr", "p2add8", "padd16"), 33, 16
    yield ("bwr8r", "2adds8r", "adds16r"), 81, 16
    yield ("xor16", "or16", "nor16", "and16", "nand16"), 64, 16
    yield ("inc8",), 80, 0
    yield ("pinc8",), 84, 0
    yield ("casgt8", "caslt8", "casgt16", "caslt16"), 96, 16
    yield ("caseq8", "caszero16"), 100, 16
    yield ("eq16", "eq8", "swap16"), 104, 16
    yield tuple(f"unit{number}" for number in range(7)), 112, 16
    yield ("unit7",), 120, 16


COMMANDS = {
    word: Command(word, first + number, payload)
    for words, first, payload in _rows()
    for number, word in enumerate(words)
}


def command_of(word: str) -> Command:
    """The command that a word names."""
    command = COMMANDS.get(word)
    if command is None:
        raise Error(f"request {word!r}", Status.BAD)
    return command
