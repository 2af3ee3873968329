"""The command table of docs/packets.md: the word, code, lengths and reply of each command."""

from __future__ import annotations

from collections.abc import Iterator
from dataclasses import dataclass

FLOW = "flow"
REQUEST = "request"
RESPONSE = "response"

# The lengths in flits of a packet with 16 to 128 bytes of payload, or with 256.
LONG = (*range(2, 10), 17)


@dataclass(frozen=True)
class Command:
    """A command: its word, its code, its family, its lengths in flits, and the word of its reply.

    The reply is empty for what is never answered.
    """

    word: str
    code: int
    family: str
    lengths: tuple[int, ...]
    reply: str = ""

    @property
    def payload_bytes(self) -> int:
        """The bytes of payload of a request, which has one length alone."""
        return 16 * (self.lengths[0] - 1)


def _rows() -> Iterator[tuple[tuple[str, ...], int, str, int, str]]:
    """Yields the rows of the table: words, first code, family, length of the first word, reply."""
    sizes = range(16, 129, 16)
    yield ("null", "pret", "tret", "irtry"), 0, FLOW, 1, ""
    yield tuple(f"wr{size}" for size in sizes), 8, REQUEST, 2, "wr_rs"
    yield ("wr256",), 79, REQUEST, 17, "wr_rs"
    yield tuple(f"pwr{size}" for size in sizes), 24, REQUEST, 2, ""
    yield ("pwr256",), 95, REQUEST, 17, ""
    yield tuple(f"rd{size}" for size in sizes), 48, REQUEST, 1, "rd_rs"
    yield ("rd256",), 119, REQUEST, 1, "rd_rs"
    yield ("mdwr",), 16, REQUEST, 2, "md_wr_rs"
    yield ("mdrd",), 40, REQUEST, 1, "md_rd_rs"
    yield ("bwr", "2add8", "add16"), 17, REQUEST, 2, "wr_rs"
    yield ("pbwr", "p2add8", "padd16"), 33, REQUEST, 2, ""
    yield ("bwr8r", "2adds8r", "adds16r"), 81, REQUEST, 2, "rd_rs"
    yield ("xor16", "or16", "nor16", "and16", "nand16"), 64, REQUEST, 2, "rd_rs"
    yield ("inc8",), 80, REQUEST, 1, "wr_rs"
    yield ("pinc8",), 84, REQUEST, 1, ""
    yield ("casgt8", "caslt8", "casgt16", "caslt16"), 96, REQUEST, 2, "rd_rs"
    yield ("caseq8", "caszero16"), 100, REQUEST, 2, "rd_rs"
    yield ("eq16", "eq8"), 104, REQUEST, 2, "wr_rs"
    yield ("swap16",), 106, REQUEST, 2, "rd_rs"
    yield tuple(f"unit{number}" for number in range(7)), 112, REQUEST, 2, "rd_rs"
    yield ("unit7",), 120, REQUEST, 2, "rd_rs"
    yield ("rd_rs",), 56, RESPONSE, 0, ""
    yield ("wr_rs",), 57, RESPONSE, 1, ""
    yield ("md_rd_rs",), 58, RESPONSE, 2, ""
    yield ("md_wr_rs",), 59, RESPONSE, 1, ""
    yield ("error",), 62, RESPONSE, 1, ""


def _lengths(word: str, first: int, place: int) -> tuple[int, ...]:
    """The lengths of the word at this place of its row. Writes grow by a flit from word to word."""
    if word == "rd_rs":
        return LONG
    grows = word.startswith(("wr", "pwr")) and word[-1].isdigit()
    return (first + place,) if grows else (first,)


def _table() -> dict[str, Command]:
    table = {}
    for words, code, family, first, reply in _rows():
        for place, word in enumerate(words):
            lengths = _lengths(word, first, place)
            table[word] = Command(word, code + place, family, lengths, reply)
    return table


BY_WORD = _table()
BY_CODE = {command.code: command for command in BY_WORD.values()}
