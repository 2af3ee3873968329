"""Requests of scripts that end as is wanted: with an error, or with a flag."""

from __future__ import annotations

import random
from collections import defaultdict

from tool.case import BLOCKS, Document
from tool.commands import BY_WORD
from tool.points import UNITS, points

PIECE = 16
ZERO, ONE, MINUS = bytes(PIECE), bytes([1]) + bytes(PIECE - 1), b"\xff" * PIECE
# The greatest number of 128 bits, and twice that of 64.
MOST, TWO_MOST = MINUS[1:] + b"\x7f", (MINUS[:7] + b"\x7f") * 2
# What is written first, and the operand: where the flag is true, and where it is false.
FLAGS = {
    ("2add8", "2adds8r"): ((TWO_MOST, TWO_MOST), (ZERO, ONE)),
    ("add16", "adds16r"): ((MOST, MOST), (ZERO, ONE)),
    ("eq8", "eq16"): ((ZERO, ZERO), (ZERO, ONE)),
    ("casgt8", "casgt16"): ((ZERO, ONE), (ONE, MINUS)),
    ("caslt8", "caslt16"): ((ZERO, MINUS), (ZERO, ONE)),
    ("caseq8",): ((ZERO, ZERO), (ONE, ZERO)),
    ("caszero16",): ((ZERO, ONE), (ONE, ONE)),
}
OPERANDS = {word: both for words, both in FLAGS.items() for word in words}
TRUE = ("done 1", "read, flag 1")
# The registers that can be written, those that can't, and some that are not there.
REGISTERS, FIXED, NO_REGISTERS = range(4, 16), range(4), range(16, 64)


def ends_by_word() -> dict[str, list[str]]:
    """How the requests of each command can end."""
    ends = defaultdict(list)
    for (group, name), _ in points():
        if group == "command":
            word, _, end = name.partition(": ")
            ends[word].append(end)
    return ends


ENDS = ends_by_word()


def request(
    chance: random.Random, host: int, cubes: list[Document], word: str, end: str
) -> list[str]:
    """Lines of a script, the last of which is a request of this command that is to end so."""
    cube = cube_for(chance, len(cubes), word, end)
    if word.startswith("md"):
        numbers = {"error 4": NO_REGISTERS, "error 5": FIXED}.get(end, REGISTERS)
        value = f" {chance.randrange(1 << 32)}" if word == "mdwr" else ""
        return [f"{host} {word} {cube} {chance.choice(numbers):#x}{value}"]
    address = address_for(chance, cubes[cube], end)
    size = BY_WORD[word].payload_bytes
    if word not in OPERANDS or end.startswith("error"):
        operand = f" {chance.randbytes(size).hex()}" if size else ""
        return [f"{host} {word} {cube} {address:#x}{operand}"]
    first, second = OPERANDS[word][0 if end in TRUE else 1]
    return [
        f"{host} wr16 {cube} {address:#x} {first.hex()}",
        f"{host} {word} {cube} {address:#x} {second.hex()}",
    ]


def cube_for(chance: random.Random, cubes: int, word: str, end: str) -> int:
    """The cube of a request. Cube 0 alone has units."""
    if word in UNITS:
        return chance.randrange(1, cubes) if end == "error 6" and cubes > 1 else 0
    return chance.randrange(cubes)


def address_for(chance: random.Random, cube: Document, end: str) -> int:
    """An address: the beginning of a block, or one with the error that is wanted."""
    block = cube.get("block", BLOCKS[-1])
    blocks = cube["rows"] << cube["vault_bits"] + cube["bank_bits"]
    start = block * chance.randrange(blocks)
    off = {"error 1": 1, "error 2": block - PIECE, "error 3": block * blocks}
    return int(start + off.get(end, 0))
