"""Traces in the formats of other tools, written again as traces of docs/trace.md.

Other tools know one space of addresses. Its first bytes are those of cube 0, the next ones those of
cube 1, and so on; an address past the last cube wraps around to cube 0. An access that passes the
end of a cube or 4,096 bytes is cut in two. These formats have no data: the bytes that a store
stores are the number of its line in the file, as eight bytes, lowest first, again and again.
"""

from __future__ import annotations

import re
from collections.abc import Iterable, Iterator
from itertools import chain, cycle, islice

from tool.traces import MOST_LENGTH, Shape
from tool.trouble import BAD_DATA, Trouble

# A line of a cache, which DRAMSim and Ramulator load and store.
CACHE_LINE = 64
DRAMSIM = re.compile(r"0x([0-9a-fA-F]+)\s+(R|W|READ|WRITE|P_MEM_RD|P_MEM_WR)(?:\s+[0-9]+)?")
# Valgrind's lackey: I is a fetch of an instruction, M is a load and a store.
LACKEY = re.compile(r"(I | [LSM]) ([0-9a-fA-F]+),([0-9]{1,4})")
LACKEY_VERBS = {"I ": (), " L": ("load",), " S": ("store",), " M": ("load", "store")}

# The line in the file, `load` or `store`, the address and the bytes.
Foreign = tuple[int, str, int, int]


def dramsim(lines: Iterable[str]) -> Iterator[Foreign]:
    """The accesses of a trace of DRAMSim or Ramulator: `0xADDRESS R` or `0xADDRESS W`."""
    for number, line in enumerate(lines, 1):
        found = DRAMSIM.fullmatch(line.strip())
        if found:
            verb = "load" if found[2] in ("R", "READ", "P_MEM_RD") else "store"
            yield number, verb, int(found[1], 16) // CACHE_LINE * CACHE_LINE, CACHE_LINE
        elif line.strip():
            raise Trouble(BAD_DATA, f"line {number} is not `0xADDRESS R` or `0xADDRESS W`")


def lackey(lines: Iterable[str]) -> Iterator[Foreign]:
    """The loads and stores of data in a log of `valgrind --tool=lackey --trace-mem=yes`."""
    for number, line in enumerate(lines, 1):
        found = LACKEY.fullmatch(line.rstrip())
        if found:
            for verb in LACKEY_VERBS[found[1]]:
                yield number, verb, int(found[2], 16), int(found[3])
        elif line.strip() and not line.startswith("=="):
            raise Trouble(BAD_DATA, f"line {number} is not a line of lackey")


FORMATS = {"dramsim": dramsim, "lackey": lackey}


def trace_lines(accesses: Iterable[Foreign], shapes: list[Shape]) -> Iterator[str]:
    """The lines of the trace, for cubes of these shapes."""
    for shape in shapes:
        yield f"cube {shape.vault_bits} {shape.bank_bits} {shape.rows}"
    for number, verb, address, size in accesses:
        data = bytes(islice(cycle(number.to_bytes(8, "little")), size))
        for cube, place, start, length in parts_of(address, size, shapes):
            stored = data[start : start + length].hex()
            yield f"{cube} {verb} {place:#x} {stored if verb == 'store' else length}"


def parts_of(address: int, size: int, shapes: list[Shape]) -> Iterator[tuple[int, int, int, int]]:
    """The parts of an access: the cube, the place, the first byte of the part and its length."""
    total, start = sum(shape.capacity for shape in shapes), 0
    while start < size:
        place, cube = (address + start) % total, 0
        while place >= shapes[cube].capacity:
            place -= shapes[cube].capacity
            cube += 1
        length = min(size - start, shapes[cube].capacity - place, MOST_LENGTH)
        yield cube, place, start, length
        start += length


def convert(text: str, name: str, shapes: list[Shape]) -> bytes:
    """A file of this format as a trace."""
    lines = trace_lines(FORMATS[name](text.splitlines()), shapes)
    return "".join(chain.from_iterable((line, "\n") for line in lines)).encode()
