"""Packets as flits: fields, the check, and the tests of a reader, as docs/packets.md has them."""

from __future__ import annotations

from dataclasses import dataclass

from tool.commands import BY_CODE, FLOW, RESPONSE, Command

FLIT_BYTES = 16
NULL = bytes(FLIT_BYTES)
TRAINING = b"\x5a" * FLIT_BYTES
MOST_FLITS = 17
DIVISOR = 0x741B8CD7
ALL_ONES = 0xFFFFFFFF
# The values of FRP in an IRTRY.
IRTRY_KINDS = {1: "Start", 2: "Clear"}
NULL_COMMAND = 0


@dataclass(frozen=True)
class Field:
    """A field of a word: its name, and its highest and lowest bit."""

    name: str
    high: int
    low: int

    @property
    def mask(self) -> int:
        """The bits of the field, in their place."""
        return ((1 << (self.high - self.low + 1)) - 1) << self.low

    def of(self, word: int) -> int:
        """The value of the field in this word."""
        return (word & self.mask) >> self.low


def _fields(*rows: tuple[str, int, int]) -> tuple[Field, ...]:
    return tuple(Field(*row) for row in rows)


_FRONT = (("CMD", 6, 0), ("LNG", 11, 7), ("TAG", 22, 12))
COMMAND, LENGTH = _fields(*_FRONT[:2])
# They are in the first two bytes of a flit.
COMMAND_BITS, LENGTH_BITS = COMMAND.mask, LENGTH.mask
REQUEST_HEADER = _fields(*_FRONT, ("ADRS", 57, 24), ("CUB", 63, 61))
RESPONSE_HEADER = _fields(*_FRONT, ("AF", 33, 33), ("SLID", 41, 39), ("CUB", 63, 61))

_END = (("RTC", 31, 29), ("CRC", 63, 32))
_ONE = (("RRP", 8, 0), ("FRP", 17, 9), ("SEQ", 20, 18))
_TWO = (("RRP", 10, 0), ("FRP", 21, 11), ("SEQ", 24, 22))
REQUEST_TAIL = {
    1: _fields(*_ONE, ("SLID", 28, 26), *_END),
    2: _fields(*_TWO, ("SLID", 27, 25), *_END),
}
RESPONSE_TAIL = {
    1: _fields(*_ONE, ("ERRSTAT", 28, 22), *_END),
    2: _fields(*_TWO, ("ERRSTAT", 27, 25), *_END),
}

# The fields that must be zero in a flow packet.
ZERO_FIELDS = {
    "pret": ("TAG", "ADRS", "CUB", "SLID", "FRP", "SEQ", "RTC"),
    "irtry": ("TAG", "ADRS", "CUB", "SLID", "SEQ", "RTC"),
    "tret": ("TAG", "ADRS", "CUB", "SLID"),
}


def _remainder_of_byte(byte: int) -> int:
    rest = byte << 24
    for _ in range(8):
        rest = (rest << 1) ^ DIVISOR if rest & 0x80000000 else rest << 1
        rest &= ALL_ONES
    return rest


_REMAINDERS = [_remainder_of_byte(byte) for byte in range(256)]


def crc(data: bytes) -> int:
    """The check of these bytes, as docs/crc.md defines it."""
    rest = 0
    for byte in data:
        rest = ((rest << 8) & ALL_ONES) ^ _REMAINDERS[(rest >> 24) ^ byte]
    return rest


def header_fields(command: Command | None) -> tuple[Field, ...]:
    """The fields of the header of this command's packet; of an unknown one CMD and LNG alone."""
    if command is None:
        return (COMMAND, LENGTH)
    return RESPONSE_HEADER if command.family == RESPONSE else REQUEST_HEADER


def tail_fields(command: Command | None, profile: int) -> tuple[Field, ...]:
    """The fields of the tail of this command's packet; of an unknown one the check alone."""
    if command is None:
        return _fields(("CRC", 63, 32))
    tails = RESPONSE_TAIL if command.family == RESPONSE else REQUEST_TAIL
    return tails[profile]


def word_of(data: bytes) -> int:
    """The word of eight bytes, the lowest byte first."""
    return int.from_bytes(data, "little")


def length_of(flit: bytes) -> int:
    """LNG of a first flit."""
    return (word_of(flit[:2]) & LENGTH_BITS) >> LENGTH.low


def values_of(fields: tuple[Field, ...], word: int) -> dict[str, int]:
    """The value of each field of the word, by its name."""
    return {field.name: field.of(word) for field in fields}


def unnamed_bits(fields: tuple[Field, ...], word: int) -> list[int]:
    """The numbers of the bits of the word that are set and that no field has."""
    rest = word
    for field in fields:
        rest &= ~field.mask
    return [bit for bit in range(64) if rest >> bit & 1]


@dataclass(frozen=True)
class Packet:
    """The flits of one packet, or of a part of one that begins with its first flit."""

    flits: tuple[bytes, ...]
    profile: int

    @property
    def data(self) -> bytes:
        return b"".join(self.flits)

    @property
    def length(self) -> int:
        return length_of(self.flits[0])

    @property
    def is_whole(self) -> bool:
        return len(self.flits) == self.length

    @property
    def is_null(self) -> bool:
        return self.data == NULL

    @property
    def header(self) -> int:
        return word_of(self.data[:8])

    @property
    def tail(self) -> int:
        return word_of(self.data[-8:])

    @property
    def payload(self) -> bytes:
        """The bytes between header and tail, or those of them that are there."""
        return self.data[8:-8] if self.is_whole else self.data[8:]

    @property
    def command(self) -> Command | None:
        return BY_CODE.get(COMMAND.of(self.header))

    @property
    def check(self) -> int:
        """The check that the bytes of the packet should have."""
        return crc(self.data[:-4])

    @property
    def check_state(self) -> str:
        """Whether the field CRC is `right`, `inverted` or `wrong`."""
        found = self.tail >> 32
        if found == self.check:
            return "right"
        return "inverted" if found == self.check ^ ALL_ONES else "wrong"


def reserved_faults(packet: Packet) -> list[str]:
    """What must be zero in the packet and is not, and an FRP of an IRTRY that is not 1 or 2."""
    command = packet.command
    header, tail = header_fields(command), tail_fields(command, packet.profile)
    faults = [f"bit {bit} of the header is set" for bit in unnamed_bits(header, packet.header)]
    faults += [f"bit {bit} of the tail is set" for bit in unnamed_bits(tail, packet.tail)]
    values = {**values_of(header, packet.header), **values_of(tail, packet.tail)}
    zero = ZERO_FIELDS.get(command.word, ()) if command else ()
    faults += [f"{name} is not zero" for name in zero if values[name]]
    if command and command.word == "irtry" and values["FRP"] not in IRTRY_KINDS:
        faults.append("FRP is neither 1 (Start) nor 2 (Clear)")
    return faults


def failed_test(packet: Packet) -> str | None:
    """The first test of a reader that the packet fails: Length, Command, Reserved or Crc."""
    if packet.is_null:
        return None
    if not 1 <= packet.length <= MOST_FLITS or not packet.is_whole:
        return "Length"
    command = packet.command
    if command is None or command.code == NULL_COMMAND or packet.length not in command.lengths:
        return "Command"
    if reserved_faults(packet):
        return "Reserved"
    may_be_poisoned = command.family != FLOW
    good = ("right", "inverted") if may_be_poisoned else ("right",)
    return None if packet.check_state in good else "Crc"


def packets_of(flits: list[bytes], profile: int) -> list[Packet]:
    """Cuts flits into packets by LNG. A flit that can begin no packet is one by itself."""
    packets, at = [], 0
    while at < len(flits):
        length = length_of(flits[at]) if flits[at] not in (NULL, TRAINING) else 1
        length = length if 1 <= length <= MOST_FLITS else 1
        packets.append(Packet(tuple(flits[at : at + length]), profile))
        at += length
    return packets
