"""Explains flits: the fields of a packet with their bits, and what a reader makes of it."""

from __future__ import annotations

import re

from tool import packets
from tool.commands import FLOW, Command
from tool.packets import Field, Packet

PROFILES = {1: "One", 2: "Two"}
# The fields that are shown in hexadecimal, and the digits of each.
HEXADECIMAL = {"ADRS": 0, "CRC": 8}


def flit_of(word: str) -> bytes | None:
    """The flit that 32 hexadecimal digits are, or None."""
    return bytes.fromhex(word) if re.fullmatch(r"[0-9a-fA-F]{32}", word) else None


def explain_flits(flits: list[bytes], profile: int) -> list[str]:
    """The lines that explain these flits, packet after packet."""
    lines: list[str] = []
    for packet in packets.packets_of(flits, profile):
        lines += ([""] if lines else []) + explain_packet(packet)
    return lines


def explain_packet(packet: Packet) -> list[str]:
    """The lines that explain one packet, or a part of one."""
    total = packet.length
    known = 1 <= total <= packets.MOST_FLITS and packet.flits[0] != packets.TRAINING
    of = f" of {total}" if known and not packet.is_null else ""
    lines = [f"flit {n}{of}  {flit.hex()}" for n, flit in enumerate(packet.flits, start=1)]
    if packet.is_null:
        return [*lines, "NULL: a flit of 16 zero bytes, between packets"]
    if packet.flits == (packets.TRAINING,):
        return [*lines, "the training flit: it is not a packet"]
    lines.append(title(packet))
    lines += word_lines("header", packet, packet.header, packets.header_fields(packet.command))
    if packet.payload:
        lines.append(f"payload  {packet.payload.hex()}")
    if packet.is_whole:
        tail = packets.tail_fields(packet.command, packet.profile)
        lines += word_lines("tail", packet, packet.tail, tail)
        lines += [f"  not zero: {fault}" for fault in packets.reserved_faults(packet)]
    return [*lines, verdict(packet)]


def title(packet: Packet) -> str:
    """What the packet is, by its command."""
    command, profile = packet.command, PROFILES[packet.profile]
    if command is None:
        return f"no packet: no command has the code {packet.header & 127} (profile {profile})"
    kind = {FLOW: "a flow packet"}.get(command.family, f"a {command.family}")
    return f"{command.word}: {kind}, LNG {packet.length} (profile {profile})"


def word_lines(name: str, packet: Packet, word: int, fields: tuple[Field, ...]) -> list[str]:
    """The word, and a line for each of its fields: name, bits, value, and what it says."""
    lines = [f"{name}  0x{word:016x}"]
    for field in fields:
        value = field.of(word)
        shown = value_text(field.name, value)
        note = note_on(field.name, value, packet)
        bits = f"{field.high}..{field.low}" if field.high > field.low else str(field.high)
        lines.append(f"  {field.name:<8}{bits:<7}{shown:<12}{note}".rstrip())
    return lines


def value_text(name: str, value: int) -> str:
    """The value of a field, in hexadecimal where that is usual."""
    if name in HEXADECIMAL:
        return f"0x{value:0{HEXADECIMAL[name]}x}"
    return str(value)


def note_on(name: str, value: int, packet: Packet) -> str:
    """What the value of a field says, where that is not plain."""
    command = packet.command
    if name == "CMD":
        return command.word if command else "no command has this code"
    if name == "CRC":
        return check_note(packet)
    if name == "RTC":
        return f"tokens returned: {1 << (value - 1) if value else 0}"
    if name == "FRP" and command and command.word == "irtry":
        return packets.IRTRY_KINDS.get(value, "neither Start nor Clear")
    return ""


def check_note(packet: Packet) -> str:
    """Whether the check is right, inverted or wrong."""
    state = packet.check_state
    if state == "right":
        return state
    return f"{state}: the right one is 0x{packet.check:08x}"


def verdict(packet: Packet) -> str:
    """What a reader makes of the packet: the first test that fails, if one does."""
    test = packets.failed_test(packet)
    if test == "Length":
        return f"reads as: refused, test Length: {length_fault(packet)}"
    if test == "Command":
        return f"reads as: refused, test Command: {command_fault(packet.command)}"
    if test:
        return f"reads as: refused, test {test}"
    if packet.check_state == "inverted":
        return "reads as: a poisoned packet, since its check is the inverse of the right one"
    return "reads as: a packet"


def length_fault(packet: Packet) -> str:
    """Why the test Length fails."""
    if 1 <= packet.length <= packets.MOST_FLITS:
        given = len(packet.flits)
        is_or_are = "is" if given == 1 else "are"
        return f"the packet has {packet.length} flits, and here {is_or_are} {given}"
    return f"LNG is {packet.length}, and has to be 1 to {packets.MOST_FLITS}"


def command_fault(command: Command | None) -> str:
    """Why the test Command fails."""
    if command is None or command.code == packets.NULL_COMMAND:
        return "CMD is not the code of a packet"
    allowed = ", ".join(str(length) for length in command.lengths)
    return f"{command.word} has LNG {allowed}"
