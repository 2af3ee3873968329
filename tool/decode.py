"""Decodes the flits of a report in their place: which flit of which packet each of them is."""

from __future__ import annotations

from typing import Any

from tool import packets
from tool.case import Document
from tool.commands import FLOW, RESPONSE
from tool.packets import Packet
from tool.lines import Landed, Line, Passed, Sent, Unlocked

Fields = dict[str, Any]
# Flits that are no packet, by their bytes.
ALONE = {packets.NULL.hex(): "null", packets.TRAINING.hex(): "training flit"}
HEADER_FIELDS = {"TAG": "tag", "ADRS": "address", "CUB": "cube", "SLID": "slid"}
TAIL_FIELDS = {
    "FRP": "frp",
    "SEQ": "seq",
    "RTC": "rtc",
    "RRP": "rrp",
    "SLID": "slid",
    "ERRSTAT": "errstat",
}
# The ways to write a field in text, where its name is not its capital letters.
SHOWN = {"tag": "tag", "address": "address", "cube": "cube"}


class Decoder:
    """What each sender and each receiver is at. All links have one profile, or each its own."""

    def __init__(self, profile: int, profiles: list[int] | None = None):
        self._profile = profile
        self._profiles = profiles or []
        self._flits: dict[tuple[str, int], list[bytes]] = {}

    @classmethod
    def of_case(cls, document: Document) -> Decoder:
        """A decoder that knows the profile of each link."""
        profiles = [link.get("profile", 1) for link in document["links"] for _ in range(2)]
        return cls(1, profiles)

    def flit(self, line: Line) -> Fields:
        """The fields of the line's flit; none where it has no flit."""
        if isinstance(line, Sent):
            return self._next(("sent", line.direction), line.flit, is_last=None)
        if isinstance(line, Landed):
            is_last = line.outcome != "gathered"
            return self._next(("landed", line.direction), line.flit, is_last)
        if isinstance(line, Passed):
            return self._next(("landed", line.direction), line.flit, is_last=True)
        if isinstance(line, Unlocked):
            # The receiver drops what it has gathered.
            self._flits.pop(("landed", line.direction), None)
        return {}

    def gathered(self, side: str, direction: int) -> list[bytes]:
        """The flits so far of the packet that a side of a direction is at."""
        return self._flits.get((side, direction), [])

    def _next(self, key: tuple[str, int], text: str, is_last: bool | None) -> Fields:
        before = self._flits.get(key, [])
        if not before and text in ALONE:
            return {"packet": ALONE[text]}
        flits = [*before, bytes.fromhex(text)]
        profile = self._profiles[key[1]] if key[1] < len(self._profiles) else self._profile
        packet = Packet(tuple(flits), profile)
        ends = len(flits) >= packet.length if is_last is None else is_last
        if ends or len(flits) >= packets.MOST_FLITS:
            self._flits.pop(key, None)
        else:
            self._flits[key] = flits
        return fields_of(packet)


def fields_of(packet: Packet) -> Fields:
    """The fields of the last flit that is there of a packet."""
    command = packet.command
    name = command.word if command else "unknown"
    fields: Fields = {"packet": name, "flit": len(packet.flits), "of": packet.length}
    if command is None:
        return fields
    header = packets.values_of(packets.header_fields(command), packet.header)
    if command.family != FLOW:
        fields |= {name: header[it] for it, name in HEADER_FIELDS.items() if it in header}
    if packet.is_whole:
        tail = packets.values_of(packets.tail_fields(command, packet.profile), packet.tail)
        is_error = command.word == "error"
        kept = [it for it in TAIL_FIELDS if it in tail and (it != "ERRSTAT" or is_error)]
        kept = [it for it in kept if it != "SLID" or command.family not in (FLOW, RESPONSE)]
        fields |= {TAIL_FIELDS[it]: tail[it] for it in kept}
        fields["check"] = packet.check_state
        if command.word == "irtry":
            fields["irtry"] = packets.IRTRY_KINDS.get(tail["FRP"], "neither")
    return fields


def text_of(fields: Fields) -> str:
    """The fields of a flit in words."""
    if "of" not in fields:
        return str(fields["packet"])
    words = [f"{fields['packet']}, flit {fields['flit']} of {fields['of']}"]
    words += [fields["irtry"]] if "irtry" in fields else []
    for name, value in fields.items():
        if name in ("packet", "flit", "of", "check", "irtry"):
            continue
        shown = f"0x{value:x}" if name == "address" else str(value)
        words.append(f"{SHOWN.get(name, name.upper())} {shown}")
    if "check" in fields:
        words.append(f"check {fields['check']}")
    return ", ".join(words)
