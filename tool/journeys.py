"""The stations of each request, from the step at which it is given to the one where it ends."""

from __future__ import annotations

from typing import NamedTuple

from tool.following import NONE, Following
from tool.lines import Discarded, Dropped, Executed, Landed, Line, Passed, Sent, Through, Took

# Where a request or its answer is: the words of queues, and a line from the first flit on.
STATIONS = ("output", "line", "buffer", "vault", "bank", "registers", "answers")
OUTPUT, LINE, BUFFER = STATIONS[:3]
# How it ends: an answer is taken or discarded, a request is dropped, or no answer is wanted.
ENDS: dict[type[Line], str] = {
    Took: "taken",
    Discarded: "discarded",
    Dropped: "dropped",
    Executed: "silent",
}


class Visit(NamedTuple):
    """A request comes to a station, in a queue or on a direction, or ends."""

    packet: int
    station: str
    place: int

    @property
    def is_end(self) -> bool:
        """Whether the request ends."""
        return self.place == NONE


class Journeys:
    """Where each request is that was given and has not ended."""

    def __init__(self, following: Following):
        self.at: dict[int, Visit] = {}
        self._following = following
        # The direction on which a packet is gathered that a `through` sends ahead.
        self._ahead: dict[int, int] = {}

    def visit(self, line: Line) -> Visit | None:
        """What comes to a station by an entry that was followed just now."""
        found = self._fallen_back(line) if self._following.lost >= 0 else None
        found = found or self._visit(line)
        if found is None:
            return None
        if found.is_end:
            self.at.pop(found.packet, None)
        else:
            self.at[found.packet] = found
        return found

    def _visit(self, line: Line) -> Visit | None:
        """What an entry brings to a station."""
        following, kind = self._following, type(line)
        packet, enters = following.packet, following.enters
        if packet < 0 or kind is Passed:
            return None
        if isinstance(line, Sent):
            return Visit(packet, LINE, line.direction) if following.leaves >= 0 else None
        if isinstance(line, Through):
            return self._sent_ahead(line, packet)
        if isinstance(line, Landed) and line.outcome == "accepted":
            self._ahead.pop(packet, None)
        if enters != NONE:
            return Visit(packet, following.names[enters][0], enters)
        return Visit(packet, ENDS[kind], NONE) if kind in ENDS else None

    def _sent_ahead(self, line: Through, packet: int) -> Visit | None:
        """A packet goes on. One that was accepted before is elsewhere."""
        source = self._following.to_port[line.cube, line.port]
        if self.at.get(packet) != Visit(packet, LINE, source):
            return None
        self._ahead[packet] = source
        return Visit(packet, LINE, line.direction)

    def _fallen_back(self, line: Line) -> Visit | None:
        """A packet whose copy was spoilt is still on the line where it was gathered."""
        packet = self._following.lost
        source = self._ahead.pop(packet, NONE)
        enters = isinstance(line, Landed) and line.outcome == "poisoned"
        return Visit(packet, LINE, source) if source != NONE and not enters else None
