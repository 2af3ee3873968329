"""The packet that a receiver gathers, and whether it goes on before it has come whole."""

from __future__ import annotations

from tool import packets
from tool.trouble import NotALine

NONE = -1


class Gathering:
    """What one receiver has gathered of a packet."""

    __slots__ = ("first", "packet", "ahead")

    def __init__(self) -> None:
        # The first flit of the packet; empty where none has landed. Then its number.
        self.first = ""
        self.packet = NONE
        # The direction in which it goes on.
        self.ahead = NONE

    def add(self, flit: str, packet: int) -> None:
        """A flit is gathered."""
        if not self.first:
            self.first, self.packet = flit, packet

    def go_on(self, ahead: int) -> int:
        """The packet goes on in a direction by `through`. Returns how many flits it has, as its
        first one says."""
        if not self.first:
            raise NotALine("no packet is gathered there")
        self.ahead = ahead
        return packets.length_of(bytes.fromhex(self.first[:4]))

    def end(self) -> None:
        """Nothing is gathered any more."""
        self.first, self.ahead = "", NONE
