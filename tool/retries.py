"""What a sender keeps to send again, so that a flit that goes out again is known by its packet."""

from __future__ import annotations

from collections import deque
from typing import NamedTuple

from tool import packets
from tool.packets import REQUEST_TAIL

# No packet: TRETs are kept too, and nobody asks for their numbers.
NONE = -1
# A retry buffer keeps so many flits at most, and a packet has one at least.
MOST_KEPT = 1024


class Kept(NamedTuple):
    """A packet in the retry buffer: how many were kept before it, its FRP, and its number."""

    place: int
    pointer: int
    packet: int


class Sender:
    """The packets that go out on one direction."""

    def __init__(self, profile: int):
        # The last flit that acknowledged packets of this sender.
        self.acknowledged = ""
        self._fields = {field.name: field for field in REQUEST_TAIL[profile]}
        self._kept: deque[Kept] = deque(maxlen=MOST_KEPT)
        self._packet = self._again = NONE
        # The flits still to be sent, for the first time or again.
        self._left = self._again_left = 0
        self._places = 0
        # The place of the packet that was sent again last.
        self._last = NONE

    @property
    def is_free(self) -> bool:
        """Whether no packet is being sent for the first time."""
        return self._left == 0

    def begin(self, packet: int, length: int) -> None:
        """A packet of so many flits is begun."""
        self._packet, self._left = packet, length

    def lose(self) -> None:
        """What is being sent is no packet: a copy that is poisoned."""
        self._packet = NONE

    def new(self, flit: str) -> int:
        """A flit of the packet that was begun goes out. Returns its number."""
        self._left -= 1
        if self._left == 0:
            self._keep(flit, self._packet)
        return self._packet

    def flow(self, flit: str) -> None:
        """A TRET goes out."""
        self._keep(flit, NONE)

    def _keep(self, flit: str, packet: int) -> None:
        """A packet is in the retry buffer, since this last flit of it is sent."""
        self._kept.append(Kept(self._places, self._pointer(flit, "FRP"), packet))
        self._places += 1

    def _pointer(self, flit: str, field: str) -> int:
        """A pointer of a tail, by the name of its field."""
        return self._fields[field].of(packets.word_of(bytes.fromhex(flit[16:])))

    def go_back(self) -> None:
        """A Clear goes out: what isn't acknowledged follows again."""
        self._last, self._again_left = NONE, 0

    def again(self, flit: str) -> int:
        """A flit goes out once more. Returns the number of its packet."""
        if self._again_left == 0:
            self._again_left = packets.length_of(bytes.fromhex(flit[:4]))
            self._again = self._next_again()
        self._again_left -= 1
        return self._again

    def _next_again(self) -> int:
        """The next packet goes out once more: that after the last one, and not acknowledged."""
        place = 1 + max(self._last, self._acknowledged_place())
        self._last = place
        return self._kept[place - self._kept[0].place].packet

    def _acknowledged_place(self) -> int:
        """The place of the last packet that is acknowledged. A pointer comes again after a lap,
        and the last one with it is meant."""
        if not self.acknowledged:
            return NONE
        pointer = self._pointer(self.acknowledged, "RRP")
        places = (it.place for it in reversed(self._kept) if it.pointer == pointer)
        return next(places, NONE)
