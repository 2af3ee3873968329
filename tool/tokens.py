"""The tokens of each direction, step by step: the numbers that a line `tokens` ends with.

A token is room for one flit in the buffer at the end of a direction. The sender holds it, a packet
that is begun takes it along, a flit in the buffer uses it, it is due for return, or it returns in
the RTC of a packet of the opposite direction. RTC is chosen when a packet is begun, so it is known
before the tail of the packet is sent. The step `through` begins a packet too, and one that is
accepted while it goes on uses no room.
"""

from __future__ import annotations

from collections import deque
from typing import NamedTuple

from tool.case import Document

# Where a token is, in the order of a line `tokens`.
PLACES = ("held", "transit", "used", "due", "returning")
HELD, TRANSIT, USED, DUE, RETURNING = range(len(PLACES))
MOST_RTC = 7


class Begun(NamedTuple):
    """A packet that is begun and not accepted: the tokens that it takes, and those it returns."""

    taken: int
    returned: int


def returned_of(due: int) -> int:
    """The tokens that a packet returns where so many are due: a power of two, or none."""
    return 1 << min(MOST_RTC, due.bit_length()) - 1 if due else 0


class Tokens:
    """The tokens of each direction after some entries, by their places.

    `at` has the places of direction 0, then those of direction 1 and so on; `moved` has the numbers
    in it from and to which tokens moved since it was emptied.
    """

    def __init__(self, document: Document):
        self.at: list[int] = []
        self.moved: list[int] = []
        for link in document["links"]:
            places = [link["tokens"] if place == DUE else 0 for place in range(len(PLACES))]
            self.at += 2 * places
        directions = range(2 * len(document["links"]))
        self._begun = [deque[Begun]() for _ in directions]
        self._buffers = [deque[int]() for _ in directions]

    @property
    def counts(self) -> list[dict[str, int]]:
        """The tokens of each direction, by the names of their places."""
        rows = range(0, len(self.at), len(PLACES))
        return [dict(zip(PLACES, self.at[row : row + len(PLACES)])) for row in rows]

    def _move(self, direction: int, source: int, goal: int, tokens: int) -> None:
        """Moves tokens of a direction from one place to another."""
        if tokens:
            source += direction * len(PLACES)
            goal += direction * len(PLACES)
            self.at[source] -= tokens
            self.at[goal] += tokens
            self.moved += (source, goal)

    def begin(self, direction: int, taken: int) -> None:
        """A packet is begun that takes so many tokens."""
        returned = returned_of(self.at[(direction ^ 1) * len(PLACES) + DUE])
        self._move(direction, HELD, TRANSIT, taken)
        self._move(direction ^ 1, DUE, RETURNING, returned)
        self._begun[direction].append(Begun(taken, returned))

    def accept(self, direction: int, leaves: bool) -> None:
        """The oldest packet that is begun is accepted: it stays in the buffer, or leaves it."""
        packet = self._begun[direction].popleft()
        self._move(direction, TRANSIT, USED, packet.taken)
        self._move(direction ^ 1, RETURNING, HELD, packet.returned)
        if leaves:
            self._move(direction, USED, DUE, packet.taken)
        elif packet.taken:
            self._buffers[direction].append(packet.taken)

    def leave(self, direction: int) -> None:
        """The packet at the front of a buffer leaves it."""
        self._move(direction, USED, DUE, self._buffers[direction].popleft())
