"""Follows the packets of a report: where each is after a line, how much each queue holds, and where
tokens are.

A request has the number of its line `gave`, from 0, and its answer has the same number. What a
`through` sends ahead has it too, while the packet can still be accepted; a copy that is poisoned is
no packet.
"""

from __future__ import annotations

from collections import deque
from collections.abc import Callable, Sequence
from typing import Any

from tool import packets
from tool.case import Document
from tool.commands import BY_WORD
from tool.gathering import Gathering
from tool.lines import (
    REGISTERS,
    Discarded,
    Dropped,
    Executed,
    Gave,
    Landed,
    Lifted,
    Line,
    Passed,
    Sent,
    Shifted,
    Spread,
    Through,
    Took,
    Unlocked,
)
from tool.queues import Queue, ends_by_direction, queues_of
from tool.retries import Sender
from tool.tokens import Tokens
from tool.trouble import NotALine

# No queue, or no packet: a flit by itself has none.
NONE = -1
NOWHERE: tuple[int, ...] = ()
PRET, TRET = BY_WORD["pret"].code, BY_WORD["tret"].code
NULL = packets.NULL.hex()
# What a receiver waits for at first, and after these outcomes; after others it stays.
FIRST_MODE = "train"
MODES = {"trained": "abort", "aborted": "abort", "ran clear": "good"}
# Outcomes of flits by whose RRP the sender at that end goes.
POINTING = frozenset(("accepted", "poisoned", "repeat", "ran start", "ran clear"))


def mode_after(mode: str, line: Line) -> str:
    """What the receiver of a line's direction waits for after it: train, abort or good."""
    if isinstance(line, Unlocked):
        return mode if mode == FIRST_MODE else "abort"
    if not isinstance(line, Landed):
        return mode
    outcome = "aborted" if line.outcome.startswith("aborted") else line.outcome
    return MODES.get(outcome, mode)


class Following:
    """The packets of a network after some lines.

    Queues have numbers, in the order of `queues_of`. `held` has what each holds, the first to leave
    first: packets by their numbers, and on a line one number for each flit.
    """

    def __init__(self, document: Document):
        self.ends = ends_by_direction(document)
        self.names = [queue for queue, _, _ in queues_of(document)]
        self.held = [deque[int]() for _ in self.names]
        self.tokens = Tokens(document)
        # The packet that the last entry was about, and the queues that it entered and left.
        self.packet = self.enters = self.leaves = NONE
        # The packet whose copy, that a `through` sent ahead, the last entry has spoilt.
        self.lost = NONE
        # How many requests were given.
        self.given = 0
        numbers = {queue: number for number, queue in enumerate(self.names)}
        self._numbers = numbers
        self.lines = [numbers["line", number] for number in range(len(self.ends))]
        self.outputs = [numbers["output", sender] for sender, _ in self.ends]
        self.buffers = [numbers["buffer", receiver] for _, receiver in self.ends]
        self.modes = [FIRST_MODE for _ in self.ends]
        self._senders = [Sender(profile) for profile in profiles_of(document)]
        self._gathering = [Gathering() for _ in self.ends]
        # The direction that leads to each port of a cube and to each host.
        self.to_port: dict[tuple[int, int], int] = {}
        self.to_host: dict[int, int] = {}
        for number, (_, end) in enumerate(self.ends):
            if end.host is None:
                self.to_port[end.cube, end.port] = number
            else:
                self.to_host[end.host] = number

    @property
    def counts(self) -> dict[Queue, int]:
        """How much each queue holds, by its name."""
        return dict(zip(self.names, map(len, self.held)))

    @staticmethod
    def has_move(kind: type[Line]) -> bool:
        """Whether entries of this kind can change what a queue holds, or where tokens are."""
        return kind in _MOVES

    def apply(self, line: Line) -> Sequence[int]:
        """Follows an entry, and returns the queues that it changed."""
        move = _MOVES.get(type(line))
        if move is None:
            return NOWHERE
        self.packet = self.enters = self.leaves = self.lost = NONE
        if self.tokens.moved:
            self.tokens.moved = []
        try:
            move(self, line)
        except (IndexError, KeyError) as error:
            raise NotALine(f"`{line.line}` does not fit this case") from error
        for place in self.tokens.moved:
            if self.tokens.at[place] < 0:
                raise NotALine(f"`{line.line}` takes more tokens than there are")
        if self.leaves < 0:
            return (self.enters,) if self.enters >= 0 else NOWHERE
        return (self.leaves, self.enters) if self.enters >= 0 else (self.leaves,)

    def _leave(self, queue: int) -> int:
        """The packet at the front of a queue leaves it."""
        self.leaves = queue
        self.packet = self.held[queue].popleft()
        return self.packet

    def _enter(self, queue: int, packet: int) -> None:
        """A packet enters a queue."""
        self.enters = queue
        self.packet = packet
        self.held[queue].append(packet)

    def gave(self, line: Gave) -> None:
        """A request enters the output queue of its host."""
        self._enter(self.outputs[self.to_host[line.host] ^ 1], self.given)
        self.given += 1

    def sent(self, line: Sent) -> None:
        """A flit enters the line. The first one of a new packet takes it from its queue."""
        direction, sender = line.direction, self._senders[line.direction]
        packet = NONE
        if line.what == "new":
            if sender.is_free:
                length = packets.length_of(bytes.fromhex(line.flit[:4]))
                sender.begin(self._leave(self.outputs[direction]), length)
                self.tokens.begin(direction, length)
            packet = sender.new(line.flit)
        elif line.what == "again":
            packet = sender.again(line.flit)
        elif line.what == "tret":
            self.tokens.begin(direction, 0)
            sender.flow(line.flit)
        elif line.what == "clear":
            sender.go_back()
        self._enter(self.lines[direction], packet)

    def landed(self, line: Landed) -> None:
        """A flit leaves the line. The last one of a packet may bring it to the buffer."""
        direction, outcome = line.direction, line.outcome
        packet = self._leave(self.lines[direction])
        if outcome == "quiet":
            if line.flit != NULL and self._is_pret(line):
                self._senders[direction ^ 1].acknowledged = line.flit
            return
        self.modes[direction] = mode_after(self.modes[direction], line)
        gathering = self._gathering[direction]
        if outcome == "gathered":
            gathering.add(line.flit, packet)
            return
        is_alone, leaves = not gathering.first, gathering.ahead >= 0 and outcome == "accepted"
        self._end(direction, leaves)
        if outcome in POINTING:
            self._senders[direction ^ 1].acknowledged = line.flit
        if outcome in ("accepted", "poisoned"):
            self.tokens.accept(direction, leaves)
            if not leaves and not (is_alone and _command(line.flit) == TRET):
                self._enter(self.buffers[direction], packet)

    def _end(self, direction: int, leaves: bool) -> None:
        """A gathering ends. What was sent ahead of it is a packet only where it was accepted."""
        gathering = self._gathering[direction]
        if gathering.ahead >= 0 and not leaves:
            self._senders[gathering.ahead].lose()
            self.lost = gathering.packet
        gathering.end()

    def _is_pret(self, line: Landed) -> bool:
        """Whether a flit is a PRET whose pointer counts."""
        return self.modes[line.direction] == "good" and _command(line.flit) == PRET

    def through(self, line: Through) -> None:
        """The packet that is gathered is begun on a direction."""
        gathering = self._gathering[self.to_port[line.cube, line.port]]
        length = gathering.go_on(line.direction)
        self._senders[line.direction].begin(gathering.packet, length)
        self.tokens.begin(line.direction, length)
        self.packet = gathering.packet

    def unlocked(self, line: Unlocked) -> None:
        """What was gathered is dropped."""
        self.modes[line.direction] = mode_after(self.modes[line.direction], line)
        self._end(line.direction, False)

    def passed(self, line: Passed) -> None:
        """A flit leaves the line, and the report ends."""
        self._leave(self.lines[line.direction])

    def _unbuffer(self, direction: int) -> int:
        """The packet at the front of a buffer leaves it."""
        self.tokens.leave(direction)
        return self._leave(self.buffers[direction])

    def shifted(self, line: Shifted) -> None:
        """A packet moves from the buffer of a port."""
        goal, cube = line.to, line.cube
        packet = self._unbuffer(self.to_port[cube, line.port])
        if goal[0] == "v":
            enters = self._numbers["vault", cube, int(goal[1:])]
        elif goal[0] == "p":
            enters = self.outputs[self.to_port[cube, int(goal[1:])] ^ 1]
        else:
            enters = self._numbers["registers", cube]
        self._enter(enters, packet)

    def dropped(self, line: Dropped) -> None:
        """A packet leaves the buffer of a port."""
        self._unbuffer(self.to_port[line.cube, line.port])

    def spread(self, line: Spread) -> None:
        """A request moves from the queue of its vault to that of its bank."""
        cube, vault = line.cube, line.vault
        packet = self._leave(self._numbers["vault", cube, vault])
        self._enter(self._numbers["bank", cube, vault, line.bank], packet)

    def executed(self, line: Executed) -> None:
        """A request leaves its bank or the registers, and its answer waits."""
        name: Queue = ("bank", line.cube, line.vault, line.bank)
        if line.vault == REGISTERS:
            name = ("registers", line.cube)
        packet = self._leave(self._numbers[name])
        if line.answer.kind != "silent":
            self._enter(self._numbers["answers", line.cube, line.vault], packet)

    def lifted(self, line: Lifted) -> None:
        """An answer moves to the output queue of a port."""
        packet = self._leave(self._numbers["answers", line.cube, line.from_])
        self._enter(self.outputs[self.to_port[line.cube, line.port] ^ 1], packet)

    def took(self, line: Took | Discarded) -> None:
        """A packet leaves the buffer of a host."""
        self._unbuffer(self.to_host[line.host])


def profiles_of(document: Document) -> list[int]:
    """The profile of each direction."""
    links = document["links"]
    return [link.get("profile", document["profile"]) for link in links for _ in range(2)]


def _command(flit: str) -> int:
    """The command of a first flit."""
    return int(flit[:2], 16) & packets.COMMAND_BITS


_MOVES: dict[type[Line], Callable[[Following, Any], None]] = {
    Gave: Following.gave,
    Sent: Following.sent,
    Landed: Following.landed,
    Passed: Following.passed,
    Through: Following.through,
    Unlocked: Following.unlocked,
    Shifted: Following.shifted,
    Dropped: Following.dropped,
    Spread: Following.spread,
    Executed: Following.executed,
    Lifted: Following.lifted,
    Took: Following.took,
    Discarded: Following.took,
}
