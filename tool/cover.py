"""Counts what runs have reached: each point of tool/points.py, how often, over many reports."""

from __future__ import annotations

from collections import Counter, deque
from collections.abc import Iterable, Iterator
from typing import NamedTuple

from tool.case import BLOCKS, Document
from tool.following import Following, profiles_of
from tool.lines import (
    Discarded,
    Dropped,
    Executed,
    Gave,
    Idle,
    Landed,
    Line,
    Passed,
    Retired,
    Sent,
    State,
    Through,
    Unlocked,
)
from tool.points import PROFILES, Point, points
from tool.queues import sizes_of
from tool.report import Block

OF_PACKETS = ("new", "again")
BACK = ("start", "clear", "again")
# So many flits have pointers of their own, by profile.
POINTERS = {1: 512, 2: 2048}
# What a mask changed, by what was sent.
CHANGES = {
    "null": "NULL",
    "train": "training flit",
    "start": "IRTRY",
    "clear": "IRTRY",
    "tret": "TRET",
    "pret": "PRET",
}


class Count(NamedTuple):
    """A point, how often it was reached, and how it is reached."""

    point: Point
    times: int
    how: str


class Cover:
    """What some reports have reached."""

    def __init__(self) -> None:
        self.counts: Counter[Point] = Counter()

    def add(self, group: str, name: str, count: int = 1) -> None:
        """A point was reached."""
        self.counts[Point(group, name)] += count

    def read(self, document: Document, blocks: Iterable[Block[Line]]) -> None:
        """Counts the lines of the report of a case."""
        for cube in document["cubes"]:
            self.add("block", f"{cube.get('block', BLOCKS[-1])} bytes")
        self.add("network", f"{len(document['cubes'])} cubes")
        run = Run(self, document)
        idles: Counter[Idle] = Counter()
        for block in blocks:
            for line in block.made:
                if isinstance(line, Idle):
                    idles[line] += 1
                else:
                    run.count(line)
        for idle, count in idles.items():
            self.add("idle", f"{idle.idle_step.split(' ')[0]}: {idle.cause}", count)

    def all(self) -> Iterator[Count]:
        """Yields each point that a run can reach."""
        for point, how in points():
            yield Count(point, self.counts[point], how)


class Run:
    """What the lines of one report reach."""

    def __init__(self, cover: Cover, document: Document):
        self._add = cover.add
        self._following = Following(document)
        self._profiles = profiles_of(document)
        self._sizes = sizes_of(document)
        count = len(self._profiles)
        # What is on the line of each direction, and whether a packet is gathered at its end.
        self._under_way = [deque[Sent]() for _ in range(count)]
        self._is_gathered = [False] * count
        self._goes_back = [False] * count
        self._flits = [0] * count
        self._tags: set[tuple[int, int]] = set()

    def count(self, line: Line) -> None:
        """Counts a line that is not idle."""
        following = self._following
        mode = following.modes[line.direction] if isinstance(line, (Landed, Unlocked)) else ""
        for queue in following.apply(line):
            size = self._sizes[queue]
            if size and len(following.held[queue]) == size:
                self._add("full", str(following.names[queue][0]))
        if isinstance(line, Sent):
            self._sent(line)
        elif isinstance(line, Landed):
            self._landed(line, mode)
        elif isinstance(line, Executed):
            self._executed(line)
        elif isinstance(line, Gave):
            self._gave(line)
        elif isinstance(line, Unlocked):
            self._add("event", f"unlocked in {mode}")
            self._end(line.direction)
        elif isinstance(line, State):
            self._add("event", line.state)
        elif isinstance(line, (Through, Retired, Dropped, Discarded, Passed)):
            self._add("event", line.line)

    def _sent(self, line: Sent) -> None:
        """Counts a flit that is sent."""
        direction, profile = line.direction, self._profiles[line.direction]
        word = PROFILES[profile]
        self._add("sent", f"{line.what}, profile {word}")
        self._goes_back[direction] = line.what in BACK
        self._under_way[direction].append(line)
        if line.what in ("new", "tret"):
            self._flits[direction] += 1
            if self._flits[direction] >= POINTERS[profile]:
                self._add("event", f"pointers have wrapped, profile {word}")

    def _landed(self, line: Landed, mode: str) -> None:
        """Counts a flit that lands, and whether a mask changed it."""
        direction, outcome = line.direction, line.outcome
        sent = self._under_way[direction].popleft()
        word = PROFILES[self._profiles[direction]]
        self._add("landed", f"{outcome} in {mode}, profile {word}")
        if sent.flit != line.flit:
            self._changed(sent.what, line, mode)
        if outcome.startswith("aborted") and self._goes_back[direction ^ 1]:
            self._add("event", "aborted while its other direction goes back")
        if outcome == "gathered":
            self._is_gathered[direction] = True
        elif outcome != "quiet":
            self._end(direction)

    def _changed(self, what: str, line: Landed, mode: str) -> None:
        """Counts a flit that a mask changed. Packets count where they could be accepted."""
        if what not in OF_PACKETS:
            self._add("event", f"{CHANGES[what]} changed")
        elif mode == "good":
            inner = "middle" if line.outcome == "gathered" else "last"
            place = inner if self._is_gathered[line.direction] else "first"
            self._add("event", f"{place} flit changed")

    def _end(self, direction: int) -> None:
        """What was gathered is complete, or no packet."""
        self._is_gathered[direction] = False
        if self._following.lost >= 0:
            self._add("event", "through, then spoilt")

    def _executed(self, line: Executed) -> None:
        """Counts a request by how it ends."""
        answer, name = line.answer, line.answer.kind
        if name == "done":
            name = f"done {int(bool(answer.flag))}"
        elif name == "error":
            name = f"error {answer.error}"
        elif name == "read" and answer.flag and not line.request.command.startswith("unit"):
            name = "read, flag 1"
        self._add("command", f"{line.request.command}: {name}")

    def _gave(self, line: Gave) -> None:
        """Counts a request that is poisoned, and a tag that was used before."""
        if line.request.poisoned:
            self._add("event", "poisoned request")
        if line.tag is None:
            return
        if (line.host, line.tag) in self._tags:
            self._add("event", "tag used again")
        self._tags.add((line.host, line.tag))
