"""Numbers of a run by windows of steps: a row each, so that any plotting tool reads them.

A window is counted while its lines are read, and its rows are given where it ends: memory does not
grow with the report.
"""

from __future__ import annotations

from collections import Counter, defaultdict
from collections.abc import Iterable, Iterator
from typing import Any, NamedTuple

from tool.case import Document, plan_of
from tool.following import Following
from tool.journeys import Journeys, Visit
from tool.lines import Dropped, Entry, Executed, Gave, Idle, Landed, Line, Sent, State, Unlocked
from tool.queues import queues_of, sizes_of
from tool.report import Block
from tool.tokens import PLACES

# Flits that belong to packets. Of all flits of a direction they are what it was used for.
OF_PACKETS = ("new", "again", "tret")
# What is counted of landings: all outcomes but this one.
QUIET = "quiet"
PERCENT = 95
MODES = ("train", "abort", "good")
BUSY = State("busy")


class Row(NamedTuple):
    """A number of a part of the network in a window of steps."""

    first_step: int
    last_step: int
    part: str
    about: str
    number: str
    value: float


# What a row says of a window.
Said = tuple[str, str, str, float]


class Levels:
    """How much some places hold, over the steps of a window. A place of size 0 is never full."""

    def __init__(self, values: list[int], sizes: list[int]):
        self._values, self._sizes = values, sizes
        self._since = [1] * len(values)
        self._most = values.copy()
        self._sums = [0] * len(values)
        self._full = [0] * len(values)

    def change(self, place: int, step: int, value: int) -> None:
        """A place holds so much from this step on."""
        held, steps = self._values[place], step - self._since[place]
        self._sums[place] += held * steps
        if held and held == self._sizes[place]:
            self._full[place] += steps
        self._values[place], self._since[place] = value, step
        if value > self._most[place]:
            self._most[place] = value

    def end(self, place: int, after: int, steps: int) -> tuple[float, int, int]:
        """The mean and the most of a window of so many steps that ends before this step, and for
        how many of them the place was full."""
        value = self._values[place]
        self.change(place, after, value)
        found = self._sums[place] / steps, self._most[place], self._full[place]
        self._sums[place] = self._full[place] = 0
        self._most[place] = value
        return found


class Spans:
    """The steps that requests spent, by their host, command and station, and until their end."""

    def __init__(self) -> None:
        self.ended: dict[tuple[str, str], Counter[int]] = defaultdict(Counter)
        # Of each request that has not ended: its host and command, the step of its first and of its
        # last station, and the steps at stations that it has left.
        self._open: dict[int, tuple[str, str, int]] = {}
        self._at: dict[int, tuple[int, str]] = {}
        self._spent: dict[int, Counter[str]] = {}

    def give(self, packet: int, step: int, line: Gave) -> None:
        """A request is given."""
        self._open[packet] = (f"host {line.host}", line.request.command, step)
        self._spent[packet] = Counter()

    def move(self, visit: Visit, step: int) -> None:
        """A request comes to a station, or ends."""
        packet = visit.packet
        if packet not in self._open:
            return
        since, station = self._at.get(packet, (step, visit.station))
        self._spent[packet][station] += step - since
        self._at[packet] = step, visit.station
        if visit.is_end:
            self._end(visit, step)

    def _end(self, visit: Visit, step: int) -> None:
        """Counts a request that ends."""
        host, command, first = self._open.pop(visit.packet)
        spent = self._spent.pop(visit.packet)
        del self._at[visit.packet]
        self.ended[host, f"{command} {visit.station}"][step - first] += 1
        for station, steps in spent.items():
            self.ended[host, f"{command} in {station}"][steps] += 1

    def rows(self) -> Iterator[Said]:
        """Yields what requests spent that ended since this was asked last."""
        for (host, about), steps in sorted(self.ended.items()):
            yield host, about, "requests", steps.total()
            yield host, about, "steps mean", sum(it * n for it, n in steps.items()) / steps.total()
            yield host, about, f"steps {PERCENT} percent", nearest_rank(steps, PERCENT)
            yield host, about, "steps most", max(steps)
        self.ended.clear()

    def unended(self) -> Iterator[Said]:
        """Yields how many requests have not ended, by host and command."""
        count = Counter((host, command) for host, command, _ in self._open.values())
        for (host, command), number in sorted(count.items()):
            yield host, f"{command} not ended", "requests", number


def nearest_rank(counts: Counter[int], percent: int) -> int:
    """The least value that is not below so many of 100 values."""
    left = -(-percent * counts.total() // 100)
    for value in sorted(counts):
        left -= counts[value]
        if left <= 0:
            return value
    raise AssertionError("there is a value")


class Stats:
    """The numbers of a report."""

    def __init__(self, document: Document, rounds: int = 0):
        """A window has the steps of so many rounds; with 0 it is the whole run."""
        self.document = document
        self.following = Following(document)
        self._journeys = Journeys(self.following)
        self._plan = plan_of(document)
        self._size = rounds * self._plan.round_steps
        self._queues = Levels([0] * len(self.following.names), sizes_of(document))
        at = self.following.tokens.at
        self._tokens = Levels(at.copy(), [0] * len(at))
        ends = enumerate(self.following.ends)
        self._directions = [f"direction {n} {sender}-{receiver}" for n, (sender, receiver) in ends]
        self._names = [self._name(*it) for it in queues_of(document)]
        self._flits: Counter[tuple[int, str]] = Counter()
        self._landed: Counter[tuple[int, str]] = Counter()
        self._bursts: Counter[tuple[int, str]] = Counter()
        self._last = [""] * len(self._directions)
        self._modes = [[0] * len(MODES) for _ in self._directions]
        self._mode_since = [1] * len(self._directions)
        self._counts: Counter[tuple[str, str, str]] = Counter()
        self._idles: Counter[Line] = Counter()
        self._spans = Spans()
        # The last step at which something moved, beside flits of no packet.
        self.moved = self.steps = 0
        self.is_busy = False

    def _name(self, queue: tuple[Any, ...], scopes: tuple[str, ...], name: str) -> tuple[str, str]:
        """The part and the name of a queue."""
        if scopes[0].startswith("direction"):
            return self._directions[int(scopes[0].removeprefix("direction"))], name
        numbers = zip(("cube", "vault", "bank"), queue[1:])
        part = " ".join(f"{word} {number}" for word, number in numbers if isinstance(number, int))
        return part, "queue" if queue[0] == "bank" else name

    def rows(self, blocks: Iterable[Block[Line]]) -> Iterator[Row]:
        """Yields the rows of each window of a report."""
        first = 1
        for block in blocks:
            for step, line in enumerate(block.made, block.start):
                if not isinstance(line, Entry):
                    self.is_busy = line == BUSY
                    continue
                if self._size and step == first + self._size:
                    yield from self._window(first, step - 1)
                    first = step
                self.steps = step
                if type(line) is Idle:
                    self._idles[line] += 1
                else:
                    self._count(step, line)
        if self.steps:
            yield from self._window(first, self.steps)
            said = self._spans.unended()
            yield from (Row(first, self.steps, *it) for it in said)

    def _count(self, step: int, line: Entry) -> None:
        """Counts an entry that did something."""
        following = self.following
        if isinstance(line, Unlocked):
            before = following.modes[line.direction]
            self._counts[self._directions[line.direction], "retry", f"unlocks in {before}"] += 1
            self._mode(step, line.direction)
        elif isinstance(line, Landed) and line.outcome != QUIET:
            self._mode(step, line.direction)
        for queue in following.apply(line):
            self._queues.change(queue, step, len(following.held[queue]))
        for place in following.tokens.moved:
            self._tokens.change(place, step, following.tokens.at[place])
        if isinstance(line, Sent):
            self._sent(line)
        elif isinstance(line, Landed):
            self._landed[line.direction, line.outcome] += 1
        else:
            self._named(step, line)
        visit = self._journeys.visit(line)
        if visit:
            self._spans.move(visit, step)
        if visit or following.packet >= 0:
            self.moved = step

    def _mode(self, step: int, direction: int) -> None:
        """The receiver of a direction waited for the same up to this step."""
        mode = MODES.index(self.following.modes[direction])
        self._modes[direction][mode] += step - self._mode_since[direction]
        self._mode_since[direction] = step

    def _sent(self, line: Sent) -> None:
        """Counts a flit that is sent, and a burst of Starts or Clears where it begins one."""
        direction, what = line.direction, line.what
        self._flits[direction, what] += 1
        if what != self._last[direction]:
            self._last[direction] = what
            if what in ("start", "clear"):
                self._bursts[direction, f"bursts of {what}s"] += 1

    def _named(self, step: int, line: Entry) -> None:
        """Counts what is counted by the first word of its line."""
        if isinstance(line, Gave):
            self._spans.give(self.following.packet, step, line)
            self._counts[f"host {line.host}", "given", line.request.command] += 1
        elif isinstance(line, Executed):
            bank = "" if line.bank is None else f" vault {line.vault} bank {line.bank}"
            self._counts[f"cube {line.cube}{bank}", "executed", line.request.command] += 1
        elif isinstance(line, Dropped):
            self._counts[f"cube {line.cube}", "dropped", "requests"] += 1

    def _window(self, first: int, last: int) -> Iterator[Row]:
        """Yields the rows of a window, and begins the next one."""
        steps = last - first + 1
        pieces = [self._flit_rows(), self._level_rows(last + 1, steps), self._mode_rows(last + 1)]
        pieces += [self._count_rows(), self._spans.rows()]
        for piece in pieces:
            for part, about, number, value in piece:
                yield Row(first, last, part, about, number, round(value, 4))

    def _flit_rows(self) -> Iterator[Said]:
        """Yields what was sent, what came of it, and of 100 flits those that are of packets."""
        for direction, part in enumerate(self._directions):
            sent = {what: n for (at, what), n in self._flits.items() if at == direction}
            for what, number in sorted(sent.items()):
                yield part, "sent", what, number
            used = sum(sent.get(what, 0) for what in OF_PACKETS)
            yield part, "sent", "percent of packets", 100 * used / max(sum(sent.values()), 1)
            for (at, outcome), number in sorted(self._landed.items()):
                if at == direction:
                    yield part, "landed", outcome, number
            for (at, burst), number in sorted(self._bursts.items()):
                if at == direction:
                    yield part, "retry", burst, number
        for counts in (self._flits, self._landed, self._bursts):
            counts.clear()

    def _level_rows(self, after: int, steps: int) -> Iterator[Said]:
        """Yields how much queues held that held something, and where tokens were."""
        for queue, (part, name) in enumerate(self._names):
            mean, most, full = self._queues.end(queue, after, steps)
            if most:
                yield part, name, "mean", mean
                yield part, name, "most", most
            if full:
                yield part, name, "steps full", full
        for place in range(len(self.following.tokens.at)):
            mean, most, _ = self._tokens.end(place, after, steps)
            direction, at = divmod(place, len(PLACES))
            yield self._directions[direction], f"tokens {PLACES[at]}", "mean", mean
            yield self._directions[direction], f"tokens {PLACES[at]}", "most", most

    def _mode_rows(self, after: int) -> Iterator[Said]:
        """Yields for how many steps each receiver waited for what."""
        for direction, part in enumerate(self._directions):
            self._mode(after, direction)
            for mode, steps in zip(MODES, self._modes[direction]):
                yield part, "receiver", f"steps in {mode}", steps
            self._modes[direction] = [0] * len(MODES)

    def _count_rows(self) -> Iterator[Said]:
        """Yields the other counts, and how often each step was idle for which cause."""
        for (part, about, number), value in sorted(self._counts.items()):
            yield part, about, number, value
        for idle, value in sorted(self._idles.items(), key=str):
            assert isinstance(idle, Idle)
            yield f"step {idle.idle_step}", "idle", idle.cause, value
        self._counts.clear()
        self._idles.clear()
