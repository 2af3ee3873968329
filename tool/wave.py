"""The waves of a report: what crosses each direction, how much each queue holds, its tokens, and
what each host has asked and was answered.

The report alone is counted; the case gives the names and the number of parts. What a receiver waits
for follows from its outcomes, and where tokens are from what is begun, accepted and moved on.
"""

from __future__ import annotations

from collections.abc import Callable, Iterable, Iterator
from typing import Any, NamedTuple

from tool.case import Document, plan_of
from tool.following import FIRST_MODE, Following
from tool.lines import Entry, Gave, Idle, Landed, Line, Passed, Sent, Took, Unlocked
from tool.queues import Queue, queues_of
from tool.report import Block
from tool.tokens import PLACES
from tool.trouble import NotALine
from tool.vcd import BIT, EVENT, FLIT, NUMBER, TEXT, Dump, Signal

TOP = "network"
NOTHING = "-"
# Outcomes after which a receiver waits for the same.
UNCHANGED = ("quiet", "gathered", "accepted")
# What is sent only where a link goes back.
RETRIES = ("start", "clear", "again")
HOST_SIGNALS = ("given", "taken", "tags_out")


class Bits(dict[int, str]):
    """Numbers as the changes of their signals begin. Most are small, and come again and again."""

    def __missing__(self, number: int) -> str:
        self[number] = bin(number)[1:]
        return self[number]


class Rule(NamedTuple):
    """What entries with one first word change, beside the time."""

    # The change of the signal `entry`.
    word: str
    # The sides of directions at which the entry sets a flit.
    sides: list[Side] | None
    moves: bool
    show: Callable[[Wave, Any, list[str]], None] | None


class Side:
    """The signals of what a direction sends, or of what lands at its end."""

    def __init__(self, dump: Dump, direction: int, word: str):
        scopes = (TOP, f"direction{direction}")
        self._kind = dump.mark(dump.add(scopes, word, TEXT))
        flit = dump.mark(dump.add(scopes, f"{word}_flit", TEXT))
        bits = dump.mark(dump.add(scopes, f"{word}_bits", FLIT))
        # The lines after which nothing is sent, or nothing lands.
        self.quiet = f"s{NOTHING} {self._kind}\ns{NOTHING} {flit}\nbz {bits}"
        self._ends = f"{self._kind}\ns", f"{flit}\n", bits

    def lines(self, kind: str, flit: str) -> str:
        """The lines of a flit of this kind. They always change, so they are not compared."""
        after_kind, after_flit, after_bits = self._ends
        return f"s{kind} {after_kind}{flit} {after_flit}{bin(int(flit, 16))[1:]} {after_bits}"

    def line(self, kind: str) -> str:
        """The line of what happens without a flit."""
        return f"s{kind} {self._kind}"


class Wave:
    """The dump of a report."""

    def __init__(self, document: Document):
        self.document = document
        self._following = Following(document)
        self._dump = Dump()
        self._step = self._dump.mark(self._dump.add((TOP,), "step"))
        self._entry = self._dump.mark(self._dump.add((TOP,), "entry", TEXT))
        # The last change of the signal `entry`.
        self._word = ""
        self._bits = Bits()
        directions = range(len(self._following.ends))
        self._sent = [Side(self._dump, number, "sent") for number in directions]
        self._landed = [Side(self._dump, number, "landed") for number in directions]
        kinds: list[type[Line]] = [*Entry.__subclasses__()]
        self._rules = {kind: self._rule(kind) for kind in kinds}
        # The side at which the last entry has set a flit, for that step alone.
        self._set: Side | None = None
        self._receivers = [self._add(f"direction{n}", "receiver", TEXT) for n in directions]
        retries = [self._add(f"direction{n}", "retry", EVENT) for n in directions]
        self._retries = [f"1{self._dump.mark(number)}" for number in retries]
        self._token_marks = [
            self._dump.mark(self._add(f"direction{n}", f"tokens_{place}"))
            for n in directions
            for place in PLACES
        ]
        queues = list(queues_of(document))
        self._places = [
            self._dump.mark(self._dump.add((TOP, *scopes), name)) for _, scopes, name in queues
        ]
        self._busy = [
            self._dump.add((TOP, *scopes), f"{name}_busy", BIT) if it[0] == "bank" else None
            for it, scopes, name in queues
        ]
        self.hosts = [dict.fromkeys(HOST_SIGNALS, 0) for _ in range(plan_of(document).hosts)]
        self._host_places = [
            [self._add(f"host{host}", name) for name in HOST_SIGNALS]
            for host in range(len(self.hosts))
        ]

    def _rule(self, kind: type[Line]) -> Rule:
        """The rule of one kind of entry."""
        sides = {Sent: self._sent, Landed: self._landed, Passed: self._landed}
        sides[Unlocked] = self._landed
        return Rule(
            word=f"s{kind.line} {self._entry}",
            sides=sides.get(kind),
            moves=Following.has_move(kind),
            show=_SHOWN.get(kind),
        )

    def _add(self, scope: str, name: str, kind: str = NUMBER) -> int:
        """Adds a signal of a part of the network."""
        return self._dump.add((TOP, scope), name, kind)

    def held(self) -> dict[Queue, int]:
        """How much each queue holds after the last entry."""
        return self._following.counts

    def tokens(self) -> list[dict[str, int]]:
        """The tokens of each direction after the last entry, by their places."""
        return self._following.tokens.counts

    def groups(self) -> dict[str, list[Signal]]:
        """The signals for a save file, by the part of the network that they are of."""
        groups: dict[str, list[Signal]] = {}
        signals = self._dump.signals
        order = list(dict.fromkeys(signal.scopes for signal in signals))
        for signal in sorted(signals, key=lambda it: order.index(it.scopes)):
            part = signal.scopes[1] if len(signal.scopes) > 1 else "steps"
            groups.setdefault(self._title(part), []).append(signal)
        return groups

    def _title(self, part: str) -> str:
        """The name of a group: of a direction also its ends."""
        number = part.removeprefix("direction")
        if number == part:
            return part
        sender, receiver = self._following.ends[int(number)]
        return f"direction {number}: {sender} to {receiver}"

    def pieces(self, blocks: Iterable[Block[Line]]) -> Iterator[bytes]:
        """Yields the dump, some lines at a time."""
        out = [*self._dump.head(), "#0"]
        self._first_values(out)
        last = 0
        for block in blocks:
            last += self._block_lines(block, out)
            yield _text(out)
            out.clear()
        out.append(f"#{last + 1}")
        yield _text(out)

    def _block_lines(self, block: Block[Line], out: list[str]) -> int:
        """Adds the changes of the entries of a block, and returns how many there are."""
        rules, step, idle = self._rules, self._step, self._rules[Idle].word
        add = out.append
        for number, line in enumerate(block.made, block.start):
            rule = rules.get(type(line))
            if rule is None:
                return number - block.start
            add(f"#{number}\n{bin(number)[1:]} {step}")
            if rule.word is idle and self._word is idle:
                continue
            try:
                self._entry_lines(line, rule, out)
            except NotALine as error:
                raise NotALine(f"line {number}: {error}") from error
        return len(block.made)

    def _first_values(self, out: list[str]) -> None:
        """Adds the values before the first step."""
        change = self._dump.change
        out.append(f"b0 {self._step}")
        out.append(f"s{NOTHING} {self._entry}")
        out += [side.quiet for side in (*self._sent, *self._landed)]
        for receiver in self._receivers:
            change(receiver, FIRST_MODE, out)
        out += [f"b0 {mark}" for mark in self._places]
        for number in [*self._busy, *(it for places in self._host_places for it in places)]:
            if number is not None:
                change(number, 0, out)
        self._token_lines(range(len(self._token_marks)), out)

    def _entry_lines(self, line: Any, rule: Rule, out: list[str]) -> None:
        """Adds the changes of one entry."""
        word, sides, moves, show = rule
        if word is not self._word:
            self._word = word
            out.append(word)
        side = sides[line.direction] if sides else None
        # A flit is there for its step alone; where one follows at once, it is not quiet between.
        if self._set is not None and (side is not self._set or type(line) is Unlocked):
            out.append(self._set.quiet)
        self._set = side
        if moves:
            self._move_lines(line, out)
        if show:
            show(self, line, out)

    def _move_lines(self, line: Line, out: list[str]) -> None:
        """Adds how much the queues hold that an entry changed, and where tokens are after it."""
        following = self._following
        for queue in following.apply(line):
            held = len(following.held[queue])
            out.append(f"{self._bits[held]} {self._places[queue]}")
            busy = self._busy[queue]
            if busy is not None:
                self._dump.change(busy, int(held > 0), out)
        if following.tokens.moved:
            self._token_lines(dict.fromkeys(following.tokens.moved), out)

    def _token_lines(self, places: Iterable[int], out: list[str]) -> None:
        """Adds how many tokens are at these places of directions."""
        at, marks, bits = self._following.tokens.at, self._token_marks, self._bits
        out += [f"{bits[at[place]]} {marks[place]}" for place in places]

    def show_sent(self, line: Sent, out: list[str]) -> None:
        """Adds the changes of a flit that is sent."""
        out.append(self._sent[line.direction].lines(line.what, line.flit))
        if line.what in RETRIES:
            out.append(self._retries[line.direction])

    def show_landing(self, line: Landed | Passed | Unlocked, out: list[str]) -> None:
        """Adds the changes of a flit that lands, or of a receiver that is unlocked."""
        direction = line.direction
        side = self._landed[direction]
        if isinstance(line, Landed) and line.outcome in UNCHANGED:
            out.append(side.lines(line.outcome, line.flit))
            return
        if isinstance(line, Unlocked):
            out += [side.line(line.line), self._retries[direction]]
        elif isinstance(line, Passed):
            out.append(side.lines(line.line, line.flit))
        else:
            out.append(side.lines(line.outcome.replace(" ", "_"), line.flit))
            if line.outcome.startswith("aborted"):
                out.append(self._retries[direction])
        self._dump.change(self._receivers[direction], self._following.modes[direction], out)

    def show_host(self, line: Gave | Took, out: list[str]) -> None:
        """Adds the changes of a host that gives a request or takes an answer."""
        counts = self.hosts[line.host]
        is_given = isinstance(line, Gave)
        counts["given" if is_given else "taken"] += 1
        if line.tag is not None:
            counts["tags_out"] += 1 if is_given else -1
        for place, count in zip(self._host_places[line.host], counts.values()):
            self._dump.change(place, count, out)


# What shows each kind of line, beside the queues and the tokens.
_SHOWN: dict[type[Line], Callable[[Wave, Any, list[str]], None]] = {
    Sent: Wave.show_sent,
    Landed: Wave.show_landing,
    Passed: Wave.show_landing,
    Unlocked: Wave.show_landing,
    Gave: Wave.show_host,
    Took: Wave.show_host,
}


def _text(lines: list[str]) -> bytes:
    return ("\n".join(lines) + "\n").encode()
