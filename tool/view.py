"""What a page of a run shows, as columns of numbers: requests and their stations, flits that are
more than NULLs, queues, tokens and waits. The page has the rest of it from the case."""

from __future__ import annotations

from collections import deque
from collections.abc import Callable, Iterable
from typing import Any, NamedTuple

from tool import packets
from tool.case import Document, plan_of
from tool.commands import BY_WORD
from tool.following import FIRST_MODE, Following
from tool.journeys import ENDS, STATIONS, Journeys, Visit
from tool.lines import (
    Answer,
    Entry,
    Executed,
    Gave,
    Idle,
    Landed,
    Line,
    Passed,
    Request,
    Retired,
    Sent,
    State,
    Through,
    Unlocked,
)
from tool.report import Block
from tool.spool import Column, Spool
from tool.tokens import PLACES

STOPS = (*STATIONS, *ENDS.values())
WHATS = ("train", "clear", "start", "null", "pret", "tret", "new", "again")
OUTCOMES = (
    "",
    "quiet",
    "trained",
    "gathered",
    "accepted",
    "poisoned",
    "repeat",
    "ran start",
    "ran clear",
    "aborted length",
    "aborted command",
    "aborted reserved",
    "aborted crc",
    "aborted order",
    "passed",
)
MODES = (FIRST_MODE, "abort", "good")
# Flits that the page does not have one by one, where they land unchanged and quietly.
PLAIN = ("null", "train")
# Causes of idle steps for which something waits.
WAITS = frozenset(("full", "tags", "fence", "starved", "busy"))
NO_TOKENS, HELD_BACK = "no tokens", "held back"
# The columns of a view and their kinds. Rows that belong together have the same place in each.
COLUMNS = {
    "sent_step": "I",
    "sent_direction": "B",
    "sent_what": "B",
    "sent_packet": "i",
    "sent_first": "B",
    "sent_bytes": "B",
    "landed_flit": "I",
    "landed_step": "I",
    "landed_outcome": "B",
    "level_step": "I",
    "level_queue": "H",
    "level_held": "H",
    "token_step": "I",
    "token_direction": "B",
    "token_places": "H",
    "visit_step": "I",
    "visit_packet": "I",
    "visit_station": "B",
    "visit_place": "h",
    "mode_step": "I",
    "mode_direction": "B",
    "mode": "B",
    "wait_name": "H",
    "wait_first": "I",
    "wait_last": "I",
    "requests": "B",
    "answers": "B",
    "changed": "B",
    "marks": "B",
}
OF_PACKETS = ("new", "again")
# The place of a mark that is of no direction.
NETWORK = -1


class OnLine(NamedTuple):
    """A flit on a line: its row, which is -1 where it was left out, and when and what was sent."""

    row: int
    step: int
    line: Sent


class Runs:
    """Intervals of steps by what they are of. One ends where it doesn't go on within a gap."""

    def __init__(self, gap: int, put: Callable[[int, int, int], object]):
        self.names: dict[tuple[str, str], int] = {}
        self._gap, self._put = gap, put
        self._open: list[list[int]] = []

    def at(self, name: tuple[str, str], step: int) -> None:
        """What is named is so at this step."""
        number = self.names.setdefault(name, len(self._open))
        if number == len(self._open):
            self._open.append([step, step])
            return
        run = self._open[number]
        if step - run[1] > self._gap:
            self._put(number, *run)
            run[0] = step
        run[1] = step

    def end(self) -> None:
        """Puts what is open."""
        for number, run in enumerate(self._open):
            self._put(number, *run)


class View:
    """The columns of a report."""

    def __init__(self, document: Document):
        self.document = document
        self._plan = plan_of(document)
        self._following = Following(document)
        self._journeys = Journeys(self._following)
        self._spool = Spool()
        self.columns = {name: Column(self._spool, kind) for name, kind in COLUMNS.items()}
        self.waits = Runs(2 * self._plan.round_steps, self._put_wait)
        # The flits on each line.
        self._lines = [deque[OnLine]() for _ in self._following.ends]
        self._modes = [FIRST_MODE for _ in self._following.ends]
        self._left = [0 for _ in self._following.ends]
        # The flits of each request's packet, and of its answer from the execution on.
        self._lengths: dict[int, int] = {}
        self._flits = 0
        # The last step, the last one at which a packet moved, and the last line.
        self.steps = self.moved = 0
        self.end: Line = State("drained")

    def close(self) -> None:
        """The columns are not needed any more."""
        self._spool.close()

    def read(self, blocks: Iterable[Block[Line]]) -> None:
        """Reads a report."""
        for block in blocks:
            for step, line in enumerate(block.made, block.start):
                if type(line) is Idle:
                    if line.cause in WAITS:
                        self.waits.at((line.idle_step, line.cause), step)
                    self.steps = step
                elif isinstance(line, Entry):
                    self.steps = step
                    self._read_entry(step, line)
                else:
                    self.end = line
            for column in self.columns.values():
                column.extend(())
        self.waits.end()

    def _read_entry(self, step: int, line: Entry) -> None:
        """Reads an entry that did something."""
        following, add = self._following, self.columns
        for queue in following.apply(line):
            # How many flits are on a line is seen from the flits themselves.
            if following.names[queue][0] != "line":
                add["level_step"].append(step)
                add["level_queue"].append(queue)
                add["level_held"].append(len(following.held[queue]))
        show = _SHOWN.get(type(line))
        if show:
            show(self, step, line)
        if following.tokens.moved:
            self._put_tokens(step)
        visit = self._journeys.visit(line)
        if visit:
            self._put_visit(step, visit)
        if visit or following.packet >= 0:
            self.moved = step

    def _put_visit(self, step: int, visit: Visit) -> None:
        """A request comes to a station."""
        add = self.columns
        add["visit_step"].append(step)
        add["visit_packet"].append(visit.packet)
        add["visit_station"].append(STOPS.index(visit.station))
        add["visit_place"].append(visit.place)
        if visit.is_end:
            self._lengths.pop(visit.packet, None)

    def _put_tokens(self, step: int) -> None:
        """Tokens moved."""
        tokens, add = self._following.tokens, self.columns
        for direction in dict.fromkeys(place // len(PLACES) for place in tokens.moved):
            row = direction * len(PLACES)
            add["token_step"].append(step)
            add["token_direction"].append(direction)
            add["token_places"].extend(tuple(tokens.at[row : row + len(PLACES)]))

    def _put_wait(self, name: int, first: int, last: int) -> None:
        """Something waited from a step to another one."""
        for column, value in zip(("wait_name", "wait_first", "wait_last"), (name, first, last)):
            self.columns[column].append(value)

    def gave(self, _: int, line: Gave) -> None:
        """A request is given."""
        self._lengths[self._following.packet] = BY_WORD[line.request.command].lengths[0]
        tag = "-" if line.tag is None else line.tag
        text = f"{line.host} {tag} {words_of_request(line.request)}\n"
        self.columns["requests"].extend(text.encode())

    def executed(self, _: int, line: Executed) -> None:
        """A request is executed, and its answer is a packet of another length."""
        carried = line.answer.bytes or ("0" * 8 if line.answer.kind == "register" else "")
        self._lengths[self._following.packet] = 1 - -len(carried) // (2 * packets.FLIT_BYTES)
        text = f"{self._following.packet} {words_of_answer(line.answer)}\n"
        self.columns["answers"].extend(text.encode())

    def retired(self, step: int, line: Retired) -> None:
        """A logic unit is dropped."""
        self._put_mark(step, NETWORK, f"retired {line.slot}")

    def _put_mark(self, step: int, direction: int, words: str) -> None:
        """Something happened that is to be found."""
        self.columns["marks"].extend(f"{step} {direction} {words}\n".encode())

    def sent(self, step: int, line: Sent) -> None:
        """A flit is sent."""
        direction, what = line.direction, line.what
        row = -1
        if what not in PLAIN:
            row = self._put_flit(step, line)
        self._lines[direction].append(OnLine(row, step, line))
        if what != "null":
            return
        held = self._following.held[self._following.outputs[direction]]
        if held:
            tokens = self._following.tokens.at[direction * len(PLACES)]
            is_short = tokens < self._lengths.get(held[0], 1)
            self.waits.at((f"send {direction}", NO_TOKENS if is_short else HELD_BACK), step)

    def _put_flit(self, step: int, line: Sent) -> int:
        """Puts a flit that was sent, and returns its row."""
        direction, flit, add = line.direction, bytes.fromhex(line.flit), self.columns
        is_first = self._left[direction] == 0
        if line.what in OF_PACKETS:
            length = packets.length_of(flit) if is_first else self._left[direction]
            self._left[direction] = length - 1
        add["sent_step"].append(step)
        add["sent_direction"].append(direction)
        add["sent_what"].append(WHATS.index(line.what))
        add["sent_packet"].append(self._following.packet if line.what in OF_PACKETS else -1)
        add["sent_first"].append(is_first)
        add["sent_bytes"].extend(flit)
        self._flits += 1
        return self._flits - 1

    def landed(self, step: int, line: Landed | Passed) -> None:
        """A flit lands. One that was left out is put now if it did not land as nothing."""
        direction = line.direction
        outcome = line.outcome if isinstance(line, Landed) else line.line
        row, first, sent = self._lines[direction].popleft()
        if row < 0 and outcome == "quiet" and line.flit == sent.flit:
            return
        if row < 0:
            row = self._put_flit(first, sent)
        if line.flit != sent.flit:
            self.columns["changed"].extend(f"{row} {line.flit}\n".encode())
        add = self.columns
        add["landed_flit"].append(row)
        add["landed_step"].append(step)
        add["landed_outcome"].append(OUTCOMES.index(outcome))
        if outcome.startswith("aborted") or outcome in ("trained", "passed"):
            self._put_mark(step, direction, outcome)
        self._put_mode(step, direction)

    def unlocked(self, step: int, line: Unlocked) -> None:
        """A receiver loses its framing."""
        before = self._modes[line.direction]
        words = "unlocked" if before == "good" else f"unlocked in {before}"
        self._put_mark(step, line.direction, words)
        self._put_mode(step, line.direction)

    def through(self, step: int, line: Through) -> None:
        """A packet goes on before it has come whole."""
        self._put_mark(step, line.direction, "through")

    def _put_mode(self, step: int, direction: int) -> None:
        """A receiver may wait for something else from this step on."""
        mode = self._following.modes[direction]
        if mode != self._modes[direction]:
            self._modes[direction] = mode
            self.columns["mode_step"].append(step)
            self.columns["mode_direction"].append(direction)
            self.columns["mode"].append(MODES.index(mode))


_SHOWN: dict[type[Line], Callable[[View, int, Any], None]] = {
    Gave: View.gave,
    Sent: View.sent,
    Landed: View.landed,
    Passed: View.landed,
    Unlocked: View.unlocked,
    Executed: View.executed,
    Through: View.through,
    Retired: View.retired,
}


def words_of_request(request: Request) -> str:
    """A request in the words of a report."""
    front = "poison " if request.poisoned else ""
    carried = request.value if request.value is not None else request.bytes
    back = "" if carried is None else f" {carried}"
    return f"{front}{request.command} {request.cube} {request.address:#x}{back}"


def words_of_answer(answer: Answer) -> str:
    """An answer in the words of a report."""
    words = [answer.kind]
    if answer.flag is not None:
        words.append(str(int(answer.flag)))
    if answer.value is not None:
        words.append(f"{answer.value:08x}")
    words += [str(it) for it in (answer.bytes, answer.error) if it is not None]
    return " ".join(words)
