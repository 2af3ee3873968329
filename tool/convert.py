"""Makes a schedule of a test bench's log: the steps that it saw, and before their first visible
effect those that it could not see. docs/observations.md explains the rules.

It follows each packet through the network: in which queue it is, how many of its flits have left
and arrived, and which tokens are due. It does not follow retries: a log of changed flits is for
hand.
"""

from __future__ import annotations

from collections import deque
from collections.abc import Iterable
from dataclasses import dataclass

from tool.case import BLOCKS, Document, Endpoint
from tool.commands import BY_WORD
from tool.observed import Event, wrong
from tool.lines import Request
from tool.routes import distances_to, hops_from, next_hop
from tool.tokens import returned_of

# The rounds after which both ends of a link have trained. Each later one returns tokens by a TRET.
TRAINING = 72
MOST_RETURNED = 64
# The logic units of the program, by cube and code, each in the slot of its place.
UNITS = [(0, 0), (0, 1)]
SCRATCH = range(4, 16)


@dataclass(frozen=True)
class Packet:
    """A request or an answer on its way: its flits, its host, the request, and its line."""

    flits: int
    host: int
    request: Request
    line: int
    is_answer: bool = False
    is_error: bool = False

    def __str__(self) -> str:
        if not self.is_answer:
            return f"the request of line {self.line}"
        return f"the {'error that answers' if self.is_error else 'answer to'} line {self.line}"


def returns_of(tokens: int) -> int:
    """How many TRETs return so many tokens: each returns the greatest power of two, up to 64."""
    return tokens // MOST_RETURNED + bin(tokens % MOST_RETURNED).count("1")


def preamble(document: Document) -> list[str]:
    """Steps after which each link has trained and each sender holds all its tokens."""
    directions = range(2 * len(document["links"]))
    rounds = TRAINING + max(returns_of(link["tokens"]) for link in document["links"])
    return [
        f"{step} {direction}"
        for _ in range(rounds)
        for step in ("send", "land")
        for direction in directions
    ]


class Follower:
    """The network as far as the log says, and the steps so far."""

    def __init__(self, document: Document, has_flow: bool):
        self._document = document
        self._has_flow = has_flow
        self._hops = hops_from(document)
        self._out = {start: hop.direction for start, hop in self._hops.items()}
        count = 2 * len(document["links"])
        self._ends = {hop.direction: hop.end for hop in self._hops.values()}
        self._output = [deque[Packet]() for _ in range(count)]
        # The packet that each direction sends and receives, and how many flits are left of it.
        self._sending: list[tuple[Packet, int] | None] = [None] * count
        self._landing = [0] * count
        # The packet of which a flit last left, and last arrived, in each direction.
        self._left: list[Packet | None] = [None] * count
        self._came: list[Packet | None] = [None] * count
        self._flying = [deque[Packet | None]() for _ in range(count)]
        self._buffers = [deque[Packet]() for _ in range(count)]
        self._arrived: list[deque[int]] = [deque() for _ in document["cubes"]]
        # Tokens that each sender holds, those that are due, and those that packets return.
        self._held = [link["tokens"] for link in document["links"] for _ in range(2)]
        self._due = [0] * count
        self._returning = [deque[int]() for _ in range(count)]
        self._units = set(UNITS)
        self._distances = [distances_to(cube, document) for cube in range(len(self._arrived))]
        self.steps: list[str] = []
        self.script: list[str] = []

    def follow(self, event: Event) -> None:
        """Adds the steps of an event, those that were not seen first."""
        handlers = {
            "request": self._request,
            "fence": lambda it: self.script.append(it.text),
            "answer": self._answer,
            "out": self._leave,
            "in": self._arrive,
            "begin": self._begin,
            "retire": self._retire,
        }
        handlers[event.word](event)
        self._return_tokens()

    def finish(self) -> None:
        """Adds the work that no effect in the log shows, as that of posted writes."""
        for cube, arrived in enumerate(self._arrived):
            while arrived and self._work(cube):
                pass
        self._return_tokens()

    def _request(self, event: Event) -> None:
        assert event.request is not None
        self.script.append(event.text)
        self.steps.append(f"give {event.host}")
        flits = BY_WORD[event.request.command].lengths[0]
        packet = Packet(flits, event.host, event.request, event.line)
        self._output[self._out[Endpoint(event.host)]].append(packet)

    def _answer(self, event: Event) -> None:
        direction = self._out[Endpoint(event.host)] ^ 1
        if not self._buffers[direction]:
            said, packet = f"no whole answer has arrived at h{event.host}", self._came[direction]
            if packet and self._landing[direction]:
                said += f": {self._landing[direction]} of {packet.flits} flits of {packet}"
            raise wrong(event.line, said)
        self._due[direction] += self._buffers[direction].popleft().flits
        self.steps.append(f"take {event.host}")

    def _leave(self, event: Event) -> None:
        """A flit leaves an end: of a packet that is under way, of the next one, or of none."""
        direction, end = self._out[event.end], event.end
        if event.is_flow:
            while end.host is None and self._arrived[end.cube] and self._work(end.cube):
                pass
            self._flow(direction)
            return
        going = self._sending[direction]
        if going is None:
            going = self._next_packet(event, direction)
        packet, left = going
        self._sending[direction] = (packet, left - 1) if left > 1 else None
        self._flying[direction].append(packet)
        self.steps.append(f"send {direction}")

    def _next_packet(self, event: Event, direction: int) -> tuple[Packet, int]:
        """The packet whose first flit leaves now, after the work that brings it to its end."""
        end, waiting = event.end, self._output[direction]
        while not waiting and end.host is None and self._arrived[end.cube] and self._work(end.cube):
            pass
        if not waiting:
            said = f"no packet that has arrived could leave {end} now"
            before = self._left[direction]
            if before:
                said += f"; the last one was {before}, flits: {before.flits}"
            raise wrong(event.line, said)
        packet = waiting.popleft()
        self._left[direction] = packet
        self._free_tokens(direction, packet.flits)
        returned = returned_of(self._due[direction ^ 1])
        self._due[direction ^ 1] -= returned
        self._returning[direction].append(returned)
        self._held[direction] -= packet.flits
        return packet, packet.flits

    def _free_tokens(self, direction: int, flits: int) -> None:
        """The work that shows only here: it has freed the tokens of a packet that leaves now."""
        receiver = self._ends[direction]
        while self._held[direction] < flits and receiver.host is None:
            if not (self._arrived[receiver.cube] and self._work(receiver.cube)):
                return
            self._return_tokens()

    def _flow(self, direction: int) -> None:
        """A flow packet leaves: a TRET, where tokens are due."""
        if self._sending[direction] is None:
            returned = returned_of(self._due[direction ^ 1])
            self._due[direction ^ 1] -= returned
            self._held[direction ^ 1] += returned
        self._flying[direction].append(None)
        self.steps.append(f"send {direction}")

    def _arrive(self, event: Event) -> None:
        """A flit arrives at an end. The last one of a packet brings it to the buffer."""
        direction = self._out[event.end] ^ 1
        flying = self._flying[direction]
        if not flying:
            raise wrong(event.line, f"no flit is on its way to {event.end}")
        packet = flying.popleft()
        if (packet is None) != event.is_flow:
            kind = "a flow packet" if packet is None else "a flit of a request or answer"
            raise wrong(event.line, f"what arrives at {event.end} is {kind}")
        self.steps.append(f"land {direction}")
        if packet is None:
            return
        self._came[direction] = packet
        self._landing[direction] += 1
        if self._landing[direction] == packet.flits:
            self._landing[direction] = 0
            self._held[direction ^ 1] += self._returning[direction].popleft()
            self._buffers[direction].append(packet)
            if event.end.host is None:
                self._arrived[event.end.cube].append(direction)

    def _begin(self, event: Event) -> None:
        said = "the packet goes on before it has come whole: write these steps by hand"
        raise wrong(event.line, said)

    def _retire(self, event: Event) -> None:
        self.steps.append(f"retire {event.host}")
        if event.host < len(UNITS):
            self._units.discard(UNITS[event.host])

    def _work(self, cube: int) -> bool:
        """The packet that came first to a cube moves on as far as it can; whether it could."""
        source = self._arrived[cube][0]
        packet = self._buffers[source][0]
        goal = self._goal(cube, packet)
        is_answered = not packet.request.poisoned and bool(BY_WORD[packet.request.command].reply)
        if goal is not None and (is_answered or packet.request.cube != cube or packet.is_answer):
            size = self._document["links"][goal // 2]["output"]
            if len(self._output[goal]) >= size:
                return False
        self._arrived[cube].popleft()
        self._buffers[source].popleft()
        self._due[source] += packet.flits
        self.steps.append(f"shift {cube} {self._ends[source].port}")
        if packet.request.poisoned:
            return True
        if packet.is_answer or packet.request.cube != cube:
            assert goal is not None
            self._output[goal].append(packet)
            return True
        self._execute(cube, packet, goal if is_answered else None)
        return True

    def _execute(self, cube: int, packet: Packet, goal: int | None) -> None:
        """A request is executed at its cube, and its answer moves to its port."""
        place = vault_and_bank(self._document["cubes"][cube], packet.request)
        if place:
            self.steps += [f"spread {cube} {place[0]}", f"bank {cube} {place[0]} {place[1]}"]
        else:
            self.steps.append(f"registers {cube}")
        if goal is not None:
            self.steps.append(f"lift {cube} {place[0] if place else 'r'}")
            asked = packet.request
            is_error = is_refused(asked, self._document, self._units)
            flits = 1 if is_error else answer_flits(asked)
            answer = Packet(flits, packet.host, asked, packet.line, True, is_error)
            self._output[goal].append(answer)

    def _goal(self, cube: int, packet: Packet) -> int | None:
        """The direction that leads on from a cube: of a request for it, that of its answer."""
        host_end = self._hops[Endpoint(packet.host)].end
        is_asked_here = packet.request.cube == cube
        goal = host_end.cube if packet.is_answer or is_asked_here else packet.request.cube
        if goal == cube:
            return self._out[host_end]
        return next_hop(cube, self._distances[goal], self._hops).direction

    def _return_tokens(self) -> None:
        """Adds flow packets that the log leaves out, where tokens are due and a line is quiet."""
        if self._has_flow:
            return
        for direction, due in enumerate(self._due):
            back = direction ^ 1
            is_quiet = not (self._output[back] or self._sending[back] or self._flying[back])
            while due and is_quiet:
                self._held[direction] += returned_of(due)
                due -= returned_of(due)
                self.steps += [f"send {back}", f"land {back}"]
            self._due[direction] = due


def answer_flits(request: Request) -> int:
    """How many flits the answer of a request has, if it is no error."""
    command = BY_WORD[request.command]
    if command.reply == "rd_rs" and request.command.startswith("rd"):
        return 1 + int(request.command[2:]) // 16
    return 2 if command.reply in ("rd_rs", "md_rd_rs") else 1


def vault_and_bank(cube: Document, request: Request) -> tuple[int, int] | None:
    """The vault and the bank of a request by its address; None for the registers."""
    if request.command in ("mdrd", "mdwr"):
        return None
    rest = request.address // cube.get("block", BLOCKS[-1])
    vaults, banks = 1 << cube["vault_bits"], 1 << cube["bank_bits"]
    return rest % vaults, rest // vaults % banks


def is_refused(request: Request, document: Document, units: Iterable[tuple[int, int]]) -> bool:
    """Whether a request is answered by an error, by the table of docs/commands.md."""
    word, address = request.command, request.address
    cube = document["cubes"][request.cube]
    if word == "mdrd":
        return address >= SCRATCH.stop
    if word == "mdwr":
        return address not in SCRATCH
    is_eight = word in ("bwr", "bwr8r", "inc8", "eq8") or word.startswith("cas") and word[-1] == "8"
    size = 8 if is_eight else int(word.lstrip("rwd")) if word.startswith(("rd", "wr")) else 16
    block = cube.get("block", BLOCKS[-1])
    rows = address // block // (1 << cube["vault_bits"] + cube["bank_bits"])
    if address % (8 if is_eight else 16) or address % block + size > block or rows >= cube["rows"]:
        return True
    return word.startswith("unit") and (request.cube, int(word[4:])) not in set(units)


def converted(events: list[Event], document: Document, trains: bool) -> Document:
    """The case whose script and schedule are those of a log."""
    has_flow = any(event.is_flow for event in events)
    follower = Follower(document, has_flow)
    for event in events:
        follower.follow(event)
    follower.finish()
    steps = [*(preamble(document) if trains else []), *follower.steps]
    texts = {"script": follower.script, "schedule": steps}
    return {**document, **{key: "".join(f"{it}\n" for it in lines) for key, lines in texts.items()}}
