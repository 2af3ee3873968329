"""The lines of a report as frozen records, with the fields of docs/grammar-report.md."""

from __future__ import annotations

import sys
from dataclasses import dataclass
from typing import ClassVar

REGISTERS = "r"
# Millions of records are made: without a dictionary for each, where Python can, from 3.10 on.
SLOTS: dict[str, bool] = {"slots": True} if sys.version_info >= (3, 10) else {}


@dataclass(frozen=True, **SLOTS)
class Request:
    """A request as a script prints it, without its host."""

    poisoned: bool
    command: str
    cube: int
    address: int
    bytes: str | None = None
    value: int | None = None


@dataclass(frozen=True, **SLOTS)
class Answer:
    """An answer: its first word, and what it carries."""

    kind: str
    flag: bool | None = None
    bytes: str | None = None
    value: int | None = None
    error: int | None = None


class Line:
    """A line of a report. `line` is its first word."""

    __slots__ = ()
    line: ClassVar[str] = ""


class Entry(Line):
    """The line of a step. `step` is the step as a schedule has it, without a mask."""

    __slots__ = ()

    @property
    def step(self) -> str:
        """The words of the step."""
        raise NotImplementedError


@dataclass(frozen=True, **SLOTS)
class Gave(Entry):
    host: int
    tag: int | None
    request: Request
    line: ClassVar[str] = "gave"

    @property
    def step(self) -> str:
        return f"give {self.host}"


@dataclass(frozen=True, **SLOTS)
class Sent(Entry):
    direction: int
    what: str
    flit: str
    line: ClassVar[str] = "sent"

    @property
    def step(self) -> str:
        return f"send {self.direction}"


@dataclass(frozen=True, **SLOTS)
class Landed(Entry):
    direction: int
    flit: str
    outcome: str
    line: ClassVar[str] = "landed"

    @property
    def step(self) -> str:
        return f"land {self.direction}"


@dataclass(frozen=True, **SLOTS)
class Passed(Entry):
    direction: int
    flit: str
    line: ClassVar[str] = "passed"

    @property
    def step(self) -> str:
        return f"land {self.direction}"


@dataclass(frozen=True, **SLOTS)
class Shifted(Entry):
    cube: int
    port: int
    to: str
    line: ClassVar[str] = "shifted"

    @property
    def step(self) -> str:
        return f"shift {self.cube} {self.port}"


@dataclass(frozen=True, **SLOTS)
class Dropped(Entry):
    cube: int
    port: int
    line: ClassVar[str] = "dropped"

    @property
    def step(self) -> str:
        return f"shift {self.cube} {self.port}"


@dataclass(frozen=True, **SLOTS)
class Spread(Entry):
    cube: int
    vault: int
    bank: int
    line: ClassVar[str] = "spread"

    @property
    def step(self) -> str:
        return f"spread {self.cube} {self.vault}"


@dataclass(frozen=True, **SLOTS)
class Executed(Entry):
    cube: int
    vault: int | str
    bank: int | None
    host: int
    tag: int | None
    request: Request
    answer: Answer
    line: ClassVar[str] = "executed"

    @property
    def step(self) -> str:
        if self.vault == REGISTERS:
            return f"registers {self.cube}"
        return f"bank {self.cube} {self.vault} {self.bank}"


@dataclass(frozen=True, **SLOTS)
class Lifted(Entry):
    cube: int
    from_: int | str
    port: int
    line: ClassVar[str] = "lifted"

    @property
    def step(self) -> str:
        return f"lift {self.cube} {self.from_}"


@dataclass(frozen=True, **SLOTS)
class Took(Entry):
    host: int
    tag: int
    answer: Answer
    line: ClassVar[str] = "took"

    @property
    def step(self) -> str:
        return f"take {self.host}"


@dataclass(frozen=True, **SLOTS)
class Discarded(Entry):
    host: int
    line: ClassVar[str] = "discarded"

    @property
    def step(self) -> str:
        return f"take {self.host}"


@dataclass(frozen=True, **SLOTS)
class Through(Entry):
    cube: int
    port: int
    direction: int
    line: ClassVar[str] = "through"

    @property
    def step(self) -> str:
        return f"through {self.cube} {self.port}"


@dataclass(frozen=True, **SLOTS)
class Unlocked(Entry):
    direction: int
    line: ClassVar[str] = "unlocked"

    @property
    def step(self) -> str:
        return f"unlock {self.direction}"


@dataclass(frozen=True, **SLOTS)
class Retired(Entry):
    slot: int
    line: ClassVar[str] = "retired"

    @property
    def step(self) -> str:
        return f"retire {self.slot}"


@dataclass(frozen=True, **SLOTS)
class Idle(Entry):
    idle_step: str
    cause: str
    line: ClassVar[str] = "idle"

    @property
    def step(self) -> str:
        return self.idle_step


@dataclass(frozen=True, **SLOTS)
class Memory(Line):
    cube: int
    address: int
    bytes: str
    line: ClassVar[str] = "memory"


@dataclass(frozen=True, **SLOTS)
class Register(Line):
    cube: int
    register: int
    value: int
    line: ClassVar[str] = "register"


@dataclass(frozen=True, **SLOTS)
class Tokens(Line):
    direction: int
    held: int
    transit: int
    used: int
    due: int
    returning: int
    advertised: int
    line: ClassVar[str] = "tokens"


@dataclass(frozen=True, **SLOTS)
class Counters(Line):
    direction: int
    sent: int
    landed: int
    changed: int
    accepted: int
    repeats: int
    aborts: int
    line: ClassVar[str] = "counters"


@dataclass(frozen=True, **SLOTS)
class Host(Line):
    host: int
    given: int
    taken: int
    out: int
    line: ClassVar[str] = "host"


@dataclass(frozen=True, **SLOTS)
class Cube(Line):
    cube: int
    executed: int
    dropped: int
    line: ClassVar[str] = "cube"


@dataclass(frozen=True, **SLOTS)
class State(Line):
    state: str
    line: ClassVar[str] = "state"


@dataclass(frozen=True, **SLOTS)
class Bad(Line):
    section: str
    number: int
    kind: str
    line: ClassVar[str] = "bad"
