"""Entries: what a step did, and what a request was answered."""

from __future__ import annotations

import enum
from dataclasses import dataclass

from hmc.calls import RawEntry

NO_TAG = 65535


class Step(enum.IntEnum):
    """Kinds of steps, each with the numbers that name its part."""

    GIVE = 0  # host
    SEND = 1  # direction
    LAND = 2  # direction
    SHIFT = 3  # cube, port
    SPREAD = 4  # cube, vault
    BANK = 5  # cube, vault, bank
    REGISTERS = 6  # cube
    LIFT = 7  # cube, vault, or 255 for the registers
    TAKE = 8  # host
    THROUGH = 9  # cube, port
    UNLOCK = 10  # direction
    RETIRE = 11  # slot


class EntryKind(enum.IntEnum):
    """What a step did."""

    GAVE = 1
    SENT = 2
    LANDED = 3
    SHIFTED = 4
    DROPPED = 5
    SPREAD_TO = 6
    EXECUTED = 7
    LIFTED = 8
    TOOK = 9
    DISCARDED = 10
    WENT_THROUGH = 11
    UNLOCKED = 12
    RETIRED = 13
    LANDING_PASSED = 14
    IDLE = 15


class AnswerKind(enum.IntEnum):
    """What an answer is."""

    NONE = 0
    DONE = 1
    READ = 2
    REGISTER = 3
    STORED = 4
    ERROR = 5


class Cause(enum.IntEnum):
    """Why a step did nothing."""

    ENDED = 1
    FENCE = 2
    TAGS = 3
    EMPTY = 4
    FULL = 5
    STARVED = 6
    NO_PACKET = 7
    BUSY = 8


class What(enum.IntEnum):
    """What a flit was sent as."""

    TRAIN = 1
    CLEAR = 2
    START = 3
    NULL = 4
    PRET = 5
    TRET = 6
    NEW = 7
    AGAIN = 8


class Outcome(enum.IntEnum):
    """What a landing was."""

    QUIET = 1
    TRAINED = 2
    GATHERED = 3
    ACCEPTED = 4
    POISONED = 5
    REPEAT = 6
    ABORTED_LENGTH = 7
    ABORTED_COMMAND = 8
    ABORTED_RESERVED = 9
    ABORTED_CRC = 10
    ABORTED_ORDER = 11
    START = 12
    CLEAR = 13


@dataclass(frozen=True)
class Answer:
    """An answer: the bytes of a read, the value of a register or of an error, and the flag."""

    kind: AnswerKind
    flag: bool
    value: int
    data: bytes


@dataclass(frozen=True)
class Entry:
    """What a step did: its kind and the numbers of its parts, as hmc.h has them. What an entry of
    its kind hasn't is None, zero or empty."""

    kind: EntryKind
    a: int
    b: int
    c: int
    tag: int | None
    host: int
    command: int
    cube: int
    address: int
    payload: bytes
    answer: Answer
    step: Step
    cause: Cause | None
    what: What | None
    outcome: Outcome | None
    flag: bool
    poisoned: bool
    flit: bytes

    @staticmethod
    def of(raw: RawEntry) -> Entry:
        """The entry that a call has written."""
        return Entry(
            kind=EntryKind(raw.kind),
            a=raw.a,
            b=raw.b,
            c=raw.c,
            tag=None if raw.tag == NO_TAG else raw.tag,
            host=raw.host,
            command=raw.command,
            cube=raw.cube,
            address=raw.address,
            payload=bytes(raw.payload[: raw.length]),
            answer=answer_of(raw),
            step=Step(raw.step),
            cause=Cause(raw.cause) if raw.cause else None,
            what=What(raw.what) if raw.what else None,
            outcome=Outcome(raw.outcome) if raw.outcome else None,
            flag=raw.flag,
            poisoned=raw.poisoned,
            flit=bytes(raw.flit),
        )


def answer_of(raw: RawEntry) -> Answer:
    """The answer in an entry that a call has written."""
    data = bytes(raw.returned[: raw.returned_length])
    return Answer(AnswerKind(raw.answer), raw.flag, raw.value, data)
