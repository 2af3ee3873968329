"""A network that is asked and stepped call by call."""

from __future__ import annotations

import ctypes
from collections.abc import Callable, Sequence
from types import TracebackType

from hmc.calls import (
    Error,
    Handle,
    RawEntry,
    Status,
    check_number,
    fault_of,
    library,
    refuse_case,
)
from hmc.commands import command_of
from hmc.entry import Entry, EntryKind, Step
from hmc.report import Unit, raw_units, written

NO_MASK = bytes(16)
LINE_BYTES = 2048
# The first room for a text of a tape. A longer one takes a second call.
TAPE_ROOM = 4096


class Session:
    """A session of a case (docs/case.md), for one thread at a time. Close it, or use `with`. The
    unit at place i is in slot i; there are at most 8. With a tape it keeps its requests and steps,
    which `tape_script` and `tape_schedule` have."""

    def __init__(self, case: str, units: Sequence[Unit] = (), *, tape: bool = False) -> None:
        text = case.encode()
        self._handle = Handle()
        call = library.hmc_open_taped if tape else library.hmc_open_with
        status = call(text, len(text), raw_units(units), len(units), self._handle)
        if status:
            raise refuse_case("open", status, text)

    def close(self) -> None:
        """Closes the session. A closed one stays closed."""
        library.hmc_close(self._handle)

    def __enter__(self) -> Session:
        return self

    def __exit__(
        self,
        kind: type[BaseException] | None,
        error: BaseException | None,
        trace: TracebackType | None,
    ) -> None:
        self.close()

    def __del__(self) -> None:
        if hasattr(self, "_handle"):
            self.close()

    def request(
        self,
        host: int,
        word: str,
        cube: int,
        address: int,
        payload: bytes = b"",
        *,
        fenced: bool = False,
        poisoned: bool = False,
    ) -> None:
        """Asks a host for one request more, by the word of its command (docs/commands.md)."""
        code = command_of(word).code
        check_number("host", host, 8)
        check_number("cube", cube, 8)
        check_number("address", address, 64)
        parts = (host, fenced, poisoned, code, cube, address, payload, len(payload))
        status = library.hmc_request(self._handle, *parts)
        if status:
            raise Error(f"request {word}", status)

    def ask(self, words: str) -> None:
        """Asks for the one request that a text states, in the words of a script (docs/script.md)."""
        text = words.encode()
        status = library.hmc_ask(self._handle, text, len(text))
        if status:
            raise self._refused(f"ask {words!r}", status, text, library.hmc_ask_fault)

    def finish(self, host: int) -> None:
        """Asks a host for nothing more from now on."""
        status = library.hmc_finish(self._handle, check_number("host", host, 8))
        if status:
            raise Error(f"finish {host}", status)

    def step(self, kind: Step, a: int = 0, b: int = 0, c: int = 0, mask: bytes = NO_MASK) -> Status:
        """Takes a step. OK, or PASSED, or WAITS; where there is no such step it raises `Error`."""
        if len(mask) != len(NO_MASK):
            raise Error("a mask of other than 16 bytes", Status.BAD)
        for number in (a, b, c):
            check_number(f"step {kind.name.lower()}", number, 8)
        status = library.hmc_step(self._handle, kind, a, b, c, mask)
        if status not in (Status.OK, Status.PASSED, Status.WAITS):
            raise Error(f"step {kind.name.lower()} {a} {b} {c}", status)
        return Status(status)

    def lay(self, words: str) -> None:
        """Lays down the steps that a text states, in the words of a schedule (docs/schedule.md), in
        place of those that are left."""
        text = words.encode()
        status = library.hmc_lay(self._handle, text, len(text))
        if status:
            raise self._refused("lay", status, text, library.hmc_lay_fault)

    def _refused(self, call: str, status: int, text: bytes, find: Callable[..., int]) -> Error:
        """Why a text was refused; `find` is the call that shows its fault."""
        fault = None
        if status == Status.BAD:
            fault = fault_of(lambda raw: find(self._handle, text, len(text), raw))
        return Error(call, status, fault)

    def run(self, most: int, stops: Sequence[EntryKind] = ()) -> int:
        """Takes laid steps, and tries at most so many, up to an entry of one of these kinds. The
        result is how many were taken. An `Error` may come after steps were taken."""
        steps = ctypes.c_uint32()
        bits = sum(1 << kind for kind in set(stops))
        status = library.hmc_run(self._handle, check_number("run", most, 32), bits, steps)
        if status not in (Status.OK, Status.NONE):
            raise Error("run", status)
        return steps.value

    def block(self, cube: int, address: int) -> bytes:
        """The 16 bytes of a cube at an address, a multiple of 16."""
        out = ctypes.create_string_buffer(16)
        check_number("cube", cube, 8)
        check_number("address", address, 64)
        status = library.hmc_block(self._handle, cube, address, out)
        if status:
            raise Error(f"block {cube} {address:#x}", status)
        return out.raw

    @property
    def entry(self) -> Entry | None:
        """The latest entry; None before the first step."""
        raw = RawEntry()
        status = library.hmc_entry(self._handle, raw)
        if status == Status.CLOSED:
            raise Error("entry", status)
        return Entry.of(raw) if status == Status.OK else None

    @property
    def line(self) -> str | None:
        """The line of the latest entry, with its line feed; None before the first step."""
        text = ctypes.create_string_buffer(LINE_BYTES)
        length = ctypes.c_size_t()
        status = library.hmc_line(self._handle, text, LINE_BYTES, length)
        if status == Status.CLOSED:
            raise Error("line", status)
        return text.raw[: length.value].decode() if status == Status.OK else None

    @property
    def tape_script(self) -> str:
        """The requests so far, as a script."""
        return self._tape(library.hmc_tape_script)

    @property
    def tape_schedule(self) -> str:
        """The steps so far, as a schedule."""
        return self._tape(library.hmc_tape_schedule)

    def _tape(self, call: Callable[..., int]) -> str:
        status, text = written(
            TAPE_ROOM, lambda out, room, length: call(self._handle, out, room, length)
        )
        if status:
            raise Error("the tape", status)
        return text
