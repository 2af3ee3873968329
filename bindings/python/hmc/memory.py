"""A network that is stepped in rounds, and calls a function with each answer."""

from __future__ import annotations

import ctypes
import os
from collections.abc import Callable
from types import TracebackType

from hmc.calls import Error, RawEntry, Status, check_number, library, refuse_case
from hmc.commands import command_of
from hmc.entry import Answer, answer_of

Done = Callable[[Answer], None]


def _refused(text: bytes, status: int, tape: bool) -> Error:
    """Why no network was opened."""
    error = refuse_case("open", status, text)
    if status != Status.BAD or error.fault:
        return error
    said = "the script has requests" + (", or a key has an escape" if tape else "")
    return Error("open", status, said=said)


class Memory:
    """A case without requests (docs/case.md). It is for one thread at a time; close it, or use
    `with`. With a tape it keeps what it did, and `save` writes it as a case."""

    def __init__(self, case: str, *, tape: bool = False) -> None:
        text = case.encode()
        call = library.hmc_driver_open_taped if tape else library.hmc_driver_open
        status = ctypes.c_uint8()
        self._calls: dict[int, Done] = {}
        self._next = 0
        self._raw = RawEntry()
        self._id = ctypes.c_uint64()
        self._driver: int | None = call(text, len(text), status)
        if self._driver is None:
            raise _refused(text, status.value, tape)

    def save(self, path: str | os.PathLike[str]) -> None:
        """Writes the case that replays what was done so far to a file; without a tape, or where the
        file can't be written, it raises `OSError`."""
        ctypes.set_errno(0)
        status = library.hmc_driver_save(self._opened(), os.fsencode(path))
        if status == Status.NONE:
            number = ctypes.get_errno()
            raise OSError(number, os.strerror(number), os.fspath(path))
        if status:
            raise Error("save", status)

    def close(self) -> None:
        """Closes the network. A closed one stays closed, and what was asked isn't answered."""
        if self._driver is not None:
            library.hmc_driver_close(self._driver)
        self._driver = None
        self._calls.clear()

    def __enter__(self) -> Memory:
        return self

    def __exit__(
        self,
        kind: type[BaseException] | None,
        error: BaseException | None,
        trace: TracebackType | None,
    ) -> None:
        self.close()

    def __del__(self) -> None:
        if getattr(self, "_driver", None) is not None:
            self.close()

    def _opened(self) -> int:
        if self._driver is None:
            raise Error("a closed network", Status.CLOSED)
        return self._driver

    def request(
        self, host: int, word: str, cube: int, address: int, payload: bytes, done: Done
    ) -> None:
        """Asks a host for a request, by the word of its command (docs/commands.md). The function is
        called once with its answer; for a posted request, whose answer is of the kind NONE, when it
        is given."""
        driver = self._opened()
        code = command_of(word).code
        check_number("host", host, 8)
        check_number("cube", cube, 8)
        check_number("address", address, 64)
        parts = (host, code, cube, address, payload, len(payload), self._next)
        status = library.hmc_driver_request(driver, *parts)
        if status:
            raise Error(f"request {word}", status)
        self._calls[self._next] = done
        self._next += 1

    def round(self) -> None:
        """Takes a round, and calls what is done in it. A function may ask for more, and may raise:
        then the next call takes the rest of the round."""
        while True:
            status = library.hmc_driver_go(self._opened(), self._id, self._raw)
            if status == Status.NONE:
                return
            if status:
                raise Error("round", status)
            self._calls.pop(self._id.value)(answer_of(self._raw))

    @property
    def waiting(self) -> int:
        """The requests that aren't done."""
        return len(self._calls)

    @property
    def hosts(self) -> int:
        """The hosts of the network."""
        hosts: int = library.hmc_driver_hosts(self._opened())
        return hosts

    @property
    def steps_of_round(self) -> int:
        """The steps of a round."""
        steps: int = library.hmc_driver_steps_of_round(self._opened())
        return steps
