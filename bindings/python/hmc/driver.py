"""A network whose answers are awaited, under asyncio or cocotb."""

from __future__ import annotations

import asyncio
import os
from collections.abc import Awaitable, Callable
from types import TracebackType
from typing import Any, Protocol

from hmc.calls import Error, Status
from hmc.entry import Answer, AnswerKind
from hmc.memory import Memory


class Event(Protocol):
    """What asyncio.Event and cocotb.triggers.Event have."""

    def set(self) -> None:
        """Lets go on who waits."""

    def wait(self) -> Awaitable[Any]:
        """Waits until it is set."""


class Driver:
    """A network of a case without requests (docs/case.md).

    Under asyncio `async with Driver(case) as driver` takes rounds by itself. Under cocotb give the
    class of events, and start `run` on a clock:

        driver = Driver(case, cocotb.triggers.Event)
        cocotb.start_soon(driver.run(lambda: RisingEdge(dut.clk)))

    With a tape `save` writes what was done as a case. Where `tape` is a path, that is done at the
    end of `async with` too, if an exception ended it.
    """

    def __init__(
        self,
        case: str,
        event: Callable[[], Event] = asyncio.Event,
        *,
        tape: bool | str | os.PathLike[str] = False,
    ) -> None:
        self.memory = Memory(case, tape=tape is not False)
        self._path = None if isinstance(tape, bool) else tape
        self._event = event
        self._waiting: set[Event] = set()
        self._failure: BaseException | None = None
        self._clock: asyncio.Task[None] | None = None
        self.rounds = 0

    async def run(self, tick: Callable[[], Awaitable[Any]]) -> None:
        """Takes a round, and then waits for a tick, again and again. Where a round fails, so does
        each request that waits."""
        try:
            while True:
                self.memory.round()
                self.rounds += 1
                await tick()
        except BaseException as error:
            self._failure = error
            for event in self._waiting:
                event.set()
            raise

    async def request(
        self, word: str, cube: int, address: int, payload: bytes = b"", host: int = 0
    ) -> Answer:
        """Asks a host for a request, by the word of its command, and waits for its answer."""
        if self._failure is not None:
            raise Error("a driver that doesn't run", Status.CLOSED) from self._failure
        answers: list[Answer] = []
        event = self._event()

        def done(answer: Answer) -> None:
            answers.append(answer)
            event.set()

        self.memory.request(host, word, cube, address, payload, done)
        self._waiting.add(event)
        try:
            await event.wait()
        finally:
            self._waiting.discard(event)
        if not answers:
            raise Error("a driver that doesn't run any more", Status.CLOSED) from self._failure
        return answers[0]

    async def read(self, cube: int, address: int, size: int, host: int = 0) -> bytes:
        """Reads 16 to 128 bytes in steps of 16, or 256, of one block."""
        answer = await self.request(f"rd{size}", cube, address, host=host)
        if answer.kind is not AnswerKind.READ:
            raise Error(f"read {address:#x}, error {answer.value}", Status.BAD)
        return answer.data

    async def write(self, cube: int, address: int, data: bytes, host: int = 0) -> None:
        """Writes 16 to 128 bytes in steps of 16, or 256, of one block."""
        answer = await self.request(f"wr{len(data)}", cube, address, data, host)
        if answer.kind is not AnswerKind.DONE:
            raise Error(f"write {address:#x}, error {answer.value}", Status.BAD)

    def save(self, path: str | os.PathLike[str]) -> None:
        """Writes the case that replays what was done so far to a file."""
        self.memory.save(path)

    def close(self) -> None:
        """Closes the network."""
        self.memory.close()

    async def __aenter__(self) -> Driver:
        self._clock = asyncio.create_task(self.run(lambda: asyncio.sleep(0)))
        return self

    async def __aexit__(
        self,
        kind: type[BaseException] | None,
        error: BaseException | None,
        trace: TracebackType | None,
    ) -> None:
        if self._clock is not None:
            self._clock.cancel()
            await asyncio.gather(self._clock, return_exceptions=True)
        if error is not None and self._path is not None:
            self.save(self._path)
        self.close()
