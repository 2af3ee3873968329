"""Tests of the package: misuse of each call, answers by functions and awaited, under asyncio and
under a scheduler of one's own as cocotb has one. Usage: test.py CASE, where the case has two cubes
of 1,024 bytes and no requests."""

from __future__ import annotations

import asyncio
import random
import sys
import tempfile
import unittest
from collections.abc import Callable, Coroutine, Generator
from pathlib import Path
from typing import Any

import hmc
from hmc import AnswerKind, Error, Session, Status, Step

CASE = Path(sys.argv[1]).read_text(encoding="utf-8")
WORKERS = 8
COUNT = 100
DIVISOR = 0x1741B8CD7
# It reverses blocks of cube 1.
REVERSE = hmc.Unit(0, 1, 3)
REQUEST = "0 unit3 1 0x40 000102030405060708090a0b0c0d0e0f"


def remainder_of(data: bytes) -> int:
    """The check by long division, as docs/crc.md has it."""
    left = int.from_bytes(data, "big") << 32
    for bit in reversed(range(32, 32 + 8 * len(data))):
        if left >> bit & 1:
            left ^= DIVISOR << bit - 32
    return left


class Sessions(unittest.TestCase):
    """Sessions call by call."""

    def refused(self, status: Status, call: Callable[[], object]) -> None:
        """Asserts that a call is refused with this status."""
        with self.assertRaises(Error) as caught:
            call()
        self.assertEqual(caught.exception.status, status)

    def test_misuse(self) -> None:
        self.refused(Status.BAD, lambda: Session("no case"))
        with Session(CASE) as s:
            self.assertIsNone(s.entry)
            self.assertIsNone(s.line)
            self.refused(Status.NO_HOST, lambda: s.request(1, "rd16", 0, 0))
            self.refused(Status.NO_CUBE, lambda: s.request(0, "rd16", 2, 0))
            self.refused(Status.BAD, lambda: s.request(0, "rd17", 0, 0))
            self.refused(Status.BAD, lambda: s.request(0, "rd16", 0, 1 << 34))
            self.refused(Status.BAD, lambda: s.request(256, "rd16", 0, 0))
            self.refused(Status.BAD, lambda: s.request(0, "rd16", -1, 0))
            self.refused(Status.BAD, lambda: s.request(0, "wr16", 0, 0, bytes(15)))
            self.refused(Status.NO_HOST, lambda: s.finish(8))
            self.refused(Status.NONE, lambda: s.step(Step.SEND, 4))
            self.refused(Status.BAD, lambda: s.step(Step.SEND, 256))
            self.refused(Status.BAD, lambda: s.step(Step.LAND, 0, mask=b""))
        self.refused(Status.CLOSED, lambda: s.step(Step.SEND, 0))
        self.refused(Status.CLOSED, lambda: s.entry)
        self.refused(Status.CLOSED, lambda: s.line)
        s.close()

    def test_faults(self) -> None:
        """A text at fault is refused with its section, line and kind."""
        few = CASE.replace("tokens = 34", "tokens = 16", 1)
        rows: list[tuple[hmc.Fault, Callable[[], object]]] = [
            (hmc.Fault("toml", 0, "syntax"), lambda: Session("no case")),
            (hmc.Fault("link", 0, "range"), lambda: Session(few)),
            (hmc.Fault("link", 0, "range"), lambda: Session(few, tape=True)),
            (hmc.Fault("link", 0, "range"), lambda: hmc.Memory(few)),
            (hmc.Fault("link", 0, "range"), lambda: hmc.Driver(few, tape=True)),
            (hmc.Fault("link", 0, "range"), lambda: hmc.run_case(few)),
            (hmc.Fault("link", 0, "range"), lambda: hmc.check(few, "")),
            (hmc.Fault("script", 1, "command"), lambda: s.ask("0 rd17 0 0")),
            (hmc.Fault("script", 0, "one"), lambda: s.ask("")),
            (hmc.Fault("schedule", 2, "range"), lambda: s.lay("send 0\nsend 9")),
        ]
        with Session(CASE) as s:
            for fault, call in rows:
                with self.assertRaises(Error) as caught:
                    call()
                self.assertEqual(caught.exception.fault, fault)
                self.assertEqual(caught.exception.status, Status.BAD)
                self.assertTrue(str(caught.exception).endswith(f": {fault}"))

    def test_steps(self) -> None:
        with Session(CASE) as s:
            self.assertEqual(s.step(Step.GIVE), Status.WAITS)
            s.request(0, "wr16", 0, 0x40, bytes(range(16)), fenced=True)
            self.assertEqual(s.step(Step.GIVE), Status.OK)
            payload = bytes(range(16)).hex()
            self.assertEqual(s.line, f"gave 0 0 wr16 0 0x40 {payload}\n")
            entry = s.entry
            assert entry is not None
            self.assertEqual((entry.kind, entry.tag), (hmc.EntryKind.GAVE, 0))
            self.assertEqual((entry.address, entry.payload.hex()), (0x40, payload))
            s.finish(0)
            self.assertEqual(s.step(Step.GIVE), Status.OK)
            self.assertEqual(s.line, "idle give 0 ended\n")
            entry = s.entry
            assert entry is not None
            self.assertEqual((entry.step, entry.cause), (Step.GIVE, hmc.Cause.ENDED))
            self.assertEqual(s.block(1, 16), bytes(16))
            self.refused(Status.NONE, lambda: s.block(1, 8))
            self.refused(Status.NONE, lambda: s.block(2, 0))
            self.refused(Status.NONE, lambda: s.block(0, 1024))
            self.refused(Status.FINISHED, lambda: s.request(0, "rd16", 0, 0))

    def test_units(self) -> None:
        calls: tuple[Callable[..., object], ...] = (Session, hmc.run_case)
        for call in calls:
            self.refused(Status.NONE, lambda: call(CASE, [hmc.Unit(2, 0, 0)]))
            self.refused(Status.NONE, lambda: call(CASE, [hmc.Unit(0, 8, 0)]))
            self.refused(Status.NONE, lambda: call(CASE, [REVERSE] * 9))
            self.refused(Status.BAD, lambda: call(CASE, [hmc.Unit(0, 256, 0)]))
            self.refused(Status.BAD, lambda: call("no case"))
        self.refused(Status.NONE, lambda: hmc.check(CASE, "", [hmc.Unit(0, 0, 8)]))
        self.refused(Status.BAD, lambda: hmc.check("no case", ""))

    def test_tapes(self) -> None:
        with Session(CASE, [REVERSE], tape=True) as s:
            self.assertEqual((s.tape_script, s.tape_schedule), ("", ""))
            s.ask(REQUEST)
            s.finish(0)
            s.lay("round 1000")
            lines = ""
            while "\ntook " not in lines and s.run(1) == 1:
                lines += s.line or ""
            self.assertEqual(s.tape_script, f"{REQUEST}\n")
            schedule = s.tape_schedule
            self.assertGreater(len(schedule), 4096)
            self.refused(Status.BAD, lambda: s.ask("0 rd17 0 0"))
            self.refused(Status.BAD, lambda: s.lay("round"))
        tape = CASE.replace("script = ''", f"script = '''\n{REQUEST}\n'''")
        tape = tape.replace("schedule = ''", f"schedule = '''\n{schedule}'''")
        report = hmc.run_case(tape, [REVERSE])
        self.assertFalse(report.passed)
        self.assertTrue(report.text.startswith(lines))
        verdict = hmc.check(tape, report.text, [REVERSE])
        self.assertEqual(verdict, hmc.Verdict(True, lines.count("\n")))
        self.assertFalse(hmc.check(tape, report.text).lawful)
        changed = report.text.replace("gave", "give", 1)
        self.assertEqual(hmc.check(tape, changed, [REVERSE]), hmc.Verdict(False, 1))

    def test_run(self) -> None:
        with Session(CASE) as s:
            s.ask("0 rd16 1 0x40")
            s.finish(0)
            s.lay("round 1000")
            taken = s.run(1_000_000, [hmc.EntryKind.TOOK])
            entry = s.entry
            assert entry is not None
            self.assertEqual((entry.kind, entry.answer.data), (hmc.EntryKind.TOOK, bytes(16)))
            self.assertEqual(taken + s.run(1_000_000), 33 * 1000)
            self.assertEqual(s.run(1), 0)
            self.refused(Status.NONE, lambda: s.tape_script)

    def test_crc(self) -> None:
        rng = random.Random(1)
        for length in (0, 1, 8, 16, 272):
            data = bytes(rng.randrange(256) for _ in range(length))
            self.assertEqual(hmc.crc(data), remainder_of(data))


def saved_report(path: Path) -> str:
    """The report of the case in a file, with the units of the program."""
    return hmc.run_case(path.read_text(encoding="utf-8"), hmc.PROGRAM_UNITS).text


class Memories(unittest.TestCase):
    """Answers by functions."""

    def test_tapes(self) -> None:
        """What is saved is a case, and its report has the answers."""
        got: list[hmc.Answer] = []
        with tempfile.TemporaryDirectory() as folder, hmc.Memory(CASE, tape=True) as memory:
            memory.request(0, "wr16", 1, 0, bytes(range(16)), got.append)
            memory.request(0, "unit0", 0, 0, bytes(16), got.append)
            memory.request(0, "rd16", 1, 0, b"", got.append)
            while memory.waiting:
                memory.round()
            memory.save(Path(folder, "case.toml"))
            lines = saved_report(Path(folder, "case.toml"))
            with self.assertRaises(FileNotFoundError):
                memory.save(Path(folder, "no", "case.toml"))
        # The unit of the program is retired, so that it gives the error that the driver saw.
        self.assertIn(AnswerKind.ERROR, [answer.kind for answer in got])
        self.assertIn(" error ", lines)
        self.assertIn(f" read 0 {bytes(range(16)).hex()}\n", lines)
        with hmc.Memory(CASE) as memory, self.assertRaises(OSError):
            memory.save("/dev/null")

    def test_answers(self) -> None:
        got: list[hmc.Answer] = []
        with hmc.Memory(CASE) as memory:
            memory.request(0, "wr16", 1, 0, bytes(range(16)), got.append)
            memory.request(0, "inc8", 1, 0, b"", got.append)
            memory.request(0, "rd32", 1, 0, b"", got.append)
            memory.request(0, "mdrd", 1, 0, b"", got.append)
            memory.request(0, "pwr16", 1, 32, bytes(16), got.append)
            memory.request(0, "rd16", 1, 8, b"", got.append)
            while memory.waiting:
                memory.round()
            self.assertEqual((memory.hosts, memory.steps_of_round), (1, 33))
        by_kind = {answer.kind: answer for answer in got}
        self.assertEqual(len(got), 6)
        self.assertEqual(by_kind[AnswerKind.READ].data, bytes([1, *range(1, 16), *bytes(16)]))
        self.assertEqual(by_kind[AnswerKind.REGISTER].value, 1)
        self.assertEqual(by_kind[AnswerKind.ERROR].value, 1)
        self.assertIn(AnswerKind.NONE, by_kind)

    def test_misuse(self) -> None:
        with self.assertRaises(Error):
            hmc.Memory("no case")
        with self.assertRaises(Error) as caught:
            hmc.Memory(CASE.replace("script = ''", "script = '0 rd16 0 0'"))
        self.assertEqual(str(caught.exception), "open: the script has requests")
        self.assertIsNone(caught.exception.fault)
        memory = hmc.Memory(CASE)
        with self.assertRaises(Error):
            memory.request(0, "rd16", 2, 0, b"", lambda answer: None)
        self.assertEqual(memory.waiting, 0)
        memory.close()
        memory.close()
        with self.assertRaises(Error):
            memory.round()


async def worker(driver: hmc.Driver, number: int) -> int:
    """Reads and writes in a block of its own, and the number of wrong answers."""
    rng = random.Random(number)
    cube, base = divmod(number, 4)
    copy = bytearray(256)
    wrong = 0
    for _ in range(COUNT):
        size = 16 * rng.randrange(1, 9)
        at = 16 * rng.randrange((256 - size) // 16 + 1)
        if rng.random() < 0.5:
            data = bytes(rng.randrange(256) for _ in range(size))
            copy[at : at + size] = data
            await driver.write(cube, 256 * base + at, data)
        else:
            wrong += await driver.read(cube, 256 * base + at, size) != copy[at : at + size]
    return wrong


class OwnEvent:
    """An event of the scheduler below."""

    def __init__(self) -> None:
        self.is_set = False

    def set(self) -> None:
        """Lets go on who waits."""
        self.is_set = True

    def wait(self) -> OwnEvent:
        """What is awaited."""
        return self

    def __await__(self) -> Generator[None, None, None]:
        while not self.is_set:
            yield


class Tick:
    """What a clock is waited for by."""

    def __await__(self) -> Generator[None, None, None]:
        yield


def schedule(tasks: list[Coroutine[Any, Any, Any]]) -> list[Any]:
    """Runs each task in turn until all but the first have ended."""
    results: dict[int, Any] = {}
    while len(results) < len(tasks) - 1:
        for number, task in enumerate(tasks):
            if number in results:
                continue
            try:
                task.send(None)
            except StopIteration as end:
                results[number] = end.value
    tasks[0].close()
    return list(results.values())


class Drivers(unittest.TestCase):
    """Answers that are awaited."""

    def test_asyncio(self) -> None:
        async def main() -> list[int]:
            async with hmc.Driver(CASE) as driver:
                return await asyncio.gather(*(worker(driver, k) for k in range(WORKERS)))

        self.assertEqual(asyncio.run(main()), [0] * WORKERS)

    def test_tapes(self) -> None:
        """Where an exception ends a driver with a path, it leaves its case there; else it doesn't."""

        async def main(path: Path, value: int) -> None:
            async with hmc.Driver(CASE, tape=path) as driver:
                await driver.write(1, 0x40, bytes([value]) * 16)
                assert value == 0, "a failure of the bench"

        with tempfile.TemporaryDirectory() as folder:
            path = Path(folder, "case.toml")
            asyncio.run(main(path, 0))
            self.assertFalse(path.exists())
            with self.assertRaises(AssertionError):
                asyncio.run(main(path, 7))
            self.assertIn("\ntook 0 0 done 0\n", saved_report(path))

    def test_own_scheduler(self) -> None:
        driver = hmc.Driver(CASE, OwnEvent)
        tasks = [driver.run(Tick), *(worker(driver, k) for k in range(WORKERS))]
        self.assertEqual(schedule(tasks), [0] * WORKERS)
        driver.close()

    def test_failures(self) -> None:
        async def main() -> None:
            async with hmc.Driver(CASE) as driver:
                with self.assertRaises(Error):
                    await driver.read(0, 8, 16)
                with self.assertRaises(Error):
                    await driver.write(0, 1 << 20, bytes(16))
                waits = asyncio.create_task(driver.read(0, 0, 16))
                await asyncio.sleep(0)
                driver.close()
                with self.assertRaises(Error):
                    await waits
                with self.assertRaises(Error):
                    await driver.read(0, 0, 16)

        asyncio.run(main())


if __name__ == "__main__":
    unittest.main(argv=sys.argv[:1])
