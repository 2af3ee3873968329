"""Tests of `bound`, with the program that the gate has left."""

import io
import tempfile
import unittest
from contextlib import redirect_stderr
from pathlib import Path

from tool import explain_fault
from tool.tests.shared import EXAMPLES, output_of, require_program, tool
from tool.verbs import bound

CASE = EXAMPLES / "write-then-read.toml"
TWO_LINKS = EXAMPLES / "two-hosts-one-cube.toml"


def with_schedule(schedule: str) -> bytes:
    """A case of two requests, with another schedule."""
    before, _, after = CASE.read_text(encoding="utf-8").partition("schedule = '''\n")
    return f"{before}schedule = '''\n{schedule}{after[after.index(chr(39) * 3) :]}".encode()


class Meaning(unittest.TestCase):
    def said(self, count: int, rounds: int) -> list[str]:
        """What is said of an answer."""
        with redirect_stderr(io.StringIO()) as said:
            bound.explain([f"underway {count}", f"bound {rounds}"])
        return said.getvalue().splitlines()

    def test_of_two_lines(self) -> None:
        first, second = self.said(1, 8000)
        self.assertEqual(first, "zehimbado: 1 packet is under way where the schedule ends")
        self.assertTrue(second.startswith("zehimbado: `round 8000` after it drains the network"))
        packets = "zehimbado: 1,200 packets are under way where the schedule ends"
        self.assertEqual(self.said(1200, 2_406_000)[0], packets)

    def test_of_the_stored_answers(self) -> None:
        """In each the rounds are 4,000 + 2,000 * (K + 1)."""
        seen = 0
        for path in sorted(EXAMPLES.glob("*.bound")):
            words = path.read_text(encoding="utf-8").split()
            if words[0] == "underway":
                self.assertEqual(int(words[3]), 4000 + 2000 * (int(words[1]) + 1), path.name)
                seen += 1
        self.assertGreaterEqual(seen, 8)

    def test_of_the_fault(self) -> None:
        """The case of two links is valid but for `bound`."""
        line = explain_fault.SINGLE
        said = output_of("explain", line, str(TWO_LINKS)).splitlines()
        self.assertIn("`bound` needs one of each", said[0])
        self.assertEqual(said[2], f"{TWO_LINKS}: 1 cube and 2 links")
        said = output_of("explain", line, str(CASE)).splitlines()
        self.assertIn("no such fault was found here", said[2])


class Bound(unittest.TestCase):
    @classmethod
    def setUpClass(cls) -> None:
        require_program()

    def test_how_many_are_under_way(self) -> None:
        """4,000 rounds, and 2,000 more for each packet under way and for one more."""
        for schedule, count, rounds in (
            ("", 0, 6000),
            ("give 0\n", 1, 8000),
            ("give 0\ngive 0\n", 2, 10_000),
        ):
            ran = tool("bound", given=with_schedule(schedule))
            answer = f"underway {count}\nbound {rounds}\n"
            self.assertEqual((ran.returncode, ran.stdout.decode()), (0, answer))
            self.assertIn(f"`round {rounds}` after it".encode(), ran.stderr)

    def test_so_many_rounds_drain(self) -> None:
        given = with_schedule("give 0\ngive 0\nround 10000\n")
        lines = tool("run", "--quiet", given=given).stdout.decode().splitlines()
        self.assertIn("host 0 2 2 0", lines)
        self.assertEqual(lines[-1], "state drained")

    def test_a_case_of_two_links(self) -> None:
        ran = tool("bound", str(TWO_LINKS))
        self.assertEqual((ran.returncode, ran.stdout), (6, b"bad net 0 single\n"))
        self.assertIn(b"status 6: there is more than one cube or link", ran.stderr)

    def test_a_case_that_is_not_valid(self) -> None:
        text = CASE.read_text(encoding="utf-8").replace("tokens = 34", "tokens = 16")
        with tempfile.TemporaryDirectory() as folder:
            path = Path(folder) / "case.toml"
            path.write_text(text, encoding="utf-8")
            ran = tool("bound", str(path))
        self.assertEqual((ran.returncode, ran.stdout), (6, b"bad link 0 range\n"))
        self.assertIn(b"    tokens = 16\n             ^^\n", ran.stderr)

    def test_a_landing_that_passes(self) -> None:
        """Its line is written alone."""
        path = EXAMPLES / "passed-null.toml"
        last = path.with_suffix(".report").read_bytes().splitlines(keepends=True)[-1]
        ran = tool("bound", str(path))
        self.assertEqual((ran.returncode, ran.stdout), (7, last))
        self.assertIn(b"status 7: ", ran.stderr)


if __name__ == "__main__":
    unittest.main()
