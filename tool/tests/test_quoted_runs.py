"""Tests that what docs/check.md and docs/drain.md quote is what the proved program says."""

import re
import unittest

from tool.tests import pages
from tool.tests.pages import answer, flat, scheduled, text_of, with_text
from tool.tests.shared import EXAMPLES, TOP, require_program, tool

CASE = EXAMPLES / "write-then-read.toml"
REPORT = CASE.with_suffix(".report")


def checked(case: bytes, report: bytes) -> tuple[int, str]:
    """What `check` says of a report."""
    return answer("check", f"case {len(case)}\n".encode() + case + report)


class Checked(unittest.TestCase):
    """docs/check.md."""

    TEXT = text_of("docs/check.md")

    def setUp(self) -> None:
        require_program()
        self.case, self.report = CASE.read_bytes(), REPORT.read_bytes()

    def test_the_example(self) -> None:
        (shown,) = pages.blocks(self.TEXT)
        command, *said = shown.splitlines()
        word, *names = command.removeprefix("$ ./zehimbado ").split()
        ran = tool(word, *(str(TOP / it) for it in names))
        self.assertEqual((ran.returncode, ran.stdout.decode().splitlines()), (0, said))

    def test_reports_that_are_cut(self) -> None:
        """After a line, before the last line feed, and before the first line."""
        rows = dict(pages.rows(self.TEXT, "The report"))
        self.assertEqual(rows["is cut off after a line of steps"], "the line that would be next")
        first = 1000
        longer = EXAMPLES / "row-of-eight.toml"
        lines = longer.with_suffix(".report").read_bytes().splitlines(keepends=True)
        said = checked(longer.read_bytes(), b"".join(lines[:first]))
        self.assertEqual(said, (8, f"unlawful {first + 1}\n"))
        self.assertEqual(rows["lacks only its last line feed"], "the line after its last one")
        said = (8, f"unlawful {self.report.count(10) + 1}\n")
        self.assertEqual(checked(self.case, self.report[:-1]), said)
        self.assertEqual(rows["is empty"], "line 1")
        self.assertEqual(checked(self.case, b""), (8, "unlawful 1\n"))

    def test_capitals(self) -> None:
        said = dict(pages.rows(self.TEXT, "The report"))["writes its digits in capitals"]
        self.assertEqual(said, "the first line that has such a digit")
        capitals = re.sub(b"[0-9a-f]{32}", lambda found: found[0].upper(), self.report)
        pairs = zip(self.report.splitlines(), capitals.splitlines())
        first = next(at for at, (mine, other) in enumerate(pairs, start=1) if mine != other)
        self.assertEqual(checked(self.case, capitals), (8, f"unlawful {first}\n"))

    def test_the_table(self) -> None:
        """Each status comes with its line, in which capitals represent numbers and words."""
        rows = [(int(it[0]), it[1][1:-1]) for it in pages.rows(self.TEXT, "Status")[:-1]]
        said = [
            checked(self.case, self.report),
            checked(self.case, b""),
            answer("check"),
            checked(b"", self.report),
        ]
        for (status, line), found in zip(rows, said, strict=True):
            pattern = re.sub("\\b(?:N|K|LINE)\\b", "[0-9]+", line)
            pattern = re.sub("\\b(?:SECTION|KIND)\\b", "[a-z]+", pattern)
            self.assertEqual(found[0], status)
            self.assertRegex(found[1], f"^{pattern}\n$")

    def test_an_input_that_is_too_long(self) -> None:
        (limit,) = re.findall("All of it has at most ([0-9,]+) bytes", self.TEXT)
        last = pages.rows(self.TEXT, "Status")[-1]
        self.assertIn(f"5 is an input over {limit} bytes", last[-1])
        most = b"#" * int(limit.replace(",", ""))
        self.assertEqual(answer("check", most)[0], 6)
        self.assertEqual(answer("check", most + b"#"), (5, ""))

    def test_the_number_of_the_head(self) -> None:
        """It has one to eight digits, and zeros may lead."""
        self.assertIn("N has one to eight decimal digits; zeros may lead.", self.TEXT)
        for digits, status in ((8, 0), (9, 6)):
            head = f"case {len(self.case):0{digits}}\n".encode()
            self.assertEqual(answer("check", head + self.case + self.report)[0], status)


class Drained(unittest.TestCase):
    """docs/drain.md."""

    TEXT = text_of("docs/drain.md")

    def setUp(self) -> None:
        require_program()
        self.case = CASE.read_text(encoding="utf-8")

    def bound(self, schedule: str) -> str:
        """What `bound` says of the page's case with this schedule."""
        status, said = answer("bound", with_text(self.case, "schedule", schedule).encode())
        self.assertEqual(status, 0)
        return said

    def test_two_gives(self) -> None:
        block = pages.block_after(self.TEXT, "with the schedule `give 0`, `give 0` they are\n")
        self.assertEqual(self.bound("give 0\ngive 0\n"), block)
        first, second = self.bound("").splitlines()
        said = f"and for a schedule without steps `{first}` and `{second}`."
        self.assertIn(said, flat(self.TEXT))

    def test_so_many_rounds(self) -> None:
        """The lines that the page states of the report with the bound's rounds."""
        rounds = self.bound("give 0\ngive 0\n").split()[-1]
        report = scheduled(self.case, f"give 0\ngive 0\nround {rounds}\n")
        final = next(at for at, it in enumerate(report) if it.startswith("memory "))
        said = (
            f"So with `round {rounds}` after the two gives the report ends with `{report[-1]}`. "
            f"It has {final:,} lines of steps before its final lines, "
            "and one of the last lines is `"
        )
        self.assertIn(said, flat(self.TEXT))
        (host,) = [it for it in report[final:] if it.startswith("host ")]
        self.assertIn(f"{said}{host}`: two requests given", flat(self.TEXT))

    def test_the_schedule_of_the_example(self) -> None:
        """It gives both requests, and drains in fewer rounds than the bound."""
        (rounds,) = re.findall(r"^round ([0-9]+)$", self.case, re.MULTILINE)
        said = f"and its schedule of {rounds} rounds, which also give them, ends drained."
        self.assertIn(said, flat(self.TEXT))
        self.assertEqual(REPORT.read_text(encoding="utf-8").splitlines()[-1], "state drained")

    def test_a_landing_that_passes(self) -> None:
        self.assertIn("landing is written alone, with status 7.", flat(self.TEXT))
        path = EXAMPLES / "passed-null.toml"
        last = path.with_suffix(".report").read_text(encoding="utf-8").splitlines()[-1]
        self.assertEqual(answer("bound", path.read_bytes()), (7, f"{last}\n"))


if __name__ == "__main__":
    unittest.main()
