"""Tests of `check`, with a stand-in for the program that knows one report."""

import io
import sys
import tempfile
import unittest
from contextlib import redirect_stderr
from pathlib import Path
from unittest import mock

from tool import build
from tool.tests.shared import EXAMPLES, output_of

NAME = "write-then-read"
CASE, REPORT = EXAMPLES / f"{NAME}.toml", EXAMPLES / f"{NAME}.report"
STAND_IN = """#!{python}
import sys

due, data = open({report!r}, "rb").read(), sys.stdin.buffer.read()
if sys.argv[1] == "run":
    sys.stdout.buffer.write(due)
    sys.exit()
head, _, rest = data.partition(b"\\n")
word, size = head.split()
case, given = rest[: int(size)], rest[int(size) :]
assert word == b"case"
if case != open({case!r}, "rb").read():
    print("bad link 0 range")
    sys.exit(6)
if given == due:
    print("lawful", 1200)
    sys.exit()
lines = given.splitlines(keepends=True)
fits = [due.startswith(b"".join(lines[:number])) for number in range(1, len(lines) + 1)]
print("unlawful", fits.index(False) + 1 if False in fits else len(lines) + 1)
sys.exit(8)
"""


class Check(unittest.TestCase):
    def setUp(self) -> None:
        folder = tempfile.TemporaryDirectory()
        self.addCleanup(folder.cleanup)
        self.given = Path(folder.name) / "given.report"
        self.messages = io.StringIO()
        program = Path(folder.name) / "program"
        words = {"python": sys.executable, "report": str(REPORT), "case": str(CASE)}
        program.write_text(STAND_IN.format(**words), encoding="utf-8")
        program.chmod(0o755)
        patched = mock.patch.object(build, "proved_program", lambda: program)
        patched.start()
        self.addCleanup(patched.stop)
        self.lines = REPORT.read_text(encoding="utf-8").splitlines(keepends=True)

    def said(self, lines: list[str], case: Path = CASE) -> list[str]:
        """What is printed for a report."""
        self.given.write_text("".join(lines), encoding="utf-8")
        with redirect_stderr(self.messages):
            return output_of("check", str(case), str(self.given)).splitlines()

    def changed(self, number: int, line: str) -> list[str]:
        """What is printed for the report with another line."""
        return self.said([*self.lines[: number - 1], line, *self.lines[number:]])

    def test_a_lawful_report(self) -> None:
        self.assertEqual(self.said(self.lines), ["lawful 1200"])

    def test_a_line_that_differs(self) -> None:
        """The line, the one that is due, its step in the case, and what came before."""
        mine = "sent 0 new 08090a0b0c0d0e0f02040840ce08fdd5"
        said = self.changed(890, f"{mine}\n")
        self.assertEqual(said[:2], ["unlawful 890", "line 890:"])
        due = f"the due report: {self.lines[889].strip()}"
        self.assertEqual(said[2:4], [f"{self.given}: {mine}", due])
        self.assertEqual(said[4], "the step is `send 0`, in round 75:")
        self.assertTrue(said[5].startswith(f"  {CASE}:"))
        self.assertEqual(said[7].strip(), "^" * len(said[6].strip()))
        self.assertIn("before, in both reports, direction 0:", said)
        self.assertIn(["FRP", "17..9", "2"], [it.split() for it in said])

    def test_the_same_direction_host_and_bank(self) -> None:
        number = next(n for n, it in enumerate(self.lines, 1) if it.startswith("executed "))
        said = self.changed(number, self.lines[number - 1].replace(" done 0", " done 1"))
        titles = [it for it in said if it.startswith("before, ")]
        parts = ("bank 0 of vault 0 of cube 0", "host 0", "requests of host 0 with tag 0")
        self.assertEqual(titles, [f"before, in both reports, {part}:" for part in parts])

    def test_a_final_line(self) -> None:
        said = self.changed(len(self.lines), "state busy\n")
        self.assertEqual(said[0], f"unlawful {len(self.lines)}")
        self.assertIn("the schedule has no step left: this is the place of a final line", said)

    def test_reports_that_end(self) -> None:
        """Without the last line, without its line feed, and with a line more."""
        last = len(self.lines)
        said = self.said(self.lines[:-1])
        self.assertEqual(said[0], f"unlawful {last}")
        ended = [f"{self.given}: (the report ends here)", "the due report: state drained"]
        self.assertEqual(said[2:4], ended)
        said = self.said([*self.lines[:-1], "state drained"])
        self.assertEqual(said[:2], [f"unlawful {last + 1}", f"line {last}:"])
        self.assertIn("the report ends within this line", said)
        said = self.said([*self.lines, "state drained\n"])
        self.assertEqual(said[0], f"unlawful {last + 1}")
        self.assertEqual(said[3], "the due report: (the report ends here)")

    def test_reports_of_another_form(self) -> None:
        """Nothing is judged where letters or line ends differ, or idle lines are left out."""
        for lines, said in (
            ([it.upper() for it in self.lines], "line 1 of .* has a capital letter"),
            (
                [it.replace("\n", "\r\n") for it in self.lines],
                "is not a report: its lines end with carr",
            ),
            (
                [it for it in self.lines if not it.startswith("idle ")],
                "begins with `idle`, and line 6 has to be one",
            ),
        ):
            self.assertEqual(self.said(lines), [])
            self.assertRegex(self.messages.getvalue().splitlines()[-1], said)

    def test_a_case_that_is_not_valid(self) -> None:
        """The program's line is written, and where the fault is."""
        case = self.given.with_suffix(".toml")
        text = CASE.read_text(encoding="utf-8").replace("tokens = 34", "tokens = 16")
        case.write_text(text, encoding="utf-8")
        self.assertEqual(self.said(self.lines, case), ["bad link 0 range"])
        self.assertIn("`tokens` is 17 to 1,024", self.messages.getvalue())


if __name__ == "__main__":
    unittest.main()
