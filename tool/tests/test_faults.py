"""Tests of faults. The expected ones are those of the tables in data/faults, found by hand."""

import tempfile
import unittest
from pathlib import Path
from types import ModuleType

from tool import case, explain_fault, schedule, script
from tool.tests.shared import CASES, EXAMPLES, bad_cases, output_of, text_rows, tool
from tool.texts import CubeParts, Plan

TWO = Plan(2, 6, [CubeParts(2, 2, (0, 2)), CubeParts(1, 4, (1, 3))])
ONE = Plan(1, 2, [CubeParts(1, 1, (0,))])


class Tables(unittest.TestCase):
    def test_bad_cases(self) -> None:
        rows = bad_cases()
        self.assertGreaterEqual(len(rows), 193)
        for _, text, wanted in rows:
            with self.subTest(wanted=wanted, case=text):
                self.assertEqual(str(case.read(text.encode())[1]), wanted)

    def check_texts(self, name: str, reader: ModuleType, plan: Plan) -> None:
        for text, wanted in text_rows(name):
            with self.subTest(text=text):
                fault = reader.first_fault(text, plan)
                found = f"{fault.line} {fault.kind}" if fault else "good"
                self.assertEqual(found, wanted)

    def test_scripts(self) -> None:
        self.check_texts("script-faults.txt", script, TWO)

    def test_schedules(self) -> None:
        self.check_texts("schedule-faults.txt", schedule, TWO)
        self.check_texts("schedule-faults-small.txt", schedule, ONE)

    def test_examples_have_none(self) -> None:
        self.assertGreaterEqual(len(CASES), 10)
        for path in CASES:
            self.assertIsNone(case.read(path.read_bytes())[1])


class Explain(unittest.TestCase):
    def lines_of(self, wanted: str, text: str) -> list[str]:
        """What is explained of a case, past the meaning of the line."""
        return explain_fault.explain_in_case(wanted, text.encode(), "case.toml")

    def test_each_bad_case_is_explained(self) -> None:
        for _, text, wanted in bad_cases():
            with self.subTest(wanted=wanted, case=text):
                self.assertEqual(len(explain_fault.meaning_of(wanted) or []), 2)
                lines = self.lines_of(wanted, text)
                self.assertTrue(lines[0].startswith("case.toml"))
                self.assertNotIn("another one", lines[0])
                self.assertGreaterEqual(len(lines), 2)

    def test_the_line_shown_is_one_that_was_changed(self) -> None:
        """A value at fault is in a line that the table put there."""
        shown = 0
        for added, text, wanted in bad_cases():
            kind = wanted.split()[-1]
            if kind not in ("range", "endpoint", "nocube", "unknown", "kind") or not added:
                continue
            lines = self.lines_of(wanted, text)
            if lines[1].strip() in added:
                shown += 1
            else:
                self.assertRegex(lines[0], r"line [0-9]+ of the (script|schedule)|toml:[0-9]+:1$")
        self.assertGreaterEqual(shown, 40)

    def test_a_caret_under_the_value(self) -> None:
        text = CASES[-1].read_text(encoding="utf-8").replace("tokens = 34", "tokens = 16")
        lines = self.lines_of("bad link 0 range", text)
        number = 1 + text.split("\n").index("tokens = 16")
        self.assertEqual(lines[0], f"case.toml:{number}:10")
        self.assertEqual(lines[1:3], ["    tokens = 16", "             ^^"])
        self.assertEqual(lines[3], "`tokens` is 17 to 1,024")

    def test_a_caret_in_a_script(self) -> None:
        """The script begins on the line after its opening, so its lines are those of the file."""
        text = CASES[-1].read_text(encoding="utf-8").replace("0 rd16 0 0x40", "0 rd17 0 0x40")
        number = 1 + text.split("\n").index("0 rd17 0 0x40")
        lines = self.lines_of("bad script 3 command", text)
        self.assertEqual(lines[0], f"case.toml:{number}:3")
        self.assertEqual(lines[1:3], ["    0 rd17 0 0x40", "      ^^^^"])

    def advice_on(self, name: str, old: str, new: str) -> str:
        """What is said of the fault that a change makes of an example."""
        text = (EXAMPLES / name).read_text(encoding="utf-8").replace(old, new, 1)
        return self.lines_of(str(case.read(text.encode())[1]), text)[-1]

    def test_what_profile_two_allows(self) -> None:
        def said(old: str, new: str) -> str:
            return self.advice_on("two-profiles.toml", old, new)

        self.assertEqual(said("block = 256", "block = 48"), "`block` is 32, 64, 128 or 256")
        self.assertEqual(said("block = 256\n", ""), "`block` is missing")
        self.assertEqual(said("retry = 64", "retry = 1025"), "`retry` is 17 to 1,024")
        of_one = "`retry` is 17 to 256 on a link of profile One"
        self.assertEqual(said("retry = 64", "retry = 300"), of_one)
        self.assertEqual(said("profile = 1", "profile = 3"), "`profile` is 1 or 2")

    def test_what_profile_one_allows(self) -> None:
        def said(old: str, new: str) -> str:
            return self.advice_on("chain-of-three.toml", old, new)

        self.assertEqual(said("retry = 64", "retry = 300"), "`retry` is 17 to 256")
        self.assertIn("leads to some other cube", said('b = "c1.0"', 'b = "h1"'))
        self.assertIn("ports of one cube", said('b = "c1.0"', 'b = "c0.2"'))
        self.assertIn("an earlier link", said('a = "c0.1"', 'a = "c0.0"'))

    def test_another_fault(self) -> None:
        text = CASES[-1].read_text(encoding="utf-8").replace("tokens = 34", "tokens = 16")
        self.assertIn("another one: bad link 0 range", self.lines_of("bad net 0 hosts", text)[0])

    def test_no_fault(self) -> None:
        text = CASES[-1].read_text(encoding="utf-8")
        self.assertIn("no such fault", self.lines_of("bad net 0 hosts", text)[0])

    def test_the_command(self) -> None:
        with tempfile.TemporaryDirectory() as folder:
            path = Path(folder) / "case.toml"
            path.write_text("profile = 3\n", encoding="utf-8")
            quoted = output_of("explain", "bad top 0 range", str(path))
            spread = output_of("explain", "bad", "top", "0", "range", str(path))
        self.assertEqual(quoted, spread)
        self.assertIn("`profile` is 1 or 2\n", quoted)

    def test_a_line_that_the_program_does_not_write(self) -> None:
        self.assertEqual(tool("explain", "bad link 0 colour").returncode, 65)


if __name__ == "__main__":
    unittest.main()
