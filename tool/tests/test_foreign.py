"""Tests of reports that are not whole, or not of the case: each is refused at its line."""

import tempfile
import unittest
from pathlib import Path

from tool import case, report
from tool.fit import checked
from tool.tests.shared import CASES, EXAMPLES, tool
from tool.trouble import NotALine

NAME = "write-then-read"


def lines_of(name: str) -> list[str]:
    """The lines of a stored report."""
    return (EXAMPLES / f"{name}.report").read_text(encoding="utf-8").splitlines()


def refusal(lines: list[str], name: str | None) -> str:
    """Why a report is refused: for this case, or without one. Empty where it is not."""
    document = case.read((EXAMPLES / f"{name}.toml").read_bytes())[0] if name else None
    try:
        for _ in checked(lines, document):
            pass
    except NotALine as error:
        return str(error)
    return ""


class Foreign(unittest.TestCase):
    def test_each_report_fits_its_case(self) -> None:
        """Without its case a report in which no step was idle is refused: the case is asked for."""
        for path in CASES:
            lines = lines_of(path.stem)
            self.assertEqual(refusal(lines, path.stem), "")
            has_idle = any(line.startswith("idle ") for line in lines)
            said = "" if has_idle or lines[0].startswith("tokens ") else "name the case (--case)"
            self.assertTrue(refusal(lines, None).endswith(said), path.stem)
            self.assertEqual(refusal(lines, None) == "", said == "", path.stem)

    def test_no_line_at_all(self) -> None:
        self.assertEqual(refusal([], None), "there is no line, and a report has one at least")
        self.assertTrue(refusal([], NAME).startswith("line 1 is not one of this case"))
        self.assertEqual(tool("json").returncode, 65)

    def test_no_report_fits_another_case(self) -> None:
        """The examples' cases differ, and so no report is one of two of them."""
        names = [path.stem for path in CASES][::5]
        for name in names:
            for other in names:
                if lines_of(name) != lines_of(other):
                    self.assertRegex(refusal(lines_of(name), other), "^line [0-9]+ is not one")

    def test_the_line_is_named(self) -> None:
        """Each change is found at its line."""
        lines = lines_of(NAME)
        gave, landed = lines.index("gave 0 1 rd16 0 0x40"), 880 - 1
        rows = (
            (gave, "gave 0 1 rd16 0 0x50", "not the next request of host 0"),
            (gave, "idle send 0 full", "the step there is `give 0`"),
            (landed, f"landed 0 {'00' * 16} gathered", "`08010040000000000001020304050607` lands"),
            (len(lines) - 1, "state", "is not a line of a report"),
            (lines.index("host 0 2 2 0"), "host 1 2 2 0", "begins with `host 0`"),
        )
        for place, line, said in rows:
            found = refusal([*lines[:place], line, *lines[place + 1 :]], NAME)
            self.assertTrue(found.startswith(f"line {place + 1} "), found)
            self.assertIn(said, found)
        for cut in (gave, len(lines) - 1):
            self.assertTrue(refusal(lines[:cut], NAME).startswith(f"line {cut + 1} "))
        self.assertIn("no step left", refusal([*lines[:1140], lines[1139], *lines[1140:]], NAME))

    def test_a_report_without_its_idle_lines(self) -> None:
        lines = [line for line in lines_of(NAME) if not line.startswith("idle ")]
        self.assertRegex(refusal(lines, NAME), "^line 6 .* the step there is `shift 0 0`")
        number = next(n for n, line in enumerate(lines, start=1) if report.is_final(line))
        self.assertRegex(refusal(lines, None), f"^line {number}: lines of steps are left out")

    def test_a_report_without_other_lines(self) -> None:
        """What a final line counts has to be there: a line of each kind is left out in turn."""
        lines = lines_of(NAME)
        for word in ("sent 1", "landed 0", "gave 0", "took 0", "executed 0"):
            place = next(n for n, line in enumerate(lines) if line.startswith(word))
            found = refusal(lines[:place] + lines[place + 1 :], None)
            self.assertIn("lines of steps are left out", found, word)

    def test_lines_after_the_end(self) -> None:
        lines = lines_of(NAME)
        self.assertRegex(refusal([*lines, lines[0]], None), f"^line {len(lines) + 1}: ")
        self.assertRegex(refusal([*lines, *lines], None), f"^line {len(lines) + 1}: ")
        self.assertIn("cannot come after", refusal([*lines[:-2], lines[-1], lines[-2]], None))

    def test_the_commands(self) -> None:
        """Nothing of a refused report is written."""
        with tempfile.TemporaryDirectory() as folder:
            path = Path(folder) / "short.report"
            kept = [line for line in lines_of(NAME) if not line.startswith("idle ")]
            path.write_text("\n".join(kept) + "\n", encoding="utf-8")
            for words in (["json", path], ["explain", path]):
                ran = tool(*map(str, words))
                self.assertEqual((ran.returncode, ran.stdout), (65, b""))
            ran = tool("wave", str(path), str(EXAMPLES / f"{NAME}.toml"), "-o", f"{folder}/v")
            self.assertEqual((ran.returncode, (Path(folder) / "v").exists()), (65, False))
            self.assertIn(b"line 6 is not one of this case", ran.stderr)


if __name__ == "__main__":
    unittest.main()
