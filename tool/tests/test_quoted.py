"""Tests that the lines of reports that pages quote are lines of these reports."""

import re
import subprocess
import unittest
from collections.abc import Iterator

from tool.tests.shared import EXAMPLES, TOP

PAGE = TOP / "docs" / "retry-example.md"
QUOTED = re.compile(r"`examples/([a-z-]+\.report)`|^ {4} *([0-9]+)  (.*)$", re.MULTILINE)


def quoted_lines() -> Iterator[tuple[str, int, str]]:
    """Yields each quoted line: the report that was named last before it, its number, the line."""
    name = ""
    for found in QUOTED.finditer(PAGE.read_text(encoding="utf-8")):
        if found[1]:
            name = found[1]
        else:
            yield name, int(found[2]), found[3]


class Quoted(unittest.TestCase):
    def test_the_lines_of_reports(self) -> None:
        count = 0
        for name, number, line in quoted_lines():
            lines = (EXAMPLES / name).read_text(encoding="utf-8").splitlines()
            self.assertEqual(lines[number - 1], line, f"{name}, line {number}")
            count += 1
        self.assertGreater(count, 30)

    def test_the_lines_of_a_packet_that_goes_on(self) -> None:
        """The block of docs/through.md has lines of its example's report, one after another."""
        page = (TOP / "docs" / "through.md").read_text(encoding="utf-8")
        block = page.split("Its report has these lines:\n\n```\n")[1].split("```")[0]
        report = (EXAMPLES / "through-two-cubes.report").read_text(encoding="utf-8")
        self.assertGreater(block.count("\n"), 10)
        self.assertIn(f"\n{block}", report)

    def test_what_the_link_alone_prints(self) -> None:
        """The block of docs/link.md is what its program prints, which `rt try` builds."""
        page = (TOP / "docs" / "link.md").read_text(encoding="utf-8")
        block = page.split("It prints:\n\n```text\n")[1].split("```")[0]
        ran = subprocess.run([TOP / "bench" / "link-example"], capture_output=True, text=True)
        self.assertEqual((ran.returncode, ran.stdout), (0, block), ran.stderr)


if __name__ == "__main__":
    unittest.main()
