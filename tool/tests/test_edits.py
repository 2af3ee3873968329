"""Tests that each mutant can be tried: what it replaces is in its file, once."""

import re
import unittest
from pathlib import Path

from tool.tests.shared import TOP

PAIR = re.compile(r"^old: (.*)\nnew: ?(.*)$", re.MULTILINE)


def replaced(edit: Path) -> list[int]:
    """How often each text that a mutant replaces is in its file, after those before it."""
    text = edit.read_text(encoding="utf-8")
    (name,) = set(re.findall(r"^file: (.*)$", text, re.MULTILINE))
    content = (edit.parent.parent / name).read_text(encoding="utf-8")
    counts = []
    for old, new in PAIR.findall(text):
        counts.append(content.count(old))
        content = content.replace(old, new)
    return counts


class Edits(unittest.TestCase):
    def test_each_replaces_something(self) -> None:
        """Those of each crate."""
        edits = list(TOP.glob("crates/*/must-fail/*.edit"))
        self.assertGreater(len(edits), 200)
        for edit in edits:
            with self.subTest(edit=str(edit.relative_to(TOP))):
                counts = replaced(edit)
                self.assertEqual(counts, [1] * len(counts))
                self.assertEqual(len(counts), edit.read_text("utf-8").count("\nold: "))
                self.assertTrue(counts)


if __name__ == "__main__":
    unittest.main()
