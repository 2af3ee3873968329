"""Tests of the last line of the gate, and of the size of the script's files."""

import unittest

from tool import gate
from tool.tests.shared import TOP


class Gate(unittest.TestCase):
    def test_the_last_line(self) -> None:
        self.assertEqual(gate.count("7 passed, 0 failed", "0"), "7 passed, 0 failed")
        self.assertEqual(gate.count("7 passed, 0 failed", "1"), "7 passed, 1 failed")
        self.assertEqual(gate.count("", "0"), "0 passed, 1 failed")

    def test_no_file_is_long(self) -> None:
        files = [TOP / "zehimbado", *(TOP / "tool").rglob("*.py")]
        for path in files:
            lines = path.read_text(encoding="utf-8").splitlines()
            self.assertLessEqual(len(lines), 400, path.name)
            self.assertLessEqual(max(map(len, lines), default=0), 100, path.name)


if __name__ == "__main__":
    unittest.main()
