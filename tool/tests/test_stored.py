"""Stored runs of the proved program, which must be that of these sources.

`data/runs/` has a folder for each: the words (`args`), standard input (`stdin`), what is written
(`stdout`) and the exit status (`status`; 0 where there is none). One more is that of the crate
hmc_prog, which `rt ci` makes.

The program that Rattle's own compiler built runs too, where it stands beside the other."""

import unittest
from pathlib import Path

from tool.tests.shared import DATA, answer, builds, require_program

RUNS = sorted(it for it in (DATA / "runs").iterdir() if it.is_dir())


def status_of(folder: Path) -> int:
    """The exit status that a stored run has to end with."""
    path = folder / "status"
    return int(path.read_text(encoding="utf-8")) if path.exists() else 0


class Stored(unittest.TestCase):
    @classmethod
    def setUpClass(cls) -> None:
        require_program()

    def test_each_run(self) -> None:
        self.assertGreaterEqual(len(RUNS), 5)
        for program in builds():
            for folder in RUNS:
                with self.subTest(program.name, run=folder.name):
                    words = (folder / "args").read_text(encoding="utf-8").splitlines()
                    wanted = (status_of(folder), (folder / "stdout").read_bytes(), b"")
                    found = answer(program, words, (folder / "stdin").read_bytes())
                    self.assertEqual(found, wanted)


if __name__ == "__main__":
    unittest.main()
