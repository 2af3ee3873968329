"""Tests of what `lint` says of `noise`: which directions its masks reach."""

import tempfile
import unittest
from pathlib import Path

from tool import case, remarks, schedule
from tool.tests.shared import EXAMPLES, tool
from tool.texts import MOST_ROUNDS

MASK = f"{1:032x}"
CASES = (("write-then-read", 2), ("two-hosts-two-cubes", 6), ("row-of-eight", 18))


class Remarks(unittest.TestCase):
    def test_which_directions_are_reached(self) -> None:
        """By the steps of a schedule: those whose landings have a mask."""
        for name, count in CASES:
            document = case.read((EXAMPLES / f"{name}.toml").read_bytes())[0]
            plan = case.plan_of(document)
            self.assertEqual(plan.directions, count)
            for every in (*range(1, 26), 97, 100):
                text = f"noise {every} {MASK}\nround {2 * every}\n"
                masked = {step for step, mask in schedule.steps_in(text, plan) if mask}
                wanted = sorted(int(step.removeprefix("land ")) for step in masked)
                self.assertEqual(remarks.hit_by(every, count), wanted, (name, every))

    def test_which_number_reaches_all(self) -> None:
        rows = ((12, 6, 13), (2, 2, 3), (14, 30, 17), (MOST_ROUNDS, 6, MOST_ROUNDS - 3))
        for every, count, wanted in rows:
            self.assertEqual(remarks.next_hitting_all(every, count), wanted)
            self.assertEqual(remarks.hit_by(wanted, count), [*range(count)])

    def test_the_command(self) -> None:
        """A valid case stays valid. A mask of zeros reaches nothing, and needs no remark."""
        text = (EXAMPLES / "two-hosts-two-cubes.toml").read_text("utf-8")
        front, _, rest = text.partition("round ")
        rows = (
            (f"noise 12 {MASK}\n  noise 97 {MASK}\nnoise 0x3 {MASK}\n", 2),
            (f"noise 12 {'0' * 32}\nnoise off\n", 0),
        )
        for lines, count in rows:
            with tempfile.TemporaryDirectory() as folder:
                path = Path(folder, "case.toml")
                path.write_text(f"{front}{lines}round {rest}", "utf-8")
                ran = tool("lint", str(path))
            self.assertEqual((ran.returncode, ran.stderr), (0, b""))
            said = ran.stdout.decode()
            self.assertEqual(said.count("noise 13 reaches all of them"), count > 0, said)
            self.assertEqual(said.count(" of 6 directions, "), count)
            self.assertEqual("noise 12 reaches 1 of 6 directions, 5;" in said, count > 0)
            self.assertEqual("noise 3 reaches 2 of 6 directions, 2, 5; noise 5" in said, count > 0)
            self.assertEqual(said.count("^"), 5 if count else 0)


if __name__ == "__main__":
    unittest.main()
