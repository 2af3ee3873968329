"""Tests that the blocks of docs/schedule.md and docs/script.md do what these pages say of them."""

import re
import unittest

from tool.tests import pages
from tool.tests.pages import flat, lines_of, scheduled, text_of, with_text
from tool.tests.shared import EXAMPLES, require_program

# The case of docs/case.md: the network for which docs/schedule.md reads its examples.
BASE = pages.blocks(text_of("docs/case.md"))[0]
# After so many rounds the link has trained, and all that was asked is answered.
TRAINED = "round 200\n"
ROUND_STEPS = 12
# A line of a report with the direction and the flit.
SENT = re.compile(r"sent ([0-9]+) \w+ ([0-9a-f]{32})")
LANDED = re.compile(r"landed ([0-9]+) ([0-9a-f]{32}) .*")
ZEROS = "0" * 32
ANOTHER_CUBE = """
[[cubes]]
vault_bits = 0
bank_bits = 0
rows = 4
queue = 4

[[links]]
a = "c1.2"
b = "c2.0"
line = 8
tokens = 34
retry = 64
output = 4
"""


def steps_of(schedule: str, before: str = TRAINED) -> list[str]:
    """The lines of the steps of a schedule, after those of another."""
    report = scheduled(BASE, before + schedule)
    first = len(before_the_end(scheduled(BASE, before)))
    return before_the_end(report)[first:]


def before_the_end(report: list[str]) -> list[str]:
    """The lines of the steps of a report."""
    end = next(at for at, it in enumerate(report) if it.startswith(("memory ", "tokens ")))
    return report[:end]


def masks_of(report: list[str]) -> list[tuple[str, str]]:
    """The direction of each landing, and the bits that the flit has otherwise than when sent."""
    sent: dict[str, list[str]] = {}
    masks = []
    for line in report:
        out, landed = SENT.fullmatch(line), LANDED.fullmatch(line)
        if out:
            sent.setdefault(out[1], []).append(out[2])
        elif landed:
            flit = sent[landed[1]].pop(0)
            masks.append((landed[1], f"{int(flit, 16) ^ int(landed[2], 16):032x}"))
    return masks


class Schedules(unittest.TestCase):
    """docs/schedule.md."""

    TEXT = text_of("docs/schedule.md")

    def setUp(self) -> None:
        require_program()

    def block(self, title: str, place: int = 0) -> str:
        """A block under a heading."""
        return pages.blocks(pages.section(self.TEXT, title))[place]

    def test_the_first_block(self) -> None:
        """Two rounds, and then a step for each line."""
        self.assertEqual(len(steps_of(pages.blocks(self.TEXT)[0])), 2 * ROUND_STEPS + 4)

    def test_a_round(self) -> None:
        """It is these lines, before the link has trained and after it."""
        self.assertIn("`round 1` is the same as these twelve lines:", flat(self.TEXT))
        lines = self.block("A round")
        self.assertEqual(lines.count("\n"), ROUND_STEPS)
        for before in ("", "round 76\n", TRAINED):
            self.assertEqual(steps_of("round 1\n", before), steps_of(lines, before))

    def test_the_order_of_a_round(self) -> None:
        """The list of the kinds of steps has the order of the lines."""
        kinds = re.findall(r"^[0-9]\. `(\w+)`", self.TEXT, re.MULTILINE)
        lines = [it.split()[0] for it in self.block("A round").splitlines()]
        self.assertEqual(kinds, list(dict.fromkeys(lines)))

    def test_the_longest_schedule(self) -> None:
        said = "`(round [0-9]+)` is a schedule of ([0-9,]+) steps"
        ((line, count),) = re.findall(said, self.TEXT)
        self.assertEqual(f"{len(steps_of(line, '')):,}", count)

    def test_a_mask_of_zeros(self) -> None:
        self.assertIn("`land 0` is the same as", flat(self.TEXT))
        masked = self.block("Masks")
        self.assertEqual(steps_of(f"send 0\n{masked}"), steps_of("send 0\nland 0\n"))

    def test_a_mask(self) -> None:
        self.assertIn("inverts the lowest bit of the last byte of the flit:", flat(self.TEXT))
        masks = masks_of(steps_of("send 0\n" + self.block("Masks", 1)))
        self.assertEqual(masks, [("0", f"{1:032x}")])

    def test_an_unlock(self) -> None:
        said = r"loses its framing after ([0-9]+) rounds, and ([0-9]+) rounds follow:"
        ((before, after),) = re.findall(said, self.TEXT)
        lines = steps_of(self.block("Unlocks"), "")
        self.assertEqual(lines.index("unlocked 0"), ROUND_STEPS * int(before))
        self.assertEqual(len(lines), ROUND_STEPS * (int(before) + int(after)) + 1)

    def test_a_packet_that_goes_on(self) -> None:
        """Two flits of a longer packet land, and copies of them are sent in direction 2."""
        case = (EXAMPLES / "through-two-cubes.toml").read_text(encoding="utf-8")
        (training,) = re.findall(r"schedule = '''\n(.*?)give 0\n", case, re.DOTALL)
        case = with_text(case, "script", f"0 wr32 1 0x40 {'5c' * 32}\n")
        block = self.block("Packets that go on early")
        report = scheduled(case, f"{training}give 0\nsend 0\nsend 0\n{block}")
        at = report.index("through 0 0 2")
        landed = [LANDED.fullmatch(line) for line in report[at - 2 : at]]
        copies = [SENT.fullmatch(line) for line in report[at + 1 : at + 3]]
        flits = [it[2] for it in landed if it and it[1] == "0"]
        self.assertEqual([it[2] for it in copies if it and it[1] == "2"], flits)
        self.assertEqual(len(flits), 2)

    def test_a_retirement(self) -> None:
        """The second request comes after it, and has an error."""
        case = (EXAMPLES / "retired-unit.toml").read_text(encoding="utf-8")
        self.assertIn(f"'''\n{self.block('Retirements')}'''", case)
        first, retired, second = (
            it for it in lines_of(case) if it.startswith(("executed ", "retired "))
        )
        self.assertEqual(retired, "retired 1")
        self.assertRegex(first, "^executed .* read [01] [0-9a-f]{32}$")
        self.assertRegex(second, "^executed .* error 6$")

    def test_noise(self) -> None:
        """The landings of the two blocks have the same masks. A send before them puts a flit on the
        line of direction 1, so that each landing there finds one."""
        said = "The third landing of rounds is in direction 0, the sixth in direction 1:"
        self.assertIn(said, flat(self.TEXT))
        rounds, landings = self.block("Noise"), self.block("Noise", 1)
        masks = masks_of(steps_of(f"send 1\n{rounds}"))
        wanted = [[*it.split()[1:], ZEROS][:2] for it in landings.splitlines()]
        self.assertEqual([list(it) for it in masks], wanted)
        self.assertEqual([way for way, mask in masks if mask != ZEROS], ["0", "1"])


class Scripts(unittest.TestCase):
    """docs/script.md."""

    def given(self, script: str) -> list[str]:
        """The requests of a script as a report of two hosts and three cubes prints them."""
        case = (EXAMPLES / "two-hosts-two-cubes.toml").read_text(encoding="utf-8") + ANOTHER_CUBE
        gives = "give 0\ngive 1\nround 300\n" * 3
        report = scheduled(with_text(case, "script", script), f"round 100\n{gives}")
        gave = [it for it in report if it.startswith("gave ")]
        return [re.sub(r"^gave ([0-9]+) (?:[0-9]+|-) ", r"\1 ", it) for it in gave]

    def test_printing(self) -> None:
        """Both blocks are one script, and its requests are printed as the second has them."""
        require_program()
        first, printed = pages.blocks(text_of("docs/script.md"))
        requests = [it for it in printed.splitlines() if not it.endswith(" fence")]
        self.assertEqual(len(requests), 4)
        for script in (first, printed):
            self.assertEqual(sorted(self.given(script)), sorted(requests))
        self.assertEqual(re.findall(".* fence\n.*", first), re.findall(".* fence\n.*", printed))


if __name__ == "__main__":
    unittest.main()
