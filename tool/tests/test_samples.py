"""Tests of `sample`, which docs/many-cases.md uses."""

import tempfile
import unittest
from pathlib import Path

from tool import case, cover
from tool.aims import NOT_DRAWN, aimed
from tool.case import ends_of
from tool.fit import checked
from tool.points import Point, points
from tool.samples import FEATURES, SHAPES, Wish, sample
from tool.tests import pages
from tool.tests.shared import output_of, require_program, tool

ALL = tuple(FEATURES)
# Points of each kind of aim, each with a seed of which the case reaches it.
REACHED = {
    "command add16: done 1": 1,
    "command caszero16: read": 1,
    "command mdwr: error 5": 1,
    "command rd256: error 2": 1,
    "command unit0: error 6": 1,
    "sent again, profile Two": 1,
    "landed repeat in good, profile One": 1,
    "landed ran clear in good, profile Two": 1,
    "landed poisoned in good, profile Two": 1,
    "idle give: fence": 1,
    "idle send: starved": 1,
    "idle spread: full": 4,
    "idle retire: empty": 1,
    "full answers": 1,
    "event first flit changed": 2,
    "event training flit changed": 1,
    "event through, then spoilt": 2,
    "event passed": 1,
    "event busy": 1,
    "block 32 bytes": 1,
    "network 8 cubes": 1,
}


class Samples(unittest.TestCase):
    def test_samples_are_valid_cases(self) -> None:
        for seed in range(100):
            for shape in SHAPES:
                for features in ((), ALL, None):
                    text = sample(seed, Wish(shape=shape, features=features))
                    self.assertIsNone(case.read(text.encode())[1], (seed, shape, features))

    def test_sizes_and_shapes(self) -> None:
        """A chain, a ring and a star of four cubes have the links of these, and two hosts more."""
        wanted = {"chain": [1, 1, 2, 2], "ring": [2, 2, 2, 2], "star": [1, 1, 1, 3]}
        for shape, degrees in wanted.items():
            wish = Wish(cubes=4, hosts=2, requests=5, shape=shape)
            document, _ = case.read(sample(1, wish).encode())
            ends = [end for link in document["links"] for end in ends_of(link)]
            self.assertEqual(sum(end.host is not None for end in ends), 2)
            pairs = [ends_of(link) for link in document["links"]]
            joined = [pair for pair in pairs if all(end.host is None for end in pair)]
            inner = [end.cube for pair in joined for end in pair]
            self.assertEqual(sorted(map(inner.count, range(4))), degrees, shape)
            self.assertEqual(document["script"].count("\n"), 5)

    def test_features(self) -> None:
        """What is not asked for is not there."""
        words = "noise unit retire poison fence unlock mdrd pwr add16".split()
        text = "".join(sample(seed, Wish(features=())) for seed in range(30))
        self.assertEqual([word for word in words if word in text], [])
        # Long cases have one command.
        most = tuple(it for it in ALL if it != "long")
        text = "".join(sample(seed, Wish(features=most)) for seed in range(30))
        self.assertEqual([word for word in words if word in text], words)

    def test_each_aim_is_a_valid_case(self) -> None:
        """What is not drawn is a point too."""
        names = [point for point, _ in points()]
        self.assertEqual(set(NOT_DRAWN) - set(names), set())
        for point in set(names) - set(NOT_DRAWN):
            self.assertIsNone(case.read(sample(1, aimed(point)).encode())[1], point)

    def test_aims(self) -> None:
        """The case of the seed reaches its point."""
        require_program()
        for text, seed in REACHED.items():
            group, _, name = text.partition(" ")
            given = output_of("sample", str(seed), "--aim", text).encode()
            document, counted = case.read(given)[0], cover.Cover()
            lines = (f"{line}\n" for line in pages.lines_of(given.decode()))
            counted.read(document, checked(lines, document))
            self.assertGreater(counted.counts[Point(group, name)], 0, text)

    def test_a_seed_has_one_case(self) -> None:
        self.assertEqual(sample(7), sample(7))
        self.assertNotEqual(sample(7), sample(8))

    def test_the_command(self) -> None:
        self.assertEqual(output_of("sample", "7"), sample(7))
        with tempfile.TemporaryDirectory() as folder:
            self.assertEqual(tool("sample", "7", "--count", "2", "-o", folder).returncode, 0)
            text = (Path(folder) / "case-0008.toml").read_text("utf-8")
        self.assertEqual(text, sample(8))
        for words in (
            ["--features", "speed"],
            ["--hosts", "7", "--cubes", "1"],
            ["--count", "2"],
            ["--aim", "idle give: nothing"],
            ["--aim", "idle give: tags"],
            ["--aim", "full line", "--cubes", "2"],
            ["--aim", "full line", "--features", "noise"],
        ):
            self.assertEqual(tool("sample", "7", *words).returncode, 64, words)


if __name__ == "__main__":
    unittest.main()
