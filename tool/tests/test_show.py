"""Tests of `show`: the picture names the ends that the case names."""

import math
import re
import unittest

from tool import case, show
from tool.case import Document
from tool.routes import route
from tool.tests.shared import EXAMPLES, FAULTS, output_of, tool

CUBE = {"vault_bits": 1, "bank_bits": 2, "rows": 16, "queue": 4}
LINK: Document = {"line": 8, "tokens": 34, "retry": 64, "output": 4}
# Two cubes and two hosts.
NETWORK: Document = {
    "cubes": [CUBE, {**CUBE, "rows": 1}],
    "links": [
        {"a": "h0", "b": "c0.0", **LINK},
        {"a": "c0.1", "b": "c1.0", **LINK},
        {"a": "c1.3", "b": "h1", **LINK},
    ],
}


class Show(unittest.TestCase):
    def test_one_cube(self) -> None:
        text = output_of("show", str(EXAMPLES / "each-kind-of-step.toml"))
        self.assertIn("port 2 ===== link 0 ===== host 0   (out: direction 1, in: 0)", text)
        self.assertIn("2 vaults of 1 bank of 2 rows, 1,024 bytes", text)
        self.assertIn("link 0: direction 0 from h0 to c0.2, line 2, tokens 17, retry 17", text)

    def test_two_cubes(self) -> None:
        text = "\n".join(show.text_lines(NETWORK))
        self.assertIn("port 1 ===== link 1 ===== port 0 of cube 1   (out: direction 2", text)
        self.assertIn("port 0 ===== link 1 ===== port 1 of cube 0   (out: direction 3", text)
        self.assertIn("port 3 ===== link 2 ===== host 1   (out: direction 4, in: 5)", text)
        # 256 bytes a row, 2 vaults, 4 banks, 16 rows or 1 row.
        self.assertIn("32,768 bytes", text)
        self.assertIn("2,048 bytes", text)

    def test_what_profile_two_has(self) -> None:
        text = output_of("show", str(EXAMPLES / "two-profiles.toml"))
        self.assertIn("1,024 bytes, queues of 4, blocks of 256", text)
        self.assertIn("link 1: direction 2 from c0.1 to c1.0, line 8, tokens 34, retry 300", text)
        self.assertIn("output 4, profile 2", text)
        blocks = output_of("show", str(EXAMPLES / "profile-two.toml"))
        self.assertIn("1 vault of 1 bank of 4 rows, 256 bytes, queues of 4, blocks of 64", blocks)

    def test_a_ring(self) -> None:
        text = output_of("show", str(EXAMPLES / "ring-of-eight.toml"))
        self.assertIn("port 0 ===== link 8 ===== port 1 of cube 7   (out: direction 17", text)
        self.assertEqual(text.count("+-- cube"), 8)
        self.assertEqual(re.sub(" ?-+ ?", " ", text.split("\n")[0]), "c0 2/3 c1 4/5 c2 6/7 c3")
        self.assertEqual(text.split("\n")[1].split(), ["17/16", "8/9"])
        lower = re.sub(" ?-+ ?", " ", text.split("\n")[2])
        self.assertEqual(lower, "c7 15/14 c6 13/12 c5 11/10 c4")
        graph = output_of("show", "--dot", str(EXAMPLES / "ring-of-eight.toml"))
        # Its cubes are drawn at equal distances from the middle.
        places = re.findall(r'c[0-7] \[.*pos="([-.0-9]+),([-.0-9]+)!"', graph)
        radii = {round(math.hypot(float(x), float(y)), 1) for x, y in places}
        self.assertEqual((len(places), radii), (8, {6.0}))
        self.assertNotIn("pos=", output_of("show", "--dot", str(EXAMPLES / "star.toml")))

    def test_routes_are_those_of_reports(self) -> None:
        """The packets of the first requests go on through the ports that `--route` names."""
        for name in ("ring-of-eight", "star", "chain-of-three", "two-joins"):
            path = EXAMPLES / f"{name}.toml"
            document, _ = case.read(path.read_bytes())
            text = path.with_suffix(".report").read_text("utf-8")
            first = next(it for it in text.splitlines() if it.startswith("gave 0 "))
            goal = int(re.findall(r" ([0-7]) 0x", first)[0])
            way = route(document, "h0", f"c{goal}")
            for before, after in zip(way, way[1:]):
                start = before.end
                moved = f"shifted {start.cube} {start.port} p{after.start.port}"
                self.assertIn(moved, text.splitlines(), name)
            self.assertEqual(way[-1].end.cube, goal)

    def test_a_place_that_is_not_there(self) -> None:
        for place in ("h3", "c9", "c5", "x"):
            ran = tool("show", str(EXAMPLES / "fence.toml"), "--route", "h0", place)
            self.assertEqual((ran.returncode, ran.stdout), (64, b""), place)

    def test_the_box_is_even(self) -> None:
        lines = show.text_lines(NETWORK)[:6]
        self.assertEqual(len({len(line) for line in lines}), 1)

    def test_the_graph(self) -> None:
        """Each direction is an arrow that has its number; those of a route are red."""
        lines = show.dot_lines(NETWORK, route(NETWORK, "h1", "c0"))
        edges = [line.partition(" [")[0].strip() for line in lines if " -> " in line]
        arrows = ["h0 -> c0", "c0 -> h0", "c0 -> c1", "c1 -> c0", "c1 -> h1", "h1 -> c1"]
        self.assertEqual(edges, arrows)
        for number, line in enumerate(line for line in lines if " -> " in line):
            self.assertRegex(line, rf'label="direction {number}["\\]')
            self.assertEqual("penwidth" in line, number in (3, 5))
        text = output_of("show", "--dot", str(EXAMPLES / "fence.toml"))
        self.assertIn("h0 -> c0", text)

    def test_a_case_with_a_fault(self) -> None:
        document, fault = case.read((FAULTS / "bad-cases.txt").read_bytes())
        self.assertEqual((document, str(fault)), ({}, "bad toml 0 syntax"))
        self.assertEqual(tool("show", str(FAULTS / "bad-cases.txt")).returncode, 65)


if __name__ == "__main__":
    unittest.main()
