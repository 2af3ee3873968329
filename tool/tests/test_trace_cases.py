"""Tests of the case around the script of a trace: its parts, and its rounds."""

import subprocess
import unittest

from tool import build, case, trace_case, trace_values, traces
from tool.tests.shared import require_program
from tool.trouble import Trouble

ONE_CUBE = "cube 0 0 4\n"


class Cases(unittest.TestCase):
    def test_a_case_is_valid(self) -> None:
        """Cubes are in a chain, and the sizes are those that are given."""
        trace = traces.read(b"cube 0 1 4\ncube 1 0 2\n1 load 0 1\n")
        sizes = trace_case.Sizes(queue=1, line=2, tokens=17, retry=18, output=3, rounds=9)
        document, fault = case.read(trace_case.text_of(trace, sizes).encode())
        self.assertIsNone(fault)
        self.assertEqual(document["script"], "0 rd16 1 0x0\n")
        self.assertEqual(document["schedule"], "round 9\n")
        numbers: dict[str, object] = {"line": 2, "tokens": 17, "retry": 18, "output": 3}
        ends = [{"a": "h0", "b": "c0.0"}, {"a": "c0.1", "b": "c1.0"}]
        self.assertEqual(document["links"], [pair | numbers for pair in ends])
        first = {"vault_bits": 0, "bank_bits": 1, "rows": 4, "queue": 1}
        second = {"vault_bits": 1, "bank_bits": 0, "rows": 2, "queue": 1}
        self.assertEqual(document["cubes"], [first, second])

    def test_what_no_case_has(self) -> None:
        trace = traces.read(ONE_CUBE.encode())
        for sizes, said in (
            (trace_case.Sizes(queue=65), "`queue` is 1 to 64"),
            (trace_case.Sizes(tokens=16), "`tokens` is 17 to 1,024"),
            (trace_case.Sizes(rounds=0), "0 rounds: a schedule has 1 to"),
            (trace_case.Sizes(rounds=100_000), "have 1,200,000 steps"),
        ):
            with self.subTest(said), self.assertRaises(Trouble) as refused:
                trace_case.text_of(trace, sizes)
            self.assertIn(said, str(refused.exception))


class Drained(unittest.TestCase):
    """The rounds of a case of one cube are those of the drain bound."""

    def schedule(self, loads: int, cubes: int = 1, **sizes: int) -> str:
        """The schedule around so many loads."""
        text = ONE_CUBE * cubes + "0 load 0 1\n" * loads
        case_text = trace_case.text_of(traces.read(text.encode()), trace_case.Sizes(**sizes))
        return str(case.read(case_text.encode())[0]["schedule"])

    def test_one_cube(self) -> None:
        """All requests are given, and 4,000 rounds and 2,000 for each and one more follow."""
        for loads in (0, 1, 16):
            wanted = "give 0\n" * loads + f"round {4000 + 2000 * (loads + 1)}\n"
            self.assertEqual(self.schedule(loads), wanted)
        self.assertIn("round 82000\n", self.schedule(38, output=64))

    def test_where_there_is_no_bound(self) -> None:
        """More requests than the output queue or a schedule has room for, more cubes, rounds."""
        for loads, cubes, output in ((17, 1, 16), (39, 1, 64), (1, 2, 16)):
            found = self.schedule(loads, cubes, output=output)
            self.assertRegex(found, "^round [0-9]{3,4}\n$")
        self.assertEqual(self.schedule(2, rounds=9), "round 9\n")

    def test_the_report_is_drained(self) -> None:
        require_program()
        trace = traces.read((ONE_CUBE + "0 store 8 0102\n0 load 0 17\n").encode())
        text = trace_case.text_of(trace, trace_case.Sizes())
        ran = subprocess.run([build.PROGRAM, "run"], input=text.encode(), capture_output=True)
        lines = ran.stdout.decode().splitlines()
        self.assertEqual(lines[-1], "state drained")
        self.assertEqual(trace_values.values_of(trace, lines), traces.plain_values(trace))


if __name__ == "__main__":
    unittest.main()
