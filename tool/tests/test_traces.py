"""Tests of the tool's reader of traces: scripts, faults and values that are known from outside."""

import random
import re
import subprocess
import tempfile
import unittest
from collections.abc import Iterator
from pathlib import Path

from tool import build, case, explain_fault, trace_case, trace_formats, trace_values, traces
from tool.trouble import NotALine
from tool.tests.shared import TOP, output_of, require_program, tool
from tool.trouble import Trouble

ONE_CUBE = "cube 0 0 4\n"
# A command, and the lines under it up to the next one; a case has empty lines in it.
SHOWN = r"    (?!\$ )"
EXAMPLE = re.compile(rf"^    \$ \./zehimbado (.*)\n((?:{SHOWN}.*\n|\n(?={SHOWN}))*)", re.MULTILINE)

# Each with the first fault of its text, as docs/trace.md has it.
FAULTS = [
    ("", "1 cubes"),
    ("\n# no cube\n", "3 cubes"),
    ("0 load 0 1", "1 cubes"),
    ("x", "1 cubes"),
    ("cube 0 0", "1 words"),
    ("cube 0 0 4 4", "1 words"),
    ("cube x 0 4", "1 number"),
    ("cube 6 0 4", "1 range"),
    ("cube 0 5 4", "1 range"),
    ("cube 0 0 0", "1 range"),
    ("cube 0 0 1025", "1 range"),
    ("cube 5 4 129", "1 capacity"),
    ("cube 5 4 1025", "1 range"),
    ("cube 5 4 128\ncube 0 0 1", "2 capacity"),
    (ONE_CUBE * 8 + "cube 0 0 9999", "9 cubes"),
    (ONE_CUBE + "0 load 0 1\ncube 0 0 4", "3 word"),
    (ONE_CUBE + "x load 0 1", "2 number"),
    (ONE_CUBE + "1 load 0 1", "2 cube"),
    (ONE_CUBE + "0", "2 words"),
    (ONE_CUBE + "0 fetch 0 1", "2 word"),
    (ONE_CUBE + "0 load 0", "2 words"),
    (ONE_CUBE + "0 load 0 0", "2 length"),
    (ONE_CUBE + "0 load 99999 4097", "2 length"),
    (ONE_CUBE + "0 load 0x3ff 2", "2 range"),
    (ONE_CUBE + "0 load 0x3ff 2 x", "2 range"),
    (ONE_CUBE + "0 load 0x3fe 2 x", "2 words"),
    (ONE_CUBE + "0 store 0 abc", "2 hex"),
    (ONE_CUBE + "0 store 0 xy", "2 hex"),
    (ONE_CUBE + "0 store 0x3ff aabb", "2 range"),
]

# What a load or a store of the length at the place is cut into.
COMMANDS = [
    ("load 0x3ff 1", "rd16"),
    ("load 0 128", "rd128"),
    ("load 0 144", "rd128 rd16"),
    ("load 0 240", "rd128 rd112"),
    ("load 0 256", "rd256"),
    ("load 1 256", "rd256 rd16"),
    ("load 0x11 600", "rd128 rd112 rd256 rd112"),
    (f"store 0 {'ab' * 128}", "wr128"),
    (f"store 0 {'ab' * 144}", "wr128 wr16"),
    (f"store 0 {'ab' * 240}", "wr128 wr112"),
    (f"store 0 {'ab' * 256}", "wr256"),
    (f"store 8 {'ab' * 16}", "bwr bwr"),
    (f"store 7 {'ab' * 26}", "bwr bwr wr16 bwr"),
    (f"store 0xff {'ab' * 258}", "bwr wr256 bwr"),
]


def scripts(text: str) -> list[str]:
    """The lines of the script of a trace."""
    return [str(request) for request in traces.read(text.encode()).requests]


class Traces(unittest.TestCase):
    def test_a_store_and_a_load(self) -> None:
        text = ONE_CUBE + "0 store 5 aabbcc\n0 load 4 5\n"
        bwr = "0 bwr 0 0x0 0000000000aabbcc0000000000ffffff"
        self.assertEqual(scripts(text), [bwr, "0 rd16 0 0x0"])
        trace = traces.read(text.encode())
        load = trace.loads[0]
        self.assertEqual((load.first, load.count, load.skip, load.access.length), (1, 1, 4, 5))
        self.assertEqual(traces.plain_values(trace), [bytes.fromhex("00aabbcc00")])

    def test_a_store_over_two_blocks(self) -> None:
        low = "0 bwr 0 0xf8 0000000000000102000000000000ffff"
        high = "0 bwr 0 0x100 0304000000000000ffff000000000000"
        self.assertEqual(scripts(ONE_CUBE + "0 store 0xfe 01020304"), [low, high])

    def test_cuts(self) -> None:
        for access, commands in COMMANDS:
            with self.subTest(access):
                lines = scripts(ONE_CUBE + f"0 {access}")
                self.assertEqual(" ".join(line.split()[1] for line in lines), commands)

    def test_faults(self) -> None:
        for text, fault in FAULTS:
            with self.subTest(text), self.assertRaises(traces.BadTrace) as bad:
                traces.read(text.encode())
            self.assertEqual(str(bad.exception), f"bad trace {fault}")

    def test_bytes_that_are_no_text(self) -> None:
        with self.assertRaises(traces.BadTrace) as bad:
            traces.read(b"cube 0 0 4\n\xff\n")
        self.assertEqual(str(bad.exception), "bad trace 0 text")

    def test_the_most_requests(self) -> None:
        """A load of 4,096 bytes from place 1 on has 17 requests: 3,855 of them have 65,535."""
        text = "cube 0 0 17\n" + "0 load 1 4096\n" * 3855
        self.assertEqual(len(scripts(text + "0 load 0 1\n")), 65_536)
        for more in ("0 load 0 1\n0 load 0 1\n", "0 load 248 16\n"):
            with self.assertRaises(traces.BadTrace) as bad:
                traces.read((text + more).encode())
            line = 3856 + more.count("\n")
            self.assertEqual(str(bad.exception), f"bad trace {line} toomany")

    def test_eight_cubes(self) -> None:
        text = "".join(f"cube 0 0 {rows}\n" for rows in range(1, 9))
        text += "".join(f"{cube} load {256 * cube} 256\n" for cube in range(8))
        self.assertEqual(scripts(text), [f"0 rd256 {it} {256 * it:#x}" for it in range(8)])


class Values(unittest.TestCase):
    TRACE = ONE_CUBE + "0 store 0 01\n0 load 0 1\n0 load 8 17\n"
    BWR = "bwr 0 0x0 0100000000000000ff00000000000000"
    GAVE = [f"gave 0 3 {BWR}", "gave 0 3 rd16 0 0x0", "gave 0 7 rd32 0 0x0"]
    TOOK = [f"took 0 7 read 0 {'0a' * 32}", "took 0 3 done 0", f"took 0 3 read 0 01{'00' * 15}"]

    def values(self, lines: list[str]) -> list[str | None]:
        found = trace_values.values_of(traces.read(self.TRACE.encode()), lines)
        return [None if value is None else value.hex() for value in found]

    def test_answers_in_another_order(self) -> None:
        """The load's answer is the second one under tag 3."""
        self.assertEqual(self.values(self.GAVE + self.TOOK), ["01", "0a" * 17])
        self.assertEqual(self.values(self.TOOK + self.GAVE), ["01", "0a" * 17])

    def test_answers_that_are_missing(self) -> None:
        self.assertEqual(self.values([]), [None, None])
        self.assertEqual(self.values(self.GAVE), [None, None])
        self.assertEqual(self.values(self.GAVE + self.TOOK[:2]), [None, "0a" * 17])
        self.assertEqual(self.values(self.GAVE[:2] + self.TOOK), ["01", None])

    def test_answers_that_are_no_reads(self) -> None:
        refused = ["took 0 7 error 1", "took 0 3 done 0", f"took 0 3 read 0 {'00' * 32}"]
        self.assertEqual(self.values(self.GAVE + refused), [None, None])

    def test_answers_of_another_host(self) -> None:
        lines = ["gave 1 3 rd16 0 0x0", f"took 1 3 read 0 {'ff' * 16}"]
        self.assertEqual(self.values(lines + self.GAVE + self.TOOK), ["01", "0a" * 17])

    def test_a_report_of_another_trace(self) -> None:
        """A request that differs, one that the trace doesn't have, and lines that are left out."""
        other = ["gave 0 3 rd16 0 0x10", f"gave 0 - {self.BWR}", "gave 0 3 rd16 0 0x0"]
        for lines, said in (
            ([self.GAVE[0], other[0]], "line 2 is not one of this trace: its next request"),
            ([*self.GAVE, other[1]], "line 4 is not one of this trace: the trace has 3 requests"),
            ([other[2]], "line 1 is not one of this trace"),
            (["gave 0 3 bwr 0 0x0 .."], "line 1 is not a line of a report"),
            (self.GAVE + self.TOOK[1:] + ["host 0 3 3 0"], "line 6: lines of steps are left out"),
            (self.GAVE[:2] + self.TOOK + ["host 0 3 3 0"], "line 6: lines of steps are left out"),
        ):
            with self.assertRaises(NotALine) as refused:
                self.values(lines)
            self.assertTrue(str(refused.exception).startswith(said), str(refused.exception))

    def command(self, lines: list[str]) -> tuple[int, list[str], str]:
        """The status, the values and the messages of the command for these lines of a report."""
        with tempfile.TemporaryDirectory() as folder:
            path = Path(folder) / "a.trace"
            path.write_text(self.TRACE, encoding="utf-8")
            ran = tool("values", str(path), given="".join(f"{it}\n" for it in lines).encode())
        return ran.returncode, ran.stdout.decode().splitlines(), ran.stderr.decode()

    def test_the_command(self) -> None:
        """A load that has its value, loads that differ from plain bytes, and unknown ones."""
        first = "0 load 0x0 1 01"
        plain = f"line 4 of the trace, plain bytes give {'00' * 17}"
        second = f"0 load 0x8 17 {'0a' * 17} differs: {plain}"
        status, values, said = self.command(self.GAVE + self.TOOK)
        self.assertEqual((status, values), (1, [first, second]))
        self.assertEqual(said, "zehimbado: 1 of 2 loads differ from plain bytes\n")
        both = [*self.TOOK[:2], f"took 0 3 read 0 {'00' * 16}"]
        status, values, said = self.command(self.GAVE + both)
        first = "0 load 0x0 1 00 differs: line 3 of the trace, plain bytes give 01"
        self.assertEqual((status, values), (1, [first, second]))
        self.assertEqual(said, "zehimbado: 2 of 2 loads differ from plain bytes\n")
        right = [f"took 0 7 read 0 01{'00' * 31}", *self.TOOK[1:]]
        self.assertEqual(self.command(self.GAVE + right)[::2], (0, ""))
        status, values, said = self.command(self.GAVE)
        self.assertEqual((status, values), (0, ["0 load 0x0 1 unknown", "0 load 0x8 17 unknown"]))
        self.assertIn("2 of 2 loads have no value", said)


class Formats(unittest.TestCase):
    SHAPES = [traces.Shape(0, 1, 4), traces.Shape(0, 0, 4)]

    def lines(self, text: str, name: str) -> list[str]:
        """The lines after those of the cubes."""
        return trace_formats.convert(text, name, self.SHAPES).decode().splitlines()[2:]

    def test_dramsim(self) -> None:
        given = "0x1000 R\n\n0x13ff W 12\n0x7c0 READ 3\n"
        lines = ["0 load 0x400 64", f"0 store 0x7c0 {'0300000000000000' * 8}", "0 load 0x7c0 64"]
        self.assertEqual(self.lines(given, "dramsim"), lines)

    def test_lackey(self) -> None:
        given = "==7== Lackey\nI  04000,3\n L 1ffff,4\n M 00000010,2\n"
        lines = ["0 load 0x7ff 1", "1 load 0x0 3", "0 load 0x10 2", "0 store 0x10 0400"]
        self.assertEqual(self.lines(given, "lackey"), lines)

    def test_other_lines(self) -> None:
        for text, name in (("0x10 X\n", "dramsim"), ("10 R\n", "dramsim"), (" X 10,2\n", "lackey")):
            with self.subTest(text), self.assertRaises(Trouble):
                self.lines(text, name)


class Words(unittest.TestCase):
    def setUp(self) -> None:
        folder = tempfile.TemporaryDirectory()
        self.addCleanup(folder.cleanup)
        self.trace = Path(folder.name) / "a.trace"
        self.trace.write_text(ONE_CUBE, encoding="utf-8")

    def test_refused(self) -> None:
        for words in (
            ["--rounds", "5"],
            ["--tokens", "34", "--trace"],
            ["--from", "lackey"],
            ["--cube", "0", "0", "4"],
            ["--from", "lackey", "--cube", "0", "0", "0"],
            ["--from", "lackey", "--cube", "0", "0", "-1"],
            ["--case", "--trace"],
            ["-o", str(self.trace)],
            ["--case", "-o", str(self.trace)],
            ["--trace", "-o", str(self.trace)],
        ):
            ran = tool("trace", *words, "--", str(self.trace))
            self.assertEqual((ran.returncode, ran.stdout), (64, b""), words)
            self.assertEqual(self.trace.read_text("utf-8"), ONE_CUBE)

    def test_what_is_no_trace(self) -> None:
        self.trace.write_text(ONE_CUBE + "0 load 0x3ff 2\n", encoding="utf-8")
        for words in (["trace", "--case", str(self.trace)], ["values", str(self.trace), "-"]):
            ran = tool(*words)
            self.assertEqual((ran.returncode, ran.stdout), (65, b""))
            self.assertIn(b"a.trace is not a trace: bad trace 2 range", ran.stderr)
        too_long = b"#" * 4_194_305
        self.assertIn(b"4,194,305 bytes", tool("trace", "--case", given=too_long).stderr)

    def test_a_file_for_the_case(self) -> None:
        target = self.trace.with_name("a.toml")
        ran = tool("trace", "--case", "-o", str(target), given=ONE_CUBE.encode())
        self.assertEqual((ran.returncode, ran.stdout), (0, b""))
        self.assertIsNone(case.read(target.read_bytes())[1])

    def test_explained(self) -> None:
        """Each kind has a meaning; with the trace its line is shown."""
        kinds = {fault.split()[1] for _, fault in FAULTS} | {"text", "toomany"}
        self.assertEqual(set(explain_fault.MEANINGS["trace"]), kinds)
        self.trace.write_text(ONE_CUBE + "0 load 0x3ff 2\n", encoding="utf-8")
        said = output_of("explain", "bad trace 2 range", str(self.trace)).splitlines()
        self.assertTrue(said[0].startswith("bad trace 2 range: line 2: a number is not within"))
        shown = [f"{self.trace}:2", "    0 load 0x3ff 2"]
        self.assertEqual(said[1:], ["see docs/trace.md#faults", *shown])
        said = output_of("explain", "bad", "trace", "1", "cubes", str(self.trace)).splitlines()
        self.assertIn("the first fault here is another one: bad trace 2 range", said[2])
        self.trace.write_text(ONE_CUBE, encoding="utf-8")
        said = output_of("explain", "bad trace 2 range", str(self.trace)).splitlines()
        self.assertIn("no such fault", said[2])


def page_examples() -> list[tuple[list[str], str]]:
    """The commands of docs/trace.md, each with what it writes there."""
    found = EXAMPLE.findall((TOP / "docs" / "trace.md").read_text(encoding="utf-8"))
    return [(words.split(), re.sub("^    ", "", it, flags=re.MULTILINE)) for words, it in found]


def needs_program(words: list[str]) -> bool:
    """Whether the program answers: the tool's own reader makes the others."""
    return words[0] == "trace" and not {"--case", "--trace"} & set(words)


class Examples(unittest.TestCase):
    def test_the_page(self) -> None:
        """The examples of docs/trace.md that need no program are what the tool writes."""
        found = page_examples()
        self.assertEqual([needs_program(it) for it, _ in found], [True, *[False] * 4])
        for words, text in found[1:]:
            with self.subTest(words):
                self.assertEqual(tool(*words).stdout.decode(), text)

    def test_the_example_of_the_program(self) -> None:
        require_program()
        words, text = page_examples()[0]
        self.assertEqual(tool(*words).stdout.decode(), text)


def random_trace(chance: random.Random) -> str:
    """A trace whose accesses may be refused: some lines lack a word, or end past their cube."""
    shapes = [traces.Shape(0, chance.randrange(2), 1 + chance.randrange(4)) for _ in range(2)]
    lines = [f"cube {it.vault_bits} {it.bank_bits} {it.rows}" for it in shapes]
    for _ in range(1 + chance.randrange(6)):
        cube = chance.randrange(2)
        length = chance.choice((1, 8, 16, 17, 100, 256, 300))
        place = chance.randrange(max(shapes[cube].capacity - length, 0) + 2)
        words = ["load", str(length)]
        if chance.randrange(2):
            words = ["store", chance.randbytes(length).hex()]
        lines.append(f"{cube} {words[0]} {place:#x} {words[1]}")
    if chance.randrange(4) == 0:
        place = chance.randrange(len(lines))
        lines[place] = lines[place].rpartition(" ")[0]
    return "".join(f"{line}\n" for line in lines)


def given_traces() -> Iterator[bytes]:
    """Traces for the program and for the tool's own reader."""
    yield from (text.encode() for text, _ in FAULTS)
    yield from ((ONE_CUBE + f"0 {access}").encode() for access, _ in COMMANDS)
    yield b"cube 0 0 4\n\xff\n"
    chance = random.Random(47)
    yield from (random_trace(chance).encode() for _ in range(100))


def read_by_tool(data: bytes) -> tuple[int, str]:
    """What the tool's own reader makes of a trace: the status of the program, and the answer."""
    fault = traces.first_fault(data)
    if fault:
        return 6, f"{fault}\n"
    return 0, "".join(f"{request}\n" for request in traces.read(data).requests)


class Program(unittest.TestCase):
    def test_a_second_reader_agrees(self) -> None:
        """The program and the reader of tool/traces.py find the same scripts and first faults."""
        require_program()
        for data in given_traces():
            ran = subprocess.run([build.PROGRAM, "trace"], input=data, capture_output=True)
            self.assertEqual((ran.returncode, ran.stdout.decode()), read_by_tool(data), data)

    def test_the_case_around_a_trace(self) -> None:
        """Its report gives all loads the values of plain bytes."""
        require_program()
        for data in [it for it in given_traces() if traces.first_fault(it) is None][-10:]:
            trace = traces.read(data)
            sizes = trace_case.Sizes(rounds=trace_case.rounds_of(trace))
            text = trace_case.text_of(trace, sizes)
            ran = subprocess.run([build.PROGRAM, "run"], input=text.encode(), capture_output=True)
            values = trace_values.values_of(trace, ran.stdout.decode().splitlines())
            self.assertEqual(values, traces.plain_values(trace), data)

    def test_the_place_of_a_fault_is_shown(self) -> None:
        require_program()
        with tempfile.TemporaryDirectory() as folder:
            path = Path(folder) / "a.trace"
            path.write_text(ONE_CUBE + "0 load 0x3ff 2\n", encoding="utf-8")
            ran = tool("trace", str(path))
        self.assertEqual((ran.returncode, ran.stdout), (6, b"bad trace 2 range\n"))
        self.assertIn(b"status 6: the input is not a trace", ran.stderr)
        self.assertIn(b"a.trace:2\n    0 load 0x3ff 2\n", ran.stderr)

    def test_a_trace_of_another_tool(self) -> None:
        """It is converted, and then read as any trace."""
        require_program()
        words = ("--from", "dramsim", "--cube", "0", "1", "4")
        ran = tool("trace", *words, given=b"0x40 R\n")
        self.assertEqual((ran.returncode, ran.stdout), (0, b"0 rd64 0 0x40\n"))


if __name__ == "__main__":
    unittest.main()
