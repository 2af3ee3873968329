"""Tests of `shrink`, and of the schedules that it rewrites."""

import re
import signal
import subprocess
import sys
import tempfile
import unittest
from collections.abc import Callable
from pathlib import Path

from tool import case, documents, rewrites, schedule
from tool.case import Document
from tool.shrink import Shrinker
from tool.tests.shared import CASES, EXAMPLES, TOP, tool

MASK = f"{1:032x}"
OTHER = f"{2:032x}"


def document_of(name: str) -> Document:
    """The case of an example."""
    return case.read((EXAMPLES / f"{name}.toml").read_bytes())[0]


def shrunk(document: Document, fails: Callable[[bytes], bool], at_once: int = 1) -> Document:
    """The small case for which the test still says yes."""

    def first_failing(cases: list[bytes]) -> int | None:
        return next((place for place, it in enumerate(cases) if fails(it)), None)

    return Shrinker(document, first_failing, at_once).shrink()


def steps_of(document: Document) -> list[schedule.Step]:
    """The steps of a case, with their masks; one of zeros is none."""
    found = schedule.steps_in(document["schedule"], case.plan_of(document))
    return [(step, "" if mask == "0" * 32 else mask) for step, mask in found]


class Shrink(unittest.TestCase):
    def test_what_is_needed_stays(self) -> None:
        """A case fails here where a step of cube 2 and a round are there."""
        document = document_of("row-of-eight")
        document["schedule"] = "round 900\nshift 2 0\nround 77\n"

        def fails(candidate: bytes) -> bool:
            return b"shift 2 0" in candidate and b"round" in candidate

        smallest = shrunk(document, fails)
        self.assertIsNone(case.read(documents.text_of(smallest).encode())[1])
        lines = smallest["schedule"].split()
        self.assertEqual(sorted(lines), ["0", "1", "2", "round", "shift"])
        self.assertEqual(smallest["script"], "")
        self.assertEqual(len(smallest["cubes"]), 3)

    def test_requests_go_to_cube_0(self) -> None:
        """So the other cubes and hosts can go, and as many rounds are left as these need."""
        document = document_of("two-hosts-two-cubes")

        def fails(candidate: bytes) -> bool:
            found = case.read(candidate)[0]
            count = sum(map(int, re.findall("round ([0-9]+)", found["schedule"])))
            return "rd16" in found["script"] and count >= 10 * len(found["links"])

        for at_once in (1, 3):
            smallest = shrunk(document, fails, at_once)
            self.assertRegex(smallest["script"], "^0 rd16 0 [0-9a-fx]+\n$")
            self.assertEqual((len(smallest["cubes"]), len(smallest["links"])), (1, 1))
            self.assertEqual(smallest["schedule"].split(), ["round", "10"])

    def test_noise(self) -> None:
        """A case fails here where the 41st landing of direction 1 has a mask and 60 landings are
        there: one mask is left, and the rounds before and after it are two lines."""
        document = document_of("two-hosts-two-cubes")
        document["schedule"] = f"round 3\nnoise 7 {MASK}\nround 100\nnoise off\nround 20\n"

        def fails(candidate: bytes) -> bool:
            steps = steps_of(case.read(candidate)[0])
            masks = [mask for step, mask in steps if step == "land 1"]
            return len(masks) >= 60 and masks[40] != ""

        self.assertTrue(fails(documents.text_of(document).encode()))
        smallest = shrunk(document, fails)
        lines = smallest["schedule"].splitlines()
        self.assertNotIn("noise", smallest["schedule"])
        self.assertEqual([line for line in lines if MASK in line], [f"land 1 {MASK}"])
        self.assertEqual(lines[0], "round 40")
        self.assertEqual(len(lines), 3, lines)

    def test_jobs_change_nothing(self) -> None:
        document = document_of("chain-of-three")

        def fails(candidate: bytes) -> bool:
            return candidate.count(b"rd") >= 2

        wanted = shrunk(document, fails)
        for at_once in (2, 5, 64):
            self.assertEqual(shrunk(document, fails, at_once), wanted)


class Rounds(unittest.TestCase):
    def test_other_texts_have_the_same_steps(self) -> None:
        """Of each example, and of schedules with noise that goes on, changes and ends."""
        row = document_of("two-hosts-two-cubes")
        texts = [
            f"noise 1 {MASK}\nround 3\n",
            f"noise 7 {MASK}\nround 9\nland 0\nround 5\n"
            f"noise 7 {OTHER}\nround 9\nnoise off\nround 2\n",
            f"round 4\nnoise 1000 {MASK}\nround 300\n# none\nland 0 {OTHER}\nround 1\nround 2\n",
            f"give 0x0\nnoise 2 {'0' * 32}\nround 2\n",
        ]
        documents_tried = [document_of(path.stem) for path in CASES]
        documents_tried += [{**row, "schedule": text} for text in texts]
        for document in documents_tried:
            plan, text = case.plan_of(document), document["schedule"]
            wanted = steps_of(document)
            unfolded = rewrites.unfolded(text, plan)
            self.assertNotIn("noise", unfolded)
            for other in (unfolded, rewrites.folded(unfolded, plan)):
                self.assertEqual(steps_of({**document, "schedule": other}), wanted, text[:200])

    def test_folded(self) -> None:
        """Steps of a whole round are one line, also beside rounds; others stay."""
        plan = case.plan_of(document_of("write-then-read"))
        one = "".join(f"{step}\n" for step in schedule.round_of(plan))
        cut = one.removeprefix("give 0\n")
        rows = (
            (one, "round 1\n"),
            (f"round 2\n{one}{one}round 3\n", "round 7\n"),
            (f"{cut}{one}", f"{cut}round 1\n"),
            (f"{one}{cut}", f"round 1\n{cut}"),
            (f"noise 3 {MASK}\n{one}", f"noise 3 {MASK}\n{one}"),
        )
        for text, wanted in rows:
            self.assertEqual(rewrites.folded(text, plan), wanted)


class Command(unittest.TestCase):
    path = str(EXAMPLES / "write-then-read.toml")

    def test_the_command(self) -> None:
        """The command reads the case: by its path, or as its input."""
        find = "import sys; sys.exit(3 if 'rd16' in open({}).read() else 0)"
        rows: list[tuple[str, list[str]]] = [("sys.argv[1]", ["{}"]), ("0", [])]
        for source, words in rows:
            for jobs in ("1", "3"):
                command = [sys.executable, "-c", find.replace("{}", source), *words]
                ran = tool("shrink", self.path, "--jobs", jobs, "--", *command)
                document, fault = case.read(ran.stdout)
                self.assertIsNone(fault)
                self.assertEqual(document["script"], "0 rd16 0 0x40\n")
                self.assertEqual(document["schedule"], "")
                self.assertRegex(ran.stderr.decode(), r"[0-9]+ cases tried, [0-9]+ lines left\n")
        self.assertEqual(tool("shrink", self.path, "--", "true").returncode, 64)
        self.assertEqual(tool("shrink", self.path, "--jobs", "0", "--", "false").returncode, 64)
        self.assertEqual(tool("shrink", self.path, "--", "/no/such/program").returncode, 69)

    def test_a_signal_keeps_the_smallest_case(self) -> None:
        """The command waits for ever where the case has no write any more: then it is ended, and
        the case without its schedule, which was found before, is written."""
        source = (
            "import sys, time; text = open(sys.argv[1]).read()\n"
            "if 'wr16' not in text: time.sleep(600)\n"
            "sys.exit(3)"
        )
        rows: tuple[tuple[signal.Signals, int, list[str]], ...] = (
            (signal.SIGINT, 130, []),
            (signal.SIGTERM, 143, ["--jobs", "2"]),
            (signal.SIGTERM, 143, ["-o"]),
        )
        for number, status, words in rows:
            with tempfile.TemporaryDirectory() as folder:
                output = Path(folder, "small.toml")
                words = [*words, str(output)] if words == ["-o"] else words
                command = [sys.executable, str(TOP / "zehimbado"), "shrink", self.path, *words]
                command += ["--", sys.executable, "-c", source, "{}"]
                pipe = subprocess.PIPE
                with subprocess.Popen(command, stdout=pipe, stderr=pipe) as running:
                    assert running.stderr
                    while b" lines left" not in running.stderr.readline():
                        pass
                    running.send_signal(number)
                    written, said = running.communicate(timeout=30)
                written = output.read_bytes() if "-o" in words else written
                self.assertEqual(running.returncode, status, said)
                document, fault = case.read(written)
                self.assertIsNone(fault, said)
                self.assertEqual(document["schedule"], "")
                self.assertIn("wr16", document["script"])


if __name__ == "__main__":
    unittest.main()
