"""What the proved program answers, which must be that of these sources, and the second build of it:
faulty inputs, the cases and reports of examples/, and changed reports. Each is given to it as bytes
and words. The expected answers are files beside the tests and the examples: faults were found by
hand, and reports come from a model in another language (docs/DECISIONS.md says which)."""

import os
import unittest
from collections.abc import Iterator
from pathlib import Path

from tool.tests.shared import (
    CASES,
    DATA,
    EXAMPLES,
    FAULTS,
    answer,
    bad_cases,
    builds,
    require_program,
    text_rows,
)
from tool.texts import INPUT_BYTES

BAD, USAGE, PASSED = 6, 2, 7
# More than the first piece that the program reads of a source is.
UNREAD = b"x" * 4096
# One host, one link and one cube of one bank: twelve steps a round.
SMALL = """
[[cubes]]
vault_bits = 0
bank_bits = 0
rows = 4
queue = 4

[[links]]
a = "h0"
b = "c0.0"
line = 8
tokens = 34
retry = 64
output = 4
"""
# Two hosts, and two cubes that differ in vaults, banks and linked ports.
WIDE = "".join(
    f"""
[[cubes]]
vault_bits = {vault_bits}
bank_bits = {bank_bits}
rows = 4
queue = 4
"""
    for vault_bits, bank_bits in ((1, 1), (0, 2))
) + "".join(
    f"""
[[links]]
a = "{a}"
b = "{b}"
line = 8
tokens = 34
retry = 64
output = 4
"""
    for a, b in (("h0", "c0.0"), ("c0.2", "c1.1"), ("h1", "c1.3"))
)
ESCAPED = {"\\": r"\\", '"': r"\"", "\n": r"\n", "\r": r"\r", "\t": r"\t"}
# The words of final lines.
FINALS = ("memory ", "register ", "tokens ", "counters ", "host ", "cube ", "state ")
# The words that make the case of a number, with the report of each.
MADE = {
    "0": "make-0",
    "1": "make-1",
    "2": "make-2",
    "3": "make-3",
    "00000000000000000001": "make-1",
    "18446744073709551615": "make-greatest",
}
# The status of a bound that can't be had, by its case.
REFUSED_BOUNDS = {"row-of-eight": BAD, "passed-null": PASSED}


def case_of(network: str, script: str, schedule: str) -> bytes:
    """The case of a network with a script and a schedule of these very bytes."""
    texts = (("script", script), ("schedule", schedule))
    rows = ("".join(ESCAPED.get(sign, sign) for sign in text) for _, text in texts)
    lines = (f'{key} = "{row}"\n' for (key, _), row in zip(texts, rows))
    return f"profile = 1\n{''.join(lines)}{network}".encode()


# Inputs that are no case, each with its fault.
NO_CASES = (
    (b"", "bad top 0 missing"),
    (b"profile = true\n", "bad top 0 kind"),
    (b"profile = 3\n", "bad top 0 range"),
    (b"profile = 3\nname = 1\n", "bad top 0 unknown"),
    (b"\xff", "bad toml 0 syntax"),
    (case_of(SMALL, "0 rd16 0 0x40", "").partition(b" 0 0x40")[0], "bad toml 0 syntax"),
)


def rows_of(name: str) -> Iterator[str]:
    """The lines of a table."""
    yield from (FAULTS / name).read_text(encoding="utf-8").split("\n")


def with_case(case: bytes, report: bytes) -> bytes:
    """An input of `check`."""
    return b"case %d\n" % len(case) + case + report


def changes_of(report: bytes) -> dict[str, bytes]:
    """A report with one change of each kind, about the line in its middle."""
    lines = report.splitlines(keepends=True)
    at = len(lines) // 2
    before, after = b"".join(lines[:at]), b"".join(lines[at + 2 :])
    line, following = b"".join(lines[at : at + 1]), b"".join(lines[at + 1 : at + 2])
    return {
        "none": report,
        "byte": before + b"?" + line[1:] + following + after,
        "dropped": before + following + after,
        "doubled": before + 2 * line + following + after,
        "added": before + b"no entry\n" + line + following + after,
        "exchanged": before + following + line + after,
        "cut": before,
        "no feed": report.removesuffix(b"\n"),
        "more feed": report + b"\n",
        "empty": b"",
    }


def first_unfit(due: list[bytes], given: list[bytes]) -> int | None:
    """The number of the first line that is not one of the due report; `None` where there is none.
    A last line that only lacks its line feed fits."""
    for number, (mine, wanted) in enumerate(zip(given, due), start=1):
        if mine != wanted:
            return number + (wanted == mine + b"\n")
    return None if len(due) == len(given) else min(len(due), len(given)) + 1


def report_of(path: Path) -> tuple[int, bytes]:
    """The status and the report that are stored for an example."""
    report = path.with_suffix(".report").read_bytes()
    return PASSED if report.splitlines()[-1].startswith(b"passed ") else 0, report


class Answers(unittest.TestCase):
    @classmethod
    def setUpClass(cls) -> None:
        require_program()

    def check(self, words: list[str], given: bytes, status: int, written: bytes) -> None:
        """Both builds answer so."""
        for program in builds():
            with self.subTest(program.name, words=words, given=given[-1000:]):
                self.assertEqual(answer(program, words, given), (status, written, b""))

    def check_unread(self, words: list[str], status: int, written: bytes) -> None:
        """Both builds answer so, and read nothing."""
        for program in builds():
            source, into = os.pipe()
            with open(source, "rb") as left, open(into, "wb") as given:
                given.write(UNREAD)
                given.close()
                with self.subTest(program.name, words=words):
                    self.assertEqual(answer(program, words, left), (status, written, b""))
                    self.assertEqual(left.read(), UNREAD)


class Faults(Answers):
    """By the tables of faulty inputs."""

    def test_words(self) -> None:
        rows = [row[1:].split(" ")[1:] for row in rows_of("words.txt") if row.startswith("$")]
        self.assertGreaterEqual(len(rows), 46)
        for words in (*rows, ["make", "1 "]):
            self.check_unread(words, USAGE, b"")

    def test_bad_cases(self) -> None:
        """By `run` and by `bound`: a case that is not single has every other fault first."""
        for _, text, wanted in bad_cases():
            for word in ("run", "bound"):
                self.check([word], text.encode(), BAD, f"{wanted}\n".encode())

    def check_texts(self, name: str, key: str, network: str) -> None:
        """Each text of a table has the fault of its row, as the script or the schedule of a case.
        A good one has a bound."""
        for text, wanted in text_rows(name):
            pair = (text, "") if key == "script" else ("", text)
            case = case_of(network, *pair)
            if wanted != "good":
                self.check(["run"], case, BAD, f"bad {key} {wanted}\n".encode())
                continue
            for program in builds():
                with self.subTest(program.name, text=text):
                    status, written, _ = answer(program, ["bound"], case)
                    self.assertEqual((status, written.count(b"\n")), (0, 2))

    def test_scripts(self) -> None:
        self.check_texts("script-faults.txt", "script", WIDE)

    def test_schedules(self) -> None:
        self.check_texts("schedule-faults.txt", "schedule", WIDE)
        self.check_texts("schedule-faults-small.txt", "schedule", SMALL)

    def test_no_cases(self) -> None:
        for text, wanted in NO_CASES:
            self.check(["run"], text, BAD, f"{wanted}\n".encode())

    def test_the_longest_input(self) -> None:
        """A comment makes a case as long as it may be, and one byte longer."""
        case, report = (EXAMPLES / "no-steps.toml").read_bytes(), EXAMPLES / "no-steps.report"
        for size, wanted in ((INPUT_BYTES, (0, report.read_bytes())), (INPUT_BYTES + 1, (5, b""))):
            self.check(["run"], case.ljust(size, b"#"), *wanted)

    def test_inputs_of_check(self) -> None:
        for text, wanted in text_rows("check-heads.txt"):
            self.check(["check"], text.encode(), BAD, f"{wanted}\n".encode())

    def test_traces(self) -> None:
        for text, wanted in text_rows("trace-faults.txt"):
            if wanted == "good":
                for program in builds():
                    with self.subTest(program.name, text=text):
                        self.assertEqual(answer(program, ["trace"], text.encode())[0], 0)
            else:
                self.check(["trace"], text.encode(), BAD, f"bad trace {wanted}\n".encode())
        no_text = b"cube 0 0 4\n\xff\n"
        self.check(["trace"], no_text, BAD, b"bad trace 0 text\n")

    def test_scripts_of_traces(self) -> None:
        for text, script in text_rows("trace-scripts.txt"):
            self.check(["trace"], text.encode(), 0, script.replace(";", "\n").encode())


class Examples(Answers):
    """By the cases of examples/ and their reports."""

    def test_each_report(self) -> None:
        self.assertGreaterEqual(len(CASES), 94)
        for path in CASES:
            self.check(["run"], path.read_bytes(), *report_of(path))

    def test_last_lines(self) -> None:
        """The final lines of requests of two kinds, and of hosts that ask each other's cubes."""
        lines = {}
        for path in sorted((DATA / "endings").glob("*.toml")):
            ending = path.with_suffix(".final").read_bytes()
            for program in builds():
                with self.subTest(program.name, case=path.name):
                    status, written, _ = answer(program, ["run"], path.read_bytes())
                    self.assertEqual((status, written[-len(ending) :]), (0, ending))
                    lines[path.stem] = written.count(b"\n")
        self.assertEqual((len(lines), lines["two-kinds"]), (2, 945))

    def test_made_cases(self) -> None:
        """Nothing is read. Leading zeros change nothing."""
        for number, name in MADE.items():
            self.check_unread(["make", number], 0, (EXAMPLES / f"{name}.report").read_bytes())

    def test_bounds(self) -> None:
        paths = sorted([*EXAMPLES.glob("*.bound"), *(DATA / "bounds").glob("*.bound")])
        self.assertGreaterEqual(len(paths), 11)
        for path in paths:
            case = path.with_suffix(".toml").read_bytes()
            status = REFUSED_BOUNDS.get(path.stem, 0)
            self.check(["bound"], case, status, path.read_bytes())

    def test_as_many_rounds_as_a_bound_drain(self) -> None:
        """The case of two requests, with the rounds of its bound in the place of a comment."""
        case = (EXAMPLES / "bound-two-requests.toml").read_bytes()
        ending = (EXAMPLES / "bound-two-requests.final").read_bytes()
        line = b"# No round follows.\n"
        self.assertEqual(case.count(line), 1)
        for program in builds():
            longer = case.replace(line, b"round 10000\n")
            status, written, _ = answer(program, ["run"], longer)
            self.assertEqual(status, 0)
            self.assertTrue(written.endswith(ending))
            self.assertEqual(written.count(b"\n"), 120_002 + ending.count(b"\n"))

    def test_changed_reports(self) -> None:
        """`check` of each report, as it is and with one change of each kind."""
        for path in CASES:
            case, (_, report) = path.read_bytes(), report_of(path)
            due = report.splitlines(keepends=True)
            entries = sum(not line.decode().startswith(FINALS) for line in due)
            for change, text in changes_of(report).items():
                number = first_unfit(due, text.splitlines(keepends=True))
                wanted = (8, f"unlawful {number}\n") if number else (0, f"lawful {entries}\n")
                for program in builds():
                    with self.subTest(program.name, case=path.name, change=change):
                        found = answer(program, ["check"], with_case(case, text))
                        self.assertEqual(found, (wanted[0], wanted[1].encode(), b""))


if __name__ == "__main__":
    unittest.main()
