"""Tests of what reads reports, `json` and `diff`, on the stored reports of examples/."""

import json
import re
import unittest
from typing import Any

from tool import diff, report
from tool.lines import Line
from tool.tests.shared import CASES, EXAMPLES, output_of, tool
from tool.trouble import NotALine


def lines_of(name: str) -> list[str]:
    """The lines of a stored report."""
    return (EXAMPLES / f"{name}.report").read_text(encoding="utf-8").splitlines()


def entries(lines: list[str]) -> list[tuple[int, Line, str]]:
    """The numbered records of these lines."""
    return list(report.numbered(lines))


def compare(mine: list[str], theirs: list[str], **how: Any) -> list[str]:
    """What `diff` says of two reports."""
    return diff.compare(lambda: mine, lambda: theirs, diff.How(("A", "B"), **how))


class Json(unittest.TestCase):
    def test_every_line_of_every_report(self) -> None:
        """What is read of a line spells the line again."""
        for path in CASES:
            lines = path.with_suffix(".report").read_text(encoding="utf-8").splitlines()
            shown = output_of("json", "--case", str(path), str(path.with_suffix(".report")))
            for line, row in zip(lines, shown.splitlines(), strict=True):
                self.assertEqual(spelled(json.loads(row)), line)

    def test_an_object_a_line(self) -> None:
        text = output_of("json", str(EXAMPLES / "each-kind-of-step.report"))
        objects = [json.loads(line) for line in text.splitlines()]
        first = {
            "entry": 1,
            "line": "gave",
            "host": 0,
            "tag": 0,
            "request": {
                "poisoned": False,
                "command": "wr16",
                "cube": 0,
                "address": 0x140,
                "bytes": "000102030405060708090a0b0c0d0e0f",
            },
        }
        self.assertEqual(objects[0], first)
        self.assertEqual(objects[-1], {"line": "state", "state": "drained"})
        self.assertEqual(len(objects), len(lines_of("each-kind-of-step")))

    def test_a_report_of_a_fault(self) -> None:
        read = tool("json", given=b"bad link 0 range\n").stdout
        wanted = {"line": "bad", "section": "link", "number": 0, "kind": "range"}
        self.assertEqual(json.loads(read), wanted)

    def test_lines_that_no_report_has(self) -> None:
        rows = {
            "": "no line begins with ``",
            "jumped 0": "no line begins with `jumped`",
            "took 0 0": "a word is missing: an answer is expected",
            "took 0 0 done 2": "unexpected `done`: an answer is expected",
            "took 0 00 done 0": "unexpected `00`: a number is expected",
            "took 0 0 done 0 0": "unexpected `0`: the line ends before it",
            "sent 0 new 00": "unexpected `00`: a flit of 32 digits is expected",
            "idle jump 0 full": "unexpected `jump`: a step is expected",
            "gave 0 0 wr16 0 0x0 00": "wr16 carries 32 digits, and here are 2",
            "state idle": "unexpected `idle`: drained or busy is expected",
            "took 0 0 done 0\r": "it has a carriage return, and lines of reports have none",
        }
        for line, said in rows.items():
            with self.assertRaises(NotALine, msg=line) as caught:
                report.read_line(line)
            self.assertEqual(str(caught.exception), said)
        self.assertEqual(tool("json", given=b"state idle\n").returncode, 65)


def spelled(fields: dict[str, Any]) -> str:
    """A line from its fields, by the tables of docs/report.md."""
    words = []
    for name, value in fields.items():
        if name != "entry":
            words.append(spelled_value(fields["line"], name, value))
    return " ".join(words)


def spelled_value(line: str, name: str, value: Any) -> str:
    """The words of one field."""
    if name == "request":
        return spelled_request(value)
    if name == "answer":
        return " ".join(spelled_value("answer", key, part) for key, part in value.items())
    if isinstance(value, bool):
        return str(int(value))
    if name == "address":
        return f"0x{value:x}"
    if name == "value":
        return f"{value:08x}"
    if name == "port" and line == "lifted":
        return f"p{value}"
    return "-" if value is None else str(value)


def spelled_request(fields: dict[str, Any]) -> str:
    """The words of a request."""
    words = ["poison"] if fields["poisoned"] else []
    words += [fields["command"], str(fields["cube"]), f"0x{fields['address']:x}"]
    return " ".join(words + [str(fields[key]) for key in ("bytes", "value") if key in fields])


class Diff(unittest.TestCase):
    def test_equal_reports(self) -> None:
        path = str(EXAMPLES / "fence.report")
        self.assertEqual(tool("diff", path, path).returncode, 0)
        self.assertEqual(output_of("diff", path, path), "")

    def test_a_flit_that_differs(self) -> None:
        """FRP 2 in place of 3: the field and the check are named, and what the direction did."""
        mine = lines_of("write-then-read")
        number = mine.index("sent 0 new 08090a0b0c0d0e0f02060840ce08fdd5")
        theirs = list(mine)
        theirs[number] = "sent 0 new 08090a0b0c0d0e0f02040840ce08fdd5"
        said = compare(mine, theirs)
        self.assertEqual(said[0], f"the reports differ at line {number + 1}")
        self.assertEqual(said[1:3], [f"A: {mine[number]}", f"B: {theirs[number]}"])
        fields = [line.split() for line in said]
        self.assertIn(["FRP", "17..9", "2"], fields)
        self.assertIn(["FRP", "17..9", "3"], fields)
        self.assertNotIn(["SEQ", "20..18", "1"], fields)
        start = said.index("before, in both reports, direction 0:")
        earlier = [line.split(": ")[1] for line in said[start + 1 :]]
        of_direction = [it for it in mine[:number] if re.match("(sent|landed) 0", it)]
        self.assertEqual(earlier, of_direction[-len(earlier) :])
        self.assertTrue(earlier)

    def test_an_answer_that_differs(self) -> None:
        mine = lines_of("write-then-read")
        theirs = [line.replace("took 0 1 read 0 00", "took 0 1 read 0 ff") for line in mine]
        said = compare(mine, theirs)
        start = said.index("before, in both reports, requests of host 0 with tag 1:")
        first_words = [line.split()[1] for line in said[start + 1 :]]
        self.assertEqual(first_words, ["gave", "executed"])

    def explained(self, name: str, number: int, line: str) -> list[str]:
        """What is said of a flit where this line stands in place of the report's line."""
        mine = lines_of(name)
        theirs = [*mine[: number - 1], line, *mine[number:]]
        said = compare(mine, theirs)
        self.assertEqual(said[0], f"the reports differ at line {number}")
        return [it.strip() for it in said[said.index("in the flit of B:") + 1 :]]

    def test_a_flit_that_lands_in_abort(self) -> None:
        """A receiver that gathers nothing begins a packet with each flit."""
        first = "08010040000000000001020304050607"
        for outcome, wanted in (("quiet", "flit 1 of 2"), ("gathered", "flit 2 of 2")):
            mine = [f"landed 0 {first} {outcome}", f"landed 0 {first} quiet"]
            said = compare(mine, [mine[0], f"landed 0 {'ff' * 16} quiet"])
            self.assertIn(f"  {wanted}  {first}", said)

    def test_a_flit_after_an_unlock(self) -> None:
        """A receiver that is unlocked drops what it gathered."""
        lines = lines_of("unlock-within-packet")
        unlock = next(n for n, line in enumerate(lines) if line.startswith("unlocked "))
        direction = lines[unlock].split(" ")[1]
        front = [it for it in lines[:unlock] if it.startswith(f"landed {direction} ")][-1]
        self.assertTrue(front.endswith(" gathered"))
        landed = f"landed {direction} "
        number = next(n for n in range(unlock, len(lines)) if lines[n].startswith(landed))
        said = self.explained("unlock-within-packet", number + 1, f"{landed}{'5a' * 16} quiet")
        self.assertEqual(said[0], f"flit 1  {'5a' * 16}")

    def test_a_landing_that_passed(self) -> None:
        lines = lines_of("passed-null")
        self.assertEqual(lines[-1], f"passed 0 {'00' * 16}")
        said = self.explained("passed-null", len(lines), f"landed 0 {'00' * 15}01 aborted length")
        self.assertEqual(said[0], f"flit 1  {'00' * 15}01")
        self.assertIn("before, in both reports, direction 0:", said)

    def test_a_flit_that_is_sent_again(self) -> None:
        lines = lines_of("changed-flit")
        again = [n for n, line in enumerate(lines) if line.startswith("sent 0 again ")]
        flit = f"ff{lines[again[1]].split(' ')[3][2:]}"
        said = self.explained("changed-flit", again[1] + 1, f"sent 0 again {flit}")
        self.assertEqual(said[0], f"flit 2 of 2  {flit}")

    def test_a_slot_and_a_line_of_counters(self) -> None:
        mine = lines_of("retired-slots")
        retired = mine.index("retired 1")
        said = compare(mine, [*mine[:retired], "idle retire 1 empty"])
        self.assertEqual(said[3:], ["before, in both reports, slot 1:", "  nothing"])
        again = mine.index("idle retire 1 empty")
        said = compare(mine, [*mine[:again], "retired 1"])
        slot = ["before, in both reports, slot 1:", f"  {retired + 1}: retired 1"]
        self.assertEqual(said[3:], slot)
        counters = next(n for n, line in enumerate(mine) if line.startswith("counters 1 "))
        said = compare(mine, [*mine[:counters], "counters 1 0 0 0 0 0 0"])
        self.assertEqual(said[0], f"the reports differ at line {counters + 1}, a final line")
        self.assertIn("before, in both reports, direction 1:", said)

    def test_a_report_that_ends(self) -> None:
        mine = lines_of("fence")
        said = compare(mine, mine[:5])
        self.assertEqual(said[0], "the reports differ at line 6")
        self.assertEqual(said[2], "B: (the report ends here)")


    def test_all_differences_that_are_no_consequences(self) -> None:
        """Of lines of a direction, a host and a bank that differ, only the first ones are shown."""
        mine = lines_of("equal-tags")
        wanted: list[int] = []
        theirs = list(mine)
        for front in ("sent 0 new ", "took 1 ", "landed 0 ", "took 1 "):
            after = wanted[-1] if wanted else 0
            number = next(n for n in range(after, len(mine)) if mine[n].startswith(front))
            theirs[number] = theirs[number][:-1] + ("1" if mine[number][-1] == "0" else "0")
            wanted.append(number + 1)
        said = compare(mine, theirs, is_all=True)
        shown = [int(it.split()[-1]) for it in said if it.startswith("the reports differ")]
        first = wanted[:2]
        self.assertEqual(shown[:2], first)
        self.assertNotIn(wanted[2], shown)
        self.assertNotIn(wanted[3], shown)
        said = compare(mine, theirs)
        self.assertEqual([it for it in said if it.startswith("the reports differ")], [said[0]])
        self.assertEqual(said[0], f"the reports differ at line {first[0]}")
        said = compare(mine, theirs, start=first[0] + 1, context=1)
        self.assertEqual(said[0], f"the reports differ at line {first[1]}")
        self.assertEqual(sum(it.startswith("  ") for it in said), 1)


if __name__ == "__main__":
    unittest.main()
