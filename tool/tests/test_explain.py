"""Tests of `explain` and `lint`: flits as people have them, reports, and the faults of a case."""

import json
import tempfile
import unittest
from pathlib import Path

from tool import case
from tool.nearest import nearest
from tool.pasted import flits_in
from tool.tests.shared import EXAMPLES, bad_cases, output_of, tool
from tool.trouble import Trouble

FIRST = "08010040000000000001020304050607"
LAST = "08090a0b0c0d0e0f000404000158a362"
BASE = (EXAMPLES / "write-then-read.toml").read_text("utf-8")


class Pasted(unittest.TestCase):
    def test_flits_as_people_have_them(self) -> None:
        wanted = [bytes.fromhex(FIRST), bytes.fromhex(LAST)]
        rows = (
            f"{FIRST} {LAST}",
            f"{FIRST}{LAST}",
            f"0x{FIRST}, 0X{LAST}",
            f"128'h{FIRST} 128'h{LAST}",
            f"{FIRST.upper()}\n{LAST}\n",
            f"0x{FIRST[:16]}_{FIRST[16:]} {LAST}",
            " ".join(f"{FIRST}{LAST}"[at : at + 2] for at in range(0, 64, 2)),
            f"sent 0 new {FIRST}\nidle land 1 empty\nsent 0 new {LAST}",
            f"  880: landed 0 {FIRST} gathered\n  892: landed 0 {LAST} accepted",
            f"passed 0 {FIRST}\n{LAST}",
        )
        for text in rows:
            self.assertEqual(flits_in(text), wanted, text)

    def test_the_last_byte_first(self) -> None:
        turned = "".join(FIRST[at : at + 2] for at in range(30, -2, -2))
        self.assertEqual(flits_in(turned, is_reversed=True), [bytes.fromhex(FIRST)])
        plain = output_of("explain", FIRST, LAST)
        first = output_of("explain", "--reversed", turned).splitlines()[0]
        self.assertEqual(first, plain.splitlines()[0])

    def test_what_is_no_flit(self) -> None:
        for text in ("", "0102", FIRST[:-1], f"{FIRST}0", f"{FIRST[:-1]}g", "gave"):
            with self.assertRaises(Trouble):
                flits_in(text)

    def test_a_line_that_lacks_a_digit(self) -> None:
        said = tool("explain", f"sent 0 new {FIRST[:-1]}").stderr.decode()
        wanted = f"unexpected `{FIRST[:-1]}`: a flit of 32 digits is expected"
        self.assertIn(f"is not a line of a report: {wanted}", said)

    def test_a_line_without_a_flit(self) -> None:
        """Alone it is not explained; beside flits it is skipped."""
        for line in ("took 0 1 read 0 0001", "  1141: memory 0 0x40 00", "state drained", "gave"):
            said = tool("explain", line).stderr.decode()
            self.assertIn(f"`{line.strip()}` has no flit: docs/report.md explains", said)
        self.assertEqual(flits_in(f"took 0 0 done 0\n{FIRST}"), [bytes.fromhex(FIRST)])

    def test_standard_input(self) -> None:
        given = f"sent 0 new {FIRST}\nsent 0 new {LAST}\n".encode()
        said = tool("explain", "-", given=given).stdout.decode()
        self.assertEqual(said, output_of("explain", FIRST, LAST))


class Reports(unittest.TestCase):
    def test_each_flit_of_a_report(self) -> None:
        """The fields of a packet are those that `explain` shows of its flits."""
        path = EXAMPLES / "two-profiles.report"
        text = output_of("explain", str(path), "--case", str(path.with_suffix(".toml")))
        rows = text.splitlines()
        lines = path.read_text("utf-8").splitlines()
        with_flits = [line for line in lines if line.split(" ")[0] in ("sent", "landed", "passed")]
        self.assertEqual(len(rows), len(with_flits))
        for row, line in zip(rows, with_flits):
            self.assertIn(f": {line}  ", row)
        wrong = [row for row in rows if " new " in row and row.endswith("check wrong")]
        self.assertEqual(wrong, [])
        tail = "rd_rs, flit 2 of 2, tag 3, cube 0, SLID 0, FRP"
        self.assertTrue(any(tail in row for row in rows))

    def test_json_with_the_fields_of_flits(self) -> None:
        """By the worked packet of docs/tool.md: the second flit has the tail."""
        path = str(EXAMPLES / "write-then-read.report")
        rows = map(json.loads, output_of("json", "--decode", path).splitlines())
        found = [row["decoded"] for row in rows if row.get("what") == "new"]
        packet = {"packet": "wr16", "of": 2, "tag": 0, "address": 64, "cube": 0}
        self.assertEqual(found[0], {**packet, "flit": 1})
        tail = {"frp": 3, "seq": 2, "rtc": 2, "rrp": 2, "slid": 0, "check": "right"}
        self.assertEqual(found[1], {**packet, "flit": 2, **tail})

    def test_a_changed_length(self) -> None:
        """What lands is gathered as the receiver says, whatever the first flit names."""
        path = EXAMPLES / "changed-first-flit.report"
        rows = output_of("explain", str(path)).splitlines()
        gathered = [row for row in rows if " gathered" in row and "of 17" in row]
        self.assertGreater(len(gathered), 10)


class Words(unittest.TestCase):
    def test_the_nearest_word(self) -> None:
        known = ("inc8", "pinc8", "wr16", "wr160", "rd16", "swap16")
        rows = {"inc16": "inc8", "write16": "wr16", "RD16": "rd16", "rd17": "rd16", "xyzzy": ""}
        for word, wanted in rows.items():
            self.assertEqual(nearest(word, known), wanted)

    def advice(self, old: str, new: str) -> str:
        """The last line that `lint` writes of a case with one change."""
        given = BASE.replace(old, new, 1).encode()
        ran = tool("lint", "-", given=given)
        self.assertEqual(ran.returncode, 65)
        return ran.stdout.decode().splitlines()[-1]

    def test_suggestions(self) -> None:
        self.assertIn("the nearest word is `inc8`", self.advice("rd16", "inc16"))
        self.assertIn("the nearest word is `round`", self.advice("round", "rounds"))
        given = BASE.replace("queue", "queues").encode()
        self.assertIn(b"the nearest one is `queue`", tool("lint", "-", given=given).stdout)
        said = self.advice("000102030405060708090a0b0c0d0e0f", "00")
        self.assertEqual(said, "wr16 carries 32 hexadecimal digits, and this word has 2")

    def test_faults_of_the_net_name_the_part(self) -> None:
        self.assertIn("there is h1, and no link ends at h0", self.advice('"h0"', '"h1"'))
        cube = BASE[BASE.index("[[cubes]]") : BASE.index("[[links]]")]
        self.assertIn("no path leads from c0 to c1", self.advice(cube, cube + cube))
        many = cube.replace("rows = 4", "rows = 1024").replace("_bits = 0", "_bits = 4")
        said = self.advice(cube, many.replace("vault_bits = 4", "vault_bits = 5"))
        self.assertTrue(said.endswith(f": {256 * 1024 * 512:,}"), said)


class Lint(unittest.TestCase):
    def test_no_fault(self) -> None:
        ran = tool("lint", str(EXAMPLES / "fence.toml"))
        self.assertEqual((ran.returncode, ran.stdout, ran.stderr), (0, b"", b""))

    def test_all_faults_at_once(self) -> None:
        """A fault in each part of a case; those of the texts at their lines of the file."""
        text = BASE.replace("profile = 1", "profile = 1\ncolour = 2")
        text = text.replace("rows = 4", "rows = 0")
        text = text.replace("tokens = 34", "tokens = 16").replace('"c0.0"', '"c4.0"')
        text = text.replace("0 rd16 0 0x40", "0 rd17 0 0x40\n9 rd16 0 0x40")
        text = text.replace("round", "sound")
        with tempfile.TemporaryDirectory() as folder:
            path = Path(folder) / "case.toml"
            path.write_text(text, encoding="utf-8")
            said = tool("lint", str(path)).stdout.decode()
        faults = [line for line in said.splitlines() if line.startswith("bad ")]
        wanted = "top 0 unknown, cube 0 range, link 0 range, link 0 nocube, script 3 command, "
        wanted += "script 4 host, schedule 1 step"
        self.assertEqual(faults, [f"bad {it}" for it in wanted.split(", ")])
        lines = text.split("\n")
        for word in ("colour", "rows = 0", "tokens = 16", "0 rd17 0 0x40", "9 rd16 0 0x40"):
            number = next(n for n, line in enumerate(lines, start=1) if line.startswith(word))
            self.assertIn(f"case.toml:{number}:", said)

    def test_the_first_fault_is_that_of_the_program(self) -> None:
        """By the table of faulty cases."""
        for _, text, wanted in bad_cases():
            document, fault = case.document_of(text.encode())
            found = [fault] if fault else list(case.faults(document))
            self.assertEqual(str(found[0]), wanted)


if __name__ == "__main__":
    unittest.main()
