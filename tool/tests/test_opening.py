"""Tests of files that are no reports, logs without events, and what is too long to read or to show:
each reader refuses them, and says so first."""

import tempfile
import unittest
from pathlib import Path

from tool.tests.shared import EXAMPLES, tool
from tool.texts import INPUT_BYTES

NAME = "write-then-read"
CASE = str(EXAMPLES / f"{NAME}.toml")
REPORT = EXAMPLES / f"{NAME}.report"
LONG = 1 << 20


class Files(unittest.TestCase):
    def setUp(self) -> None:
        room = tempfile.TemporaryDirectory()
        self.addCleanup(room.cleanup)
        self.folder = Path(room.name)

    def written(self, data: bytes) -> str:
        """The name of a file with these bytes."""
        path = self.folder / "file"
        path.write_bytes(data)
        return str(path)


class Opening(Files):
    def test_a_file_that_is_no_report(self) -> None:
        """Each reader of reports says what it is, in a line."""
        trace = self.folder / "trace"
        trace.write_bytes(b"cube 0 0 1\n0 load 0 4\n")
        rows = (
            (Path("/bin/sh").read_bytes(), "it has bytes that are no text"),
            (Path(CASE).read_bytes(), "it has the lines of a case"),
            (REPORT.read_bytes().replace(b"\n", b"\r\n"), "its lines end with carriage returns"),
            (b"0 rd16 0 0\n", "no line begins with `0`"),
            (b"a" * LONG, f"no line begins with `{'a' * 80}..`"),
        )
        for data, said in rows:
            name = self.written(data)
            for words in (
                ("json", name),
                ("json", "--case", CASE, name),
                ("diff", str(REPORT), name),
                ("diff", name, str(REPORT)),
                ("wave", name, CASE),
                ("explain", name),
                ("explain", "--case", CASE, name),
                ("values", str(trace), name),
                ("check", CASE, name),
            ):
                ran = tool(*words)
                self.assertEqual((ran.returncode, ran.stdout), (65, b""), words)
                wanted = f"zehimbado: {name} is not a report: {said}"
                self.assertTrue(ran.stderr.decode().startswith(wanted), ran.stderr[:300])
                self.assertEqual(ran.stderr.count(b"\n"), 1)
        ran = tool("json", given=b"profile = 1\n")
        self.assertIn(b"standard input is not a report: it has the lines of a case", ran.stderr)

    def test_what_is_one(self) -> None:
        """A line of a report near the beginning is enough, and so is no line for `diff`."""
        lines = REPORT.read_bytes().splitlines(keepends=True)
        name = self.written(b"".join([b"what is this\n", *lines]))
        self.assertIn(b"line 1 is not a line of a report: no line", tool("json", name).stderr)
        self.assertEqual(tool("diff", name, str(REPORT)).returncode, 1)
        for data, status in ((b"", 0), (lines[0], 1)):
            empty = self.folder / "empty"
            empty.write_bytes(b"")
            self.assertEqual(tool("diff", self.written(data), str(empty)).returncode, status)

    def test_a_log_without_an_event(self) -> None:
        for log in (b"", b"\n# a comment\n \n"):
            ran = tool("convert", self.written(log), CASE)
            self.assertEqual((ran.returncode, ran.stdout), (65, b""))
            self.assertIn(b"the log has no event", ran.stderr)


class Long(Files):
    def test_long_words_are_cut(self) -> None:
        """A word of a megabyte comes back as its front alone."""
        word = "b" * LONG
        text = Path(CASE).read_text("utf-8")
        rows = (
            ("json", f"gave {word} 0 rd16 0 0\n"),
            ("json", f"gave 0 0 rd16 0 0 {word} 0\n"),
            ("json", f"gave 0 0 {word} 0 0x0\n"),
            ("convert {} " + CASE, f"{word} out h0\n"),
            ("convert {} " + CASE, f"1 {word} h0\n"),
            ("convert {} " + CASE, f"1 out {word}\n"),
            ("diff {} " + str(REPORT), f"idle {word}\n"),
            ("lint", text.replace("0 rd16", f"0 {word}")),
            ("lint", text.replace("0 rd16 0 0x40", f"0 rd16 0 0x40 {word}")),
            ("lint", text.replace("round 95", f"round {word}")),
            ("lint", text.replace("round 95", f"{word}")),
            ("lint", f"{word} = 1\n{text}"),
            ("lint", f"{word}"),
            ("show", text.replace("tokens", word)),
        )
        for words, data in rows:
            name = self.written(data.encode())
            command = words.replace("{}", name) if "{}" in words else f"{words} {name}"
            ran = tool(*command.split(" "))
            self.assertIn(ran.returncode, (1, 65), command)
            self.assertLess(len(ran.stdout) + len(ran.stderr), 6000, (command, data[:40]))


class Bounds(Files):
    def test_what_is_longer_than_the_program_reads(self) -> None:
        """Each reader of a case or a trace refuses it before it reads it as one."""
        text = Path(CASE).read_bytes()
        for size, status in ((INPUT_BYTES, 0), (INPUT_BYTES + 1, 65), (16 * INPUT_BYTES, 65)):
            name = self.written(text + b"# ".ljust(size - len(text), b"x"))
            for words in (
                ("lint", name),
                ("show", name),
                ("wave", str(REPORT), name),
                ("json", "--case", name, str(REPORT)),
                ("explain", "bad top 0 range", name),
                ("convert", str(self.log()), name),
                ("shrink", name, "--", "false"),
                ("values", name, str(REPORT)),
                ("check", name, str(REPORT)),
            ):
                if status == 0 and words[0] in ("shrink", "values"):
                    continue
                ran = tool(*words)
                self.assertEqual(ran.returncode, status, (words, ran.stderr))
                if status:
                    what = "a trace" if words[0] == "values" else "a case"
                    said = f"{name} is longer than 4,194,304 bytes, which {what} has at most"
                    self.assertEqual(ran.stderr.decode(), f"zehimbado: {said}\n")
                    self.assertEqual(ran.stdout, b"")

    def log(self) -> Path:
        """A log of an event."""
        path = self.folder / "log"
        path.write_bytes(b"1 request 0 rd16 0 0\n")
        return path

    def test_lint_says_that_a_case_is_none(self) -> None:
        """Its status is not 0, so standard error has a line too."""
        name = self.written(Path(CASE).read_bytes().replace(b"tokens = 34", b"tokens = 16"))
        ran = tool("lint", name)
        self.assertEqual(ran.returncode, 65)
        self.assertEqual(ran.stderr.decode(), f"zehimbado: {name} is not a valid case\n")
        self.assertTrue(ran.stdout.startswith(b"bad link 0 range\n"))


if __name__ == "__main__":
    unittest.main()
