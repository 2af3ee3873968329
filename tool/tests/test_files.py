"""Tests of what is read and written: nothing is lost, and each failure is one line and a status."""

import os
import re
import shlex
import shutil
import signal
import subprocess
import sys
import tempfile
import unittest
from collections.abc import Iterator
from pathlib import Path

from tool.tests.shared import EXAMPLES, TOP, tool
from tool.verbs import COMMANDS

CASE = EXAMPLES / "changed-flit.toml"
REPORT = EXAMPLES / "changed-flit.report"
TOOL = f"{shlex.quote(sys.executable)} {shlex.quote(str(TOP / 'zehimbado'))}"
# Commands that write much or little to standard output, and what they read.
WRITE = (
    f"json {REPORT}",
    f"wave {REPORT} {CASE}",
    f"view {REPORT} {CASE}",
    f"stats {REPORT} {CASE}",
    f"show {CASE}",
    f"explain {REPORT}",
    f"diff {REPORT} {EXAMPLES / 'fence.report'}",
    "sample 1",
    "help",
    "--version",
    "json --help",
)


def shell(text: str) -> subprocess.CompletedProcess[str]:
    """Runs a line of a shell, in which `zehimbado` is the tool."""
    line = f"zehimbado() {{ {TOOL} \"$@\"; }}; {text}"
    return subprocess.run(["bash", "-c", line], capture_output=True, text=True, timeout=60)


class Outputs(unittest.TestCase):
    def setUp(self) -> None:
        folder = tempfile.TemporaryDirectory()
        self.addCleanup(folder.cleanup)
        self.folder = Path(folder.name)
        self.case = Path(shutil.copy(CASE, self.folder / "case.toml"))
        self.report = Path(shutil.copy(REPORT, self.folder / "a.report"))

    def test_an_input_is_not_overwritten(self) -> None:
        """By its own name, another path, a link or a symbolic link."""
        (self.folder / "hard").hardlink_to(self.case)
        (self.folder / "soft").symlink_to(self.case)
        dotted = self.folder / "." / ".." / self.folder.name / "case.toml"
        for name in (self.case, self.folder / "hard", self.folder / "soft", dotted):
            rows = (
                ["wave", self.report, self.case, "-o", name],
                ["view", self.report, self.case, "-o", name],
                ["stats", self.report, self.case, "-o", name],
                ["cover", self.report, "--case", self.case, "-o", name],
                ["show", self.case, "--svg", name],
                ["run", self.case, "-o", name],
                ["try", self.case, "-o", name],
                ["convert", os.devnull, self.case, "-o", name],
                ["shrink", "-o", name, self.case, "--", "false"],
                ["wave", self.report, self.case, "-o", self.folder / "v", "--save", name],
            )
            for words in rows:
                ran = tool(*map(str, words))
                self.assertEqual((ran.returncode, ran.stdout), (64, b""), words)
                self.assertEqual(self.case.read_bytes(), CASE.read_bytes(), words)
        ran = tool("wave", str(self.report), str(self.case), "-o", str(self.report))
        self.assertEqual((ran.returncode, self.report.read_bytes()), (64, REPORT.read_bytes()))
        status = shell(f"zehimbado run -o {self.case} < {self.case}").returncode
        self.assertEqual((status, self.case.read_bytes()), (64, CASE.read_bytes()))

    def test_an_old_file_stays_where_the_new_one_is_not_whole(self) -> None:
        target = self.folder / "old"
        target.write_text("old\n", encoding="utf-8")
        bad = self.folder / "bad.report"
        bad.write_bytes(REPORT.read_bytes() + b"nonsense\n")
        for words in (
            ["wave", bad, self.case, "-o", target],
            ["wave", self.report, EXAMPLES / "fence.toml", "-o", target],
            ["view", self.report, EXAMPLES / "fence.toml", "-o", target],
            ["stats", bad, self.case, "-o", target],
            ["cover", bad, "--case", self.case, "-o", target],
            ["run", self.folder / "no-such.toml", "-o", target],
            ["shrink", "-o", target, self.case, "--", "true"],
        ):
            self.assertNotEqual(tool(*map(str, words)).returncode, 0)
            self.assertEqual(target.read_text("utf-8"), "old\n", words)
        names = {path.name for path in self.folder.iterdir()}
        self.assertEqual(names, {"case.toml", "a.report", "old", "bad.report"})

    def test_a_new_file_has_the_usual_permissions(self) -> None:
        target = self.folder / "out.vcd"
        tool("wave", str(self.report), str(self.case), "-o", str(target))
        plain = self.folder / "plain"
        plain.touch()
        self.assertEqual(target.stat().st_mode, plain.stat().st_mode)
        target.chmod(0o600)
        tool("wave", str(self.report), str(self.case), "-o", str(target))
        self.assertEqual(target.stat().st_mode & 0o777, 0o600)

    def test_a_symbolic_link_stays_one(self) -> None:
        link, goal = self.folder / "link", self.folder / "goal"
        goal.write_text("old\n", encoding="utf-8")
        link.symlink_to(goal)
        tool("wave", str(self.report), str(self.case), "-o", str(link))
        self.assertTrue(link.is_symlink())
        self.assertIn("$enddefinitions", goal.read_text("utf-8"))

    def test_a_folder_that_cannot_be_written(self) -> None:
        for name in ("/no/such/folder/out", str(self.folder)):
            ran = tool("wave", str(self.report), str(self.case), "-o", name)
            self.assertEqual((ran.returncode, ran.stdout), (73, b""))
            self.assertEqual(ran.stderr.count(b"\n"), 1)


# Writes an output, and while it isn't whole says so and does as a line says.
WRITER = """\
import os, signal, sys
sys.path.insert(0, sys.argv[1])
from tool import files
with files.written(sys.argv[2]) as sink:
    sink.write(b"some of it")
    sink.flush()
    print("begun", flush=True)
    if sys.stdin.readline() == "die":
        os.kill(os.getpid(), signal.SIGKILL)
"""


class Left(unittest.TestCase):
    def setUp(self) -> None:
        folder = tempfile.TemporaryDirectory()
        self.addCleanup(folder.cleanup)
        self.folder = Path(folder.name)

    def writer(self, name: str) -> "subprocess.Popen[str]":
        """A process that has begun to write an output, and waits for a line."""
        words = [sys.executable, "-c", WRITER, str(TOP), str(self.folder / name)]
        pipe = subprocess.PIPE
        running = subprocess.Popen(words, stdin=pipe, stdout=pipe, text=True)
        assert running.stdout
        self.assertEqual(running.stdout.readline(), "begun\n")
        return running

    def hidden(self) -> list[str]:
        """The hidden files of the folder, without what is random in their names."""
        names = (path.name for path in self.folder.iterdir())
        return sorted(name.split(".")[1] for name in names if name.startswith("."))

    def test_what_a_killed_command_leaves(self) -> None:
        """The next one that writes to the folder removes it, and nothing that is still written."""
        (self.folder / ".mine.zehimbado").symlink_to("nowhere")
        with self.writer("killed") as killed, self.writer("alive") as alive:
            killed.communicate("die")
            self.assertEqual(self.hidden(), ["alive", "killed", "mine"])
            ran = tool("sample", "1", "-o", str(self.folder / "case.toml"))
            self.assertEqual((ran.returncode, ran.stderr), (0, b""))
            self.assertEqual(self.hidden(), ["alive", "mine"])
            alive.communicate("\n")
        self.assertEqual((self.folder / "alive").read_bytes(), b"some of it")
        self.assertEqual(self.hidden(), ["mine"])

    def test_a_long_name(self) -> None:
        """A name of the greatest length is that of an output too."""
        target = self.folder / ("n" * 255)
        ran = tool("sample", "1", "-o", str(target))
        self.assertEqual((ran.returncode, ran.stderr), (0, b""))
        self.assertTrue(target.is_file())


class Signals(unittest.TestCase):
    def test_a_signal_before_the_script_is_read(self) -> None:
        """It ends the script, which says nothing."""
        with tempfile.TemporaryDirectory() as folder:
            script = shutil.copy(TOP / "zehimbado", folder)
            Path(folder, "tool").mkdir()
            for name in ("SIGINT", "SIGTERM", "SIGHUP"):
                code = f"import os, signal\nos.kill(os.getpid(), signal.{name})\n"
                Path(folder, "tool", "cli.py").write_text(code, encoding="utf-8")
                command = [sys.executable, "-B", script, "help"]
                ran = subprocess.run(command, capture_output=True, text=True)
                wanted = -int(getattr(signal, name))
                self.assertEqual((ran.returncode, ran.stdout, ran.stderr), (wanted, "", ""), name)


class Streams(unittest.TestCase):
    def check(self, text: str, status: int, words: str) -> None:
        ran = shell(text)
        self.assertEqual(ran.returncode, status, text)
        self.assertEqual(ran.stdout, "", text)
        self.assertIn(words, ran.stderr)
        self.assertLessEqual(ran.stderr.count("\n"), 1, ran.stderr)

    def test_a_full_disk(self) -> None:
        for words in WRITE:
            self.check(f"zehimbado {words} >/dev/full", 74, "standard output: No space left")
        ran = shell(f"zehimbado wave {REPORT} {CASE} -o /dev/full")
        self.assertEqual((ran.returncode, ran.stderr.count("\n")), (73, 1))

    def test_a_closed_output(self) -> None:
        for words in WRITE:
            self.check(f"zehimbado {words} >&-", 74, "standard output: it is closed")

    def test_a_closed_pipe(self) -> None:
        for words in WRITE:
            ran = shell(f"zehimbado {words} | true; echo ${{PIPESTATUS[0]}}")
            self.assertEqual(ran.stderr, "", words)
            self.assertIn(ran.stdout, ("141\n", "0\n", "1\n"), words)
        # More than a pipe holds.
        words = f"json {EXAMPLES / 'row-of-eight.report'}"
        ran = shell(f"zehimbado {words} | head -1 >/dev/null; echo ${{PIPESTATUS[0]}}")
        self.assertEqual((ran.stdout, ran.stderr), ("141\n", ""))

    def test_a_closed_input(self) -> None:
        rows = ["json", "run", "try", "explain -", "lint -", f"wave - {CASE}", f"diff - {REPORT}"]
        rows += ["bound", "trace", "trace --case", f"values - {REPORT}"]
        for words in rows:
            self.check(f"zehimbado {words} <&-", 66, "standard input: it is closed")

    def test_a_closed_error_output(self) -> None:
        ran = shell("zehimbado json /no/such/file 2>&-")
        self.assertEqual((ran.returncode, ran.stdout), (66, ""))

    def test_a_file_that_is_not_there(self) -> None:
        name = "/no/such/file"
        rows = (
            f"json {name}",
            f"json --case {name} {REPORT}",
            f"diff {name} {REPORT}",
            f"diff {REPORT} {name}",
            f"wave {name} {CASE}",
            f"wave {REPORT} {name}",
            f"show {name}",
            f"lint {name}",
            f"run {name}",
            f"try {name}",
            f"bound {name}",
            f"explain bad top 0 range {name}",
            f"convert {name} {CASE}",
            f"trace {name}",
            f"trace --case {name}",
            f"values {name} {REPORT}",
            f"shrink {name} -- true",
            "lint /",
        )
        for words in rows:
            self.check(f"zehimbado {words}", 66, "cannot read /")

    def test_standard_input_wherever_a_file_is_read(self) -> None:
        for words, name in (
            ("json -", REPORT),
            ("json", REPORT),
            (f"json --case - {REPORT}", CASE),
            (f"wave - {CASE}", REPORT),
            (f"wave {REPORT} -", CASE),
            (f"diff - {EXAMPLES / 'fence.report'}", REPORT),
            ("show -", CASE),
            ("lint -", CASE),
            ("explain bad top 0 range -", CASE),
        ):
            ran = shell(f"zehimbado {words} < {name}")
            plain = shell(f"zehimbado {re.sub(' -(?= |$)', f' {name}', words)}")
            if words == "json":
                plain = shell(f"zehimbado json {name}")
            self.assertEqual(ran.returncode, plain.returncode, words)
            same = plain.stdout.replace(str(name), "standard input")
            self.assertEqual(ran.stdout.replace(str(name), "standard input"), same, words)
        ran = shell(f"zehimbado diff - - < {REPORT}")
        self.assertEqual(ran.returncode, 64)

    def test_messages_have_no_raw_bytes(self) -> None:
        ran = tool("json", given=b"gave \x1b[31m\xff 1\n")
        self.assertEqual(ran.returncode, 65)
        self.assertIn(rb"`\x1b[31m\xff`", ran.stderr)


def pythons(
    since: tuple[int, int] = (0, 0), upto: tuple[int, int] = (99, 0)
) -> Iterator[Path]:
    """Yields the Pythons of pyenv that are here, of these versions."""
    for path in Path.home().glob(".pyenv/versions/*/bin/python"):
        first, second = map(int, path.parent.parent.name.split(".")[:2])
        if since <= (first, second) <= upto:
            yield path


class Pythons(unittest.TestCase):
    def test_an_old_python_gets_a_plain_message(self) -> None:
        """As old as is here: the script has no form that they refuse."""
        source = (TOP / "zehimbado").read_text("utf-8")
        for form in ("->", "f\"", "print(", "async", ":="):
            self.assertNotIn(form, source)
        for python in pythons(upto=(3, 8)):
            command = [str(python), str(TOP / "zehimbado")]
            ran = subprocess.run(command, capture_output=True, text=True)
            self.assertEqual((ran.returncode, ran.stdout), (69, ""), python)
            self.assertRegex(ran.stderr, "^zehimbado: Python 3.9 or later is needed, and this is")

    def test_each_command_is_read_by_the_least_python(self) -> None:
        """Those that are here and have no reader of TOML: the help of a command reads its files."""
        for python in pythons(since=(3, 9), upto=(3, 10)):
            for name in COMMANDS:
                command = [str(python), str(TOP / "zehimbado"), name, "--help"]
                ran = subprocess.run(command, capture_output=True, text=True)
                self.assertEqual((ran.returncode, ran.stderr), (0, ""), f"{python} {name}")

    def test_a_python_without_a_reader_of_cases(self) -> None:
        """It says what it lacks, and what doesn't read cases works."""
        case, report = EXAMPLES / "write-then-read.toml", EXAMPLES / "write-then-read.report"
        for python in pythons(since=(3, 9), upto=(3, 10)):
            rows = ((["lint", case], 69, "Python 3.11"), (["json", report], 0, ""))
            for words, status, said in rows:
                command = [str(python), "-S", str(TOP / "zehimbado"), *map(str, words)]
                ran = subprocess.run(command, capture_output=True, text=True)
                self.assertEqual(ran.returncode, status, ran.stderr)
                self.assertIn(said, ran.stderr)


if __name__ == "__main__":
    unittest.main()
