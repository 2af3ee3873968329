"""Tests that what docs/report.md quotes is what the proved program gives, and that the commands and
messages which other pages show give what these pages say."""

import os
import re
import shlex
import subprocess
import tempfile
import unittest
from pathlib import Path

from tool import answered, build, case, documents
from tool.commands import BY_WORD
from tool.quantities import value_of
from tool.tests import pages
from tool.tests.pages import answer, flat, text_of
from tool.tests.shared import EXAMPLES, TOP, require_program, tool

CASE = EXAMPLES / "write-then-read.toml"
REPORT = CASE.with_suffix(".report")
PASSED = EXAMPLES / "passed-null.toml"
# The line of a report that another one has otherwise, as docs/tool.md has it.
FLIT, OTHER_FLIT = "08090a0b0c0d0e0f02060840ce08fdd5", "08090a0b0c0d0e0f02040840ce08fdd5"


def made_case(number: int, page: str) -> str:
    """The case of a number, by the words of docs/report.md."""
    text = pages.section(page, "A case from a number")
    ((factor, added),) = re.findall(r"`x \* ([0-9]+) \+ ([0-9]+)` modulo 2\^64", text)
    state = number

    def draw() -> int:
        nonlocal state
        state = (state * int(factor) + int(added)) % (1 << 64)
        return state >> 32

    cubes = 1 + number % 4
    ((requests, words),) = re.findall(
        r"Host 0 has ([0-9]+) requests.* at place `a mod 6` of ([^.]*)\.", flat(text)
    )
    commands = words.replace(" and ", ", ").split(", ")
    script = ""
    for _ in range(int(requests)):
        place, cube, block = draw(), draw(), draw()
        word = commands[place % 6]
        count = BY_WORD[word].payload_bytes // 4
        payload = "".join(draw().to_bytes(4, "little").hex() for _ in range(count))
        script += f"0 {word} {cube % cubes} {256 * (block % 64):#x} {payload}\n"
    numbers = {key: int(value) for key, value in re.findall(r"`(\w+)`\s+([0-9]+)", text)}
    cube_keys = {key: numbers[key] for key in case.CUBE_RANGES}
    link_keys = {key: numbers[key] for key in case.LINK_RANGES}
    ends = [("h0", "c0.0"), *((f"c{it - 1}.1", f"c{it}.0") for it in range(1, cubes))]
    links: list[dict[str, object]] = [{"a": a, "b": b, **link_keys} for a, b in ends]
    document = {
        "profile": 1,
        "script": script,
        "schedule": pages.block_after(text, "- The schedule is\n"),
        "cubes": [cube_keys] * cubes,
        "links": links,
    }
    return documents.text_of(document)


class Reports(unittest.TestCase):
    """docs/report.md."""

    TEXT = text_of("docs/report.md")

    def setUp(self) -> None:
        require_program()

    def test_the_lines_of_a_changed_flit(self) -> None:
        """They are lines of its report, one after another."""
        block = pages.block_after(self.TEXT, "the lines are\n")
        report = (EXAMPLES / "changed-flit.report").read_text(encoding="utf-8")
        self.assertEqual(block.count("\n"), 4)
        self.assertIn(f"\n{block}", report)

    def test_what_make_writes(self) -> None:
        block = pages.block_after(self.TEXT, "For `make 0` the program writes\n")
        self.assertEqual(answer("make 0"), (0, block))

    def test_the_case_of_a_number(self) -> None:
        """The case that the page describes has the lines that `make` writes."""
        for number in (0, 1, 2, 3, 1234567, (1 << 64) - 1):
            status, report = answer("run", made_case(number, self.TEXT).encode())
            last = report[report.index("\ntokens 0 ") + 1 :]
            self.assertEqual(answer(f"make {number}"), (status, last), number)

    def test_the_words_of_the_program(self) -> None:
        """Each word that the page lists is one, and with no other word anything is done."""
        said = r"The words on the command line are (.*?)\. With"
        (listed,) = re.findall(said, flat(self.TEXT))
        words = pages.quoted(listed)
        ends = [answer(it.replace("N", "0"))[0] for it in words]
        self.assertEqual(ends, [6, 0, 6, 6, 6])
        self.assertEqual(answer("jump"), (2, ""))
        rows = {row[0]: row[1] for row in pages.rows(text_of("docs/status.md"), "Part")}
        usage = {row[0]: row[1] for row in pages.rows(self.TEXT, "Status")}["2"]
        for text in (rows["Program"], usage):
            self.assertEqual(sorted(pages.quoted(text)), sorted(words))

    def test_each_status(self) -> None:
        """Each is led to, but 1, which `bench/refused` shows; and what is written then."""
        written = {int(it[0]): it[2] for it in pages.rows(self.TEXT, "Status")}
        self.assertEqual(sorted(written), list(range(9)))
        given, long = CASE.read_bytes(), b"#" * 4_194_305
        found = {
            0: answer("run", given),
            2: answer("runs", given),
            3: self.with_source_that_fails(),
            5: answer("run", long),
            6: answer("run", long[1:]),
            7: answer("bound", PASSED.read_bytes()),
            8: answer("check", b"case %d\n%s" % (len(given), given)),
        }
        self.assertEqual({status: it[0] for status, it in found.items()}, {it: it for it in found})
        for status in (2, 3, 5):
            self.assertTrue(written[status].startswith("nothing"))
            self.assertEqual(found[status][1], "")
        self.assertEqual(found[0][1], REPORT.read_text(encoding="utf-8"))
        self.assertEqual(found[6][1], "bad top 0 missing\n")
        self.assertRegex(found[7][1], "^passed .*\n$")
        self.assertEqual(found[8][1], "unlawful 1\n")

    def test_a_sink_that_fails(self) -> None:
        """It has precedence over three other statuses."""
        self.assertIn("and 4 over 6, 7 and 8", flat(self.TEXT))
        given = CASE.read_bytes()
        unlawful = b"case %d\n%s" % (len(given), given)
        for word, data in (
            ("run", given),
            ("run", b""),
            ("run", PASSED.read_bytes()),
            ("check", unlawful),
        ):
            with open("/dev/full", "wb") as full:
                ran = subprocess.run(self.words(word), input=data, stdout=full)
            self.assertEqual(ran.returncode, 4)

    def words(self, word: str) -> list[str]:
        """The program with a word."""
        return [str(build.PROGRAM), word]

    def with_source_that_fails(self) -> tuple[int, str]:
        """What the program does where its input can't be read: it is a folder."""
        source = os.open(TOP, os.O_RDONLY)
        try:
            ran = subprocess.run(self.words("run"), stdin=source, capture_output=True, text=True)
        finally:
            os.close(source)
        return ran.returncode, ran.stdout


class Rounds(unittest.TestCase):
    """docs/co-simulation.md."""

    def test_rounds_until_an_answer(self) -> None:
        """The numbers of bench/rounds are what the program gives."""
        require_program()
        found = answered.rounds()
        self.assertEqual({it: value_of(f"rounds.{it}") for it in found}, found)


class Commands(unittest.TestCase):
    """What pages show of commands, in a folder with the files that they name. The proved program is
    used where a page has `try`: both write the same."""

    def setUp(self) -> None:
        require_program()
        folder = tempfile.TemporaryDirectory()
        self.addCleanup(folder.cleanup)
        self.folder = Path(folder.name)
        (self.folder / "examples").symlink_to(EXAMPLES)
        report = REPORT.read_text(encoding="utf-8")
        self.assertEqual(report.count(f"sent 0 new {FLIT}\n"), 1)
        other = report.replace(f"sent 0 new {FLIT}", f"sent 0 new {OTHER_FLIT}")
        (self.folder / "other.report").write_text(other, encoding="utf-8")

    def written(self, command: str) -> tuple[int, str]:
        """The status of a command line, and what it writes."""
        command = command.replace("./zehimbado try", "./zehimbado run")
        line = command.replace("./zehimbado", shlex.quote(str(TOP / "zehimbado")))
        ran = subprocess.run(
            ["bash", "-c", line], cwd=self.folder, capture_output=True, text=True, timeout=60
        )
        return ran.returncode, ran.stdout

    def test_the_first_command(self) -> None:
        """README.md has all that it prints."""
        page = text_of("README.md")
        command = pages.block_after(page, "## Two commands\n").splitlines()[0]
        block = pages.block_after(page, "It prints\n")
        self.assertIn("./zehimbado run", command)
        self.assertEqual(self.written(command), (0, block))

    def test_the_fault_of_the_first_page(self) -> None:
        """README.md has what `check` says of a report with a wrong answer, `..` being lines that it
        leaves out, and what it says of the right one."""
        page = text_of("README.md")
        block = pages.block_after(page, "Suppose one byte of the answer is wrong:\n")
        commands = [it[2:] for it in block.splitlines() if it.startswith("$ ")]
        shown = "".join(it for it in block.splitlines(True) if not it.startswith("$ "))
        status, said = self.written("; ".join(commands))
        self.assertEqual(status, 8)
        first, last = shown.split("\n..\n")
        self.assertRegex(said, f"^{re.escape(first)}\n(?:.*\n)+{re.escape(last)}$")
        found = self.written(commands[-1].replace("other.report", f"examples/{REPORT.name}"))
        self.assertEqual(found[0], 0)
        self.assertIn(f"right report is `{found[1].strip()}`", flat(page))

    def test_a_report_that_is_unlawful(self) -> None:
        """docs/tool.md has all that `check` says of one."""
        section = pages.section(text_of("docs/tool.md"), "check")
        usage, block = pages.blocks(section)
        command = usage.replace("CASE REPORT\n", f"examples/{CASE.name} other.report")
        self.assertEqual(self.written(command), (8, block))

    def test_a_wave(self) -> None:
        """The command of docs/tool.md writes the two files that it names."""
        section = pages.section(text_of("docs/tool.md"), "wave")
        command = pages.blocks(section)[1].rpartition("gtkwave ")[0]
        self.assertEqual(self.written(command), (0, ""))
        for name in ("changed-flit.vcd", "changed-flit.gtkw"):
            self.assertTrue((self.folder / name).stat().st_size)

    def test_answers_alone(self) -> None:
        """The commands of docs/observations.md show nothing where all is equal, and else a line."""
        page = pages.section(text_of("docs/observations.md"), "Without flits")
        answers, commands = pages.blocks(page)
        lines = REPORT.read_text(encoding="utf-8").splitlines(keepends=True)
        memory = "".join(it for it in lines if it.startswith(("memory ", "register ")))
        (self.folder / "answers.txt").write_text(answers, encoding="utf-8")
        (self.folder / "memory.txt").write_text(memory, encoding="utf-8")
        commands = re.sub(r"\bCASE\b", f"examples/{CASE.name}", commands)
        self.assertEqual(self.written(f"set -e -o pipefail; {commands}"), (0, ""))
        changed = answers.replace(" done 0", " done 1")
        (self.folder / "answers.txt").write_text(changed, encoding="utf-8")
        status, said = self.written(commands)
        self.assertEqual(status, 0)
        self.assertRegex(said, "(?m)^< .* done 1$")
        self.assertRegex(said, "(?m)^> .* done 0$")

    def test_many_cases(self) -> None:
        """The task of docs/many-cases.md replays each case once, and keeps its status; then what
        didn't drain is listed, and all is printed as JSON."""
        page = text_of("docs/many-cases.md")
        names = ("fence", "passed-null", "write-then-read")
        (self.folder / "cases").mkdir()
        for name in names:
            (self.folder / "cases" / f"{name}.toml").symlink_to(EXAMPLES / f"{name}.toml")
        engines = TOP / "engines"
        tasks = "SLURM_ARRAY_TASK_COUNT=2 PROGRAM={} ENGINES={} SLURM_ARRAY_TASK_ID={} {}/slurm"
        words = shlex.quote(str(build.PROGRAM)), shlex.quote(str(engines))
        for task in range(2):
            said = self.written(tasks.format(*words, task, words[1]))
            self.assertEqual(said, (0, ""))
        listed = "7 cases/passed-null.toml\n3 cases, 0 missing, 1 of another status than 0\n"
        self.assertEqual(self.written(f"{words[1]}/summary"), (1, listed))
        for name in names:
            report = (EXAMPLES / f"{name}.report").read_bytes()
            self.assertEqual((self.folder / "reports" / f"{name}.report").read_bytes(), report)
        (block,) = pages.blocks(pages.section(page, "Reading the reports"))
        listing, printing = block.splitlines()
        self.assertEqual(self.written(listing), (0, "reports/passed-null.report\n"))
        status, objects = self.written(printing.removesuffix(" | jq .."))
        lines = [(EXAMPLES / f"{name}.report").read_bytes().count(b"\n") for name in names]
        self.assertEqual((status, objects.count("\n")), (0, sum(lines)))

    def test_a_campaign_that_was_stopped(self) -> None:
        """A case without an answer is replayed, and no other one; one whose run a signal ended has
        no report and no status."""
        (self.folder / "cases").mkdir()
        for name in ("fence", "write-then-read"):
            (self.folder / "cases" / f"{name}.toml").symlink_to(EXAMPLES / f"{name}.toml")
        cut, again = self.folder / "cut", self.folder / "again"
        kills = "#!/bin/sh\necho part\ngrep -q fence - && kill -9 $$\n"
        cut.write_text(f"{kills}exit 0\n", encoding="utf-8")
        again.write_text("#!/bin/sh\necho whole\n", encoding="utf-8")
        for path in (cut, again):
            path.chmod(0o755)
        replay = shlex.quote(str(TOP / "engines" / "replay"))
        call = f"PROGRAM=./{{}} {replay} cases/*.toml 2>/dev/null"
        self.assertEqual(self.written(call.format("cut")), (1, ""))
        made = sorted(it.name for it in (self.folder / "reports").iterdir())
        self.assertEqual(made, ["write-then-read.report", "write-then-read.status"])
        self.assertEqual(self.written(call.format("again")), (0, ""))
        reports = sorted((self.folder / "reports").glob("*.report"))
        self.assertEqual([it.read_text("utf-8") for it in reports], ["whole\n", "part\n"])

    def test_an_answer_of_another_length(self) -> None:
        """docs/observations.md has the message for a read at 0x44, whose answer is an error."""
        log = ["1 request 0 rd16 0 0x44", "2 out h0", "3 in c0.0", "4 out c0.0", "5 out c0.0"]
        given = "".join(f"{it}\n" for it in log).encode()
        ran = tool("convert", "--trained", "-", str(EXAMPLES / "fence.toml"), given=given)
        self.assertEqual((ran.returncode, ran.stdout), (65, b""))
        page = text_of("docs/observations.md")
        block = pages.block_after(page, "The message then\nnames the answer of the model:\n")
        self.assertEqual(ran.stderr.decode(), f"zehimbado: {block}")


if __name__ == "__main__":
    unittest.main()
