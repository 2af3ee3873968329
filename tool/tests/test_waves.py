"""Tests of `wave`, on the stored reports of examples/."""

import re
import tempfile
import unittest
from pathlib import Path

from tool import case, files, report, wave
from tool.fit import checked
from tool.following import FIRST_MODE, Following, mode_after
from tool.lines import Landed, Line, Sent, Unlocked
from tool.queues import sizes_of
from tool.tests.shared import CASES, EXAMPLES, output_of, tool
from tool.vcd import WINDOW, save_lines


def lines_of(name: str) -> list[str]:
    """The lines of a stored report."""
    return (EXAMPLES / f"{name}.report").read_text(encoding="utf-8").splitlines()


def entries(lines: list[str]) -> list[tuple[int, Line, str]]:
    """The numbered records of these lines."""
    return list(report.numbered(lines))


class Wave(unittest.TestCase):
    def dump_of(self, path: Path) -> tuple[wave.Wave, list[str]]:
        document = case.read(path.read_bytes())[0]
        waves = wave.Wave(document)
        lines = checked(files.lines_of(str(path.with_suffix(".report"))), document)
        return waves, b"".join(waves.pieces(lines)).decode().splitlines()

    def test_drained_queues_are_empty(self) -> None:
        """Where a report says `state drained`, and nowhere else, no queue but a line is filled, and
        no packet crosses a link."""
        for path in CASES:
            if lines_of(path.stem)[-1].startswith("passed "):
                continue
            waves, _ = self.dump_of(path)
            held = {queue for queue, number in waves.held().items() if number}
            lines = lines_of(path.stem)
            packets = {queue for queue in held if queue[0] != "line"}
            crosses = any(line.split()[3] != "0" for line in lines if line.startswith("tokens "))
            is_drained = lines[-1] == "state drained"
            self.assertEqual(packets == set() and not crosses, is_drained, path.name)

    def test_tokens_end_as_the_report_says(self) -> None:
        """The last values of each direction are those of its line `tokens`."""
        compared = 0
        for path in CASES:
            waves, _ = self.dump_of(path)
            rows = [it.split()[2:] for it in lines_of(path.stem) if it.startswith("tokens ")]
            ended = [[*counts.values()] for counts in waves.tokens()]
            wanted = [[int(word) for word in row[:-1]] for row in rows]
            self.assertEqual(ended if rows else [], wanted, path.name)
            compared += len(rows)
        self.assertGreater(compared, 200)

    def test_no_token_is_lost(self) -> None:
        """At each step the tokens of a direction are as many as its buffer has room for."""
        for name in ("repeats", "two-profiles", "tokens-on-the-way", "poisoned-at-first-hop"):
            document, _ = case.read((EXAMPLES / f"{name}.toml").read_bytes())
            following = Following(document)
            wanted = [link["tokens"] for link in document["links"] for _ in range(2)]
            for _, line, _ in entries(lines_of(name)):
                following.apply(line)
                self.assertEqual([sum(it.values()) for it in following.tokens.counts], wanted, name)

    def test_queues_hold_no_more_than_the_case_allows(self) -> None:
        for path in CASES:
            document, _ = case.read(path.read_bytes())
            following = Following(document)
            room = [link["tokens"] for link in document["links"] for _ in range(2)]
            most = sizes_of(document)
            for direction, queue in enumerate(following.buffers):
                most[queue] = room[direction]
            for _, line, _ in entries(lines_of(path.stem)):
                for queue in following.apply(line):
                    held = len(following.held[queue])
                    self.assertLessEqual(held, most[queue], following.names[queue])

    def test_the_form_of_a_dump(self) -> None:
        """Each change is of a signal that is declared, and time goes up to the last step."""
        _, lines = self.dump_of(EXAMPLES / "each-kind-of-step.toml")
        declared = {line.split()[3] for line in lines if line.startswith("$var ")}
        names = [line.split()[4] for line in lines if line.startswith("$var ")]
        changes = lines[lines.index("$enddefinitions $end") + 1 :]
        times = [int(line[1:]) for line in changes if line.startswith("#")]
        steps = [it for it in lines_of("each-kind-of-step") if not report.is_final(it)]
        self.assertEqual(times, list(range(len(steps) + 2)))
        used = {line.split()[1] for line in changes if line[0] in "bs"}
        used |= {line[1:] for line in changes if line[0] in "01"}
        self.assertLessEqual(used, declared)
        self.assertEqual(names.count("line_flits"), 2)
        self.assertEqual(lines.count("$upscope $end"), sum("$scope" in it for it in lines))

    def test_receivers_do_what_their_mode_allows(self) -> None:
        """By docs/report.md: a packet or an error in Good alone, the end of training in Train, and
        a training flit is sent exactly where the receiver at that end is in Train."""
        for path in CASES:
            document, _ = case.read(path.read_bytes())
            modes = [FIRST_MODE] * (2 * len(document["links"]))
            for _, line, _ in entries(lines_of(path.stem)):
                if isinstance(line, Sent):
                    trains = modes[line.direction ^ 1] == "train"
                    self.assertEqual(line.what == "train", trains, path.name)
                if not isinstance(line, (Landed, Unlocked)):
                    continue
                direction = line.direction
                outcome = line.outcome if isinstance(line, Landed) else "quiet"
                allowed = {"trained": ["train"], "quiet": [modes[direction]]}
                allowed |= dict.fromkeys(("ran start", "ran clear"), ["abort", "good"])
                self.assertIn(modes[direction], allowed.get(outcome, ["good"]), path.name)
                modes[direction] = mode_after(modes[direction], line)

    def changes_of(self, name: str, signal: str) -> list[str]:
        """The values in turn of a signal of direction 0."""
        _, lines = self.dump_of(EXAMPLES / f"{name}.toml")
        start = lines.index("$scope module direction0 $end")
        marks = [it.split()[3] for it in lines[start:] if it.split()[4:5] == [signal]]
        changes = [it for it in lines if it[0] == "s" and it.split()[1] == marks[0]]
        return [it.split()[0][1:] for it in changes]

    def test_what_a_receiver_waits_for(self) -> None:
        modes = ["train", "abort", "good"]
        self.assertEqual(self.changes_of("write-then-read", "receiver"), modes)
        again = [*modes, "abort", "good"]
        self.assertEqual(self.changes_of("changed-flit", "receiver"), again)
        self.assertEqual(self.changes_of("unlock-within-packet", "receiver"), again)

    def test_landings_that_passed_and_unlocks(self) -> None:
        self.assertEqual(self.changes_of("passed-null", "landed")[-1], "passed")
        self.assertEqual(self.changes_of("passed-null", "landed_flit")[-1], "00" * 16)
        self.assertEqual(self.changes_of("unlock-when-quiet", "landed").count("unlocked"), 1)

    def test_hosts_end_as_the_report_says(self) -> None:
        """The last values of each host are those of its line `host`."""
        compared = 0
        for path in CASES:
            waves, _ = self.dump_of(path)
            rows = [it.split()[2:] for it in lines_of(path.stem) if it.startswith("host ")]
            ended = [[str(count) for count in counts.values()] for counts in waves.hosts]
            self.assertEqual(ended if rows else [], rows, path.name)
            compared += len(rows)
        self.assertGreater(compared, 80)

    def test_a_flit_in_bits(self) -> None:
        """Its 128 bits are those of its digits, and the wire is open where there is none."""
        _, lines = self.dump_of(EXAMPLES / "write-then-read.toml")
        start = lines.index("$scope module direction0 $end")
        declared = next(it for it in lines[start:] if " sent_bits " in it)
        mark = declared.split()[3]
        self.assertEqual(declared, f"$var wire 128 {mark} sent_bits [127:0] $end")
        values = [it.split()[0][1:] for it in lines if it.endswith(f" {mark}") and it[0] == "b"]
        sent = [it.split()[3] for it in lines_of("write-then-read") if it.startswith("sent 0 ")]
        flits = [f"{int(value, 2):032x}" for value in values if value != "z"]
        self.assertEqual(flits, sent)
        self.assertEqual(values.count("z"), len(sent) + 1)

    def test_marks_at_retries(self) -> None:
        """There is one at each landing in error, each unlock, and each flit of a way back."""
        for name in ("changed-flit", "unlock-within-packet"):
            _, lines = self.dump_of(EXAMPLES / f"{name}.toml")
            events = {it.split()[3] for it in lines if it.startswith("$var event ")}
            marks = sum(it[0] == "1" and it[1:] in events for it in lines)
            pattern = "sent . (start|clear|again) |landed .* aborted |unlocked "
            wanted = sum(bool(re.match(pattern, it)) for it in lines_of(name))
            self.assertEqual(marks, wanted)
            self.assertGreater(marks, 64)

    def test_busy_banks(self) -> None:
        """A bank is busy from the spread to the execution."""
        _, lines = self.dump_of(EXAMPLES / "write-then-read.toml")
        mark = next(it.split()[3] for it in lines if " bank0_busy " in it)
        steps, at = [], 0
        for line in lines:
            at = int(line[1:]) if line[0] == "#" else at
            if line in (f"0{mark}", f"1{mark}"):
                steps.append((at, line[0]))
        report_lines = enumerate(lines_of("write-then-read"), start=1)
        wanted = [(0, "0")]
        for number, line in report_lines:
            if line.startswith(("spread", "executed")):
                wanted.append((number, "1" if line.startswith("spread") else "0"))
        self.assertEqual(steps, wanted)

    def test_a_save_file(self) -> None:
        """It names its dump, and each signal once, in the groups of the parts of the network."""
        name = "two-hosts-two-cubes"
        case_path, report_path = (str(EXAMPLES / f"{name}.{end}") for end in ("toml", "report"))
        with tempfile.TemporaryDirectory() as folder:
            dump, save = Path(folder) / "a.vcd", Path(folder) / "a.gtkw"
            words = ["wave", report_path, case_path, "-o", str(dump), "--save", str(save)]
            self.assertEqual(tool(*words).returncode, 0)
            lines = save.read_text("utf-8").splitlines()
            declared = sum(it.startswith("$var") for it in dump.read_text("utf-8").splitlines())
            self.assertEqual(tool(*words[:-1], str(dump)).returncode, 64)
        self.assertIn(f'[dumpfile] "{dump}"', lines)
        signals = [it.rpartition("} ")[2] for it in lines if "network." in it]
        self.assertEqual((len(signals), len(set(signals))), (declared, declared))
        self.assertEqual(lines.count("-direction 1: c1.0 to h1"), 2)
        self.assertTrue(set(WINDOW) <= set(lines))
        self.assertEqual(tool("wave", report_path, case_path, "--save", "x").returncode, 64)

    def test_the_names_of_vaults(self) -> None:
        """GTKWave shows names without their scopes, so two vaults need theirs in the names."""
        document = case.read((EXAMPLES / "registers-and-banks.toml").read_bytes())[0]
        lines = list(save_lines("a.vcd", wave.Wave(document).groups()))
        begin, end = (place for place, it in enumerate(lines) if it == "-cube0")
        shown = [it.rpartition("} ")[0] or it for it in lines[begin + 2 : end : 2]]
        inner = ["queue", "answers", "bank0", "bank1", "bank0_busy", "bank1_busy"]
        wanted = [f"+{{vault{vault} {name}" for vault in range(2) for name in inner]
        self.assertEqual(shown[-len(wanted) :], wanted)
        self.assertEqual(len(set(shown)), len(shown))

    def test_the_command(self) -> None:
        case_path = str(EXAMPLES / "full-queue.toml")
        report_path = str(EXAMPLES / "full-queue.report")
        with tempfile.TemporaryDirectory() as folder:
            path = Path(folder) / "out.vcd"
            self.assertEqual(tool("wave", report_path, case_path, "-o", str(path)).returncode, 0)
            self.assertEqual(path.read_text("utf-8"), output_of("wave", report_path, case_path))

    def test_a_report_of_another_case(self) -> None:
        case_path = str(EXAMPLES / "full-queue.toml")
        report_path = str(EXAMPLES / "each-kind-of-step.report")
        self.assertEqual(tool("wave", report_path, case_path).returncode, 65)


if __name__ == "__main__":
    unittest.main()
