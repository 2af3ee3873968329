"""Tests of `cover`, on the stored reports of examples/."""

import json
import re
import tempfile
import unittest
from collections import Counter
from pathlib import Path

from tool import case, coverage, files
from tool.cover import Cover
from tool.fit import checked
from tool.points import BEYOND, Point, points
from tool.tests.pages import rows, text_of
from tool.tests.shared import CASES, EXAMPLES, output_of, tool

NAMES = [str(EXAMPLES / f"changed-flit.{end}") for end in ("report", "toml")]


def cover_of(*paths: Path) -> Cover:
    """What the reports of these cases have reached."""
    cover = Cover()
    for path in paths:
        document = case.read(path.read_bytes())[0]
        cover.read(document, checked(files.lines_of(str(path.with_suffix(".report"))), document))
    return cover


def total(cover: Cover, group: str, pattern: str = "") -> int:
    """How often the points of a group were reached whose names begin so."""
    found = (it for it in cover.counts if it.group == group and re.match(pattern, it.name))
    return sum(cover.counts[it] for it in found)


class Points(unittest.TestCase):
    def test_all_that_is_counted_is_a_point(self) -> None:
        """Each point is there once. What examples/ reach is among the points."""
        names = [point for point, _ in points()]
        self.assertEqual(len(names), len(set(names)))
        self.assertEqual(set(cover_of(*CASES).counts) - set(names), set())
        self.assertEqual(set(BEYOND) & set(names), set())

    def test_causes_and_outcomes_are_those_of_the_page(self) -> None:
        """Each cause of docs/report.md, each kind of flit, and each outcome."""
        page = text_of("docs/report.md")
        known = {it for it, _ in points()}
        wanted = {
            Point("idle", f"{step.split()[0]}: {cause}")
            for steps, causes in rows(page, "Step")
            for step in re.findall("`([^`]*)`", steps)
            for cause in re.findall("`([a-z]+)`(?=[:;]|$)", causes)
        }
        self.assertEqual(wanted, {it for it in known if it.group == "idle"})
        whats = {what for row in rows(page, "WHAT") for what in re.findall("`([a-z]+)`", row[0])}
        sent = {it.name.split(",")[0] for it in known if it.group == "sent"}
        self.assertEqual(whats, sent)
        outcomes = {it for row in rows(page, "OUTCOME") for it in re.findall("`([^`]*)`", row[0])}
        landed = {it.name.split(" in ")[0] for it in known if it.group == "landed"}
        self.assertEqual(outcomes - landed, {"aborted order"})

    def test_errors_are_those_of_the_page(self) -> None:
        """Each error of docs/commands.md is one of a command."""
        numbers = {row[0] for row in rows(text_of("docs/commands.md"), "Error")}
        found = {it.name.split("error ")[-1] for it, _ in points() if ": error " in it.name}
        self.assertEqual(found, numbers)


class Counts(unittest.TestCase):
    def test_counts_are_those_of_the_final_lines(self) -> None:
        compared = 0
        for path in CASES:
            text = path.with_suffix(".report").read_text(encoding="utf-8")
            counters = re.findall("^counters (.*)$", text, re.MULTILINE)
            if not counters:
                continue
            cover = cover_of(path)
            sums = [sum(column) for column in zip(*(map(int, it.split()) for it in counters))]
            _, sent, landed, changed, accepted, repeats, aborts = sums
            self.assertEqual(total(cover, "sent"), sent, path.name)
            self.assertEqual(total(cover, "landed"), landed, path.name)
            self.assertGreaterEqual(changed, total(cover, "event", ".*changed$"), path.name)
            found = total(cover, "landed", "accepted|poisoned"), total(cover, "landed", "repeat")
            self.assertEqual(found, (accepted, repeats), path.name)
            unlocked = total(cover, "event", "unlocked in good")
            self.assertEqual(total(cover, "landed", "aborted") + unlocked, aborts, path.name)
            executed = len(re.findall("^executed ", text, re.MULTILINE))
            self.assertEqual(total(cover, "command"), executed, path.name)
            idle = len(re.findall("^idle ", text, re.MULTILINE))
            self.assertEqual(total(cover, "idle"), idle, path.name)
            compared += 1
        self.assertGreater(compared, 80)

    def test_many_reports_are_summed(self) -> None:
        one, other = (EXAMPLES / f"{it}.toml" for it in ("changed-flit", "two-profiles"))
        sums: Counter[Point] = cover_of(one).counts + cover_of(other).counts
        self.assertEqual(cover_of(one, other).counts, sums)

    def test_places_of_changes(self) -> None:
        """The flit that the name of an example says."""
        for name, event in (
            ("changed-first-flit", "first flit changed"),
            ("changed-last-flit", "last flit changed"),
            ("changed-nulls", "NULL changed"),
            ("changed-training-flit", "training flit changed"),
            ("unlock-in-abort", "unlocked in abort"),
        ):
            self.assertGreater(total(cover_of(EXAMPLES / f"{name}.toml"), "event", event), 0, name)


class Command(unittest.TestCase):
    def test_the_forms(self) -> None:
        """Text, JSON and the page have the same numbers."""
        said = json.loads(output_of("cover", NAMES[0], "--json"))
        counts = [*cover_of(EXAMPLES / "changed-flit.toml").all()]
        reached = coverage.reached(counts)
        self.assertEqual((said["reports"], said["reached"], said["of"]), (1, reached, len(counts)))
        found = [(it["group"], it["name"], it["count"]) for it in said["points"]]
        self.assertEqual(found, [(it.point.group, it.point.name, it.times) for it in counts])
        text = output_of("cover", NAMES[0])
        self.assertEqual(text.splitlines(), [*coverage.text_lines(counts)])
        missing = text.partition("\n\n")[2].splitlines()
        self.assertEqual(len(missing), len(counts) - reached)
        page = output_of("cover", NAMES[0], "--html")
        self.assertEqual(page.count("<tr class=missing>"), len(counts) - reached)
        self.assertNotRegex(page, "src=|href=|https?:")

    def test_names_of_files(self) -> None:
        """The case may stand for the report, and a case may be named."""
        text = output_of("cover", NAMES[0])
        self.assertEqual(output_of("cover", NAMES[1]), text)
        self.assertEqual(output_of("cover", NAMES[0], "--case", NAMES[1]), text)
        ran = tool("cover", "-", "--case", NAMES[1], given=Path(NAMES[0]).read_bytes())
        self.assertEqual(ran.stdout.decode(), text)
        with tempfile.TemporaryDirectory() as folder:
            path = Path(folder) / "a"
            self.assertEqual(tool("cover", NAMES[0], "-o", str(path)).returncode, 0)
            self.assertEqual(path.read_text("utf-8"), text)

    def test_a_threshold(self) -> None:
        self.assertEqual(tool("cover", NAMES[0], "--least", "5").returncode, 0)
        ran = tool("cover", NAMES[0], "--least", "90")
        self.assertEqual(ran.returncode, 1)
        self.assertRegex(ran.stderr, b"[0-9]+ of [0-9]+ points are less than 90 percent")

    def test_bad_words(self) -> None:
        wrong: list[list[str]] = [
            [],
            ["-"],
            [NAMES[0], "--least", "101"],
            [NAMES[0], "--json", "--html"],
            [NAMES[0], "-o", NAMES[1]],
            [NAMES[0], "--case", NAMES[1], "--case", NAMES[1]],
            ["-", "--case", "-"],
        ]
        for words in wrong:
            self.assertEqual(tool("cover", *words).returncode, 64, words)
        fence = str(EXAMPLES / "fence.toml")
        self.assertEqual(tool("cover", NAMES[0], "--case", fence).returncode, 65)
        self.assertEqual(tool("cover", "no-such.report").returncode, 66)


if __name__ == "__main__":
    unittest.main()
