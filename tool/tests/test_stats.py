"""Tests of `stats`, on the stored reports of examples/."""

import csv
import io
import json
import re
import tempfile
import unittest
from collections import Counter
from pathlib import Path

from tool import case, files, rounds
from tool.fit import checked
from tool.stats import Levels, Row, Stats, nearest_rank
from tool.tests.shared import CASES, EXAMPLES, output_of, tool

# A direction's final counts, and the rows that have the same.
ABORTS = re.compile("aborted ")


def rows_of(path: Path, number: int = 0) -> list[Row]:
    """The rows of the report of a case, in windows of so many rounds."""
    document = case.read(path.read_bytes())[0]
    lines = checked(files.lines_of(str(path.with_suffix(".report"))), document)
    return list(Stats(document, number).rows(lines))


def final_lines(path: Path, word: str) -> list[list[str]]:
    """The words of the final lines of a report that begin with a word."""
    text = path.with_suffix(".report").read_text(encoding="utf-8")
    return [line.split() for line in text.splitlines() if line.startswith(f"{word} ")]


def of(rows: list[Row], part: str, about: str, pattern: str = "") -> float:
    """The sum of the values of a part whose number begins so."""
    parts = (part, part + " ")
    return sum(
        row.value
        for row in rows
        if (row.part == part or row.part.startswith(parts[1]))
        and row.about == about
        and re.match(pattern, row.number)
    )


class Numbers(unittest.TestCase):
    def test_counts_are_those_of_the_final_lines(self) -> None:
        compared = 0
        for path in CASES:
            rows = rows_of(path)
            for _, direction, sent, landed, _, accepted, _, aborts in final_lines(path, "counters"):
                part = f"direction {direction}"
                found = of(rows, part, "sent", "(?!percent)"), of(rows, part, "landed")
                self.assertEqual(found, (int(sent), int(landed)), path.name)
                aborted = of(rows, part, "landed", "aborted")
                unlocked = of(rows, part, "retry", "unlocks in good")
                self.assertEqual(aborted + unlocked, int(aborts), path.name)
                stored = of(rows, part, "landed", "accepted|poisoned")
                self.assertEqual(stored, int(accepted), path.name)
                compared += 1
            for _, host, given, taken, _ in final_lines(path, "host"):
                self.assertEqual(of(rows, f"host {host}", "given"), int(given), path.name)
                ended = [it for it in rows if it.part == f"host {host}" and it.number == "requests"]
                answered = sum(it.value for it in ended if it.about.endswith(" taken"))
                self.assertEqual(answered, int(taken), path.name)
        self.assertGreater(compared, 200)

    def test_windows_add_up(self) -> None:
        """Counts of windows add up to those of the run; the most of a run is in one of them."""
        for name in ("two-hosts-two-cubes", "changed-flit", "through-two-cubes"):
            path = EXAMPLES / f"{name}.toml"
            whole, windows = rows_of(path), rows_of(path, 7)
            sums: Counter[tuple[str, str, str]] = Counter()
            most: dict[tuple[str, str, str], float] = {}
            for row in windows:
                key = row.part, row.about, row.number
                sums[key] += row.value  # type: ignore[assignment]
                most[key] = max(most.get(key, 0), row.value)
            for row in whole:
                key = row.part, row.about, row.number
                if row.about in ("sent", "landed", "given", "idle") and "percent" not in row.number:
                    self.assertEqual(sums[key], row.value, (name, key))
                elif row.number in ("most", "steps most"):
                    self.assertEqual(most[key], row.value, (name, key))
            firsts = sorted({(row.first_step, row.last_step) for row in windows})
            for (_, last), (first, _) in zip(firsts, firsts[1:]):
                self.assertEqual(first, last + 1)

    def test_stations_add_up(self) -> None:
        """Where each request of a host ended alone, its stations have all of its steps."""
        rows = rows_of(EXAMPLES / "write-then-read.toml")
        mine = {(it.about, it.number): it.value for it in rows if it.part == "host 0"}
        for command in ("wr16", "rd16"):
            stations = sum(
                value
                for (about, number), value in mine.items()
                if about.startswith(f"{command} in ") and number == "steps mean"
            )
            self.assertEqual(mine[f"{command} taken", "requests"], 1)
            self.assertEqual(stations, mine[f"{command} taken", "steps mean"])

    def test_levels(self) -> None:
        """Two for steps 3 to 4, one before and none after: five in six steps."""
        levels = Levels([1, 0], [2, 0])
        levels.change(0, 3, 2)
        levels.change(0, 5, 0)
        self.assertEqual(levels.end(0, 7, 6), (1.0, 2, 2))
        self.assertEqual(levels.end(0, 8, 1), (0.0, 0, 0))
        self.assertEqual(levels.end(1, 8, 7), (0.0, 0, 0))

    def test_ranks(self) -> None:
        """Of 20 values the 19th, of one value that one."""
        self.assertEqual(nearest_rank(Counter(range(1, 21)), 95), 19)
        self.assertEqual(nearest_rank(Counter({7: 1}), 95), 7)
        self.assertEqual(nearest_rank(Counter({1: 94, 9: 6}), 95), 9)


class Still(unittest.TestCase):
    def test_rounds(self) -> None:
        document = case.read((EXAMPLES / "write-then-read.toml").read_bytes())[0]
        document["schedule"] = "give 0\nround 3\nland 0\nround 2\n"
        counted = rounds.Rounds(document)
        size = counted.steps
        steps = [1, 2, 1 + size, 2 + size, 1 + 3 * size, 2 + 3 * size, 3 + 3 * size, 9 + 9 * size]
        self.assertEqual(list(map(counted.of, steps)), [0, 1, 1, 2, 3, 3, 4, 5])

    def test_where_nothing_moves(self) -> None:
        document = case.read((EXAMPLES / "write-then-read.toml").read_bytes())[0]
        document["schedule"] = "round 1000\n"
        size = rounds.Rounds(document).steps
        said = rounds.still_since(document, 9 * size + 1, 1000 * size)
        self.assertIn(f"since round 10, step {9 * size + 1}; the run has 1,000 rounds", said)
        self.assertEqual(rounds.still_since(document, 900 * size, 1000 * size), "")


class Command(unittest.TestCase):
    def test_the_forms(self) -> None:
        """CSV and JSON have the same fields and values."""
        names = [str(EXAMPLES / f"changed-flit.{end}") for end in ("report", "toml")]
        plain = output_of("stats", *names)
        self.assertEqual(output_of("stats", *names, "--csv"), plain)
        read = list(csv.DictReader(io.StringIO(plain)))
        objects = list(map(json.loads, output_of("stats", *names, "--json").splitlines()))
        self.assertEqual([{k: str(v) for k, v in it.items()} for it in objects], read)
        with tempfile.TemporaryDirectory() as folder:
            path = Path(folder) / "a.csv"
            self.assertEqual(tool("stats", *names, "-o", str(path)).returncode, 0)
            self.assertEqual(path.read_text("utf-8"), plain)

    def test_bad_words(self) -> None:
        names = [str(EXAMPLES / f"changed-flit.{end}") for end in ("report", "toml")]
        for words in (["--rounds", "0"], ["--rounds", "x"], ["--csv", "--json"], ["-o", names[1]]):
            self.assertEqual(tool("stats", *names, *words).returncode, 64, words)
        self.assertEqual(tool("stats", names[1], names[0]).returncode, 65)
        self.assertEqual(tool("stats", names[0], str(EXAMPLES / "fence.toml")).returncode, 65)
        self.assertEqual(tool("stats", "-", "-").returncode, 64)


if __name__ == "__main__":
    unittest.main()
