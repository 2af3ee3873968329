"""Tests of `view`, on the stored reports of examples/: a page has what the report says."""

from __future__ import annotations

import base64
import io
import json
import re
import tempfile
import unittest
import zlib
from array import array
from pathlib import Path
from typing import Any

from tool import case, files, page
from tool.fit import checked
from tool.tests.shared import CASES, EXAMPLES, output_of, tool
from tool.view import OUTCOMES, STOPS, WHATS, View

DATA = re.compile('<script id="data" type="text/plain">([^<]*)</script>')
# What a page of one file must not have: something that is loaded.
LOADED = re.compile(r"(src|href)=|@import|url\(|https?://(?!www\.w3\.org/2000/svg)")


def page_of(path: Path) -> str:
    """The page of the report of a case."""
    view = View(case.read(path.read_bytes())[0])
    view.read(checked(files.lines_of(str(path.with_suffix(".report"))), view.document))
    sink = io.BytesIO()
    page.write(view, path.stem, [], sink.write)
    view.close()
    return sink.getvalue().decode()


class Data:
    """The data of a page: its head, and its columns."""

    def __init__(self, text: str):
        (packed,) = DATA.findall(text)
        data = zlib.decompress(base64.b64decode(packed))
        size = int.from_bytes(data[-4:], "little")
        self.head: dict[str, Any] = json.loads(data[-4 - size : -4])
        self._data = data

    def column(self, name: str) -> array[int]:  # pylint: disable=unsubscriptable-object
        """The numbers of a column."""
        kind, place, count = self.head["columns"][name]
        numbers = array(kind)
        numbers.frombytes(self._data[place : place + count * numbers.itemsize])
        return numbers

    def rows(self, name: str) -> list[str]:
        """The lines of a column of text."""
        return self.column(name).tobytes().decode().splitlines()


class Pages(unittest.TestCase):
    def test_columns_are_what_the_report_says(self) -> None:
        """Flits of packets, requests, answers and ends, of each example."""
        for path in CASES:
            lines = path.with_suffix(".report").read_text(encoding="utf-8").splitlines()
            data = Data(page_of(path))
            whats = [WHATS[it] for it in data.column("sent_what")]
            flits = data.column("sent_bytes").tobytes().hex()
            sent = [f"{what} {flits[32 * at : 32 * at + 32]}" for at, what in enumerate(whats)]
            wanted = [it.split(" ", 2)[2] for it in lines if it.startswith("sent ")]
            kept = [it for it in wanted if not it.startswith(("null", "train"))]
            found = [it for it in sent if not it.startswith(("null", "train"))]
            self.assertEqual(found, kept, path.name)
            gave = [it.removeprefix("gave ") for it in lines if it.startswith("gave ")]
            self.assertEqual(data.rows("requests"), gave, path.name)
            ends = [STOPS[it] for it in data.column("visit_station")]
            taken = sum(it.startswith("took ") for it in lines)
            self.assertEqual(ends.count("taken"), taken, path.name)
            executed = sum(it.startswith("executed ") for it in lines)
            self.assertEqual(len(data.rows("answers")), executed, path.name)

    def test_what_is_marked(self) -> None:
        """Aborts as the report has them, and each flit that lands changed, of each example."""
        for path in CASES:
            lines = path.with_suffix(".report").read_text(encoding="utf-8").splitlines()
            data = Data(page_of(path))
            aborts = [it for it in data.rows("marks") if " aborted " in it]
            wanted = [
                f"{step} {line.split()[1]} {line[line.index('aborted') :]}"
                for step, line in enumerate(lines, start=1)
                if " aborted " in line
            ]
            self.assertEqual(aborts, wanted, path.name)
            counters = [line.split() for line in lines if line.startswith("counters ")]
            if counters:
                changed = sum(int(words[4]) for words in counters)
                self.assertEqual(len(data.rows("changed")), changed, path.name)
            outcomes = [OUTCOMES[it] for it in data.column("landed_outcome")]
            accepted = sum(line.endswith(" accepted") for line in lines)
            self.assertEqual(outcomes.count("accepted"), accepted, path.name)

    def test_nothing_is_loaded(self) -> None:
        text = page_of(EXAMPLES / "changed-flit.toml")
        self.assertIsNone(LOADED.search(DATA.sub("", text)))
        self.assertNotIn("@", re.sub("@media", "", page.template("a")).replace("@DATA@", ""))

    def test_the_title_is_no_markup(self) -> None:
        self.assertIn("<title>&lt;b&gt;</title>", page.template("<b>"))

    def test_lines_of_the_script_are_short(self) -> None:
        for path in page.FOLDER.iterdir():
            for line in path.read_text(encoding="utf-8").splitlines():
                self.assertLessEqual(len(line), 100, (path.name, line))


class Command(unittest.TestCase):
    def test_the_command(self) -> None:
        names = [str(EXAMPLES / f"changed-flit.{end}") for end in ("report", "toml")]
        with tempfile.TemporaryDirectory() as folder:
            path = Path(folder) / "a.html"
            self.assertEqual(tool("view", *names, "-o", str(path)).returncode, 0)
            self.assertEqual(path.read_text("utf-8"), output_of("view", *names))
        data = Data(output_of("view", *names, "--mark", "885", "--mark", "9"))
        self.assertEqual(data.head["seen"], [885, 9])

    def test_bad_words(self) -> None:
        names = [str(EXAMPLES / f"changed-flit.{end}") for end in ("report", "toml")]
        for mark in ("0", "x", "999999"):
            self.assertEqual(tool("view", *names, "--mark", mark).returncode, 64, mark)
        self.assertEqual(tool("view", names[1], names[0]).returncode, 65)
        self.assertEqual(tool("view", names[0], str(EXAMPLES / "fence.toml")).returncode, 65)
        self.assertEqual(tool("view", "-", "-").returncode, 64)


if __name__ == "__main__":
    unittest.main()
