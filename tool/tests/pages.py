"""What tests read of pages: sections, blocks, tables and what is in backquotes; and the program,
whose answers are compared with them."""

from __future__ import annotations

import re
import subprocess

from tool import build
from tool.tests.shared import TOP

FENCED = r"^```[a-z]*\n(?P<fenced>(?:[^\n]*\n)*?)^```$"
INDENTED = r"(?<=\n\n)(?P<indented> {4}[^\n]*\n(?:\n* {4}[^\n]*\n)*)"
BLOCK = re.compile(f"{FENCED}|{INDENTED}", re.MULTILINE)
QUOTED = re.compile(r"`([^`]+)`")


def text_of(name: str) -> str:
    """A page, by its path from the top."""
    return (TOP / name).read_text(encoding="utf-8")


def flat(text: str) -> str:
    """A text with one space for each run of spaces and line ends: lines may end anywhere."""
    return " ".join(text.split())


def section(text: str, title: str) -> str:
    """What is under a heading, up to the next one of its level or above."""
    found = re.search(rf"^(#+) {re.escape(title)}\n", text, re.MULTILINE)
    assert found, title
    rest = text[found.end() :]
    end = re.search(rf"^#{{1,{len(found[1])}}} ", rest, re.MULTILINE)
    return rest[: end.start()] if end else rest


def blocks(text: str) -> list[str]:
    """The blocks of code of a text, fenced or indented, in their order."""
    found = BLOCK.finditer(f"\n\n{text}")
    return [re.sub("^ {4}", "", it["indented"] or "", flags=re.M) or it["fenced"] for it in found]


def block_after(text: str, words: str) -> str:
    """The first block after these words, which are there once."""
    _, found, after = text.partition(words)
    assert found and words not in after, words
    return blocks(after)[0]


def rows(text: str, head: str) -> list[list[str]]:
    """The cells of each row of the table whose first row begins with this cell."""
    start = re.search(rf"^\| {re.escape(head)} \|.*\n\|[-| ]+\|\n", text, re.MULTILINE)
    assert start, head
    table = text[start.end() :].split("\n\n")[0].splitlines()
    return [[it.strip() for it in row[1:-1].split("|")] for row in table]


def quoted(text: str) -> list[str]:
    """What a text has in backquotes."""
    return QUOTED.findall(text)


def answer(word: str, given: bytes = b"") -> tuple[int, str]:
    """The status of the program for a word and an input, and what it writes."""
    ran = subprocess.run([build.PROGRAM, *word.split()], input=given, capture_output=True)
    return ran.returncode, ran.stdout.decode()


def lines_of(given: str) -> list[str]:
    """The lines of the report of a case, which has no fault."""
    status, report = answer("run", given.encode())
    assert status in (0, 7), report
    return report.splitlines()


def scheduled(case: str, schedule: str) -> list[str]:
    """The report of a case with another schedule."""
    return lines_of(with_text(case, "schedule", schedule))


def with_text(case: str, key: str, text: str) -> str:
    """A case with another script or schedule."""
    found = re.compile(rf"^{key} = '''\n.*?'''$", re.MULTILINE | re.DOTALL)
    changed, count = found.subn(lambda _: f"{key} = '''\n{text}'''", case)
    assert count == 1, key
    return changed
