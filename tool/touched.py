"""How many files name a command, a step or a word of the program: as many change for a new one. And
how many files the sections of docs/ARCHITECTURE.md name that say how one is added.
"""

from __future__ import annotations

import re
from collections.abc import Iterator
from pathlib import Path

from tool.crates import libraries
from tool.kit import TOP

FOLDERS = {"src": "*.rt", "specs": "*.antt", "proofs": "*.antt"}
# What names an example of each in the crates' files, and the crates that are searched; all where
# none is named.
NAMED = {
    "the command `xor16`": ("[Xx]or16", ()),
    "the step `retire`, its entry `retired`": ("Retired?", ()),
    "the word `trace`": ("Trace|(?:Is)?TraceAnswer", ("hmc_replay",)),
}


def files_naming(pattern: str, crates: list[str], folder: str) -> Iterator[Path]:
    """Yields the files of a folder of crates with this word, without rows that compute."""
    word = re.compile(rf"\b(?:{pattern})\b")
    for crate in crates:
        for path in sorted((TOP / "crates" / crate / folder).rglob(FOLDERS[folder])):
            if not path.name.startswith("Worked") and word.search(path.read_text("utf-8")):
                yield path


def named_table() -> list[str]:
    """The number of files that name an example of each, as the rows of a table."""
    rows = [f"| Files that name | {' | '.join(f'`{it}/`' for it in FOLDERS)} | in |"]
    rows.append("|---" * (len(FOLDERS) + 2) + "|")
    for title, (pattern, among) in NAMED.items():
        crates = [it for it in among or libraries() if not it.startswith("hmc_tests_")]
        found = [list(files_naming(pattern, crates, folder)) for folder in FOLDERS]
        within = {path.relative_to(TOP / "crates").parts[0] for paths in found for path in paths}
        shown = ", ".join(f"`{crate}`" for crate in crates if crate in within)
        rows.append(f"| {title} | {' | '.join(str(len(it)) for it in found)} | {shown} |")
    return rows


PAGE = TOP / "docs" / "ARCHITECTURE.md"
SECTION = re.compile(r"^## How to add ([^\n]*)\n(.*?)(?=^## )", re.MULTILINE | re.DOTALL)
ITEM = re.compile(r"^[0-9]+\. (.*?)(?=^[0-9]+\. |\Z)", re.MULTILINE | re.DOTALL)
# A path in code, or the target of a link.
PATH = re.compile(r"`([\w./*]*(?:/|\.rt|\.antt|\.rs|\.py|\.h)[\w./*]*)`|\]\(([\w.-]+)")
KINDS = {"src/": "`src/`", "specs/": "`specs/`", "proofs/": "`proofs/`", "tool/": "`tool/`"}


def kind_of(path: str) -> str:
    """The column of a file that a section names. Definitions may be named without their folder."""
    if path.endswith(".md"):
        return "`docs/`"
    if path.endswith(".antt") and "/" not in path:
        return "`specs/`"
    found = [kind for start, kind in KINDS.items() if re.search(rf"(^|/){start}", path)]
    return found[0] if found and not path.startswith("bindings/") else "others"


def section_table() -> list[str]:
    """How many files each of these sections names, as the rows of a table."""
    columns = [*KINDS.values(), "`docs/`", "others"]
    rows = [f"| Section | {' | '.join(columns)} |", "|---" * (len(columns) + 1) + "|"]
    for title, text in SECTION.findall(PAGE.read_text(encoding="utf-8")):
        items = enumerate(ITEM.findall(text))
        named = {(at, *it) for at, item in items for it in PATH.findall(item)}
        kinds = [kind_of(code or page) for _, code, page in named]
        rows.append(f"| {title} | {' | '.join(str(kinds.count(it)) for it in columns)} |")
    return rows
