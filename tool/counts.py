"""The tables of docs/ that count something: `python3 -m tool.counts` prints them. With `--write` it
puts them into their pages, the numbers too, and the contracts into the pages CALLING.md.
"""

from __future__ import annotations

import re
import sys
from collections.abc import Callable, Iterable, Iterator
from pathlib import Path

from tool import numbers, phrases, quotes, stated
from tool.crates import crates_below, libraries
from tool.durations import duration_table
from tool.kit import TOP
from tool.promises import promise_table, reading_table, word_table
from tool.touched import named_table, section_table

CRATES = TOP / "crates"
# What only tests, beside the crates hmc_tests_.
ONLY_TEST = ("hmc_examples",)
ROW = re.compile(r"^[^ -].*= refl$", re.MULTILINE)


def texts(paths: Iterable[Path]) -> Iterator[str]:
    """Yields the content of these files."""
    for path in paths:
        yield path.read_text(encoding="utf-8")


def code() -> Iterator[str]:
    """Yields the code of each file of `src/`, without its comments."""
    for text in texts(CRATES.glob("*/src/**/*.rt")):
        yield re.sub(r"//.*", "", text)


def found(pattern: str, sources: Iterable[str]) -> int:
    """How often the pattern is in these texts."""
    return sum(len(re.findall(pattern, text, re.MULTILINE)) for text in sources)


def computed() -> Iterator[Path]:
    """Yields the files of `proofs/` that compute definitions on rows."""
    yield from CRATES.glob("*/proofs/**/Worked*.antt")
    yield from CRATES.glob("*/proofs/**/Needed.antt")


def faults() -> int:
    """How many inputs are in the tables of faulty ones, each with its first fault, if it has one.

    Those of cases are in one table, where a line `= ..` ends each; in the others each has a line.
    """
    tables = set((TOP / numbers.DATA).glob("*.txt"))
    cases = {it for it in tables if it.name == "bad-cases.txt"}
    tables -= cases | {it for it in tables if it.name == "trace-scripts.txt"}
    return found("^= ", texts(cases)) + found("^.* = ", texts(tables))


def counts() -> dict[str, int]:
    """Each count by what it is of."""
    crates = libraries()
    tests = [it for it in crates if it in ONLY_TEST or it.startswith("hmc_tests_")]
    values = "values that the definitions are computed to give, when a crate is checked"
    mutants = "mutants in the folders `must-fail/`: wrong edits of the code"
    firsts = "cases, inputs of `check`, scripts, schedules and traces with their first fault"
    return {
        f"crates, {len(tests)} of which only test, or show what statements refuse": len(crates),
        "functions": found(r"\bfn [a-z_]", code()),
        "`ensures` clauses, each proved": found(r"^\s*ensures\b", code()),
        f"{values} (`proofs/Worked*.antt`, `proofs/Needed.antt`)": found(
            ROW.pattern, texts(computed())
        ),
        f"{mutants}, each refused by the checker": len(list(CRATES.glob("*/must-fail/*.edit"))),
        "tests": found(r"#\[test\]", code()),
        "cases with their reports, in `examples/`": len(list((TOP / "examples").glob("*.toml"))),
        f"{firsts}, in `{numbers.DATA}`": faults(),
    }


def number_table() -> list[str]:
    """The counts, as the rows of a table."""
    return ["| Number | Of |", "|---|---|", *(f"| {it:,} | {of} |" for of, it in counts().items())]


# Layers that are of use by themselves: the highest crate of each, and the page with its calls.
LAYERS = {
    "the codec: packets, flits, the check": ("hmc_packet", "../crates/hmc_packet/CALLING.md"),
    "links": ("hmc_link", "../crates/hmc_link/CALLING.md"),
    "commands: what a request does": ("hmc_serial", "../crates/hmc_serial/CALLING.md"),
    "routes": ("hmc_routes", "../crates/hmc_routes/src/routes.rt"),
}


def layer_table() -> list[str]:
    """What is to be copied of each layer, as the rows of a table."""
    known = libraries()
    rows = ["| Layer | Crates | Libraries | How to call it |", "|---|---|---|---|"]
    for title, (top, page) in LAYERS.items():
        below = crates_below(top, known)
        crates = ", ".join(f"`{it}`" for it in known if it in below)
        named = {it for crate in below for it in known[crate]} - below
        others = ", ".join(f"`{it}`" for it in sorted(named)) or "none"
        shown = "/".join(page.split("/")[2:])
        rows.append(f"| {title} | {crates} | {others} | [{shown}]({page}) |")
    return rows


def measured_table(name: str) -> Callable[[], list[str]]:
    """The table that a script of `bench/` printed when it was run last."""
    return lambda: (TOP / "bench" / "measured" / f"{name}.txt").read_text("utf-8").splitlines()


# The tables of each page.
PAGES = {
    "CONTRIBUTING.md": (duration_table,),
    "docs/ARCHITECTURE.md": (layer_table, named_table, section_table),
    "docs/PROOFS.md": (number_table,),
    "docs/speed.md": (measured_table("plain"), measured_table("events")),
    "docs/TRUST.md": (promise_table, reading_table),
    "docs/definitions.md": (word_table,),
}


def page_with(text: str, table: list[str]) -> str:
    """A page with this table in the place of the one with the same head."""
    at = text.index("\n".join(table[:2]))
    end = text.index("\n\n", at) if "\n\n" in text[at:] else len(text.rstrip("\n"))
    return text[:at] + "\n".join(table) + text[end:]


def page_of(path: str) -> str:
    """A page with its tables, contracts and numbers as they have to be."""
    calling = path.endswith("CALLING.md")
    text = quotes.requote(TOP / path) if calling else (TOP / path).read_text(encoding="utf-8")
    text = phrases.page_with(path, text)
    for table in PAGES.get(path, ()):
        text = page_with(text, table())
    return stated.page_with(path, text)


def pages() -> Iterator[tuple[Path, str]]:
    """Yields each page as it has to be."""
    for path in phrases.PAGES:
        yield TOP / path, page_of(path)


def write() -> None:
    """Puts the tables, the contracts and the numbers into their pages."""
    for path, text in pages():
        path.write_text(text, encoding="utf-8")
    phrases.write()


def main(words: list[str]) -> None:
    """Prints or writes the tables."""
    if words == ["--write"]:
        write()
        return
    for tables in PAGES.values():
        for table in tables:
            print("\n".join([*table(), ""]))


if __name__ == "__main__":
    main(sys.argv[1:])
