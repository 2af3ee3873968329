"""What the tests share: the repository's examples, and the tool as a user runs it."""

from __future__ import annotations

import io
import subprocess
import sys
from contextlib import redirect_stdout
from pathlib import Path
from typing import BinaryIO

from tool import build, cli

TOP = Path(__file__).resolve().parent.parent.parent
EXAMPLES = TOP / "examples"
DATA = Path(__file__).resolve().parent / "data"
# Tables of faulty inputs.
FAULTS = DATA / "faults"
# The cases of examples/ that have a report.
CASES = sorted(path for path in EXAMPLES.glob("*.toml") if path.with_suffix(".report").exists())
ESCAPES = {r"\n": "\n", r"\r": "\r", r"\t": "\t"}


def tool(*words: str, given: bytes = b"") -> subprocess.CompletedProcess[bytes]:
    """Runs the tool with these words and this input."""
    command = [sys.executable, str(TOP / "zehimbado"), *words]
    return subprocess.run(command, input=given, capture_output=True, timeout=60)


def require_program() -> None:
    """Fails where the program of these sources is not built: a test must not build it."""
    if not build.is_current():
        raise AssertionError("the program of these sources is not built: ./zehimbado build")


def builds() -> list[Path]:
    """The program, and the build of it by Rattle's own compiler, where that stands beside it. One
    that is older is of other sources."""
    second = build.PROGRAM.with_suffix(".by-rattle")
    newest = build.PROGRAM.stat().st_mtime_ns
    has_second = second.is_file() and second.stat().st_mtime_ns >= newest
    return [build.PROGRAM, second] if has_second else [build.PROGRAM]


def answer(program: Path, words: list[str], given: bytes | BinaryIO) -> tuple[int, bytes, bytes]:
    """The status of a program with these words, and what it wrote to standard output and error.
    Standard input is these bytes, or this file."""
    command: list[str | Path] = [program, *words]
    data, source = (given, None) if isinstance(given, bytes) else (None, given)
    ran = subprocess.run(
        command, input=data, stdin=source, capture_output=True, check=False, timeout=60
    )
    return ran.returncode, ran.stdout, ran.stderr


def output_of(*words: str) -> str:
    """What the tool writes to standard output, run in this process."""
    written = io.BytesIO()
    with redirect_stdout(io.TextIOWrapper(written, encoding="utf-8", write_through=True)):
        cli.main(list(words))
        return written.getvalue().decode()


def bad_cases() -> list[tuple[list[str], str, str]]:
    """The rows of bad-cases.txt: the lines that replace others, the case, its fault."""
    rows, changes = [], []
    for line in (FAULTS / "bad-cases.txt").read_text(encoding="utf-8").split("\n"):
        if line.startswith(("- ", "+ ")):
            changes.append(line)
        elif line.startswith("= "):
            added = [change[2:] for change in changes if change.startswith("+ ")]
            rows.append((added, changed_case(changes), line[2:]))
            changes = []
    return rows


def changed_case(changes: list[str]) -> str:
    """The case of bad-cases-base.toml with these changes."""
    base = (FAULTS / "bad-cases-base.toml").read_text(encoding="utf-8").removesuffix("\n")
    instead: dict[str, list[str]] = {}
    for change in changes:
        if change.startswith("- "):
            removed = change[2:]
            instead[removed] = []
        else:
            instead[removed].append(change[2:])
    lines = [new for line in base.split("\n") for new in instead.get(line, [line])]
    return "".join(f"{line}\n" for line in lines)


def text_rows(name: str) -> list[tuple[str, str]]:
    """The rows of a table of faulty texts: the text, and the line and kind of its fault."""
    rows = []
    for line in (FAULTS / name).read_text(encoding="utf-8").split("\n"):
        text, found, fault = line.rpartition(" = ")
        if found:
            for written, meant in ESCAPES.items():
                text = text.replace(written, meant)
            rows.append((text, fault))
    return rows
