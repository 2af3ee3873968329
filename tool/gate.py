"""What .ci/run needs beside the kit: the digest of the sources, the tests, and the last line."""

from __future__ import annotations

import io
import os
import re
import shutil
import subprocess
import sys
import unittest
from concurrent.futures import ProcessPoolExecutor
from pathlib import Path

from tool import build, release

COUNT = re.compile(r"([0-9]+) passed, ([0-9]+) failed(.*)")


# What a gate that passed says, by the words that a release states it with.
SAID = {
    "gate": re.compile(r"^([0-9]+ passed, 0 failed)$", re.MULTILINE),
    "checked": re.compile(r"^rt: (ok; .*)$", re.MULTILINE),
    "script": re.compile(r"^zehimbado: ([0-9]+ tests) of the script$", re.MULTILINE),
    "bindings": re.compile(r"^bindings: ([0-9]+ passed, .*)$", re.MULTILINE),
}
# The modules of tests that take longest: they build a program, or run one often.
LONGEST = ("test_quoted", "test_run", "test_files", "test_docs", "test_numbers")

# What reads the sources of the script, with the words that it takes.
CHECKERS = {
    "mypy": ("--strict", f"--cache-dir={os.devnull}", "tool"),
    "pylint": ("--rcfile=tool/pylintrc", "--score=n", "tool"),
}


def checked(name: str) -> tuple[str, int, bool]:
    """Whether a checker of Python accepts the script, and what it said. One that is not here is
    named."""
    if shutil.which(name) is None:
        said = f"zehimbado: {name} is not here, so it checks nothing: apt-get install {name}\n"
        return said, 0, True
    ran = subprocess.run([name, *CHECKERS[name]], capture_output=True, text=True, check=False)
    return ran.stdout + ran.stderr, 0, ran.returncode == 0


def tested(name: str) -> tuple[str, int, bool]:
    """What the tests of a module said, how many there are, and whether all of them passed. A test
    that is skipped fails."""
    suite = unittest.defaultTestLoader.loadTestsFromName(name)
    written = io.StringIO()
    result = unittest.TextTestRunner(stream=written).run(suite)
    is_well = result.wasSuccessful() and not result.skipped and result.testsRun > 0
    return f"{name}: {written.getvalue()}", result.testsRun, is_well


def order(name: str) -> tuple[bool, str]:
    """Those that take longest begin first."""
    return name not in LONGEST, name


def tests() -> int:
    """Runs the checkers and the tests of the script, each module in a process, as many at once as
    there are processors, and returns 0 where all pass."""
    names = sorted((path.stem for path in Path("tool/tests").glob("test_*.py")), key=order)
    modules = [f"tool.tests.{name}" for name in names]
    with ProcessPoolExecutor() as pool:
        runs = [pool.submit(checked, name) for name in CHECKERS]
        runs += [pool.submit(tested, name) for name in modules]
        ended = [run.result() for run in runs]
    for said, _, _ in ended:
        print(said, end="")
    print(f"zehimbado: {sum(number for _, number, _ in ended)} tests of the script")
    return 0 if all(is_well for _, _, is_well in ended) else 1


def count(line: str, status: str) -> str:
    """The last line of the gate: that of the kit, with one more that failed where the tests did."""
    found = COUNT.fullmatch(line)
    if not found:
        return "0 passed, 1 failed"
    passed, failed, rest = found.groups()
    return line if status == "0" else f"{passed} passed, {int(failed) + 1} failed{rest}"


def main(words: list[str]) -> int:
    """Does one of the things that .ci/run asks for."""
    if words == ["sources"]:
        print(release.digest())
    elif words == ["tests"]:
        return tests()
    elif words[:1] == ["record"]:
        return record(words[1])
    elif words[:1] == ["passed"]:
        note_passed(words[1], [Path(word).read_text("utf-8", "replace") for word in words[2:]])
    else:
        print(count(words[1], words[2]))
    return 0


def record(sources: str) -> int:
    """Records the program that the kit left, if the sources are still those."""
    if release.digest() != sources or not build.PROGRAM.is_file():
        print("zehimbado: the gate left no program of these sources")
        return 1
    build.record(build.digest())
    return 0


def note_passed(sources: str, logs: list[str]) -> None:
    """Records what a gate that passed has said, for the release of these sources."""
    rows = [f"sources {sources}"]
    for log in logs:
        for word, pattern in SAID.items():
            rows += [f"{word} {found}" for found in pattern.findall(log)[-1:]]
    release.GATE.write_text("".join(f"{row}\n" for row in rows), encoding="utf-8")


if __name__ == "__main__":
    sys.exit(main(sys.argv[1:]))
