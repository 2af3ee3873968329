"""Builds the program, and says whether the built one is that of these sources.

A built program is used only where the file beside it states the digest of exactly these sources and
of the program. So a failed build, or an edit, never leaves an older program in use.
"""

from __future__ import annotations

import hashlib
import os
import re
import subprocess
import sys
from collections.abc import Iterable
from pathlib import Path

from tool import kit, processes, release
from tool.crates import DIGEST_BYTES, LIST, crates_below, digest_of, libraries, source_files
from tool.kit import INSTALLED, TOP
from tool.trouble import NO_OUTPUT, UNAVAILABLE, Trouble, note, say

CRATE = TOP / "crates" / "hmc_prog"
OUT = CRATE / "out"
PROGRAM = OUT / "hmc_prog"
RECORD = OUT / "hmc_prog.sources"
LOG = OUT / "hmc_prog.log"
# What the program writes for an input of no bytes, and its status then.
OF_NOTHING = (6, b"bad top 0 missing\n")
SHOWN = 30
# One build at a time in a checkout: each locks this file, which is always there.
LOCKED = TOP / LIST
WAITS = "another build of this checkout is at work: this one waits for it"

NAME = re.compile(r"\b(hmc_[a-z_]+)\b")
PROGRESS = re.compile(r"so far: ([0-9]+) of ([0-9]+) functions")


def digest() -> str:
    """The digest of the sources of the program."""
    return digest_of(source_files([CRATE.name]))


def record_of(sources: str, program: Path) -> str:
    """What is recorded of a program that is built from sources with this digest."""
    held = hashlib.blake2b(program.read_bytes(), digest_size=DIGEST_BYTES)
    return f"sources {sources}\nprogram {held.hexdigest()}\n"


def is_current(program: Path = PROGRAM, beside: Path = RECORD) -> bool:
    """Whether a built program is that of these sources, as the file beside it states."""
    if not os.access(program, os.X_OK) or not beside.is_file():
        return False
    return beside.read_text(encoding="utf-8") == record_of(digest(), program)


def record(sources: str) -> None:
    """Records that the program was built from the sources with this digest."""
    RECORD.write_text(record_of(sources, PROGRAM), encoding="utf-8")


class Choice:
    """Which program is taken: with `--released` that of the release, whatever sources it is of."""

    is_released = False


def proved_program() -> Path:
    """The proved program of these sources: the one that was built here, or that of a release of
    these sources, or else one that is built now."""
    if INSTALLED.is_file():
        return (TOP / INSTALLED.read_text(encoding="utf-8").strip()).resolve()
    if Choice.is_released:
        return release.program()
    if not is_current() and release.is_of_these_sources():
        return release.program()
    return built_program()


def built_program() -> Path:
    """The proved program of these sources, built here: now, where it wasn't before."""
    if not is_current():
        if not kit.is_here():
            raise Trouble(UNAVAILABLE, release.how())
        with processes.lock(LOCKED, WAITS):
            if not is_current():
                build()
    return PROGRAM


def build() -> None:
    """Proves and builds the program, and records the sources."""
    rt, _ = kit.require()
    sources = digest()
    make_out(RECORD)
    note("proving and building the program; CONTRIBUTING.md says how long the first time takes")
    result = prove([rt, "run", "--", "run"])
    if result != OF_NOTHING:
        show_log()
        raise Trouble(UNAVAILABLE, f"the program could not be proved and built; {LOG} has it all")
    if digest() != sources:
        raise Trouble(UNAVAILABLE, "the sources changed while the program was built: run it again")
    record(sources)


def make_out(old: Path) -> None:
    """Makes the folder for what is built, and removes what was recorded of an older program."""
    try:
        old.parent.mkdir(parents=True, exist_ok=True)
        old.unlink(missing_ok=True)
    except OSError as error:
        raise Trouble(NO_OUTPUT, f"cannot write {old.parent}: {error.strerror}") from error


def prove(words: list[str]) -> tuple[int, bytes]:
    """Runs the kit, shows how far it is, and returns the status and the output of the program."""
    pipe = subprocess.PIPE
    how = {"cwd": CRATE, "stdin": subprocess.DEVNULL, "stdout": pipe, "stderr": pipe}
    with processes.child(words, **how) as running:
        assert running.stdout and running.stderr
        follow(running.stderr, CRATE.name, LOG)
        written = running.stdout.read()
    return running.returncode, written


def follow(lines: Iterable[bytes], crate: str, path: Path) -> None:
    """Keeps in a log what the kit says while it builds a crate, and shows how far it is."""
    progress = Progress(crate)
    with path.open("wb") as log:
        for line in lines:
            log.write(line)
            progress.see(line.decode(errors="replace"))
    progress.end()


def show_log(path: Path = LOG) -> None:
    """Shows the end of what the kit wrote."""
    for line in path.read_text(encoding="utf-8", errors="replace").splitlines()[-SHOWN:]:
        say(f"  {line}")


class Progress:
    """Says which crate is being proved, and how many are left after it."""

    def __init__(self, crate: str) -> None:
        self._known = libraries()
        self._all = crates_below(crate, self._known)
        self._done: set[str] = set()
        self._is_terminal = sys.stderr is not None and sys.stderr.isatty()

    def see(self, line: str) -> None:
        """Takes a line of the kit."""
        counted = PROGRESS.match(line)
        if counted and self._is_terminal:
            done, total = counted.groups()
            print(f"\r  {done} of {total} functions", end="", file=sys.stderr, flush=True)
        found = NAME.search(line) if line.startswith(("rt: ", "fn ")) else None
        if found and found.group(1) in self._all - self._done:
            self._begin(found.group(1))

    def _begin(self, name: str) -> None:
        self._done |= crates_below(name, self._known)
        self.end()
        left = len(self._all - self._done)
        note(f"proving {name}; at most {left} of {len(self._all)} crates are left after it")

    def end(self) -> None:
        """Clears the line of the terminal."""
        if self._is_terminal:
            print("\r\033[K", end="", file=sys.stderr, flush=True)
