"""Finds a small case for which a command still fails, that is, ends with the status that it has for
CASE. In the command {} is the path of a case; where it has no {}, the case is its standard input.
The smallest case so far is in the file of -o at each moment, and is written too where the script is
asked to end.

As ./zehimbado shrink CASE -- ./compare {}"""

from __future__ import annotations

import os
import subprocess
import tempfile
import time
from argparse import Namespace
from collections.abc import Iterator
from contextlib import ExitStack, contextmanager
from dataclasses import dataclass

from tool import documents, files, processes, run as runs
from tool.shrink import Shrinker
from tool.trouble import UNAVAILABLE, USAGE, Trouble, note
from tool.verbs import Parser
from tool.verbs.words import read_case

PLACE = "{}"
# Progress is said so often, in seconds.
OFTEN = 2.0


def add_words(parser: Parser) -> None:
    """Adds the words that the command takes."""
    parser.add_argument("case", metavar="CASE")
    parser.add_argument("-o", dest="output", metavar="CASE", help="write the small case to a file")
    jobs_help = "so many cases are tried at once: 1, if it isn't given"
    parser.add_argument("--jobs", type=int, default=1, metavar="N", help=jobs_help)
    parser.add_argument("command", nargs="+", metavar="COMMAND", help="after --, and its words")


def run(words: Namespace) -> int:
    """Writes the small case."""
    if not 1 <= words.jobs <= 64:
        raise Trouble(USAGE, f"--jobs {words.jobs}: the number is 1 to 64")
    files.refuse_inputs(words.output or files.STANDARD, [words.case])
    document = read_case(words.case)
    with tempfile.TemporaryDirectory(prefix="zehimbado-") as folder:
        tries = Tries(words.command, folder)
        failing = tries.statuses([documents.text_of(document).encode()])[0]
        if failing == 0:
            raise Trouble(USAGE, "the command ends with status 0 for this case: it does not fail")
        note(f"the command ends with status {failing}; cases with the same status are kept")
        keeper = Keeper(words.output, words.case)
        shrinker = Shrinker(
            document,
            lambda cases: tries.first_of(failing, cases),
            words.jobs,
            lambda: keeper.improved(shrinker),
        )
        with keeper.kept_at_signals(shrinker):
            shrinker.shrink()
    note(f"{shrinker.tried} cases tried")
    keeper.write(shrinker)
    return 0


@dataclass
class Keeper:
    """Writes the smallest case so far, and says how far it is."""

    output: str | None
    source: str
    said: float = 0.0

    def write(self, shrinker: Shrinker) -> None:
        """Writes the smallest case so far."""
        lines = documents.text_of(shrinker.document).splitlines()
        files.write_lines(lines, self.output, [self.source])

    def improved(self, shrinker: Shrinker) -> None:
        """Writes a smaller case than those before it to the file, and says how far it is."""
        is_file = not files.is_standard(self.output) and not is_device(str(self.output))
        if is_file:
            self.write(shrinker)
        now = time.monotonic()
        if now - self.said >= OFTEN:
            self.said = now
            note(f"{shrinker.tried} cases tried, {shrinker.lines} lines left")

    @contextmanager
    def kept_at_signals(self, shrinker: Shrinker) -> Iterator[None]:
        """Writes the smallest case so far where the script is asked to end meanwhile."""
        try:
            yield
        except (KeyboardInterrupt, SystemExit):
            note(f"{shrinker.tried} cases tried; asked to end, so this is the smallest so far")
            self.write(shrinker)
            raise


def is_device(name: str) -> bool:
    """Whether a name is that of something else than a file, as a pipe."""
    return os.path.exists(name) and not os.path.isfile(name)


@dataclass(frozen=True)
class Tries:
    """Runs the command for cases. What it writes is not shown."""

    command: list[str]
    folder: str

    def statuses(self, cases: list[bytes]) -> list[int]:
        """The status of the command for each of these cases, which are tried at once."""
        ended: list[int] = []
        with ExitStack() as stack:
            ended += [status_of(it) for it in self._started(cases, stack)]
        return ended

    def first_of(self, failing: int, cases: list[bytes]) -> int | None:
        """The place of the first of these cases for which the command ends with this status. Those
        after it are ended."""
        found = None
        with ExitStack() as stack:
            started = self._started(cases, stack)
            for place, running in enumerate(started):
                if found is not None:
                    processes.end(running)
                elif status_of(running) == failing:
                    found = place
        return found

    def _started(self, cases: list[bytes], stack: ExitStack) -> list[subprocess.Popen[bytes]]:
        return [self._start(number, text, stack) for number, text in enumerate(cases)]

    def _start(self, number: int, text: bytes, stack: ExitStack) -> subprocess.Popen[bytes]:
        """Starts the command for a case, which has a folder of its own."""
        folder = os.path.join(self.folder, str(number))
        os.makedirs(folder, exist_ok=True)
        path = os.path.join(folder, "case.toml")
        with open(path, "wb") as file:
            file.write(text)
        has_place = any(PLACE in word for word in self.command)
        line = [word.replace(PLACE, path) for word in self.command]
        nothing = subprocess.DEVNULL
        try:
            source = stack.enter_context(open(os.devnull if has_place else path, "rb"))
            how = {"stdin": source, "stdout": nothing, "stderr": nothing}
            return stack.enter_context(processes.child(line, **how))
        except OSError as error:
            raise Trouble(UNAVAILABLE, f"cannot run {line[0]}: {error.strerror}") from error


def status_of(running: subprocess.Popen[bytes]) -> int:
    """The status with which a command ends."""
    return runs.status_of(running.wait())
