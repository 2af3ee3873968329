"""Each stored example step by step: the line of each step is that of its stored report. Then once
more with hosts that may still be asked, where only the gives at an end are left out; and begun
without requests, each of which is asked in its words, no sooner than a give waits for it.
Usage: steps.py FOLDER, the folder of the examples; the package hmc is to be found."""

from __future__ import annotations

import re
import sys
from collections.abc import Iterator
from pathlib import Path

TOP = Path(__file__).resolve().parent.parent.parent
sys.path[:0] = [str(TOP), str(TOP / "bindings" / "python")]

# pylint: disable=wrong-import-position,import-error
import hmc  # noqa: E402
from tool import case as cases  # noqa: E402
from tool import schedule  # noqa: E402
from tool.final import FINAL  # noqa: E402

KINDS = {step.name.lower(): step for step in hmc.Step}
REGISTERS = 255
ENDED = re.compile(r"idle give [0-7] ended\n")
SCRIPT = re.compile(r"^script = '''.*?'''$", re.DOTALL | re.MULTILINE)

Taken = tuple[hmc.Step, list[int], bytes]


def steps_of(document: cases.Document) -> Iterator[Taken]:
    """Yields the steps of a case, each with its numbers and its mask."""
    for words, mask in schedule.steps_in(document["schedule"], cases.plan_of(document)):
        word, *rest = words.split()
        numbers = [REGISTERS if it == "r" else int(it) for it in rest]
        yield KINDS[word], numbers, bytes.fromhex(mask) if mask else bytes(16)


def lines_of(text: str, taken: list[Taken], hosts: int) -> list[str]:
    """The lines of the steps that a session of the case takes, with so many hosts finished."""
    lines: list[str] = []
    with hmc.Session(text, hmc.PROGRAM_UNITS) as session:
        for host in range(hosts):
            session.finish(host)
        for kind, numbers, mask in taken:
            a, b, c = (*numbers, 0, 0)[:3]
            status = session.step(kind, a, b, c, mask)
            if status != hmc.Status.WAITS:
                lines.append(session.line or "")
            if status == hmc.Status.PASSED:
                break
    return lines


def requests_of(document: cases.Document) -> list[str]:
    """The texts of the requests of a case, each with the fence of its host that is before it."""
    requests: list[str] = []
    fences: dict[str, str] = {}
    for line in document["script"].split("\n"):
        words = line.split()
        if words and not words[0].startswith("#"):
            if words[1] == "fence":
                fences[words[0]] = f"{line}\n"
            else:
                requests.append(fences.pop(words[0], "") + line)
    return requests


def lines_asked_late(text: str, requests: list[str], taken: list[Taken], hosts: int) -> list[str]:
    """The lines of the steps of a session that begins without requests. While a step waits, the
    next request is asked; where none is left, the hosts are finished."""
    lines: list[str] = []
    left = iter(requests)
    with hmc.Session(SCRIPT.sub("script = ''", text), hmc.PROGRAM_UNITS) as session:
        for kind, numbers, mask in taken:
            a, b, c = (*numbers, 0, 0)[:3]
            while (status := session.step(kind, a, b, c, mask)) == hmc.Status.WAITS:
                request = next(left, None)
                if request is not None:
                    session.ask(request)
                    continue
                for host in range(hosts):
                    session.finish(host)
            lines.append(session.line or "")
            if status == hmc.Status.PASSED:
                break
    return lines


def is_wrong(
    text: str, report: list[str], document: cases.Document, taken: list[Taken], hosts: int
) -> bool:
    """Whether a line of the case differs from that of its report."""
    entries = [line for line in report if line.split()[0] not in FINAL]
    if lines_of(text, taken, hosts) != entries:
        return True
    if lines_asked_late(text, requests_of(document), taken, hosts) != entries:
        return True
    without = [line for line in entries if not ENDED.fullmatch(line)]
    return lines_of(text, taken, 0) != without


def main(folder: Path) -> int:
    """Runs each case that has a stored report, and returns how many differ."""
    ran = steps = wrong = 0
    for path in sorted(folder.glob("*.toml")):
        stored = path.with_suffix(".report")
        document, fault = cases.read(path.read_bytes())
        if fault or not stored.is_file():
            continue
        report = stored.read_text(encoding="utf-8").splitlines(keepends=True)
        taken = list(steps_of(document))
        hosts = cases.plan_of(document).hosts
        if is_wrong(path.read_text(encoding="utf-8"), report, document, taken, hosts):
            wrong += 1
            print(f"{path.name} differs")
        ran, steps = ran + 1, steps + len(taken)
    print(f"{ran} examples, {steps} steps, {wrong} wrong")
    return wrong


if __name__ == "__main__":
    sys.exit(main(Path(sys.argv[1])) != 0)
