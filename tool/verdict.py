"""Explains the verdict `unlawful K`: the line of the report, the line that is due there, its step
with the place in the case, and the lines before it that are about the same."""

from __future__ import annotations

import re
from collections.abc import Iterable
from dataclasses import dataclass
from itertools import islice

from tool import case as cases, diff, explain_fault, schedule, texts
from tool.case import Document
from tool.places import Places
from tool.subjects import about
from tool.trouble import BAD_DATA, Trouble

VERDICT = re.compile(r"unlawful ([1-9][0-9]*)")
# What the lines of reports do not have, in words.
FOREIGN = {"[A-Z]": "a capital letter", "\r": "a carriage return"}
DUE = "the due report"
NOT_JUDGED = "such a report is not judged"


@dataclass(frozen=True)
class Source:
    """A case: its document, its bytes, and its name."""

    document: Document
    data: bytes
    name: str


@dataclass(frozen=True)
class Given:
    """The lines of a report, each with its line feed if it has one, and its name."""

    lines: list[str]
    name: str


def number_of(answer: list[str]) -> int:
    """The number of the line that the verdict names."""
    found = VERDICT.fullmatch(answer[0]) if len(answer) == 1 else None
    assert found is not None, answer
    return int(found[1])


def refuse_foreign(lines: Iterable[str], name: str) -> None:
    """Refuses a report with letters or line ends of another form: it was changed after it was made,
    or another program wrote it, and its first line that differs would show only that."""
    pattern = re.compile("|".join(FOREIGN))
    for number, line in enumerate(lines, start=1):
        found = pattern.search(line)
        if found:
            what = FOREIGN.get(found[0], FOREIGN["[A-Z]"])
            said = f"line {number} of {name} has {what}, and lines of reports have none"
            raise Trouble(BAD_DATA, f"{said}: {NOT_JUDGED}")


def explained(number: int, given: Given, due: list[str], source: Source) -> list[str]:
    """What is wrong at a line of a report, by the report that is due, and what came before."""
    lines, ends = given.lines, ""
    if number == len(lines) + 1 and lines and not lines[-1].endswith("\n"):
        number, ends = len(lines), "the report ends within this line"
    mine, theirs = line_at(number, lines), line_at(number, due)
    refuse_without_idle(number, given, theirs)
    how = diff.How((given.name, DUE))
    difference = diff.Difference(number, (mine, theirs))
    before = diff.Before(difference, how, about)
    before.read(islice(lines, number - 1))
    said = diff.shown(difference, before, how)
    after = [ends] * bool(ends) + step_lines(number, source)
    return [f"line {number}:", *said[1:3], *after, *said[3:]]


def line_at(number: int, lines: list[str]) -> str | None:
    """The line with this number without its line feed, if it is there."""
    return lines[number - 1].removesuffix("\n") if number <= len(lines) else None


def refuse_without_idle(number: int, given: Given, due: str | None) -> None:
    """Refuses a report whose idle lines are left out: it differs at the first one that is due."""
    is_due = due is not None and due.startswith("idle ") and number <= len(given.lines)
    if is_due and not any(line.startswith("idle ") for line in given.lines):
        said = f"{given.name} has no line that begins with `idle`, and line {number} has to be one"
        raise Trouble(BAD_DATA, f"{said}: {NOT_JUDGED} without its idle lines")


def step_lines(number: int, source: Source) -> list[str]:
    """The step with this number, and its place in the case; nothing after the last step."""
    text, plan = source.document["schedule"], cases.plan_of(source.document)
    step, mask = next(islice(schedule.steps_in(text, plan), number - 1, None), ("", ""))
    if not step:
        return ["the schedule has no step left: this is the place of a final line"]
    line, passed = schedule.line_of(number, text, plan)
    row = texts.lines_of(text)[line - 1]
    words = texts.words_of(row)
    start, end = words[0].start, words[-1].start + len(words[-1].text)
    rounds = f", in round {passed // plan.round_steps + 1}" if words[0].text == "round" else ""
    named = f"{step} {mask}".rstrip()
    places = Places(source.data.decode("utf-8", errors="replace"))
    part = explain_fault.Part("schedule", line, start, end - start)
    shown = explain_fault.part_lines(part, row, places, source.name)
    return [f"the step is `{named}`{rounds}:", *(f"  {it}" for it in shown)]
