"""The rounds of a schedule, by the steps of a report, and where nothing moves any more."""

from __future__ import annotations

from typing import NamedTuple

from tool import schedule, texts
from tool.case import Document, plan_of

# A run that ends so many rounds after the last packet moved is said to stand still. A link that
# goes back once needs fewer.
STILL_ROUNDS = 300


class Segment(NamedTuple):
    """A line `round N` of a schedule: its first step, its rounds, and the rounds before it."""

    step: int
    rounds: int
    before: int


class Rounds:
    """The rounds of the schedule of a case. Steps of other lines are between them."""

    def __init__(self, document: Document):
        plan = plan_of(document)
        self.steps = plan.round_steps
        self.segments: list[Segment] = []
        step, before = 1, 0
        for line in texts.lines_of(document["schedule"]):
            words = texts.plain_words_of(line)
            if words and words[0] == "round":
                number = texts.value_of(words[1])
                self.segments.append(Segment(step, number, before))
                before += number
            step += schedule.steps_of(words, plan) if words else 0

    def of(self, step: int) -> int:
        """The round that a step is in, or the last one before it; 0 before the first."""
        number = 0
        for segment in self.segments:
            if segment.step <= step:
                passed = (step - segment.step) // self.steps + 1
                number = segment.before + min(passed, segment.rounds)
        return number


def still_since(document: Document, moved: int, steps: int) -> str:
    """What is said of a run that is busy at its end, where its last packet moved long before; else
    nothing."""
    rounds = Rounds(document)
    last, end = rounds.of(moved), rounds.of(steps)
    if end - last < STILL_ROUNDS:
        return ""
    return f"no packet has moved since round {last:,}, step {moved:,}; the run has {end:,} rounds"
