"""Rewrites schedules: rounds with noise as their steps, masks left out, and steps as rounds."""

from __future__ import annotations

from collections.abc import Iterable, Iterator, Sequence
from itertools import groupby

from tool import schedule, texts
from tool.texts import Plan

ROUND = "round"
LAND = "land"


def unfolded(text: str, plan: Plan) -> str:
    """A schedule with the same steps and masks, without `noise`: rounds with a mask are written as
    their steps. A text without `noise` stays as it is."""
    rows = list(map(texts.plain_words_of, texts.lines_of(text)))
    if not any(words[:1] == ["noise"] for words in rows):
        return text
    return _text(_joined(_unfolded_lines(rows, plan)))


def _unfolded_lines(rows: Iterable[list[str]], plan: Plan) -> Iterator[str]:
    """Yields the lines of a schedule without noise, a line for each round."""
    one_round = [(step, "") for step in schedule.round_of(plan)]
    noise = schedule.noise_of(["noise", "off"], one_round)
    for words in rows:
        if words[:1] == ["noise"]:
            noise = schedule.noise_of(words, one_round)
        elif words[:1] == [ROUND]:
            for _ in range(texts.value_of(words[1])):
                steps = noise.over(one_round) if noise.every else one_round
                yield from [f"{ROUND} 1"] if steps is one_round else map(_line, steps)
        elif words:
            yield " ".join(words)


def _line(step: schedule.Step) -> str:
    return " ".join(step).rstrip()


def _joined(lines: Iterable[str]) -> Iterator[str]:
    """Yields lines, where those that are rounds and follow one another are one."""
    for is_round, group in groupby(lines, lambda line: line.startswith(f"{ROUND} ")):
        if is_round:
            yield f"{ROUND} {sum(int(line.split(' ')[1]) for line in group)}"
        else:
            yield from group


def masked_places(text: str) -> list[int]:
    """The places of the lines that land a flit under a mask."""
    rows = enumerate(map(texts.plain_words_of, texts.lines_of(text)))
    return [place for place, words in rows if words[:1] == [LAND] and len(words) == 3]


def without_masks(text: str, places: Sequence[int]) -> str:
    """The schedule whose lines at these places have no mask."""
    lines = texts.lines_of(text)
    for place in places:
        lines[place] = " ".join(texts.plain_words_of(lines[place])[:2])
    return "\n".join(lines)


def folded(text: str, plan: Plan) -> str:
    """A schedule with the same steps, in which those of a whole round are a line `round`."""
    rows = [words for words in map(texts.plain_words_of, texts.lines_of(text)) if words]
    if any(words[0] == "noise" for words in rows):
        return text
    return _text(_joined(_folded_lines([" ".join(words) for words in rows], plan)))


def _folded_lines(lines: list[str], plan: Plan) -> Iterator[str]:
    """Yields the lines, where a whole round is one."""
    one_round, at = schedule.round_of(plan), 0
    while at < len(lines):
        if lines[at : at + len(one_round)] == one_round:
            yield f"{ROUND} 1"
            at += len(one_round)
        else:
            yield lines[at]
            at += 1


def _text(lines: Iterable[str]) -> str:
    return "".join(f"{line}\n" for line in lines)
