"""What a valid case may not be meant to do: `noise` whose masks spare some directions for ever."""

from __future__ import annotations

from collections.abc import Iterator
from math import gcd

from tool import case, explain_fault, texts
from tool.explain_fault import Part
from tool.places import Places


def of_noise(data: bytes, name: str) -> list[str]:
    """Each `noise` of a valid case that spares some directions, at its place: which ones it hits,
    and the next number with which it hits all of them."""
    document, _ = case.read(data)
    text, directions = document["schedule"], case.plan_of(document).directions
    lines: list[str] = []
    for number, row, word in noise_words(text):
        every = texts.value_of(word.text)
        if gcd(every, directions) > 1:
            part = Part("schedule", number, word.start, len(word.text))
            lines += [""] * bool(lines) + [sentence(every, directions)]
            lines += explain_fault.part_lines(part, row, Places(data.decode("utf-8")), name)
    return lines


def noise_words(text: str) -> Iterator[tuple[int, str, texts.Word]]:
    """Yields the lines of each `noise` with a mask that changes something: the number of the line,
    the line, and the word of the noise that is its number."""
    for number, row in enumerate(texts.lines_of(text), start=1):
        words = texts.words_of(row)
        if len(words) == 3 and words[0].text == "noise" and words[2].text.strip("0"):
            yield number, row, words[1]


def hit_by(every: int, directions: int) -> list[int]:
    """The directions with a landing whose count so many divide. Landings take turns."""
    return sorted({(every * turn - 1) % directions for turn in range(1, directions + 1)})


def next_hitting_all(every: int, directions: int) -> int:
    """The least greater number that has no factor in common with the number of directions, or where
    that is past the limit the greatest smaller one."""
    above = range(every + 1, texts.MOST_ROUNDS + 1)
    below = range(every - 1, 0, -1)
    rows = (number for part in (above, below) for number in part)
    return next(number for number in rows if gcd(number, directions) == 1)


def sentence(every: int, directions: int) -> str:
    """Which directions a `noise` reaches, and which number reaches all of them."""
    hit = hit_by(every, directions)
    shown = ", ".join(map(str, hit))
    other = next_hitting_all(every, directions)
    return (
        f"noise {every} reaches {len(hit)} of {directions} directions, {shown}; "
        f"noise {other} reaches all of them"
    )
