"""The nearest of some known words."""

from __future__ import annotations

from collections.abc import Iterable

# A word with more changes than one in so many of its letters is no slip of the other.
LETTERS_A_CHANGE = 2


def changes_between(first: str, second: str) -> int:
    """How many letters are put in, left out or replaced between two words."""
    row = list(range(len(second) + 1))
    for number, letter in enumerate(first, start=1):
        before, row[0] = row[0], number
        for place, other in enumerate(second, start=1):
            least = min(row[place] + 1, row[place - 1] + 1, before + (letter != other))
            before, row[place] = row[place], least
    return row[-1]


def nearest(word: str, known: Iterable[str]) -> str:
    """The known word with the fewest changes, of those with a common beginning the longest; or
    nothing where none is near."""
    word = word.lower()
    # A word so much longer than each has too many changes: that needn't be counted.
    known = [it for it in known if LETTERS_A_CHANGE * len(it) >= len(word)]
    rows = [(changes_between(word, it), -_common(word, it), it) for it in known]
    changes, _, found = min(rows, default=(len(word), 0, ""))
    return found if LETTERS_A_CHANGE * changes <= max(len(word), len(found)) else ""


def _common(first: str, second: str) -> int:
    """The length of the common beginning of two words."""
    pairs = zip(first, second)
    return next((at for at, (a, b) in enumerate(pairs) if a != b), min(len(first), len(second)))
