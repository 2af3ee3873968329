"""What can go wrong in the script itself, and the exit status of each. See docs/tool.md."""

from __future__ import annotations

import sys

# What is compared differs, or less was reached than was asked for.
DIFFERENT = 1
USAGE = 64
BAD_DATA = 65
NO_INPUT = 66
UNAVAILABLE = 69
NO_OUTPUT = 73
NO_STANDARD_OUTPUT = 74
# A signal N ends a program with 128 + N, as a shell gives it: here those of Ctrl-C and of a pipe
# that no one reads.
SIGNALLED = 128
INTERRUPTED = SIGNALLED + 2
CLOSED_PIPE = SIGNALLED + 13
# So many characters of a word of an input are shown at most.
MOST_QUOTED = 80


class Trouble(Exception):
    """A failure of the script, with its exit status."""

    def __init__(self, status: int, said: str):
        super().__init__(said)
        self.status = status


class NotALine(ValueError):
    """A line that no report has, or that this report cannot have."""


class ClosedPipe(Exception):
    """No one reads standard output any more."""


def printable(text: str) -> str:
    """The text with each character that a terminal does not show as its number."""
    return "".join(it if it.isprintable() or it == "\n" else _escape(it) for it in text)


def _escape(character: str) -> str:
    """A character that is not shown, as Python spells it in a string."""
    code = ord(character)
    # A byte that is not UTF-8 is read as a lone surrogate of this range.
    if 0xDC80 <= code <= 0xDCFF:
        return f"\\x{code - 0xDC00:02x}"
    return character.encode("unicode_escape").decode("ascii")


def cut(text: str, most: int = MOST_QUOTED) -> str:
    """The text, or the front of a longer one: messages quote inputs, whose words may be of any
    length."""
    return text if len(text) <= most else f"{text[:most]}.."


def quoted(word: str) -> str:
    """A word of an input, as messages have it."""
    return f"`{cut(word)}`"


def note(said: str) -> None:
    """Says something on standard error, if there is one."""
    say(f"zehimbado: {said}")


def say(text: str) -> None:
    """Writes a line on standard error, if it can be written."""
    if sys.stderr is None:
        return
    try:
        print(printable(text), file=sys.stderr, flush=True)
    except OSError:
        # There is no other place to state that.
        return
