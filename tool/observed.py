"""The log of a test bench: a line for each event that it saw. docs/observations.md has the form."""

from __future__ import annotations

from collections.abc import Iterable, Iterator
from dataclasses import dataclass

from tool import script, texts
from tool.case import Document, Endpoint, endpoint_of, plan_of
from tool.lines import Request
from tool.trouble import BAD_DATA, Trouble, cut, quoted

# The words after each event.
EVENTS = {
    "request": "HOST and the words of a request",
    "fence": "HOST",
    "answer": "HOST",
    "out": "END, and perhaps `flow`",
    "in": "END, and perhaps `flow`",
    "begin": "END",
    "retire": "SLOT",
}
FLOW = "flow"
# Where each part acts on what was there a cycle before, the events of a cycle are in this order.
WITHIN_A_CYCLE = ("answer", "in", "begin", "out", "retire", "fence", "request")


@dataclass(frozen=True)
class Event:
    """An event: the line of the log, its time, its word, and what it is about."""

    line: int
    time: int
    word: str
    host: int = 0
    end: Endpoint = Endpoint(0)
    is_flow: bool = False
    request: Request | None = None
    text: str = ""


def wrong(line: int, said: str) -> Trouble:
    """What is wrong with a line of the log."""
    return Trouble(BAD_DATA, f"line {line} of the log: {said}")


def events_of(lines: Iterable[str], document: Document, by_cycle: bool) -> list[Event]:
    """The events of a log, in the order of their steps."""
    found = list(_read(lines, document))
    if not found:
        raise Trouble(BAD_DATA, "the log has no event: each line is empty or a comment")
    for before, after in zip(found, found[1:]):
        if after.time < before.time:
            raise wrong(after.line, f"time {after.time} is before that of line {before.line}")
    if by_cycle:
        found.sort(key=lambda event: (event.time, WITHIN_A_CYCLE.index(event.word)))
    return found


def _read(lines: Iterable[str], document: Document) -> Iterator[Event]:
    ends = {end for link in document["links"] for end in map(endpoint_of, (link["a"], link["b"]))}
    for number, line in enumerate(lines, start=1):
        words = texts.plain_words_of(line.strip())
        if not words:
            continue
        time = texts.number_of(words[0])
        if time is None:
            raise wrong(number, f"{quoted(words[0])} is not a time: a number is expected")
        word = words[1] if len(words) > 1 else ""
        if word not in EVENTS:
            raise wrong(number, f"{quoted(word)} is not an event; these are: {', '.join(EVENTS)}")
        if len(words) < 3:
            raise wrong(number, f"after `{word}` comes {EVENTS[word]}")
        event = _event(number, time, words[1:], document)
        if word in ("out", "in", "begin") and event.end not in ends:
            raise wrong(number, f"no link of the case ends at {cut(words[2])}")
        yield event


def _event(number: int, time: int, words: list[str], document: Document) -> Event:
    """The event of a line with an event's word and one more."""
    word, first, *rest = words
    if word == "request":
        return _request(number, time, words, document)
    if word in ("out", "in", "begin"):
        end = endpoint_of(first)
        if end is None or rest not in ([], [FLOW]):
            raise wrong(number, f"after `{word}` comes {EVENTS[word]}")
        return Event(number, time, word, end=end, is_flow=bool(rest))
    value = texts.number_of(first)
    most = texts.SLOTS if word == "retire" else plan_of(document).hosts
    if value is None or value >= most or rest:
        raise wrong(number, f"after `{word}` comes {EVENTS[word]}, less than {most}")
    return Event(number, time, word, host=value, text=f"{value} fence" if word == "fence" else "")


def _request(number: int, time: int, words: list[str], document: Document) -> Event:
    """The event of a request, which is read as a line of a script."""
    fault = script.line_fault(words[1:], plan_of(document))
    if fault or words[2] == "fence":
        kind = fault[0] if fault else "command"
        raise wrong(number, f"the request is not a line of a script: {kind} (docs/script.md)")
    host = texts.value_of(words[1])
    request = script.request_of(words[2:])
    return Event(number, time, "request", host=host, request=request, text=" ".join(words[1:]))
