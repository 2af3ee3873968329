"""The values of the loads of a trace, from a report of its script."""

from __future__ import annotations

from collections import defaultdict, deque
from collections.abc import Iterable

from tool.fit import LEFT_OUT
from tool.lines import Answer, Gave, Host, Took
from tool.report import numbered, request_of
from tool.traces import Load, Trace
from tool.trouble import NotALine

HOST = 0


class NotThisTrace(NotALine):
    """A request that is not the next one of the trace."""

    def __init__(self, number: int, said: str):
        super().__init__(f"line {number} is not one of this trace: {said}")


def values_of(trace: Trace, lines: Iterable[str]) -> list[bytes | None]:
    """The value of each load by the lines of a report, or None where an answer is missing.

    The answer to the n-th request of host 0 is found by its tag: as many requests with the tag come
    before it as answers under the tag before its own.
    """
    answers = answers_of(trace, lines)
    return [value_of(trace, load, answers) for load in trace.loads]


def answers_of(trace: Trace, lines: Iterable[str]) -> list[bytes | None]:
    """What the answers to the requests of host 0 read, in the order of the requests."""
    tags: list[int | None] = []
    taken: defaultdict[int, deque[bytes | None]] = defaultdict(deque)
    count = 0
    for number, line, _ in numbered(lines):
        if isinstance(line, Gave) and line.host == HOST:
            compare(number, line, trace, len(tags))
            tags.append(line.tag)
        elif isinstance(line, Took) and line.host == HOST:
            taken[line.tag].append(bytes_read(line.answer))
            count += 1
        elif isinstance(line, Host) and line.host == HOST:
            compare_counts(number, line, (len(tags), count))
    return [next_answer(taken, tag) for tag in tags]


def compare(number: int, line: Gave, trace: Trace, place: int) -> None:
    """Refuses a request that is not the one at this place of the trace."""
    if place >= len(trace.requests):
        raise NotThisTrace(number, f"the trace has {place} requests, and here is one more")
    wanted = trace.requests[place].text
    if request_of(wanted) != line.request:
        raise NotThisTrace(number, f"its next request is `{wanted}`")


def compare_counts(number: int, line: Host, found: tuple[int, int]) -> None:
    """Refuses a report without some of the requests and answers that a final line counts."""
    if (line.given, line.taken) != found:
        said = f"it counts {line.given} requests and {line.taken} answers, and lines show"
        raise NotALine(f"line {number}: {LEFT_OUT}: {said} {found[0]} and {found[1]}")


def next_answer(taken: defaultdict[int, deque[bytes | None]], tag: int | None) -> bytes | None:
    """The next answer under a tag, if it was taken."""
    if tag is None or not taken[tag]:
        return None
    return taken[tag].popleft()


def bytes_read(answer: Answer) -> bytes | None:
    """The bytes of an answer, if it is one of a read."""
    return bytes.fromhex(answer.bytes) if answer.kind == "read" and answer.bytes else None


def value_of(trace: Trace, load: Load, answers: list[bytes | None]) -> bytes | None:
    """The value of a load, if each of its requests has its answer."""
    joined = b""
    for place in range(load.first, load.first + load.count):
        size = int(trace.requests[place].command.removeprefix("rd"))
        answer = answers[place] if place < len(answers) else None
        if answer is None or len(answer) != size:
            return None
        joined += answer
    return joined[load.skip : load.skip + load.access.length]
