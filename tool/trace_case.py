"""A case around the script of a trace: its cubes in a chain, and host 0 at the first of them."""

from __future__ import annotations

from dataclasses import dataclass

from tool import case, documents, explain_fault, schedule
from tool.case import Document
from tool.texts import INPUT_BYTES, MOST_ROUNDS, MOST_STEPS
from tool.traces import Shape, Trace
from tool.trouble import BAD_DATA, USAGE, Trouble

# The drain bound: the rounds that settle the link of one cube in any state, and those for each
# packet under way and for one more.
OPEN_LINK = 4000
PACKET = 2000
# Rounds until every link of a chain is open, and those that a request or its answer waits at most
# on a link that loses nothing.
OPENING = 200
HOP = 24
FLIT = 16


@dataclass(frozen=True)
class Sizes:
    """The numbers of a case that a trace leaves open."""

    queue: int = 16
    line: int = 16
    tokens: int = 128
    retry: int = 256
    output: int = 16
    rounds: int | None = None


def text_of(trace: Trace, sizes: Sizes) -> str:
    """The case as a TOML document. It is valid."""
    document = document_of(trace, sizes)
    refuse_steps(document)
    fault = case.first_fault(document)
    if fault:
        raise Trouble(USAGE, explain_fault.advice(fault, document))
    text = documents.text_of(document)
    if len(text) > INPUT_BYTES:
        said = f"the case has {len(text):,} bytes, and may have {INPUT_BYTES:,}"
        raise Trouble(BAD_DATA, f"{said}: give a shorter trace")
    return text


def document_of(trace: Trace, sizes: Sizes) -> Document:
    """The case, with the rounds that are given, else those that are proved or thought enough."""
    document = {
        "profile": 1,
        "script": "".join(f"{request}\n" for request in trace.requests),
        "schedule": "",
        "cubes": [cube_of(shape, sizes) for shape in trace.shapes],
        "links": [link_of(number, sizes) for number in range(len(trace.shapes))],
    }
    drains = gives_and_rounds(trace, sizes)
    if sizes.rounds is None and drains and steps_of(drains, document) <= MOST_STEPS:
        return {**document, "schedule": drains}
    rounds = rounds_of(trace) if sizes.rounds is None else sizes.rounds
    if not 1 <= rounds <= MOST_ROUNDS:
        raise Trouble(USAGE, f"{rounds:,} rounds: a schedule has 1 to {MOST_ROUNDS:,} of them")
    return {**document, "schedule": f"round {rounds}\n"}


def gives_and_rounds(trace: Trace, sizes: Sizes) -> str:
    """The schedule that gives all requests first, and then has the rounds of the drain bound of
    docs/drain.md for so many. It is empty where it has no such bound: in a network of more cubes,
    or where the host's output queue has no room for all requests at once."""
    count = len(trace.requests)
    if len(trace.shapes) > 1 or count > sizes.output:
        return ""
    return "give 0\n" * count + f"round {OPEN_LINK + PACKET * (count + 1)}\n"


def cube_of(shape: Shape, sizes: Sizes) -> Document:
    """A cube with this shape."""
    bits = {"vault_bits": shape.vault_bits, "bank_bits": shape.bank_bits}
    return {**bits, "rows": shape.rows, "queue": sizes.queue}


def link_of(number: int, sizes: Sizes) -> Document:
    """The link that ends at port 0 of the cube with this number."""
    ends = {"a": f"c{number - 1}.1" if number else "h0", "b": f"c{number}.0"}
    numbers = {"line": sizes.line, "tokens": sizes.tokens}
    return {**ends, **numbers, "retry": sizes.retry, "output": sizes.output}


def steps_of(text: str, document: Document) -> int:
    """The steps of a schedule of this case."""
    plan, lines = case.plan_of(document), text.splitlines()
    return sum(schedule.steps_of(line.split(" "), plan) for line in lines)


def refuse_steps(document: Document) -> None:
    """Refuses a case with more steps than a schedule may have."""
    steps = steps_of(document["schedule"], document)
    if steps > MOST_STEPS:
        said = f"the rounds have {steps:,} steps, and a schedule has at most {MOST_STEPS:,}"
        raise Trouble(USAGE, f"{said}: give a shorter trace, smaller cubes or --rounds")


def rounds_of(trace: Trace) -> int:
    """An estimate of the rounds after which all loads have their values, if no flit is changed.

    It counts as if each request went alone: its flits and those of its answer, and a wait on each
    link of its way and back.
    """
    rounds = OPENING
    for request in trace.requests:
        size = int(request.command[2:]) if request.command != "bwr" else FLIT
        hops = request.cube + 1
        rounds += 2 + size // FLIT + 2 * HOP * hops
    return rounds
