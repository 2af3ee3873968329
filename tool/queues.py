"""The queues of a network, and the ends of its directions."""

from __future__ import annotations

from collections.abc import Iterator
from typing import Any

from tool.case import Document, Endpoint, ends_of
from tool.lines import REGISTERS

# A queue, by a word and numbers, as ("bank", 0, 1, 0).
Queue = tuple[Any, ...]


def ends_by_direction(document: Document) -> list[tuple[Endpoint, Endpoint]]:
    """The sending and the receiving end of each direction."""
    pairs = []
    for link in document["links"]:
        a, b = ends_of(link)
        pairs += [(a, b), (b, a)]
    return pairs


def queues_of(document: Document) -> Iterator[tuple[Queue, tuple[str, ...], str]]:
    """Yields each queue of the network, the scopes that it is in, and its name."""
    for direction, (sender, receiver) in enumerate(ends_by_direction(document)):
        yield ("line", direction), (f"direction{direction}",), "line_flits"
        yield ("output", sender), (f"direction{direction}",), "output_packets"
        yield ("buffer", receiver), (f"direction{direction}",), "buffer_packets"
    for number, cube in enumerate(document["cubes"]):
        scope = f"cube{number}"
        yield ("registers", number), (scope,), "registers"
        yield ("answers", number, REGISTERS), (scope,), "registers_answers"
        for vault in range(1 << cube["vault_bits"]):
            inner = (scope, f"vault{vault}")
            yield ("vault", number, vault), inner, "queue"
            yield ("answers", number, vault), inner, "answers"
            for bank in range(1 << cube["bank_bits"]):
                yield ("bank", number, vault, bank), inner, f"bank{bank}"


def sizes_of(document: Document) -> list[int]:
    """How much each queue holds at most, in the order of `queues_of`. It is 0 for a buffer, whose
    room is that of its tokens."""
    outputs = [link["output"] for link in document["links"] for _ in range(2)]
    lines = [link["line"] for link in document["links"] for _ in range(2)]
    ahead = {sender: at for at, (sender, _) in enumerate(ends_by_direction(document))}
    sizes = []
    for (word, place, *_), _, _ in queues_of(document):
        if word == "line":
            sizes.append(lines[place])
        elif word == "output":
            sizes.append(outputs[ahead[place]])
        else:
            sizes.append(0 if word == "buffer" else document["cubes"][place]["queue"])
    return sizes
