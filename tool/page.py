"""The page of a run: one file that a browser opens, with its data, its style and its script."""

from __future__ import annotations

import html
from collections.abc import Callable, Iterable
from pathlib import Path
from typing import Any

from tool import packets
from tool.case import Document, plan_of
from tool.commands import BY_CODE
from tool.following import profiles_of
from tool.lines import Passed, State
from tool.queues import ends_by_direction, queues_of, sizes_of
from tool.rounds import Rounds, still_since
from tool.routes import ring_of
from tool.spool import Packer
from tool.view import MODES, OUTCOMES, STOPS, WHATS, View

FOLDER = Path(__file__).parent / "page"
# The parts of the script, in their order.
SCRIPTS = ("data", "canvas", "lanes", "network", "panel", "main")
DATA = "@DATA@"


def write(view: View, title: str, marks: list[int], sink: Callable[[bytes], object]) -> None:
    """Writes the page of a view. The steps of marks are shown too."""
    before, after = template(title).split(DATA)
    sink(before.encode())
    packer = Packer(sink)
    columns = {name: packer.put(column) for name, column in view.columns.items()}
    packer.end({**head(view), "columns": columns, "seen": marks})
    sink(after.encode())


def template(title: str) -> str:
    """The page without its data."""
    text = (FOLDER / "page.html").read_text(encoding="utf-8")
    style = (FOLDER / "page.css").read_text(encoding="utf-8")
    scripts = [(FOLDER / f"{name}.js").read_text(encoding="utf-8") for name in SCRIPTS]
    text = text.replace("@STYLE@", style).replace("@SCRIPT@", "".join(scripts))
    return text.replace("@TITLE@", html.escape(title))


def head(view: View) -> dict[str, Any]:
    """What the page has beside its columns."""
    document, rounds = view.document, Rounds(view.document)
    plan = plan_of(document)
    queues = list(queues_of(document))
    is_busy = view.end == State("busy")
    return {
        "steps": view.steps,
        "end": end_of(view),
        "still": still_since(document, view.moved, view.steps) if is_busy else "",
        "hosts": plan.hosts,
        "cubes": [{"vaults": it.vaults, "banks": it.banks} for it in plan.cubes],
        "ring": ring_of(document),
        "round_steps": rounds.steps,
        "segments": rounds.segments,
        "stations": STOPS,
        "whats": WHATS,
        "outcomes": OUTCOMES,
        "modes": MODES,
        "queues": [[*map(str, queue)] for queue, _, _ in queues],
        "sizes": sizes_of(document),
        "directions": directions_of(document),
        "waits": list(view.waits.names),
        "fields": fields(),
    }


def end_of(view: View) -> str:
    """How the report ends, in words."""
    if isinstance(view.end, State):
        return view.end.state
    return "a changed flit passed a check" if isinstance(view.end, Passed) else view.end.line


def directions_of(document: Document) -> list[dict[str, Any]]:
    """The ends of each direction, its profile and its tokens."""
    rows = zip(ends_by_direction(document), profiles_of(document))
    return [
        {
            "from": str(sender),
            "to": str(receiver),
            "profile": profile,
            "tokens": document["links"][number // 2]["tokens"],
        }
        for number, ((sender, receiver), profile) in enumerate(rows)
    ]


def fields() -> dict[str, Any]:
    """The fields of packets: the page has no table of its own."""

    def rows(of: Iterable[packets.Field]) -> list[tuple[str, int, int]]:
        return [(it.name, it.high, it.low) for it in of]

    return {
        "commands": {code: (it.word, it.family) for code, it in BY_CODE.items()},
        "request": rows(packets.REQUEST_HEADER),
        "response": rows(packets.RESPONSE_HEADER),
        "request_tail": {n: rows(it) for n, it in packets.REQUEST_TAIL.items()},
        "response_tail": {n: rows(it) for n, it in packets.RESPONSE_TAIL.items()},
    }
