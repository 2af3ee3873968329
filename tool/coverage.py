"""Writes what reports have reached: as text, as JSON, or as a page with tables."""

from __future__ import annotations

import html
import json
from collections.abc import Iterator, Sequence

from tool.cover import Count
from tool.points import BEYOND

STYLE = (
    ":root{color-scheme:light dark}body{font:15px sans-serif;margin:2em}"
    "table{border-collapse:collapse;margin-bottom:2em}"
    "td,th{border:1px solid gray;padding:.2em .6em;text-align:left}"
    "td.n{text-align:right}tr.missing{font-weight:bold}"
)


def groups_of(counts: Sequence[Count]) -> dict[str, list[Count]]:
    """The points of each group."""
    groups: dict[str, list[Count]] = {}
    for count in counts:
        groups.setdefault(count.point.group, []).append(count)
    return groups


def reached(counts: Sequence[Count]) -> int:
    """How many of these points were reached."""
    return sum(1 for it in counts if it.times)


def text_lines(counts: Sequence[Count]) -> Iterator[str]:
    """Yields how much of each group was reached, and each point that was not, with how it is
    reached."""
    yield f"{'group':<10}{'reached':>9}{'of':>6}"
    for group, points in [*groups_of(counts).items(), ("all", [*counts])]:
        yield f"{group:<10}{reached(points):>9}{len(points):>6}"
    missing = [(f"{it.point.group} {it.point.name}", it.how) for it in counts if not it.times]
    width = max((len(name) for name, _ in missing), default=0)
    if missing:
        yield ""
    for name, how in missing:
        yield f"{name:<{width}}  {how}"


def json_text(counts: Sequence[Count], reports: int) -> str:
    """All points, as an object."""
    points = [{**it.point._asdict(), "count": it.times, "how": it.how} for it in counts]
    beyond = [{**point._asdict(), "why": why} for point, why in BEYOND.items()]
    said = {"reports": reports, "reached": reached(counts), "of": len(points)}
    return json.dumps({**said, "points": points, "beyond": beyond})


def page_lines(counts: Sequence[Count], reports: int) -> Iterator[str]:
    """Yields the lines of a page, which loads nothing."""
    title = f"{reached(counts)} of {len(counts)} points, reached by {reports} reports"
    yield f"<!DOCTYPE html><html lang=en><meta charset=utf-8><title>{title}</title>"
    yield f"<style>{STYLE}</style><h1>{title}</h1>"
    for group, points in groups_of(counts).items():
        yield f"<h2>{group}: {reached(points)} of {len(points)}</h2>"
        yield "<table><tr><th>Point<th>Reached<th>How it is reached"
        yield from map(_row, points)
        yield "</table>"
    yield "<h2>What no run of this program reaches</h2><table><tr><th>Point<th>Why"
    for point, why in BEYOND.items():
        yield f"<tr><td>{html.escape(f'{point.group} {point.name}')}<td>{html.escape(why)}"
    yield "</table></html>"


def _row(count: Count) -> str:
    """The row of a point. What was not reached is in bold."""
    kind = "" if count.times else " class=missing"
    name, how = html.escape(count.point.name), html.escape(count.how)
    return f"<tr{kind}><td>{name}<td class=n>{count.times:,}<td>{how}"
