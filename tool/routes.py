"""The way of a packet through a network, by the rule of docs/report.md."""

from __future__ import annotations

import re
from dataclasses import dataclass

from tool import texts
from tool.case import Document, Endpoint, ends_of
from tool.trouble import USAGE, Trouble

PLACE = re.compile("([hc])([0-7])")


@dataclass(frozen=True)
class Hop:
    """A direction that a packet crosses, and the ends of it."""

    direction: int
    start: Endpoint
    end: Endpoint


def hops_from(document: Document) -> dict[Endpoint, Hop]:
    """The direction that leads out of each end of a link."""
    hops: dict[Endpoint, Hop] = {}
    for number, link in enumerate(document["links"]):
        a, b = ends_of(link)
        hops[a] = Hop(2 * number, a, b)
        hops[b] = Hop(2 * number + 1, b, a)
    return hops


def distances_to(cube: int, document: Document) -> dict[int, int]:
    """How many links lead from each cube to this one at least."""
    found, hops = {cube: 0}, hops_from(document).values()
    for distance in range(1, len(document["cubes"])):
        for hop in hops:
            is_between = hop.start.host is None and hop.end.host is None
            if is_between and found.get(hop.end.cube) == distance - 1:
                found.setdefault(hop.start.cube, distance)
    return found


def route(document: Document, start: str, goal: str) -> list[Hop]:
    """The directions that a packet crosses from a host or cube to another, as `h0` and `c3`."""
    hops = hops_from(document)
    first, last = place_in(document, start), place_in(document, goal)
    way: list[Hop] = []
    if first.host is not None:
        way.append(hops[first])
    cube = way[0].end.cube if way else first.cube
    if first == last:
        return []
    goal_cube = hops[last].end.cube if last.host is not None else last.cube
    distances = distances_to(goal_cube, document)
    while cube != goal_cube:
        hop = next_hop(cube, distances, hops)
        way.append(hop)
        cube = hop.end.cube
    if last.host is not None:
        back = hops[last]
        way.append(Hop(back.direction ^ 1, back.end, back.start))
    return way


def next_hop(cube: int, distances: dict[int, int], hops: dict[Endpoint, Hop]) -> Hop:
    """The direction out of the lowest port of a cube whose neighbour is one link nearer."""
    for port in range(texts.PORTS):
        hop = hops.get(Endpoint(None, cube, port))
        if hop and hop.end.host is None and distances[hop.end.cube] == distances[cube] - 1:
            return hop
    raise AssertionError("each cube has a way to each other one")


def place_in(document: Document, word: str) -> Endpoint:
    """The host or the cube that a word names in this network."""
    found = PLACE.fullmatch(word)
    if found is None:
        raise Trouble(USAGE, f"{word} is neither a host, as h0, nor a cube, as c3")
    number = int(found[2])
    if found[1] == "c":
        if number >= len(document["cubes"]):
            raise Trouble(USAGE, f"the case has no cube {number}")
        return Endpoint(None, number, -1)
    place = Endpoint(number)
    if place not in hops_from(document):
        raise Trouble(USAGE, f"the case has no host {number}")
    return place


def ring_of(document: Document) -> list[int]:
    """The cubes of a ring in its order, from cube 0; empty where the cubes are no ring."""
    joined: dict[int, list[int]] = {cube: [] for cube in range(len(document["cubes"]))}
    for hop in hops_from(document).values():
        if hop.start.host is None and hop.end.host is None:
            joined[hop.start.cube].append(hop.end.cube)
    if len(joined) < 3 or any(len(set(it)) != 2 or len(it) != 2 for it in joined.values()):
        return []
    order = [0, min(joined[0])]
    while len(order) < len(joined):
        order += [cube for cube in joined[order[-1]] if cube != order[-2]][:1]
    return order if len(set(order)) == len(joined) else []
