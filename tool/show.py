"""The topology of a case: a picture in text, and a graph for Graphviz."""

from __future__ import annotations

import math

from tool import texts
from tool.case import Document, Endpoint, bytes_of, ends_of
from tool.routes import Hop, hops_from, ring_of

SIZES = ("line", "tokens", "retry", "output", "profile")
# A gap between two cubes of a ring, as wide as the widest pair of directions.
GAP = 9
# Where a ring is drawn: its radius, and how far outside of it hosts are, in inches and radians.
INCHES_A_CUBE = 0.75
INCHES_TO_HOST = 3
HOST_ANGLE = 0.4
ON_ROUTE = ', color="#c03030", fontcolor="#c03030", penwidth=2'


def parts_of(cube: Document) -> str:
    """The parts of a cube in words."""
    vaults, banks = 1 << cube["vault_bits"], 1 << cube["bank_bits"]
    counts = ((vaults, "vault"), (banks, "bank"), (cube["rows"], "row"))
    parts = " of ".join(counted(number, word) for number, word in counts)
    blocks = f", blocks of {cube['block']}" if "block" in cube else ""
    return f"{parts}, {bytes_of(cube):,} bytes, queues of {cube['queue']}{blocks}"


def counted(number: int, word: str) -> str:
    """A number of things."""
    return f"{number:,} {word}{'' if number == 1 else 's'}"


def sizes_of(link: Document) -> str:
    """The numbers of a link: four, and with `profile = 2` its profile."""
    return ", ".join(f"{key} {link[key]}" for key in SIZES if key in link)


def name_of(end: Endpoint) -> str:
    """An end in words."""
    return f"host {end.host}" if end.host is not None else f"port {end.port} of cube {end.cube}"


def port_line(document: Document, cube: int, port: int) -> str:
    """What the port of a cube is joined to."""
    hop = hops_from(document).get(Endpoint(None, cube, port))
    if hop is None:
        return f"port {port}"
    out = hop.direction
    to = f"===== link {out // 2} ===== {name_of(hop.end)}"
    return f"port {port} {to}   (out: direction {out}, in: {out ^ 1})"


def text_lines(document: Document) -> list[str]:
    """The picture: a ring if the cubes are one, a box for each cube with its ports, the links."""
    lines = ring_lines(document)
    for number, cube in enumerate(document["cubes"]):
        ports = [port_line(document, number, port) for port in range(texts.PORTS)]
        lines += box(f"cube {number}", [parts_of(cube), *ports])
    for number, link in enumerate(document["links"]):
        a, b = ends_of(link)
        sizes = sizes_of(link)
        lines.append(f"link {number}: direction {2 * number} from {a} to {b}, {sizes}")
    return lines


def box(title: str, inside: list[str]) -> list[str]:
    """Lines in a box with a title."""
    width = max(len(line) for line in inside) + 2
    top = f"+-- {title} ".ljust(width + 1, "-") + "+"
    return [top, *(f"| {line}".ljust(width + 1) + "|" for line in inside), f"+{'-' * width}+"]


def ring_lines(document: Document) -> list[str]:
    """A ring in two rows, with the two directions between neighbours; empty if it is no ring."""
    ring = ring_of(document)
    if not ring:
        return []
    half = (len(ring) + 1) // 2
    upper, lower = ring[:half], ring[half:][::-1]
    between = {
        (hop.start.cube, hop.end.cube): hop.direction
        for hop in hops_from(document).values()
        if hop.start.host is None and hop.end.host is None
    }

    def row(cubes: list[int]) -> str:
        """Cubes from left to right, and between them the directions to the right and back."""
        text = f"c{cubes[0]}"
        for left, right in zip(cubes, cubes[1:]):
            pair = f" {between[left, right]}/{between[right, left]} "
            text += f"{pair:-^{GAP}}c{right}"
        return text

    def down(top: int, bottom: int) -> str:
        """The directions down and up between two cubes."""
        return f"{between[top, bottom]}/{between[bottom, top]}"

    left, right = down(upper[0], lower[0]), down(upper[-1], lower[-1])
    shorter = row(lower)
    place = max(len(shorter), len(row(upper))) - 2
    sides = f"{left:<{place}}{right}" if len(upper) > 1 else left
    if len(lower) < len(upper):
        shorter += "-" * (place - len(shorter) + 2)
    note = "between two cubes: the direction to the right or down / the one back"
    return [row(upper), sides, shorter, note, ""]


def route_lines(way: list[Hop], start: str, goal: str) -> list[str]:
    """The way of a packet in words."""
    if not way:
        return [f"{start} is {goal}"]
    crossed = [f"  direction {hop.direction} from {hop.start} to {hop.end}" for hop in way]
    return [f"a packet from {start} to {goal} crosses {counted(len(way), 'link')}", *crossed]


def dot_lines(document: Document, way: list[Hop]) -> list[str]:
    """The graph in Graphviz's language, with an arrow for each direction."""
    places = ring_places(document)
    lines = ["digraph network {", "  layout=neato;" if places else "  rankdir=LR;"]
    lines.append('  node [shape=box, fontname="sans-serif"];')
    edges = 'fontname="sans-serif", fontsize=10, minlen=2, labelangle=35, labeldistance=2'
    lines.append(f"  edge [{edges}];")
    for number, cube in enumerate(document["cubes"]):
        label = rf"cube {number}\n" + parts_of(cube).replace(", ", r"\n")
        lines.append(f'  c{number} [label="{label}"{places.get(f"c{number}", "")}];')
    ends = [end for link in document["links"] for end in ends_of(link)]
    for end in ends:
        if end.host is not None:
            place = places.get(f"h{end.host}", "")
            lines.append(f'  h{end.host} [label="host {end.host}", shape=ellipse{place}];')
    crossed = {hop.direction for hop in way}
    for hop in sorted(hops_from(document).values(), key=lambda it: it.direction):
        link = document["links"][hop.direction // 2]
        lines.append(edge_line(hop, link, hop.direction in crossed))
    return [*lines, "}"]


def ring_places(document: Document) -> dict[str, str]:
    """Where Graphviz puts the cubes of a ring, and outside of it their hosts; else nothing."""
    ring = ring_of(document)
    radius = len(ring) * INCHES_A_CUBE
    places = {}
    for number, cube in enumerate(ring):
        angle = math.pi / 2 - 2 * math.pi * number / len(ring)
        places[f"c{cube}"] = _place(radius, angle)
        ports = [Endpoint(None, cube, port) for port in range(texts.PORTS)]
        found = [hop.end.host for port, hop in hops_from(document).items() if port in ports]
        hosts = [host for host in found if host is not None]
        for at, host in enumerate(hosts):
            turned = angle + HOST_ANGLE * (at - (len(hosts) - 1) / 2)
            places[f"h{host}"] = _place(radius + INCHES_TO_HOST, turned)
    return places


def _place(radius: float, angle: float) -> str:
    """A fixed place in inches, by its distance from the middle and its angle."""
    return f', pos="{radius * math.cos(angle):.2f},{radius * math.sin(angle):.2f}!"'


def edge_line(hop: Hop, link: Document, is_crossed: bool) -> str:
    """The arrow of a direction, with its number, and with the link's numbers at its first one."""
    label = f"direction {hop.direction}"
    if hop.direction % 2 == 0:
        label += rf"\nlink {hop.direction // 2}\n" + sizes_of(link).replace(", ", r"\n")
    tail, head = ("" if it.host is not None else f"port {it.port}" for it in (hop.start, hop.end))
    names = [f"h{it.host}" if it.host is not None else f"c{it.cube}" for it in (hop.start, hop.end)]
    ports = f'taillabel="{tail}", headlabel="{head}"' if hop.direction % 2 == 0 else ""
    parts = ", ".join(part for part in (f'label="{label}"', ports) if part)
    return f"  {names[0]} -> {names[1]} [{parts}{ON_ROUTE if is_crossed else ''}];"
