"""The first fault of a case, by the rules of docs/case.md, and the network of a valid one.

This is a second reader of cases, written from the documents alone. `explain` uses it to find the
place of a fault. The program decides what a valid case is.
"""

from __future__ import annotations

import re
from collections.abc import Callable, Iterator
from dataclasses import dataclass
from typing import Any

from tool import schedule, script, texts, toml_reader
from tool.texts import CubeParts, Plan, TextFault

TOP_KEYS = {"profile": int, "cubes": list, "links": list, "script": str, "schedule": str}
CUBE_RANGES = {"vault_bits": (0, 5), "bank_bits": (0, 4), "rows": (1, 1024), "queue": (1, 64)}
LINK_RANGES = {"line": (1, 64), "tokens": (17, 1024), "retry": (17, 256), "output": (1, 64)}
PROFILES = (1, 2)
CUBES = (1, 8)
LINKS = (1, 32)
HOSTS = 8
EVERY_PORT = tuple(range(texts.PORTS))
# What a case with `profile = 2` has too: a block of each cube, and a profile of each link.
BLOCKS = (32, 64, 128, 256)
RETRY_OF_TWO = (17, 1024)

ENDPOINT = re.compile(r"h([0-7])|c([0-7])\.([0-3])")
INTEGERS = range(-(1 << 63), 1 << 63)

# A place in the document: keys and numbers from the top down, as ("links", 0, "tokens").
Path = tuple[Any, ...]
# A document as it is read, or a table of it.
Document = dict[str, Any]
# The least and the greatest value of keys.
Ranges = dict[str, tuple[int, int]]


@dataclass(frozen=True)
class Fault:
    """A fault of a case: its section, line and kind, and where it is.

    A fault of a script or schedule has the number of the word in its line. A fault of syntax has
    what the reader of the document said.
    """

    section: str
    line: int
    kind: str
    path: Path = ()
    word: int = 0
    said: str = ""

    def __str__(self) -> str:
        return f"bad {self.section} {self.line} {self.kind}"


@dataclass(frozen=True)
class Endpoint:
    """Where a link ends: at a host, or at a port of a cube."""

    host: int | None
    cube: int = 0
    port: int = 0

    def __str__(self) -> str:
        return f"c{self.cube}.{self.port}" if self.host is None else f"h{self.host}"


def endpoint_of(text: str) -> Endpoint | None:
    """The end that a word spells, or None."""
    found = ENDPOINT.fullmatch(text)
    if not found:
        return None
    host, cube, port = found.groups()
    return Endpoint(int(host)) if host else Endpoint(None, int(cube), int(port))


def read(data: bytes) -> tuple[Document, Fault | None]:
    """The document, and the first fault of the case. The document is empty if it is no TOML."""
    document, fault = document_of(data)
    if fault:
        return {}, fault
    return document, first_fault(document)


def document_of(data: bytes) -> tuple[Document, Fault | None]:
    """The TOML document that the bytes are, or the fault of its syntax."""
    try:
        document = toml_reader.loads(data.decode("utf-8").removeprefix("\ufeff"))
    except (ValueError, RecursionError) as error:
        return {}, Fault("toml", 0, "syntax", said=str(error))
    if has_large_integer(document):
        said = "an integer is outside the range of signed 64-bit numbers"
        return {}, Fault("toml", 0, "syntax", said=said)
    return document, None


def has_large_integer(value: Any) -> bool:
    """Whether an integer in the value does not fit in 64 bits."""
    if isinstance(value, dict):
        return any(map(has_large_integer, value.values()))
    if isinstance(value, list):
        return any(map(has_large_integer, value))
    return isinstance(value, int) and value not in INTEGERS


def first_fault(document: Document) -> Fault | None:
    """The first fault of the case that the document is."""
    return next(faults(document), None)


def faults(document: Document) -> Iterator[Fault]:
    """Yields the faults of the case that the document is, the first one first.

    A rule that reads what an earlier rule has refused is left out, so each fault has one cause.
    """
    found = list(top_faults(document))
    yield from found
    if {fault.path[-1] for fault in found} & {"profile", "cubes", "links"}:
        return
    of_tables = list(cubes_faults(document)) or list(capacity_faults(document))
    yield from of_tables
    of_links = list(links_faults(document))
    yield from of_links
    of_net = [] if of_links else list(net_faults(document))
    yield from of_net
    is_known = not (of_tables or of_links or of_net)
    yield from text_faults(document, plan_of(document) if is_known else any_plan(document))


def key_fault(table: Document, key: str, kind: type, path: Path) -> Fault | None:
    """`missing` or `kind` of one key of the table at the path."""
    section, line = place_of(path)
    if key not in table:
        return Fault(section, line, "missing", (*path, key))
    if type(table[key]) is not kind:
        return Fault(section, line, "kind", (*path, key))
    return None


def place_of(path: Path) -> tuple[str, int]:
    """The section and the line that a fault at this table has."""
    return (path[0].removesuffix("s"), path[1]) if path else ("top", 0)


def range_fault(table: Document, key: str, ranges: Ranges, path: Path) -> Fault | None:
    """`range` of a number, or of the length of an array, where the key has one."""
    section, line = place_of(path)
    value = table[key]
    number = len(value) if isinstance(value, list) else value
    least, most = ranges.get(key, (number, number))
    return None if least <= number <= most else Fault(section, line, "range", (*path, key))


def keys_faults(
    table: Document, keys: dict[str, type], ranges: Ranges, path: Path
) -> Iterator[Fault]:
    """Yields the faults of the keys of a table: those that are unknown, and then key by key."""
    section, line = place_of(path)
    for key in table:
        if key not in keys:
            yield Fault(section, line, "unknown", (*path, key))
    for key, kind in keys.items():
        fault = key_fault(table, key, kind, path) or range_fault(table, key, ranges, path)
        if fault:
            yield fault


def top_faults(document: Document) -> Iterator[Fault]:
    """Yields the faults of the five keys of the document."""
    ranges: Ranges = {"profile": PROFILES, "cubes": CUBES, "links": LINKS}
    return keys_faults(document, TOP_KEYS, ranges, ())


def cube_keys(document: Document) -> dict[str, type]:
    """The keys of a cube, in order."""
    return dict.fromkeys([*CUBE_RANGES, *(["block"] if document["profile"] == 2 else [])], int)


def link_ranges(document: Document) -> dict[str, tuple[int, int]]:
    """The numbers of a link and their ranges, in order."""
    if document["profile"] == 1:
        return LINK_RANGES
    return {**LINK_RANGES, "retry": RETRY_OF_TWO, "profile": PROFILES}


def link_keys(document: Document) -> dict[str, type]:
    """The keys of a link, in order."""
    return {"a": str, "b": str, **dict.fromkeys(link_ranges(document), int)}


def cubes_faults(document: Document) -> Iterator[Fault]:
    """Yields the faults of the tables of cubes, cube by cube."""
    for number, table in enumerate(document["cubes"]):
        path = ("cubes", number)
        if not isinstance(table, dict):
            yield Fault("cube", number, "kind", path)
            continue
        yield from keys_faults(table, cube_keys(document), CUBE_RANGES, path)
        block = table.get("block", BLOCKS[-1])
        if document["profile"] == 2 and type(block) is int and block not in BLOCKS:
            yield Fault("cube", number, "range", (*path, "block"))


def bytes_of(cube: Document) -> int:
    """The bytes of a cube."""
    block: int = cube.get("block", BLOCKS[-1])
    rows: int = cube["rows"]
    bits: int = cube["vault_bits"] + cube["bank_bits"]
    return block * rows << bits


def capacity_faults(document: Document) -> Iterator[Fault]:
    """Yields `capacity` where the cubes have too many bytes together."""
    if sum(bytes_of(cube) for cube in document["cubes"]) > texts.MOST_BYTES:
        yield Fault("net", 0, "capacity", ("cubes",))


def links_faults(document: Document) -> Iterator[Fault]:
    """Yields the faults of the tables of links, link by link."""
    taken: set[Endpoint] = set()
    for number, table in enumerate(document["links"]):
        path = ("links", number)
        if not isinstance(table, dict):
            yield Fault("link", number, "kind", path)
            continue
        found = list(keys_faults(table, link_keys(document), link_ranges(document), path))
        found = found or retry_faults(table, path)
        yield from found
        ends = [end_fault(table, key, document, path) for key in ("a", "b")]
        if any(it.path[-1] in ("a", "b") for it in found):
            continue
        yield from (fault for fault in ends if fault)
        if not any(ends):
            a, b = ends_of(table)
            yield from pair_faults(a, b, taken, path)
            taken |= {a, b}


def retry_faults(table: Document, path: Path) -> list[Fault]:
    """`range` of a retry buffer that is too large for a link of profile One."""
    is_large = table.get("profile", 1) == 1 and table["retry"] > LINK_RANGES["retry"][1]
    return [Fault("link", path[1], "range", (*path, "retry"))] if is_large else []


def ends_of(link: Document) -> list[Endpoint]:
    """The two ends of a link whose ends are spelled right."""
    ends = [endpoint_of(link[key]) for key in ("a", "b")]
    return [end for end in ends if end is not None]


def end_fault(table: Document, key: str, document: Document, path: Path) -> Fault | None:
    """`endpoint` or `nocube` of one end."""
    end = endpoint_of(str(table.get(key)))
    if end is None:
        return Fault("link", path[1], "endpoint", (*path, key))
    if end.host is None and end.cube >= len(document["cubes"]):
        return Fault("link", path[1], "nocube", (*path, key))
    return None


def pair_faults(a: Endpoint, b: Endpoint, taken: set[Endpoint], path: Path) -> Iterator[Fault]:
    """Yields `hosts`, `self` or `taken` of the two ends of a link."""
    if a.host is not None and b.host is not None:
        yield Fault("link", path[1], "hosts", (*path, "b"))
    elif a.host is None and b.host is None and a.cube == b.cube:
        yield Fault("link", path[1], "self", (*path, "b"))
    elif a in taken or b in taken:
        yield Fault("link", path[1], "taken", (*path, "a" if a in taken else "b"))


def net_faults(document: Document) -> Iterator[Fault]:
    """Yields `hosts` and `parted` of the whole network."""
    ends = [end for link in document["links"] for end in ends_of(link)]
    hosts = sorted(end.host for end in ends if end.host is not None)
    if not hosts or hosts != list(range(len(hosts))):
        yield Fault("net", 0, "hosts", ("links",))
    if len(reached_from(0, document)) != len(document["cubes"]):
        yield Fault("net", 0, "parted", ("links",))


def reached_from(cube: int, document: Document) -> set[int]:
    """The cubes to which links lead from a cube, and that cube."""
    reached = {cube}
    joined = [{end.cube for end in ends_of(link) if end.host is None} for link in document["links"]]
    for _ in document["cubes"]:
        reached = reached.union(*(pair for pair in joined if pair & reached))
    return reached


def net_advice(kind: str, document: Document) -> str:
    """Which host or cube, or how many bytes, a fault of the whole network is about."""
    if kind == "capacity":
        sizes = [bytes_of(cube) for cube in document["cubes"]]
        shown = " + ".join(f"{size:,}" for size in sizes)
        return f"{shown} = {sum(sizes):,}" if len(sizes) > 1 else f"{sum(sizes):,}"
    if kind == "hosts":
        ends = [end for link in document["links"] for end in ends_of(link)]
        hosts = {end.host for end in ends if end.host is not None}
        if not hosts:
            return "no link ends at h0"
        missing = next(host for host in range(HOSTS) if host not in hosts)
        return f"there is h{max(hosts)}, and no link ends at h{missing}"
    reached = reached_from(0, document)
    apart = [f"c{cube}" for cube in range(len(document["cubes"])) if cube not in reached]
    return f"no path leads from c0 to {', '.join(apart)}"


def keys_at(path: Path, document: Document) -> list[str]:
    """The keys that the table at a path may have."""
    if not path:
        return list(TOP_KEYS)
    return list(cube_keys(document) if path[0] == "cubes" else link_keys(document))


def plan_of(document: Document) -> Plan:
    """What the script and the schedule of a case may name."""
    ends = [end for link in document["links"] for end in ends_of(link)]
    hosts = sum(end.host is not None for end in ends)
    cubes = []
    for number, cube in enumerate(document["cubes"]):
        joined = {end.port for end in ends if end.host is None and end.cube == number}
        parts = CubeParts(1 << cube["vault_bits"], 1 << cube["bank_bits"], tuple(sorted(joined)))
        cubes.append(parts)
    return Plan(hosts, 2 * len(document["links"]), cubes)


def any_plan(document: Document) -> Plan:
    """What a script and a schedule may name of a network that is not known, but for its cubes."""
    vaults, banks = (1 << CUBE_RANGES[key][1] for key in ("vault_bits", "bank_bits"))
    cube = CubeParts(vaults, banks, EVERY_PORT)
    return Plan(HOSTS, 2 * LINKS[1], [cube] * len(document["cubes"]))


def text_faults(document: Document, plan: Plan) -> Iterator[Fault]:
    """Yields the faults of the script, and then those of the schedule."""
    readers: dict[str, Callable[[str, Plan], Iterator[TextFault]]] = {
        "script": script.faults,
        "schedule": schedule.faults,
    }
    for section, faults_of in readers.items():
        text = document.get(section)
        for fault in faults_of(text, plan) if isinstance(text, str) else ():
            yield Fault(section, fault.line, fault.kind, (section,), fault.word)
