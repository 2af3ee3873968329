"""What the lines of a report are about: parts of the network, and requests."""

from __future__ import annotations

import re

# A part of the network or a request: its kind, and words that name it.
Subject = tuple[str, ...]
REGISTERS = "r"

# Which part each line is of: its kind, and the places of the words that name it. A line `idle` is
# looked up by its step, with `idle` in front.
PARTS: dict[str, list[tuple[str, tuple[int, ...]]]] = {
    **dict.fromkeys(("sent", "landed", "passed", "unlocked"), [("direction", (1,))]),
    **dict.fromkeys(("tokens", "counters"), [("direction", (1,))]),
    **dict.fromkeys(("idle send", "idle land", "idle unlock"), [("direction", (2,))]),
    **dict.fromkeys(("gave", "took", "discarded", "host"), [("host", (1,))]),
    **dict.fromkeys(("idle give", "idle take"), [("host", (2,))]),
    **dict.fromkeys(("shifted", "dropped"), [("port", (1, 2))]),
    **dict.fromkeys(("idle shift", "idle through"), [("port", (2, 3))]),
    **dict.fromkeys(("spread", "lifted"), [("vault", (1, 2))]),
    **dict.fromkeys(("idle spread", "idle lift"), [("vault", (2, 3))]),
    "through": [("port", (1, 2)), ("direction", (3,))],
    "executed": [("bank", (1, 2, 3)), ("host", (4,))],
    "executed r": [("registers", (1,)), ("host", (3,))],
    "idle bank": [("bank", (2, 3, 4))],
    "idle registers": [("registers", (2,))],
    "memory": [("memory", (1,))],
    "register": [("registers", (1,))],
    "cube": [("cube", (1,))],
    "retired": [("slot", (1,))],
    "idle retire": [("slot", (2,))],
}
# The lines of each subject, as a pattern with the words that name it.
LINES = {
    "direction": r"(?:sent|landed|passed|unlocked|tokens|counters|idle (?:send|land)) {0}\b"
    r"|through \d+ \d+ {0}$",
    "host": r"(?:gave|took|discarded|host|idle (?:give|take)) {0}\b",
    "port": r"(?:shifted|dropped|through|idle (?:shift|through)) {0} {1}\b",
    "vault": r"(?:spread|lifted|idle (?:spread|lift)) {0} {1}\b",
    "bank": r"(?:executed|spread|idle bank) {0} {1} {2}\b",
    "registers": r"(?:executed {0} r|idle registers {0}|register {0})\b",
    "memory": r"memory {0}\b",
    "cube": r"cube {0}\b",
    "slot": r"(?:retired|idle retire) {0}\b",
    "request": r"(?:gave|took) {0} {1} |executed \d+ (?:r|\d+ \d+) {0} {1} ",
}
NAMES = {
    "direction": "direction {0}",
    "host": "host {0}",
    "port": "port {1} of cube {0}",
    "vault": "vault {1} of cube {0}",
    "bank": "bank {2} of vault {1} of cube {0}",
    "registers": "registers of cube {0}",
    "memory": "memory of cube {0}",
    "cube": "cube {0}",
    "slot": "slot {0}",
    "request": "requests of host {0} with tag {1}",
}


def parts_of(line: str) -> list[Subject]:
    """The parts of the network that a line is about."""
    words = line.split(" ")
    key = words[0]
    if key == "idle":
        key = " ".join(words[:2])
    elif key == "executed" and words[2:3] == [REGISTERS]:
        key = "executed r"
    found = []
    for kind, places in PARTS.get(key, []):
        if max(places) < len(words):
            found.append((kind, *(words[place] for place in places)))
    return found


def subjects_of(line: str) -> list[Subject]:
    """What a line is about: a request, by host and tag, or else its parts."""
    words = line.split(" ")
    if words[0] in ("gave", "took") and len(words) > 2:
        return [("request", words[1], words[2])]
    if words[0] == "executed":
        start = 3 if words[2:3] == [REGISTERS] else 4
        if len(words) > start + 1:
            return [("request", words[start], words[start + 1])]
    direction = [part for part in parts_of(line) if part[0] == "direction"]
    return direction or parts_of(line)


def about(line: str) -> list[Subject]:
    """All that a line is about: a request, and its parts."""
    return list(dict.fromkeys([*parts_of(line), *subjects_of(line)]))


def name_of(subject: Subject) -> str:
    """A subject in words."""
    kind, *words = subject
    if kind == "request" and words[1] == "-":
        return f"requests of host {words[0]} with no tag"
    if kind == "vault" and words[1] == REGISTERS:
        return f"registers of cube {words[0]}"
    return NAMES[kind].format(*words)


def pattern_of(subject: Subject) -> re.Pattern[str]:
    """The pattern of the lines that are about a subject."""
    kind, *words = subject
    return re.compile(LINES[kind].format(*(re.escape(word) for word in words)))
