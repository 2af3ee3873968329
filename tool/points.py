"""The points of coverage: what a run can reach, by groups, and how a case reaches each.

A group has all its points, so what is missing is known too.
"""

from __future__ import annotations

import re
from collections.abc import Iterator
from typing import NamedTuple

from tool.case import BLOCKS, CUBES
from tool.commands import BY_WORD, REQUEST, Command


class Point(NamedTuple):
    """Something that runs reach or not."""

    group: str
    name: str


# Of each point how it is reached.
Ways = Iterator[tuple[Point, str]]
# The causes of docs/report.md by the first word of a step, and how a step comes to be idle so.
CAUSES = {
    ("give", "ended"): "rounds after the last request of a host was given",
    ("give", "fence"): "a fence in the script after a request that is answered",
    ("give", "tags"): "2,048 requests that are answered, before the first answer is taken",
    ("give", "full"): "more requests at once than `output` of the link of the host",
    ("send", "full"): "more steps `send` than `line` of the link, with no `land` between them",
    ("send", "starved"): "`send` after `through`, before the next flit of the packet has landed",
    ("land", "empty"): "a step `land` of a direction on which no flit is under way",
    ("shift", "empty"): "a step `shift` of a port that holds no packet",
    ("shift", "full"): "more requests at once for a vault than `queue` of its cube",
    ("spread", "empty"): "a step `spread` of a vault that holds no request",
    ("spread", "full"): "more requests at once for a bank than `queue` of its cube",
    ("bank", "empty"): "a step `bank` of a bank that holds no request",
    ("bank", "full"): "steps `bank` for more answers than `queue`, with no `lift` between them",
    ("registers", "empty"): "a step `registers` of a cube with no request for its registers",
    ("registers", "full"): "steps `registers` for more answers than `queue`, with no `lift`",
    ("lift", "empty"): "a step `lift` of a place that has no answer",
    ("lift", "full"): "answers of several places for an output queue that holds few packets",
    ("take", "empty"): "a step `take` of a host to which no answer has come",
    ("through", "nopacket"): "a step `through` of a port at which no packet is being gathered",
    ("through", "busy"): "a second `through` of a packet, or one where its link is in use",
    ("retire", "empty"): "`retire` of a slot that has no unit, or a second time",
}
SENDS = {
    "train": "the first rounds of any case",
    "start": "the first rounds of any case",
    "clear": "the first rounds of any case",
    "null": "rounds of a link that is trained and has nothing to send",
    "pret": "rounds after a packet was accepted, where no other one goes back",
    "tret": "rounds after a link was trained: its tokens are returned",
    "new": "a request in the script, and rounds",
    "again": "a mask on a flit of a packet, as by `noise`, and rounds after it",
}
TRAINED, CHANGED = "the first rounds of any case", "a mask on a flit, as by `noise`"
ABORTS = {
    "length": "a mask on LNG in the first flit of a packet",
    "command": "a mask on CMD in the first flit of a packet",
    "reserved": "a mask on a reserved bit of a packet",
    "crc": "a mask on a packet that none of the other tests finds",
}
# What comes of landings, by what the receiver waits for. `aborted order` never comes on a link.
LANDINGS = {
    ("train", "quiet"): TRAINED,
    ("train", "trained"): TRAINED,
    ("abort", "quiet"): TRAINED,
    ("abort", "ran start"): TRAINED,
    ("abort", "ran clear"): TRAINED,
    ("good", "quiet"): "rounds of a link that is trained",
    ("good", "gathered"): "a request or an answer of two flits or more",
    ("good", "accepted"): "a request, and rounds",
    ("good", "poisoned"): "a request after the word `poison`",
    ("good", "repeat"): "more than 32 flits on each line, so that answers to retries come late",
    ("good", "ran start"): "an error at one end, as by a mask",
    ("good", "ran clear"): "more than 32 flits on each line, so that an end goes back twice",
    **{("good", f"aborted {test}"): how for test, how in ABORTS.items()},
}
QUEUES = {
    "line": "more steps `send` than `line` of the link, with no `land` between them",
    "output": "more requests at once than `output` of a link",
    "vault": "more requests at once for a vault than `queue` of its cube",
    "bank": "more requests at once for a bank than `queue` of its cube",
    "registers": "more `mdrd` and `mdwr` at once than `queue` of their cube",
    "answers": "steps `bank` with no `lift` between them",
}
EVENTS = {
    "first flit changed": "a mask on the first flit of a packet",
    "middle flit changed": "a mask on a flit of a packet of three flits or more",
    "last flit changed": "a mask on the last flit of a packet",
    "NULL changed": CHANGED,
    "training flit changed": "`noise` before the first rounds",
    "IRTRY changed": CHANGED,
    "TRET changed": CHANGED,
    "PRET changed": CHANGED,
    "aborted while its other direction goes back": "`noise` in both directions",
    "pointers have wrapped, profile One": "packets of 512 flits in one direction",
    "pointers have wrapped, profile Two": "packets of 2,048 flits in one direction",
    "through": "a step `through` while a packet for another port is gathered",
    "through, then spoilt": "a mask on a packet after its `through`",
    "unlocked in train": "`unlock` before the first rounds",
    "unlocked in abort": "`unlock` twice, with no rounds between",
    "unlocked in good": "`unlock` after the first rounds",
    "retired": "`retire` of a slot that has a unit, as slot 1",
    "dropped": "a request after the word `poison`",
    "discarded": "a mask on an answer after its `through` to a host",
    "passed": "a mask after which a check succeeds, as one that makes an IRTRY of a NULL",
    "poisoned request": "a request after the word `poison`",
    "tag used again": "a request after an answer",
    "drained": "rounds enough after the last request",
    "busy": "an end while a request is under way",
}
# The profiles of links, as the pages call them.
PROFILES = {1: "One", 2: "Two"}
# What no run of this program reaches, and why not.
BEYOND = {
    Point("command", "unit2 to unit7: read"): "the program has units for unit0 and unit1 alone",
    Point("landed", "aborted order"): "on a link a packet is the next one or a repeat, which is "
    "proved",
}
# The commands whose answer has a flag that may be 1.
DONE_FLAGGED = ("2add8", "add16", "eq16", "eq8")
READ_FLAGGED = (
    *("2adds8r", "adds16r", "casgt8", "caslt8"),
    *("casgt16", "caslt16", "caseq8", "caszero16"),
)
# The units that the program has.
UNITS = ("unit0", "unit1")
ANSWERS = {"wr_rs": "done 0", "rd_rs": "read", "md_rd_rs": "register", "md_wr_rs": "stored"}
SIZED = re.compile("(?:wr|rd)([0-9]+)$")
LEAST_BYTES = 16


def points() -> Ways:
    """Yields each point that a run can reach, and how."""
    for word, command in BY_WORD.items():
        if command.family == REQUEST:
            for name, how in _ends(command):
                yield Point("command", f"{word}: {name}"), how
    for profile in PROFILES.values():
        for what, how in SENDS.items():
            yield Point("sent", f"{what}, profile {profile}"), how
        for (mode, outcome), how in LANDINGS.items():
            yield Point("landed", f"{outcome} in {mode}, profile {profile}"), how
    for (step, cause), how in CAUSES.items():
        yield Point("idle", f"{step}: {cause}"), how
    for group, ways in (("full", QUEUES), ("event", EVENTS)):
        yield from ((Point(group, name), how) for name, how in ways.items())
    for block in BLOCKS:
        how = f"a cube with `block = {block}`, in a case with `profile = 2`"
        yield Point("block", f"{block} bytes"), how
    for count in range(CUBES[0], CUBES[1] + 1):
        yield Point("network", f"{count} cubes"), f"a case of {count} cubes"


def _ends(command: Command) -> Iterator[tuple[str, str]]:
    """Yields how requests of a command end, and how one comes to end so."""
    word = command.word
    if not command.reply:
        yield "silent", "such a request"
        return
    if not word.startswith("unit") or word in UNITS:
        yield ANSWERS[command.reply], "such a request with no error"
    if word in DONE_FLAGGED:
        yield "done 1", "such a request whose flag is true"
    if word in READ_FLAGGED:
        yield "read, flag 1", "such a request whose flag is true"
    yield from _errors(word)


def _errors(word: str) -> Iterator[tuple[str, str]]:
    """Yields the errors of a command, as docs/commands.md has them."""
    if word.startswith("md"):
        yield "error 4", "a register from 16 on"
        if word == "mdwr":
            yield "error 5", "a register from 0 to 3"
        return
    yield "error 1", "an address that is not aligned"
    sized = SIZED.match(word)
    if sized and int(sized[1]) > LEAST_BYTES:
        yield "error 2", "an address whose bytes pass the end of the block"
    yield "error 3", "an address past the capacity"
    if word.startswith("unit"):
        yield "error 6", "a cube other than cube 0, or a retired unit"
