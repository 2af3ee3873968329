"""Wishes by which random cases reach a point of coverage."""

from __future__ import annotations

from tool.points import Point
from tool.samples import Wish

# Why no sample reaches a point that a run can reach.
NOT_DRAWN = {
    Point("idle", "give: tags"): "it takes 2,048 requests under way, and samples have fewer",
}
RETRIES = ("noise", "posted", "unlock")
FULL = ("held", "posted", "registers")
# What a case has that is to reach a point, by the group and the first words of its name.
FEATURES = {
    ("sent", ""): RETRIES,
    ("landed", "poisoned"): ("poison",),
    ("landed", "repeat"): ("far", *RETRIES),
    ("landed", "ran clear in good"): ("far", *RETRIES),
    ("landed", ""): RETRIES,
    ("idle", "give: fence"): ("fence",),
    ("idle", "send: starved"): ("through",),
    ("idle", "retire"): ("units",),
    ("idle", ""): FULL,
    ("full", ""): FULL,
    ("event", "unlocked"): ("unlock",),
    ("event", "retired"): ("units",),
    ("event", "dropped"): ("poison",),
    ("event", "poisoned"): ("poison",),
    ("event", "passed"): ("passes",),
    ("event", "busy"): ("early",),
    ("event", "tag used"): (),
    ("event", "drained"): (),
    ("event", ""): RETRIES,
}
OF_TWO = "profile Two"
LARGEST = 256
REQUESTS, MANY = 6, 120


def aimed(point: Point) -> Wish:
    """The wishes for a point."""
    group, name = point
    if group == "command":
        word, _, end = name.partition(": ")
        ends = ((word, end),)
        return Wish(2, 1, REQUESTS, features=("two",), block=LARGEST, ends=ends)
    if group == "network":
        return Wish(cubes=int(name.split(" ")[0]), shape="chain", features=())
    if group == "block":
        return Wish(features=("two",), block=int(name.split(" ")[0]))
    if name.startswith("pointers"):
        return Wish(1, 1, features=("long", "two") if name.endswith(OF_TWO) else ("long",))
    if name.startswith(("through", "discarded")):
        return Wish(2, 1, MANY, features=("noise", "through"))
    starts = (start for of, start in FEATURES if of == group and name.startswith(start))
    features = FEATURES[group, next(starts)]
    return Wish(features=(*features, "two") if name.endswith(OF_TWO) else features)
