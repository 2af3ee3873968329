"""How long the gate and its parts take: the table of CONTRIBUTING.md, from what `bench/gate` and
`bench/try` printed when they were run last; and how long the last `rt ci` from nothing took."""

from __future__ import annotations

import re
from dataclasses import dataclass

from tool.build import CRATE
from tool.crates import crates_below, libraries
from tool.kit import TOP

MEASURED = TOP / "bench" / "measured"
# Where it is kept what the gate's rt ci took: processor seconds are measured less often.
KEPT = {"minutes": "ci", "processors": "ci", "processor seconds": "gate"}
LIBRARY = "hmc_c"


@dataclass(frozen=True)
class Spent:
    """Processor seconds of a crate, by what they were spent on."""

    proof: int
    tests: int
    before: int
    mutants: int
    edits: int
    whole: int


def lines_of(name: str) -> list[str]:
    """What a script of `bench/` printed when it was run last."""
    return (MEASURED / f"{name}.txt").read_text(encoding="utf-8").splitlines()


def spent() -> dict[str, Spent]:
    """The rows of `bench/gate`, by their crates; `all` has the sums."""
    found = {}
    for line in lines_of("gate"):
        name, *numbers = line.rsplit(maxsplit=6)
        if len(numbers) == 6 and all(map(str.isdigit, numbers)):
            found[name] = Spent(*map(int, numbers))
    return found


def of_gate(what: str) -> int:
    """What the gate's rt ci took from nothing: `minutes`, `processors` or `processor seconds`."""
    name = KEPT[what]
    found = re.search(rf"(?m)(?:^|, )([0-9]+) {what}(?:,|$)", "\n".join(lines_of(name)))
    assert found, f"bench/measured/{name}.txt"
    return int(found[1])


def of_try() -> int:
    """The processor seconds of the first `try`."""
    return int(lines_of("try")[0].split()[0])


def proof_of(crate: str) -> int:
    """The processor seconds of the proofs of a crate and of all crates below it."""
    known = spent()
    return sum(known[it].proof for it in crates_below(crate, libraries()))


def duration_table() -> list[str]:
    """How long what takes, as the rows of a table."""
    known = spent()["all"]
    rows = {
        "the gate, without the tests after `rt ci`": of_gate("processor seconds"),
        "of that, its mutants, with the checks that they begin with": known.before + known.mutants,
        "the proofs of the program, for `run` and `build`": proof_of(CRATE.name),
        "the proofs of the library for C, for `make -C bindings`": proof_of(LIBRARY),
        "the program without proofs, for `try`": of_try(),
    }
    table = ["| From nothing | Processor seconds |", "|---|---|"]
    return table + [f"| {what} | {seconds:,} |" for what, seconds in rows.items()]
