"""Proves the library of the bindings where the kit is, for `make -C bindings`, and says which crate
is at work."""

from __future__ import annotations

import subprocess
import sys

from tool import build, kit, processes
from tool.crates import crates_below, libraries
from tool.kit import TOP
from tool.trouble import UNAVAILABLE, Trouble, note

CRATE = "hmc_c"
OUT = TOP / "crates" / CRATE / "out"
LOG = OUT / f"{CRATE}.log"


def prove() -> None:
    """Proves the library and leaves its archive."""
    rt, _ = kit.require()
    OUT.mkdir(exist_ok=True)
    count = len(crates_below(CRATE, libraries()))
    said = "CONTRIBUTING.md says how long the first time takes"
    note(f"proving and building the library, {count} crates; {said}")
    how = {"cwd": OUT.parent, "stdin": subprocess.DEVNULL, "stderr": subprocess.PIPE}
    with processes.child([rt, "lib"], **how) as running:
        assert running.stderr
        build.follow(running.stderr, CRATE, LOG)
    if running.returncode:
        build.show_log(LOG)
        raise Trouble(UNAVAILABLE, f"the library could not be proved and built; {LOG} has it all")


def main() -> int:
    """Proves the library. Where the script is asked to end, so is the kit."""
    processes.end_at_signals()
    try:
        with processes.lock(build.LOCKED, build.WAITS):
            prove()
    except Trouble as trouble:
        note(str(trouble))
        return trouble.status
    return 0


if __name__ == "__main__":
    sys.exit(main())
