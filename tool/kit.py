"""The Rattle kit: its command, and whether it is the one that README.md names."""

from __future__ import annotations

import re
import shutil
import subprocess
from pathlib import Path

from tool.trouble import UNAVAILABLE, Trouble, note

TOP = Path(__file__).resolve().parent.parent
# Where the script is installed this file has the path of its program; a checkout has none.
INSTALLED = TOP / "installed"
# How the script is called, in its help and messages.
CALLED = "zehimbado" if INSTALLED.is_file() else "./zehimbado"
NAMED = re.compile(r"`rt version`:\s+(\S+),\s+logic\s+([0-9a-f]+)")
SECONDS = 30


def project_version() -> str:
    """The version of this project, which is in the file VERSION alone."""
    return (TOP / "VERSION").read_text(encoding="utf-8").strip()


def command() -> str:
    """The path of the kit's command."""
    found = shutil.which("rt")
    if found is None:
        raise Trouble(UNAVAILABLE, "the Rattle kit's command rt is not on the path")
    return found


def is_here() -> bool:
    """Whether the kit's command is on the path."""
    return shutil.which("rt") is not None


def named() -> str:
    """The kit that README.md names, as `rt version` writes it; empty where it names none."""
    readme = TOP / "README.md"
    found = NAMED.search(readme.read_text(encoding="utf-8")) if readme.is_file() else None
    return f"{found[1]} logic {found[2]}" if found else ""


def version(rt: str) -> str:
    """What the kit's command says that it is."""
    try:
        ran = subprocess.run([rt, "version"], capture_output=True, timeout=SECONDS, check=False)
    except (OSError, subprocess.TimeoutExpired) as error:
        raise Trouble(UNAVAILABLE, f"{rt} does not answer `rt version`: {error}") from error
    return ran.stdout.decode(errors="replace").strip()


def difference(found: str) -> str:
    """What it means that this is another kit than README.md names; empty where it is that one."""
    wanted = named()
    if found == wanted or not wanted:
        return ""
    return (
        f"this kit is `{found}`, and README.md names `{wanted}`: proofs that were checked with one "
        "kit may fail with another, and what they state rests on the logic of the kit"
    )


def require() -> tuple[str, str]:
    """The path of the kit's command, and what it is. Says at once where it is another kit."""
    rt = command()
    found = version(rt)
    said = difference(found)
    if said:
        note(said)
    return rt, found
