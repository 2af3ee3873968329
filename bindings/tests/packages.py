"""Installs what the tests of the bindings want and isn't there: Debian packages, where it is root.
Ends with 0 where all is there in the end, so that no test has to be skipped."""

from __future__ import annotations

import os
import shutil
import subprocess
import sys
from collections.abc import Callable
from pathlib import Path


def _has(tool: str) -> Callable[[], bool]:
    return lambda: shutil.which(tool) is not None


def packer() -> str | None:
    """A Python that makes wheels: this one, or that of the distribution."""
    for python in (sys.executable, "/usr/bin/python3"):
        # In this order: setuptools of Debian refuses to be loaded after pip.
        words = [python, "-c", "import setuptools, wheel, pip"]
        if not Path(python).exists():
            continue
        if subprocess.run(words, capture_output=True, check=False).returncode == 0:
            return python
    return None


# Each package, and whether what it brings is there.
PACKAGES: dict[str, Callable[[], bool]] = {
    "g++": _has("g++"),
    "ghdl": _has("ghdl"),
    "iverilog": _has("iverilog"),
    "libsystemc-dev": lambda: Path("/usr/include/systemc").exists(),
    "mypy": _has("mypy"),
    "python3-pip": lambda: packer() is not None,
    "rustc": _has("rustc"),
    "verilator": _has("verilator"),
}


def missing() -> list[str]:
    """The packages that bring what isn't there."""
    return [package for package, is_there in PACKAGES.items() if not is_there()]


def install(packages: list[str]) -> None:
    """Installs packages; where that fails it says so."""
    env = {**os.environ, "DEBIAN_FRONTEND": "noninteractive"}
    for words in (["update"], ["install", "--yes", "--no-install-recommends", *packages]):
        ran = subprocess.run(["apt-get", "-qq", *words], env=env, check=False)
        if ran.returncode != 0:
            print(f"bindings: apt-get {words[0]} ended with {ran.returncode}")
            return


def main() -> int:
    """Installs what is missing, and says what still is."""
    wanted = missing()
    if wanted and os.geteuid() == 0 and shutil.which("apt-get"):
        install(wanted)
    left = missing()
    if left:
        print(f"bindings: not installed: {' '.join(left)}")
    return 1 if left else 0


if __name__ == "__main__":
    sys.exit(main())
