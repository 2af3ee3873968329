"""The release: the proved program and the library as files, for those who have no kit.

`release/PROVED` has the digest of the sources that were proved, and the checksum of each file. The
files are beside it, compressed. A file is used only where its checksum is right. tool.releasing
makes the release, and docs/release.md says what stands behind it.
"""

from __future__ import annotations

import atexit
import hashlib
import os
import shutil
import subprocess
import sys
import tempfile
from collections.abc import Iterator
from dataclasses import dataclass, field
from pathlib import Path

from tool import unfinished
from tool.crates import digest_of, source_files
from tool.kit import INSTALLED, TOP
from tool.trouble import BAD_DATA, UNAVAILABLE, Trouble, note

FOLDER = TOP / "release"
PROVED = FOLDER / "PROVED"
UNPACKED = FOLDER / "build"
# What the latest gate that passed here has said.
GATE = TOP / "crates" / "hmc_prog" / "out" / "hmc_prog.gate"
# The crates of the program and of the library, and what the kit holds the program to.
CRATES = ("hmc_prog", "hmc_c")
HANDLES = "HANDLES"
# What is compiled into the library beside the proved archive.
DRIVERS = ("bindings/c/driver.c", "bindings/c/hmc.h", "bindings/c/hmc_driver.h")
PROGRAM = "hmc_prog"
MACHINE = "x86_64-linux"
ENDING = ".xz"


@dataclass
class Proved:
    """What `release/PROVED` states: values by their names, and the checksums of files and of what
    the kit compiled."""

    values: dict[str, str] = field(default_factory=dict)
    files: dict[str, str] = field(default_factory=dict)
    compiled: dict[str, str] = field(default_factory=dict)


def read(path: Path = PROVED) -> Proved | None:
    """What PROVED states, or None where there is no release."""
    if not path.is_file():
        return None
    found = Proved()
    for row in path.read_text(encoding="utf-8").splitlines():
        word, _, rest = row.partition(" ")
        if word in ("file", "compiled"):
            checksum, _, name = rest.strip().partition(" ")
            (found.files if word == "file" else found.compiled)[name.strip()] = checksum
        elif word and word != "#":
            found.values[word] = rest.strip()
    return found


def proved_files() -> Iterator[str]:
    """Yields the paths of all that the proofs of the program and of the library read."""
    yield HANDLES
    yield from source_files(CRATES)


def digest() -> str:
    """The digest of the proved sources."""
    return digest_of(proved_files())


def drivers() -> str:
    """The digest of what is compiled into the library beside the proved archive."""
    return digest_of(DRIVERS)


def machine() -> str:
    """The machine that this is, as the folders of a release are named."""
    return f"{os.uname().machine}-{sys.platform}"


def stated() -> Proved:
    """What the release states; a failure where there is none for this machine."""
    found = read()
    if found is None:
        raise Trouble(UNAVAILABLE, f"there is no release: {PROVED} is missing")
    if machine() != MACHINE:
        raise Trouble(UNAVAILABLE, f"the release is for {MACHINE}, and this is {machine()}")
    return found


def is_of_these_sources() -> bool:
    """Whether a release for this machine is here, and its sources are these."""
    found = read()
    return found is not None and machine() == MACHINE and found.values["sources"] == digest()


def checksum_of(held: bytes) -> str:
    """The checksum of a file, as `sha256sum` prints it."""
    return hashlib.sha256(held).hexdigest()


def decompressed(path: Path) -> bytes:
    """What a compressed file holds. A Python without lzma leaves it to the program xz."""
    try:
        import lzma  # pylint: disable=import-outside-toplevel
    except ImportError:
        words = ["xz", "--decompress", "--stdout", str(path)]
        return subprocess.run(words, capture_output=True, check=True).stdout
    return lzma.decompress(path.read_bytes())


def held_by(name: str) -> bytes:
    """The bytes of a file of the release, whose checksum is right."""
    held = decompressed(FOLDER / MACHINE / f"{name}{ENDING}")
    if checksum_of(held) != stated().files[f"{MACHINE}/{name}"]:
        raise Trouble(BAD_DATA, f"{name} of the release is not the file that PROVED states")
    return held


def write(held: bytes, path: Path) -> None:
    """Writes a file, which may be run if it is the program. Only a whole one has its name."""
    path.parent.mkdir(parents=True, exist_ok=True)
    with unfinished.begun(str(path)) as (file, name):
        file.write(held)
        file.flush()
        os.chmod(name, 0o755 if path.name == PROGRAM else 0o644)
        os.replace(name, path)


def unpacked(name: str, path: Path) -> Path:
    """A file of the release at this path, where it is put if it isn't there."""
    checksum = stated().files[f"{MACHINE}/{name}"]
    if not path.is_file() or checksum_of(path.read_bytes()) != checksum:
        write(held_by(name), path)
    return path


def program() -> Path:
    """The program of the release. It is kept in the checkout, or, where that can't be written, for
    as long as the script runs."""
    path = UNPACKED / PROGRAM
    is_first = not path.is_file()
    try:
        unpacked(PROGRAM, path)
    except OSError:
        room = tempfile.mkdtemp(prefix="zehimbado-")
        atexit.register(shutil.rmtree, room, ignore_errors=True)
        unpacked(PROGRAM, path := Path(room, PROGRAM))
    if is_first:
        note(f"this is the proved program of release {stated().values['version']}: see --version")
    return path


def lines() -> list[str]:
    """What `--version` says of the release."""
    found = read()
    if found is None:
        return ["no release is here"]
    sources = found.values["sources"]
    if INSTALLED.is_file():
        whose = f"of sources {sources[:16]}"
    elif sources == digest():
        whose = f"of these sources ({sources[:16]} with those of the library)"
    else:
        whose = f"of other sources, {sources[:16]}"
    return [
        f"the release {found.values['version']} for {MACHINE} is {whose}",
        f"it was proved with {found.values['kit']}; the gate said: {found.values['gate']}",
    ]


def how(released: str = "--released") -> str:
    """What can be done where neither a program of these sources nor the kit is here. The word is
    what takes the release of other sources."""
    without = "the kit's command rt is not on the path"
    if read() is None:
        return f"there is no release, and {without}: see CONTRIBUTING.md"
    if machine() != MACHINE:
        return f"the release is for {MACHINE}, this is {machine()}, and {without}"
    return (
        f"the release is of other sources than these, and {without}: take the commit of a release, "
        f"or use the release all the same by {released}"
    )


def main(words: list[str]) -> int:
    """Unpacks files of the release to a folder: `python3 -m tool.release FOLDER NAME..`. With
    RELEASED=1 in the environment it does so whatever sources they are of."""
    if not is_of_these_sources() and os.environ.get("RELEASED") != "1":
        raise Trouble(UNAVAILABLE, how("`make RELEASED=1`"))
    for name in words[1:]:
        unpacked(name, Path(words[0], name))
    return 0


if __name__ == "__main__":
    try:
        sys.exit(main(sys.argv[1:]))
    except Trouble as trouble:
        note(str(trouble))
        sys.exit(trouble.status)
