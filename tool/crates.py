"""The crates of crates.txt, which of them a crate uses, and the digest of their sources."""

from __future__ import annotations

import hashlib
import os
from collections.abc import Iterable, Iterator

from tool.kit import TOP

LIST = "crates.txt"
PARTS = ("src", "specs", "proofs")
DIGEST_BYTES = 32


def libraries() -> dict[str, list[str]]:
    """The crates of crates.txt, each with the libraries that it names."""
    crates = {}
    for line in (TOP / LIST).read_text(encoding="utf-8").splitlines():
        name, found, below = line.partition("#")[0].partition(":")
        if found:
            crates[name.split()[0]] = below.split()
    return crates


def crates_below(name: str, known: dict[str, list[str]]) -> set[str]:
    """The crate and all crates of the repository that it uses."""
    wanted = {name}
    for below in known[name]:
        if below in known:
            wanted |= crates_below(below, known)
    return wanted


def source_files(names: Iterable[str]) -> Iterator[str]:
    """Yields the paths, from the top on, of what these crates are built from and proved with."""
    yield LIST
    known = libraries()
    for name in sorted(set().union(*(crates_below(it, known) for it in names))):
        for part in PARTS:
            folder = TOP / "crates" / name / part
            found = [os.path.join(at, it) for at, _, held in os.walk(folder) for it in held]
            yield from sorted(path[len(f"{TOP}{os.sep}") :] for path in found)


def digest_of(paths: Iterable[str]) -> str:
    """The digest of files: of their paths from the top on, and of what they hold."""
    whole = hashlib.blake2b(digest_size=DIGEST_BYTES)
    for path in paths:
        with open(os.path.join(TOP, path), "rb", buffering=0) as file:
            held = file.read()
        whole.update(f"{path} {len(held)}\n".encode())
        whole.update(held)
    return whole.hexdigest()
