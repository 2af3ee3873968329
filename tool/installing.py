"""Installs the release where other software finds it, and removes it again.

`python3 -m tool.installing install|uninstall PREFIX LIBDIR DESTDIR`: the Makefile at the top calls
it. What is installed may be moved as one folder: nothing in it has the name of that folder.
"""

from __future__ import annotations

import os
import shutil
import sys
from collections.abc import Iterator
from dataclasses import dataclass
from pathlib import Path

from tool import kit, manual, release
from tool.kit import INSTALLED, TOP
from tool.trouble import UNAVAILABLE, USAGE, Trouble, note

SO = "libhmc.so.1"
# The files of this repository, by the folder that they are installed to.
HEADERS = ("c/hmc.h", "c/hmc_driver.h", "cpp/hmc.hpp", "systemc/hmc_target.h")
BENCHES = ("verilator/hmc_*.*", "icarus/hmc_*.*", "ghdl/hmc_*.*")
SCRIPT = ("zehimbado", "VERSION", "tool/*.py", "tool/*.txt", "tool/verbs/*.py", "release/PROVED")
PAGES = ("docs/*", "README.md", "CHANGES.md", "LICENSE*", "release/PROVED")
# The folders that are this project's alone.
OWN = ("share/zehimbado", "share/doc/zehimbado", "lib/zehimbado")


@dataclass(frozen=True)
class Place:
    """Where things are installed: a prefix, the folder of libraries, and a folder before both."""

    prefix: str
    libdir: str
    destdir: str

    def path(self, name: str) -> Path:
        """Where a file of the prefix is written."""
        return self.at(f"{self.prefix}/{name}")

    def at(self, name: str) -> Path:
        """Where a file is written."""
        return Path(f"{self.destdir}{name}" if self.destdir else name)

    def up(self, folder: str) -> str:
        """The way from a folder to the prefix."""
        return os.path.relpath(self.prefix, folder)


@dataclass(frozen=True)
class Item:
    """A file that is installed, and whether it may be run. A link has what it points to."""

    path: Path
    held: bytes
    is_program: bool = False
    link: str = ""


def filled(name: str, place: Place, folder: str) -> bytes:
    """A file of `release/` with the version and the way to the prefix in it."""
    text = (release.FOLDER / name).read_text(encoding="utf-8")
    text = text.replace("@VERSION@", kit.project_version())
    return text.replace("@PREFIX@", place.up(folder)).encode()


def library_items(place: Place) -> Iterator[Item]:
    """Yields the library, its headers, and what finds both."""
    for name in HEADERS:
        path = TOP / "bindings" / name
        yield Item(place.path(f"include/{path.name}"), path.read_bytes())
    yield Item(place.at(f"{place.libdir}/libhmc.a"), release.held_by("libhmc.a"))
    whole = f"{SO}.{kit.project_version()}"
    yield Item(place.at(f"{place.libdir}/{whole}"), release.held_by(SO))
    yield Item(place.at(f"{place.libdir}/{SO}"), b"", link=whole)
    yield Item(place.at(f"{place.libdir}/libhmc.so"), b"", link=SO)
    for name, folder in (
        ("hmc.pc", "pkgconfig"),
        ("cmake/hmcConfig.cmake", "cmake/hmc"),
        ("cmake/hmcConfigVersion.cmake", "cmake/hmc"),
    ):
        to = f"{place.libdir}/{folder}"
        yield Item(place.at(f"{to}/{Path(name).name}"), filled(f"{name}.in", place, to))


def script_items(place: Place) -> Iterator[Item]:
    """Yields the script, the program, and what the script reads."""
    start = (release.FOLDER / "zehimbado.in").read_bytes()
    yield Item(place.path("bin/zehimbado"), start, is_program=True)
    program = "lib/zehimbado/hmc_prog"
    yield Item(place.path(program), release.held_by(release.PROGRAM), is_program=True)
    share = "share/zehimbado"
    way = f"{os.path.relpath(program, share)}\n"
    yield Item(place.path(f"{share}/{INSTALLED.name}"), way.encode())
    for pattern in SCRIPT:
        for path in sorted(TOP.glob(pattern)):
            to = place.path(f"{share}/{path.relative_to(TOP)}")
            yield Item(to, path.read_bytes(), is_program=os.access(path, os.X_OK))


def page_items(place: Place) -> Iterator[Item]:
    """Yields pages, examples, manual pages and completions."""
    for name, text in manual.texts().items():
        yield Item(place.path(f"share/{name}"), text.encode())
    for pattern in PAGES:
        for path in sorted(TOP.glob(pattern)):
            yield Item(place.path(f"share/doc/zehimbado/{path.name}"), path.read_bytes())
    examples = TOP / "examples"
    for path in sorted(it for it in examples.rglob("*") if it.is_file()):
        to = f"share/zehimbado/examples/{path.relative_to(examples)}"
        yield Item(place.path(to), path.read_bytes())
    for pattern in BENCHES:
        for path in sorted((TOP / "bindings").glob(pattern)):
            yield Item(place.path(f"share/zehimbado/hdl/{path.name}"), path.read_bytes())


def items(place: Place) -> Iterator[Item]:
    """Yields all that is installed."""
    yield from library_items(place)
    yield from script_items(place)
    yield from page_items(place)


def put(item: Item) -> None:
    """Installs a file."""
    item.path.parent.mkdir(parents=True, exist_ok=True)
    item.path.unlink(missing_ok=True)
    if item.link:
        item.path.symlink_to(item.link)
        return
    item.path.write_bytes(item.held)
    item.path.chmod(0o755 if item.is_program else 0o644)


def remove(place: Place) -> None:
    """Removes what an install of this version has put there, and folders that are empty then."""
    paths = [item.path for item in items(place)]
    for path in paths:
        path.unlink(missing_ok=True)
    for name in OWN:
        shutil.rmtree(place.path(name), ignore_errors=True)
    root = place.path("").resolve()
    above = {folder for path in paths for folder in path.parents if root in folder.parents}
    for folder in sorted(above, key=lambda it: len(it.parts), reverse=True):
        if folder.is_dir() and not any(folder.iterdir()):
            folder.rmdir()


def main(words: list[str]) -> int:
    """Installs or removes."""
    if len(words) != 4 or words[0] not in ("install", "uninstall"):
        note("install or uninstall, PREFIX, LIBDIR and DESTDIR are needed")
        return USAGE
    place = Place(*(str(word).rstrip("/") for word in words[1:]))
    if not release.is_of_these_sources() and os.environ.get("RELEASED") != "1":
        note(release.how("`make RELEASED=1`"))
        return UNAVAILABLE
    try:
        if words[0] == "uninstall":
            remove(place)
        else:
            for item in items(place):
                put(item)
    except Trouble as trouble:
        note(str(trouble))
        return trouble.status
    return 0


if __name__ == "__main__":
    sys.exit(main(sys.argv[1:]))
