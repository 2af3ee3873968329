"""What the kit compiles of the sources that a gate has just proved: the object of the program, and
the archive of the library.

`rt ci` checks a static library and keeps no archive of it, and it keeps a program without its
object. `rt lib` would prove all crates below once more, since the libraries of `rt ci` have no
stamp. So this calls the kit's compiler as `rt` does, over these libraries: it proves the one crate
and compiles it.
"""

from __future__ import annotations

import os
import subprocess
import sys
import tempfile
from dataclasses import dataclass
from pathlib import Path

from tool import build, kit
from tool.crates import crates_below, libraries
from tool.kit import TOP
from tool.trouble import UNAVAILABLE, Trouble, note

MOST_JOBS = 4
SAID = 3000
TARGET = "x86_64-unknown-linux-gnu"


@dataclass(frozen=True)
class Compiled:
    """What is compiled of a crate: its source, the words of the kit's compiler, and the file."""

    crate: str
    source: str
    words: tuple[str, ...]
    name: str

    @property
    def folder(self) -> Path:
        """The folder of the crate."""
        return TOP / "crates" / self.crate

    @property
    def path(self) -> Path:
        """Where the file is."""
        return self.folder / "out" / self.name


OBJECT = Compiled("hmc_prog", "src/main.rt", (), "hmc_prog.o")
ARCHIVE = Compiled("hmc_c", "src/lib.rt", ("--crate-type", "staticlib"), "libhmc_c.a")


def library(name: str) -> Path:
    """Where the library of a crate is."""
    return TOP / "crates" / name / "out" / "rlib" / f"{name}.rlib"


def kit_folder() -> Path:
    """The folder of the kit."""
    rt, _ = kit.require()
    return Path(rt).resolve().parent.parent


def words_of(it: Compiled, folder: Path) -> list[str]:
    """The command that proves the crate and compiles it, with the kit in this folder."""
    known = libraries()
    # The kind of a crate is before the colon in crates.txt, so it is no name here.
    named = known[it.crate]
    words = [str(folder / "bin" / "rattle"), "build", "--crate-name", it.crate, it.source]
    for name in ["std", *(name for name in named if name not in known)]:
        words += ["--extern", f"{name}={folder / 'rlibs' / name}.rlib"]
    words += ["-L", f"dependency={folder / 'rlibs'}"]
    for name in named:
        if name in known:
            words += ["--extern", f"{name}={library(name)}"]
    for name in sorted(crates_below(it.crate, known) - {it.crate}):
        words += ["-L", f"dependency={library(name).parent}"]
    words += ["--antt-project", str(folder / "rattle" / "logic" / "antt-project.json")]
    words += ["--logic-built", str(folder / "logic_built"), *it.words]
    words += ["--jobs", str(min(MOST_JOBS, os.cpu_count() or 1))]
    words += ["--toolchain", str(folder / "toolchain"), "--backend", "llvm"]
    return [*words, "-o", str(it.path.relative_to(it.folder))]


def are_libraries_here(it: Compiled) -> bool:
    """Whether the libraries below the crate are there."""
    return all(library(name).exists() for name in crates_below(it.crate, libraries()) - {it.crate})


def is_after_gate(it: Compiled) -> bool:
    """Whether the libraries below are as `rt ci` leaves them: all there, and not all stamped."""
    below = crates_below(it.crate, libraries()) - {it.crate}
    are_stamped = all((library(name).parent / "stamp").is_file() for name in below)
    return not are_stamped and are_libraries_here(it)


def make(it: Compiled) -> str:
    """Proves and compiles the crate, and returns why it couldn't, or nothing."""
    it.path.parent.mkdir(exist_ok=True)
    words = words_of(it, kit_folder())
    ran = subprocess.run(words, cwd=it.folder, capture_output=True, text=True, check=False)
    return (ran.stdout + ran.stderr)[-SAID:] if ran.returncode else ""


def linked(path: Path) -> bytes:
    """The program that the kit's linker makes of an object."""
    folder = kit_folder()
    with tempfile.TemporaryDirectory(prefix="zehimbado-") as room:
        program = Path(room, build.PROGRAM.name)
        words = [str(folder / "bin" / "rattle-link"), "--target", TARGET]
        words += ["--toolchain", str(folder / "toolchain"), "-o", str(program), str(path)]
        words += [str(folder / "c" / "libos_c.a"), str(folder / "c" / "liblibc_c.a")]
        subprocess.run(words, capture_output=True, check=False)
        return program.read_bytes() if program.is_file() else b""


def program_object() -> Path:
    """The object of which the recorded program of these sources was linked. It is compiled where
    it isn't there; and it is the right one only where linking it gives that program."""
    if not build.is_current():
        raise Trouble(UNAVAILABLE, "the program of these sources is not built: run .ci/run first")
    program, path = build.PROGRAM.read_bytes(), OBJECT.path
    if path.is_file() and linked(path) == program:
        return path
    if not are_libraries_here(OBJECT):
        raise Trouble(UNAVAILABLE, "the libraries below the program are not built: run .ci/run")
    why = make(OBJECT)
    if why or linked(path) != program:
        raise Trouble(UNAVAILABLE, why or f"{path} is not what the proved program was linked of")
    return path


def archive() -> Path:
    """The archive of these sources, which is compiled where it isn't there."""
    words = ["make", "-q", "-C", str(TOP / "bindings"), "../crates/hmc_c/out/libhmc_c.a"]
    if subprocess.run(words, capture_output=True, check=False).returncode:
        if not is_after_gate(ARCHIVE):
            raise Trouble(UNAVAILABLE, "the archive of the library is not built: run .ci/run")
        why = make(ARCHIVE)
        if why:
            raise Trouble(UNAVAILABLE, why)
    return ARCHIVE.path


def main() -> int:
    """Makes the object of the program where it isn't there, for a release of these sources."""
    try:
        program_object()
    except Trouble as trouble:
        note(str(trouble))
        return trouble.status
    return 0


if __name__ == "__main__":
    sys.exit(main())
