"""Makes the release of what a gate has proved, and compares one with what is built here.

`python3 -m tool.releasing write` makes it, and `compare` is a step of the gate. docs/release.md
says what the files of a release are, and what they rest on.
"""

from __future__ import annotations

import lzma
import shutil
import subprocess
import sys
import tempfile
from pathlib import Path

from tool import build, compiled, kit, release
from tool.crates import libraries
from tool.kit import TOP
from tool.release import FOLDER, MACHINE
from tool.trouble import UNAVAILABLE, Trouble, note

BINDINGS = TOP / "bindings"
# By lzma's own numbers for a preset, whatever the number of processors and the clock.
FILTERS = [{"id": lzma.FILTER_LZMA2, "preset": 9 | lzma.PRESET_EXTREME}]
LINK = ("-static", "-Wl,--build-id=sha1", "-Wl,--gc-sections")
MOST_BYTES = 3 << 20
ABOUT = """\
# What the files of this folder are, and what was proved of which sources: docs/release.md.
# sources: the digest of all that the proofs of the program and of the library read
# drivers: the digest of the C that is compiled into the library beside what is proved
# checked: what of it the gate proved in that run, and what it had proved before on that machine
# kit: its compiler, and its libraries, are not proved by this gate: the kit brings their proofs
# compiled: sha256 of what the kit compiled, before a C compiler linked it
# file: sha256 of a file of this release, uncompressed
"""


def ran(*words: str | Path) -> str:
    """Runs a command that has to end well, and returns what it wrote."""
    command = [str(word) for word in words]
    done = subprocess.run(command, capture_output=True, text=True, check=False)
    if done.returncode:
        raise Trouble(UNAVAILABLE, f"{' '.join(command)}: {(done.stdout + done.stderr)[-2000:]}")
    return done.stdout


def compiler() -> str:
    """What links the files: a compiler, a linker, and the C library that becomes a part of them."""
    parts = [ran(word, "--version").splitlines()[0] for word in ("cc", "ld")]
    library = Path(ran("cc", "-print-file-name=libc.a").strip())
    held = library.read_bytes() if library.is_file() else b""
    return f"{', '.join(parts)}, libc.a {release.checksum_of(held)[:16]}"


def from_kit() -> dict[str, str]:
    """The checksums of what the kit compiled: the program as the kit links it, its object, and the
    archive of the library."""
    paths = [build.PROGRAM, compiled.program_object(), compiled.archive()]
    return {str(it.relative_to(TOP)): release.checksum_of(it.read_bytes()) for it in paths}


def linked(room: Path) -> dict[str, bytes]:
    """The files of a release, linked here from what the kit compiled."""
    folder = compiled.kit_folder()
    program, whole = room / release.PROGRAM, room / compiled.OBJECT.name
    archives = [folder / "c" / name for name in ("libos_c.a", "liblibc_c.a")]
    ran("ld", "-r", "-o", whole, compiled.program_object(), *archives)
    ran("cc", *LINK, "-o", program, whole)
    compiled.archive()
    # They may be those of a release, which were unpacked there.
    built = BINDINGS / "build"
    libraries_built = built / "libhmc.a", built / "shared" / "libhmc.so.1"
    for path in libraries_built:
        path.unlink(missing_ok=True)
    ran("make", "-C", BINDINGS, "RELEASED=")
    shared = room / libraries_built[1].name
    shutil.copy(libraries_built[1], shared)
    ran("strip", program)
    ran("strip", "--strip-unneeded", shared)
    paths = [program, whole, libraries_built[0], shared]
    return {path.name: path.read_bytes() for path in paths}


def gate() -> dict[str, str]:
    """What the latest gate has said, which must have passed with these sources."""
    said = release.read(release.GATE)
    if said is None or said.values.get("sources") != release.digest():
        raise Trouble(UNAVAILABLE, "no gate passed here with these sources: run .ci/run first")
    return said.values


def page(values: dict[str, str], compiled_sums: dict[str, str], files: dict[str, bytes]) -> str:
    """The text of PROVED."""
    rows = [f"{word} {value}" for word, value in values.items()]
    rows += [f"compiled {checksum}  {name}" for name, checksum in compiled_sums.items()]
    for name, held in files.items():
        rows.append(f"file {release.checksum_of(held)}  {MACHINE}/{name}")
    return ABOUT + "".join(f"{row}\n" for row in rows)


def write() -> int:
    """Makes the release."""
    said = gate()
    sums = from_kit()
    with tempfile.TemporaryDirectory(prefix="zehimbado-") as room:
        files = linked(Path(room))
    mutants = len(list((TOP / "crates").glob("*/must-fail/*.edit")))
    values = {
        "version": kit.project_version(),
        "sources": release.digest(),
        "drivers": release.drivers(),
        "kit": kit.require()[1],
        "crates": str(len(libraries())),
        "mutants": str(mutants),
        **{word: said[word] for word in ("gate", "checked", "script", "bindings") if word in said},
        "compiler": compiler(),
    }
    folder = FOLDER / MACHINE
    folder.mkdir(parents=True, exist_ok=True)
    sizes = 0
    for name, held in files.items():
        packed = lzma.compress(held, lzma.FORMAT_XZ, lzma.CHECK_SHA256, filters=FILTERS)
        (folder / f"{name}{release.ENDING}").write_bytes(packed)
        sizes += len(packed)
    release.PROVED.write_text(page(values, sums, files), encoding="utf-8")
    print(f"the release {values['version']} of these sources: {sizes:,} bytes in {folder}")
    return 0 if sizes <= MOST_BYTES else 1


def differences(stated: release.Proved) -> list[str]:
    """The files that are not, byte for byte, those of a release of these sources."""
    sums = from_kit()
    wrong = [name for name, checksum in stated.compiled.items() if sums.get(name) != checksum]
    if stated.values["drivers"] != release.drivers():
        print("zehimbado: the release has other drivers: its linked files are not compared")
    elif stated.values["compiler"] != compiler():
        print("zehimbado: the release was linked by another compiler, so that is not compared")
    else:
        with tempfile.TemporaryDirectory(prefix="zehimbado-") as room:
            files = linked(Path(room))
        named = {f"{MACHINE}/{name}": release.checksum_of(held) for name, held in files.items()}
        wrong += [name for name, checksum in stated.files.items() if named.get(name) != checksum]
    return wrong


def compare() -> int:
    """Fails where a release of these sources has other bytes than what was built here."""
    stated = release.read()
    if stated is None:
        print("zehimbado: there is no release")
        return 0
    for name in stated.files:
        release.held_by(Path(name).name)
    if stated.values["sources"] != release.digest():
        print("zehimbado: the release is of other sources than these")
        return 0
    wrong = differences(stated)
    for name in wrong:
        print(f"zehimbado: FAILED release: {name} is not what is built here")
    if not wrong:
        print("zehimbado: the release is what is built here")
    return 1 if wrong else 0


def main(words: list[str]) -> int:
    """Does what the word says."""
    try:
        return {"write": write, "compare": compare}[words[0]]()
    except Trouble as trouble:
        note(str(trouble))
        return trouble.status


if __name__ == "__main__":
    sys.exit(main(sys.argv[1:]))
