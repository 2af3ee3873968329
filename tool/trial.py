"""The program without proofs, for `try`: the kit's own `rt try` builds it, and it is kept.

`rt try` keeps no file and gives at most 1 MiB of a report. So it is run once, from a folder that
looks like the kit, whose linker also copies what it has linked. That program has the checks at run
time which `rt try` puts in. It is used while the sources are those that it was built from.
"""

from __future__ import annotations

import hashlib
import os
import re
import shlex
import shutil
import subprocess
import tempfile
from pathlib import Path

from tool import build, kit, processes
from tool.kit import INSTALLED, TOP
from tool.trouble import UNAVAILABLE, Trouble, note

NAME = "hmc_prog.unproved"
# The cache of the user, in which each checkout that the user may not write has a folder.
CACHE = "zehimbado"
DIGEST_BYTES = 8
LINKER = Path("toolchain", "bin", "ld.lld")
# A linker that does as the kit's, and copies the program.
KEEPER = """\
#!/bin/sh
{linker} "$@" || exit
while [ $# -gt 1 ]; do
  if [ "$1" = -o ]; then cp "$2" {kept}; fi
  shift
done
"""
OTHER_KIT = "the program of this kit's try cannot be kept: try needs the kit that README.md names"
# How the kit says that a program that it tried has ended.
ENDED = re.compile(rb"^run=ended status=([0-9]+)", re.MULTILINE)
SECONDS = "600"
# The first bytes of a program that is not a script: it need not know in which folder it is.
ELF = b"\x7fELF"


def program() -> Path:
    """The unproved program of these sources, which is built first where it is not there."""
    if INSTALLED.is_file():
        raise Trouble(UNAVAILABLE, "there are no sources to build: `run` has the proved program")
    folder = place()
    if not _has_current(folder):
        with processes.lock(build.LOCKED, build.WAITS):
            if not _has_current(folder):
                _build(folder)
    return folder / NAME


def is_built() -> bool:
    """Whether the unproved program of these sources is there."""
    return _has_current(place())


def place() -> Path:
    """The folder in which the program is kept: that of what is built in the checkout, or one of the
    user's own cache where the user may not write that, and it has no program of these sources."""
    if _has_current(build.OUT) or _may_write(build.OUT):
        return build.OUT
    named = os.environ.get("XDG_CACHE_HOME", "")
    cache = Path(named) if os.path.isabs(named) else Path(os.path.expanduser("~"), ".cache")
    checkout = hashlib.blake2b(os.fsencode(TOP), digest_size=DIGEST_BYTES).hexdigest()
    return cache / CACHE / checkout


def _has_current(folder: Path) -> bool:
    """Whether a folder has the unproved program of these sources."""
    return build.is_current(folder / NAME, _record_in(folder))


def _record_in(folder: Path) -> Path:
    """What is recorded of the program of a folder."""
    return folder / f"{NAME}.sources"


def _may_write(folder: Path) -> bool:
    """Whether the user may write files of a folder, or make it."""
    if folder.exists():
        return folder.is_dir() and os.access(folder, os.W_OK | os.X_OK)
    return os.access(folder.parent, os.W_OK | os.X_OK)


def _build(to: Path) -> None:
    """Builds the program without proofs, and keeps it in a folder."""
    rt, _ = kit.require()
    whole = Path(rt).resolve().parent.parent
    if not (whole / "bin" / "rt").is_file() or not (whole / LINKER).is_file():
        raise Trouble(UNAVAILABLE, OTHER_KIT)
    sources = build.digest()
    build.make_out(_record_in(to))
    note("building the program without proofs; `run` proves it first")
    with tempfile.TemporaryDirectory(prefix="zehimbado-") as name:
        folder, kept = Path(name) / "kit", Path(name) / "program"
        _copy_kit(whole, folder, kept)
        _try(folder / "bin" / "rt")
        if not kept.is_file():
            raise Trouble(UNAVAILABLE, OTHER_KIT)
        if build.digest() != sources:
            said = "the sources changed while the program was built: try it again"
            raise Trouble(UNAVAILABLE, said)
        shutil.move(kept, to / NAME)
    _record_in(to).write_text(build.record_of(sources, to / NAME), encoding="utf-8")


def _copy_kit(whole: Path, folder: Path, kept: Path) -> None:
    """A folder that is the kit by links, with a linker that keeps the program.

    The kit's scripts are copied, since they find the kit by the folder that they are in.
    """
    _link_all(whole, folder)
    for inner in (Path("bin"), LINKER.parent.parent, LINKER.parent):
        if (whole / inner).is_dir():
            (folder / inner).unlink()
            _link_all(whole / inner, folder / inner)
    for script in (folder / "bin").iterdir():
        if script.is_file() and not script.read_bytes().startswith(ELF):
            source = script.resolve()
            script.unlink()
            shutil.copy(source, script)
    linker = folder / LINKER
    linker.unlink(missing_ok=True)
    words = {"linker": shlex.quote(str(whole / LINKER)), "kept": shlex.quote(str(kept))}
    linker.parent.mkdir(parents=True, exist_ok=True)
    linker.write_text(KEEPER.format(**words), encoding="utf-8")
    linker.chmod(0o755)


def _link_all(source: Path, folder: Path) -> None:
    """Makes a folder that has a link to each file of another one."""
    folder.mkdir()
    for path in source.iterdir():
        (folder / path.name).symlink_to(path)


def _try(rt: Path) -> None:
    """Runs the kit's try on an input of no bytes, for which the answer is known."""
    words = [str(rt), "try", "--seconds", SECONDS, "--", "run"]
    pipe = subprocess.PIPE
    how = {"cwd": build.CRATE, "stdin": subprocess.DEVNULL, "stdout": pipe, "stderr": pipe}
    with processes.child(words, **how) as running:
        written, complaint = running.communicate()
    ended = ENDED.search(complaint)
    status = int(ended.group(1)) if ended else running.returncode
    if ended is None or (status, written) != build.OF_NOTHING:
        said = complaint.decode(errors="replace").rstrip()
        raise Trouble(UNAVAILABLE, f"{said}{os.linesep}the program could not be built")
