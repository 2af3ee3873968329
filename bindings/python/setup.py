"""Puts the library into the package, names the oldest systems that can load it, and makes the same
bytes each time. `make -C bindings` leaves the library: proved here, or of the release."""

import atexit
import os
import shutil
import tempfile
from pathlib import Path

from setuptools import Distribution, setup
from setuptools.command.build_py import build_py
from wheel.bdist_wheel import bdist_wheel

HERE = Path(__file__).resolve().parent
LIBRARY = HERE.parent / "build" / "shared" / "libhmc.so"
VERSION = (HERE.parent.parent / "VERSION").read_text(encoding="utf-8").strip()
# The library asks for no later function of the C library; bindings/tests/run.py compares.
SYSTEM = "manylinux_2_17_x86_64"

# The bytes of a wheel depend neither on the clock nor on who makes it.
os.environ.setdefault("SOURCE_DATE_EPOCH", "315532800")
os.umask(0o022)


class WithLibrary(build_py):
    """The package with the library in it."""

    def run(self) -> None:
        if not LIBRARY.is_file():
            raise SystemExit(f"there is no {LIBRARY}: run make -C bindings first")
        super().run()
        if not getattr(self, "editable_mode", False):
            self.copy_file(str(LIBRARY), str(Path(self.build_lib, "hmc", LIBRARY.name)))
            for path in Path(self.build_lib, "hmc").iterdir():
                path.chmod(0o644)


class Compiled(Distribution):
    """A package with a file that is compiled."""

    def has_ext_modules(self) -> bool:
        return True


class ForEachPython(bdist_wheel):
    """A wheel for each Python 3 of a system, since no file of it is compiled for one."""

    def get_tag(self) -> "tuple[str, str, str]":
        return "py3", "none", SYSTEM


# The licences are those of the repository; a package has them beside its sources.
for licence in HERE.parent.parent.glob("LICENSE-*"):
    shutil.copyfile(licence, HERE / licence.name)

# Nothing else is written beside the sources.
ROOM = tempfile.mkdtemp(prefix="zehimbado-")
atexit.register(shutil.rmtree, ROOM, ignore_errors=True)
setup(
    version=VERSION,
    distclass=Compiled,
    cmdclass={"build_py": WithLibrary, "bdist_wheel": ForEachPython},
    options={"build": {"build_base": ROOM}, "egg_info": {"egg_base": ROOM}},
)
