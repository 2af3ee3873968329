"""Tests of a release, in a copy of the tool with files that only pretend to be proved."""

import lzma
import os
import re
import shutil
import subprocess
import sys
import tempfile
import unittest
from pathlib import Path

from tool import release
from tool.crates import LIST
from tool.tests.shared import TOP

PROGRAM = '#!/bin/sh\n[ "$1" = run ] && { echo "report of $(cat)"; exit 0; }\necho "$@"\n'
FILES = {"hmc_prog": PROGRAM.encode(), "libhmc.a": b"archive", "libhmc.so.1": b"shared"}
# What is installed beside the script.
PARTS = ("Makefile", "README.md", "CHANGES.md", "LICENSE", "HANDLES", "VERSION", "zehimbado")
FOLDERS = ("docs", "release/cmake", "bindings/c", "bindings/cpp", "bindings/systemc")


class Release(unittest.TestCase):
    def setUp(self) -> None:
        self._folder = tempfile.TemporaryDirectory()
        self.addCleanup(self._folder.cleanup)
        self.top = Path(self._folder.name) / "checkout"
        ignored = shutil.ignore_patterns("tests", "__pycache__")
        shutil.copytree(TOP / "tool", self.top / "tool", ignore=ignored)
        for name in PARTS:
            shutil.copy(TOP / name, self.top / name)
        for name in FOLDERS:
            shutil.copytree(TOP / name, self.top / name)
        for name in ("zehimbado.in", "hmc.pc.in"):
            shutil.copy(TOP / "release" / name, self.top / "release")
        (self.top / "examples").mkdir()
        (self.top / "examples" / "one.toml").write_text("one\n", encoding="utf-8")
        (self.top / LIST).write_text("hmc_prog: std\nhmc_c staticlib: std\n", encoding="utf-8")
        self.source = self.top / "crates" / "hmc_prog" / "src" / "main.rt"
        self.source.parent.mkdir(parents=True)
        self.source.write_text("first\n", encoding="utf-8")
        self.write_release()

    def write_release(self, files: dict[str, bytes] | None = None) -> None:
        """Makes a release of the sources that are there, with these files."""
        folder = self.top / "release" / release.MACHINE
        folder.mkdir(exist_ok=True)
        rows = ["version 9.8", f"sources {self.digest()}", "kit pretend", "gate 7 passed, 0 failed"]
        for name, held in FILES.items():
            (folder / f"{name}.xz").write_bytes(lzma.compress((files or FILES)[name]))
            rows.append(f"file {release.checksum_of(held)}  {release.MACHINE}/{name}")
        text = "# a comment\n" + "".join(f"{row}\n" for row in rows)
        (self.top / "release" / "PROVED").write_text(text, encoding="utf-8")

    def digest(self) -> str:
        """The digest of the sources that are there."""
        code = "from tool import release; print(release.digest())"
        words = [sys.executable, "-B", "-c", code]
        return subprocess.check_output(words, cwd=self.top, text=True).strip()

    def run_in(self, at: Path, *words: str) -> subprocess.CompletedProcess[str]:
        """Runs a command without the kit."""
        path = f"{Path(sys.executable).parent}:/usr/bin:/bin"
        how = {**os.environ, "PATH": path}
        given = {"input": "a case", "capture_output": True, "text": True, "timeout": 60}
        return subprocess.run(words, cwd=at, env=how, check=False, **given)  # type: ignore

    def tool(self, *words: str) -> subprocess.CompletedProcess[str]:
        """Runs the copy of the script."""
        return self.run_in(self.top, sys.executable, "zehimbado", *words)

    def test_a_release_of_these_sources_is_used(self) -> None:
        """Its version is said once."""
        first, second = self.tool("run"), self.tool("run")
        self.assertEqual((first.returncode, first.stdout), (0, "report of a case\n"))
        self.assertIn("the proved program of release 9.8", first.stderr)
        self.assertEqual((second.stdout, second.stderr), ("report of a case\n", ""))
        self.assertEqual(self.tool("make", "7").stdout, "make 7\n")
        path = self.top / "release" / "build" / "hmc_prog"
        self.assertEqual(Path(self.tool("build").stdout.strip()).resolve(), path.resolve())
        self.assertIn("the release 9.8 for x86_64-linux is of these", self.tool("--version").stdout)

    def test_a_release_of_other_sources(self) -> None:
        """It is used only where that is asked for."""
        self.source.write_text("second\n", encoding="utf-8")
        ran = self.tool("run")
        self.assertEqual((ran.returncode, ran.stdout), (69, ""))
        self.assertIn("other sources", ran.stderr)
        self.assertIn("--released", ran.stderr)
        self.assertEqual(self.tool("run", "--released").stdout, "report of a case\n")
        self.assertIn("is of other sources", self.tool("--version").stdout)

    def test_a_file_that_is_another_one(self) -> None:
        """Neither a changed file of the release nor a changed program beside it is run."""
        self.tool("run")
        (self.top / "release" / "build" / "hmc_prog").write_text("#!/bin/sh\n", encoding="utf-8")
        self.assertEqual(self.tool("run").stdout, "report of a case\n")
        (self.top / "release" / "build" / "hmc_prog").unlink()
        self.write_release({**FILES, "hmc_prog": b"#!/bin/sh\necho other\n"})
        ran = self.tool("run")
        self.assertEqual((ran.returncode, ran.stdout), (65, ""))
        self.assertIn("not the file that PROVED states", ran.stderr)

    def test_a_checkout_that_cannot_be_written(self) -> None:
        (self.top / "release" / "build").touch()
        self.assertEqual(self.tool("run").stdout, "report of a case\n")

    def test_no_release(self) -> None:
        (self.top / "release" / "PROVED").unlink()
        ran = self.tool("run")
        self.assertEqual((ran.returncode, ran.stdout), (69, ""))
        self.assertIn("there is no release", ran.stderr)
        self.assertIn("no release is here", self.tool("--version").stdout)

    def make(self, *words: str) -> None:
        """Runs make at the top of the copy."""
        ran = self.run_in(self.top, "make", "-s", *words)
        self.assertEqual((ran.returncode, ran.stderr), (0, ""))

    def test_what_is_installed_may_be_moved(self) -> None:
        """The script, pkg-config and the package of CMake find what was installed with them."""
        there, here = self.top.parent / "there", self.top.parent / "here"
        self.make("install", "PREFIX=/usr", f"DESTDIR={there}")
        there.rename(here)
        usr = here / "usr"
        ran = self.run_in(here, str(usr / "bin" / "zehimbado"), "run")
        self.assertEqual((ran.returncode, ran.stdout, ran.stderr), (0, "report of a case\n", ""))
        said = self.run_in(here, str(usr / "bin" / "zehimbado"), "help").stdout
        self.assertNotIn("./zehimbado", said)
        self.assertEqual(self.run_in(here, str(usr / "bin" / "zehimbado"), "try").returncode, 69)
        pc = (usr / "lib" / "pkgconfig" / "hmc.pc").read_text("utf-8")
        self.assertIn("prefix=${pcfiledir}/../..\n", pc)
        self.assertEqual((usr / "lib" / "libhmc.so").read_bytes(), b"shared")
        config = usr / "lib" / "cmake" / "hmc" / "hmcConfig.cmake"
        (top,) = re.findall(r'_hmc_top "\$\{_hmc_here\}/(.*?)"', config.read_text("utf-8"))
        self.assertEqual((config.parent / top).resolve(), usr.resolve())
        self.assertIn("hmc_open", (usr / "include" / "hmc.h").read_text("utf-8"))
        self.assertTrue((usr / "share" / "man" / "man1" / "zehimbado-run.1").is_file())

    def test_uninstall_leaves_nothing(self) -> None:
        there = self.top.parent / "there"
        (there / "usr" / "lib").mkdir(parents=True)
        (there / "usr" / "lib" / "other").touch()
        for word in ("install", "uninstall"):
            self.make(word, "PREFIX=/usr", "LIBDIR=/usr/lib/some", f"DESTDIR={there}")
            left = sorted(str(it.relative_to(there)) for it in there.rglob("*"))
            self.assertEqual("usr/lib/some/libhmc.a" in left, word == "install")
        self.assertEqual(left, ["usr", "usr/lib", "usr/lib/other"])


if __name__ == "__main__":
    unittest.main()
