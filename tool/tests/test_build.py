"""Tests of builds, in a copy of the tool beside a kit that only pretends to prove."""

import os
import shutil
import signal
import subprocess
import sys
import tempfile
import time
import unittest
from pathlib import Path

from tool.tests.shared import EXAMPLES, TOP

# It writes a program that answers with the text of its source, or fails as the file `fails` says.
# Its `try` has the program linked by the linker of the kit, in which folder that may be.
KIT = """\
#!/bin/sh
here=$(dirname "$0")
[ "$1" = doc ] && { echo "$here/doc"; exit 0; }
[ "$1" = version ] && { echo "${KIT_NAME:-pretend-kit logic 0123}"; exit 0; }
echo "$1" >>builds
wait_for_signal() {
  echo $$ >pid.new
  mv pid.new pid
  exec sleep 60
}
write_program() {
  echo '#!/bin/sh'
  echo 'case=$(cat)'
  echo '[ -z "$case" ] && { echo "bad top 0 missing"; exit 6; }'
  echo "cat <<END"
  cat src/main.rt
  echo END
}
if [ "$1" = try ]; then
  cat >/dev/null
  [ -e fails ] && { echo "error: refused" >&2; exit 1; }
  [ -e waits ] && wait_for_signal
  work=$(mktemp -d)
  write_program >$work/input
  "$here/../toolchain/bin/ld.lld" -o $work/program $work/input
  chmod +x $work/program
  $work/program </dev/null
  echo "run=ended status=6 runners=1 proved=no" >&2
  rm -r $work
  exit 6
fi
[ "$1" = lib ] && echo "rt: chose --jobs 4 for hmc_c" >&2
echo "rt: chose --jobs 4 for hmc_prog" >&2
[ -e fails ] && { echo "error: not proved" >&2; exit 1; }
[ -e waits ] && wait_for_signal
[ -e slow ] && sleep 1
[ -e edits ] && echo edited >>src/main.rt
mkdir -p out
[ "$1" = lib ] && { echo archive >out/libhmc_c.a; exit 0; }
write_program >out/hmc_prog
chmod +x out/hmc_prog
exec out/hmc_prog </dev/null
"""
LINKER = """\
#!/bin/sh
cp "$3" "$2"
chmod +x "$2"
"""


class Copy(unittest.TestCase):
    """A copy of the tool."""

    def setUp(self) -> None:
        self._folder = tempfile.TemporaryDirectory()
        self.addCleanup(self._folder.cleanup)
        self.top = Path(self._folder.name)
        self.crate = self.top / "crates" / "hmc_prog"
        ignored = shutil.ignore_patterns("tests", "__pycache__")
        shutil.copytree(TOP / "tool", self.top / "tool", ignore=ignored)
        shutil.copy(TOP / "zehimbado", self.top)
        (self.top / "VERSION").write_text("9.8\n", encoding="utf-8")
        (self.top / "crates.txt").write_text("hmc_prog: std_other\n", encoding="utf-8")
        (self.crate / "src").mkdir(parents=True)
        self.source = self.crate / "src" / "main.rt"
        self.source.write_text("first\n", encoding="utf-8")
        for name, text in (("bin/rt", KIT), ("toolchain/bin/ld.lld", LINKER)):
            path = self.top / "kit" / name
            path.parent.mkdir(parents=True)
            path.write_text(text, encoding="utf-8")
            path.chmod(0o755)
        named = "(`rt version`: pretend-kit, logic 0123)\n"
        (self.top / "README.md").write_text(named, encoding="utf-8")

    def environment(self, with_kit: bool = True, **more: str) -> dict[str, str]:
        """The environment of the tool, with the kit on the path or without it."""
        path = f"{self.top / 'kit' / 'bin'}:{os.environ['PATH']}" if with_kit else "/usr/bin:/bin"
        return {**os.environ, "PATH": path, **more}

    def tool(
        self, *words: str, with_kit: bool = True, **more: str
    ) -> subprocess.CompletedProcess[str]:
        """Runs the copy of the tool."""
        return subprocess.run(
            [sys.executable, str(self.top / "zehimbado"), *words],
            input="a case\n",
            env=self.environment(with_kit, **more),
            capture_output=True,
            text=True,
            timeout=60,
            check=False,
        )

    def builds(self) -> list[str]:
        """What the kit was asked to build."""
        return (self.crate / "builds").read_text("utf-8").split()


class Build(Copy):
    def test_a_program_is_built_once(self) -> None:
        first, second = self.tool("run"), self.tool("run", with_kit=False)
        self.assertEqual((first.returncode, first.stdout), (0, "first\n"))
        self.assertEqual((second.returncode, second.stdout), (0, "first\n"))
        self.assertIn("proving hmc_prog; at most 0 of 1 crates are left", first.stderr)
        self.assertEqual(second.stderr, "")

    def test_an_edit_is_built(self) -> None:
        self.tool("run")
        self.source.write_text("second\n", encoding="utf-8")
        self.assertEqual(self.tool("run").stdout, "second\n")

    def test_a_failed_build_leaves_no_older_program_in_use(self) -> None:
        self.tool("run")
        self.source.write_text("second\n", encoding="utf-8")
        (self.crate / "fails").touch()
        for _ in range(2):
            ran = self.tool("run")
            self.assertEqual((ran.returncode, ran.stdout), (69, ""))
            self.assertIn("error: not proved", ran.stderr)
        self.source.write_text("first\n", encoding="utf-8")
        self.assertEqual(self.tool("run").returncode, 69)

    def test_another_program_in_its_place_is_not_used(self) -> None:
        self.tool("run")
        program = self.crate / "out" / "hmc_prog"
        program.write_text("#!/bin/sh\necho other\n", encoding="utf-8")
        self.assertEqual(self.tool("run").stdout, "first\n")

    def test_an_edit_during_a_build(self) -> None:
        (self.crate / "edits").touch()
        ran = self.tool("run")
        self.assertEqual((ran.returncode, ran.stdout), (69, ""))
        self.assertIn("the sources changed", ran.stderr)

    def test_a_build_ends_with_the_script(self) -> None:
        """Where the script is asked to end, the kit that it started ends too."""
        (self.crate / "waits").touch()
        number = self.crate / "pid"
        rows = (("build", signal.SIGTERM), ("try", signal.SIGTERM), ("try", signal.SIGHUP))
        for word, ending in rows:
            number.unlink(missing_ok=True)
            command = [sys.executable, str(self.top / "zehimbado"), word]
            null = subprocess.DEVNULL
            with subprocess.Popen(
                command, env=self.environment(), stdin=null, stderr=null
            ) as running:
                until = time.monotonic() + 120
                # The kit opens the file before it writes its number.
                while not (number.exists() and number.read_text("utf-8")):
                    self.assertLess(time.monotonic(), until)
                    time.sleep(0.05)
                running.send_signal(ending)
            self.assertEqual(running.returncode, 128 + ending)
            with self.assertRaises(ProcessLookupError):
                os.kill(int(number.read_text("utf-8")), 0)

    def test_two_builds_at_once(self) -> None:
        """The second one waits, and uses the program of the first."""
        (self.crate / "slow").touch()
        command = [sys.executable, str(self.top / "zehimbado"), "build"]
        pipe, environment = subprocess.PIPE, self.environment()
        running = [
            subprocess.Popen(command, stdout=pipe, stderr=pipe, env=environment) for _ in range(2)
        ]
        ended = [process.communicate(timeout=60) for process in running]
        self.assertEqual([process.returncode for process in running], [0, 0])
        self.assertEqual(ended[0][0], ended[1][0])
        self.assertEqual(self.builds(), ["run"])
        self.assertEqual(sum(b"another build" in said for _, said in ended), 1)

    def test_another_kit(self) -> None:
        for words in (["run"], ["try"], ["--version"]):
            ran = self.tool(*words, KIT_NAME="other-kit logic 4567")
            said = ran.stderr + ran.stdout
            self.assertIn("this kit is `other-kit logic 4567`, and README.md names `pret", said)
        self.assertNotIn("README.md names", self.tool("run").stderr)
        said = self.tool("--version").stdout
        self.assertIn("pretend-kit logic 0123, which README.md names", said)

    def test_version_says_which_programs_are_built(self) -> None:
        before, _, after = self.tool("--version"), self.tool("run"), self.tool("--version")
        self.assertIn("the proved program of these sources is not built", before.stdout)
        self.assertIn("the proved program of these sources is built", after.stdout)
        self.assertIn("zehimbado 9.8, sources ", after.stdout)

    def test_a_checkout_that_cannot_be_written(self) -> None:
        """As one that is read-only: a file is where the folder of the program has to be."""
        (self.crate / "out").write_text("", encoding="utf-8")
        ran = self.tool("build")
        self.assertEqual((ran.returncode, ran.stdout), (73, ""))
        self.assertRegex(ran.stderr, "^zehimbado: cannot write /.*/crates/hmc_prog/out: .*\n$")

    def test_try_where_the_checkout_cannot_be_written(self) -> None:
        """Its program is in a cache of the user's own, where `XDG_CACHE_HOME` or `HOME` has it. A
        cache that can't be written is named."""
        (self.crate / "out").write_text("", encoding="utf-8")
        cache, home = self.top / "cache", self.top / "home"
        named = str(cache)

        def tried(with_kit: bool = True) -> "subprocess.CompletedProcess[str]":
            return self.tool("try", with_kit=with_kit, XDG_CACHE_HOME=named, HOME=str(home))

        first, second = tried(), tried(with_kit=False)
        self.assertEqual((first.returncode, first.stdout), (0, "first\n"))
        self.assertEqual((second.stdout, second.stderr), ("first\n", ""))
        said = self.tool("--version", XDG_CACHE_HOME=named).stdout
        self.assertIn("the unproved program of these sources is built", said)
        self.assertEqual(len(list(cache.glob("zehimbado/*/hmc_prog.unproved"))), 1)
        self.source.write_text("second\n", encoding="utf-8")
        self.assertEqual(tried().stdout, "second\n")
        self.assertFalse(home.exists())
        # A path that is no absolute one doesn't count.
        named = "cache"
        self.assertEqual(tried().stdout, "second\n")
        self.assertEqual(len(list(home.glob(".cache/zehimbado/*/hmc_prog.unproved"))), 1)
        named = os.devnull
        ran = tried()
        self.assertEqual((ran.returncode, ran.stdout), (73, ""))
        self.assertRegex(ran.stderr, "^zehimbado: cannot write /dev/null/zehimbado/.*\n$")

    def test_try_uses_what_the_checkout_has(self) -> None:
        """Whoever may not write it uses the program that another user has built there."""
        self.tool("try")
        folder = self.crate / "out"
        folder.chmod(0o555)
        self.addCleanup(folder.chmod, 0o755)
        ran = self.tool("try", with_kit=False, XDG_CACHE_HOME=str(self.top / "cache"))
        self.assertEqual((ran.stdout, ran.stderr), ("first\n", ""))

    def test_without_the_kit(self) -> None:
        """Each command that needs it names it."""
        case, report, trace = (self.top / it for it in ("a.toml", "a.report", "trace"))
        shutil.copy(EXAMPLES / "write-then-read.toml", case)
        shutil.copy(EXAMPLES / "write-then-read.report", report)
        trace.write_text("cube 0 0 1\n0 load 0 4\n", encoding="utf-8")
        rows = (
            ("run",), ("run", str(case)), ("run", "--quiet", "-o", str(self.top / "o"), str(case)),
            ("try",), ("try", str(case)), ("make", "1"), ("build",), ("bound", str(case)),
            ("check", str(case), str(report)), ("trace", str(trace)),
        )
        for words in rows:
            ran = self.tool(*words, with_kit=False)
            self.assertEqual((ran.returncode, ran.stdout), (69, ""), words)
            self.assertIn("kit's command rt is not on the path", ran.stderr)
            self.assertEqual(ran.stderr.count("\n"), 1, ran.stderr)

    def test_the_path_of_the_program(self) -> None:
        ran = self.tool("build")
        self.assertEqual(ran.stdout, f"{self.crate.resolve() / 'out' / 'hmc_prog'}\n")

    def test_try(self) -> None:
        """The program is built once, and then used without the kit while its sources are these."""
        first, second = self.tool("try"), self.tool("try", with_kit=False)
        self.assertEqual((first.returncode, first.stdout), (0, "first\n"))
        self.assertIn("without proofs", first.stderr)
        self.assertEqual((second.returncode, second.stdout, second.stderr), (0, "first\n", ""))
        self.source.write_text("second\n", encoding="utf-8")
        self.assertEqual(self.tool("try").stdout, "second\n")
        self.assertEqual(self.builds(), ["try", "try"])
        self.assertEqual(self.tool("run", with_kit=False).returncode, 69)

    def test_a_try_with_a_kit_of_another_form(self) -> None:
        (self.top / "kit" / "toolchain" / "bin" / "ld.lld").unlink()
        ran = self.tool("try")
        self.assertEqual((ran.returncode, ran.stdout), (69, ""))
        self.assertIn("try needs the kit that README.md names", ran.stderr)

    def test_a_try_of_a_long_report(self) -> None:
        """A report may have more than 1 MiB, of which the kit's own try has none."""
        self.source.write_text("a line of a report\n" * 100_000, encoding="utf-8")
        self.assertEqual(len(self.tool("try").stdout), 1_900_000)

    def test_a_try_that_is_refused(self) -> None:
        (self.crate / "fails").touch()
        ran = self.tool("try")
        self.assertEqual((ran.returncode, ran.stdout), (69, ""))
        self.assertIn("error: refused", ran.stderr)


class Library(Copy):
    """The library for benches, by make."""

    def setUp(self) -> None:
        super().setUp()
        text = "hmc_low: std_other\nhmc_c staticlib: hmc_low\nhmc_prog: std_other\n"
        (self.top / "crates.txt").write_text(text, encoding="utf-8")
        (self.top / "HANDLES").touch()
        self.library = self.top / "crates" / "hmc_c"
        self.library.mkdir()
        (self.top / "bindings").mkdir()
        shutil.copy(TOP / "bindings" / "Makefile", self.top / "bindings")

    def make(self, *words: str, with_kit: bool = True) -> subprocess.CompletedProcess[str]:
        """Runs make in the folder of the bindings."""
        how = {"capture_output": True, "text": True, "timeout": 60, "check": False}
        words = ("make", "-C", str(self.top / "bindings"), *words)
        return subprocess.run(words, env=self.environment(with_kit), **how)  # type: ignore

    def test_the_library_says_how_far_it_is(self) -> None:
        """Make says which crate is at work, and how many there are."""
        archive = "../crates/hmc_c/out/libhmc_c.a"
        ran = self.make(archive)
        self.assertEqual(ran.returncode, 0, ran.stderr)
        self.assertIn("proving and building the library, 2 crates", ran.stderr)
        self.assertIn("proving hmc_c; at most 0 of 2 crates are left after it", ran.stderr)
        self.assertTrue((self.library / "out" / "libhmc_c.a").is_file())
        self.assertEqual(self.make("-q", archive).returncode, 0)
        (self.library / "fails").touch()
        (self.library / "out" / "libhmc_c.a").unlink()
        ran = self.make(archive)
        self.assertEqual(ran.returncode, 2)
        self.assertIn("  error: not proved\n", ran.stderr)
        self.assertIn("the library could not be proved and built", ran.stderr)

    def test_the_library_without_the_kit(self) -> None:
        """One sentence says what is missing."""
        for name in ("", "PROVED"):
            if name:
                (self.top / "release").mkdir()
                text = "version 9.8\nsources 0123\n"
                (self.top / "release" / name).write_text(text, encoding="utf-8")
            ran = self.make("-s", with_kit=False)
            self.assertEqual((ran.returncode, ran.stdout), (2, ""))
            said = [line for line in ran.stderr.splitlines() if line.startswith("zehimbado: ")]
            self.assertEqual(len(said), 1, ran.stderr)
            self.assertIn("the kit's command rt is not on the path", said[0])
            self.assertEqual("make RELEASED=1" in said[0], name != "")
            self.assertNotIn("No rule to make", ran.stderr)

    def test_a_checkout_whose_path_has_a_blank(self) -> None:
        """What pkg-config says of it at its top are words without a blank."""
        top = self.top / "a blank"
        for name in ("bindings", "crates"):
            (top / name).mkdir(parents=True)
        for name in ("VERSION", "bindings/Makefile"):
            shutil.copy(self.top / name, top / name)
        make = ["make", "-s", "-C", "bindings", "build/hmc.pc"]
        subprocess.run(make, cwd=top, env=self.environment(False), check=True)
        text = (top / "bindings" / "build" / "hmc.pc").read_text("utf-8")
        self.assertIn("\nLibs: -L${pcfiledir} -lhmc\n", text)
        if shutil.which("pkg-config") is None:
            return
        words, folder = ["pkg-config", "--cflags", "--libs", "hmc"], "bindings/build"
        how = {**os.environ, "PKG_CONFIG_PATH": folder}
        ran = subprocess.run(words, cwd=top, env=how, capture_output=True, text=True)
        wanted = [f"-I{folder}/../{it}" for it in ("c", "cpp", "systemc")]
        self.assertEqual(ran.stdout.split(), [*wanted, f"-L{folder}", "-lhmc"], ran.stderr)


if __name__ == "__main__":
    unittest.main()
