"""Runs the tests of the bindings. Usage: run.py [NAME..], where each NAME is of a test; none: all.

A test that needs a package which isn't installed is skipped by name. The last line counts what
passed, failed and was skipped; the status is 0 where nothing failed. With HMC_BINDINGS=all what is
skipped has failed.
"""

from __future__ import annotations

import os
import re
import shutil
import subprocess
import sys
import tempfile
import time
import zipfile
from collections.abc import Callable
from concurrent.futures import ThreadPoolExecutor
from pathlib import Path

HERE = Path(__file__).resolve().parent
BINDINGS = HERE.parent
TOP = BINDINGS.parent
BUILD = BINDINGS / "build"
ARCHIVE = BUILD / "libhmc.a"
sys.path.insert(0, str(TOP))

# pylint: disable=wrong-import-position,import-error
import packages  # noqa: E402
from tool import build, compiled as from_kit  # noqa: E402

CHAIN = HERE / "chain.toml"
SECONDS = 600
CHOICES = 200000
SEED = 1
INCLUDES = ["-I", str(BINDINGS / "c"), "-I", str(BINDINGS / "cpp"), "-I", str(BINDINGS / "systemc")]
SANITIZED = ["-g", "-O1", "-fsanitize=address,undefined", "-fno-sanitize-recover=all"]
STRICT = ["-Wall", "-Wextra", "-Wpedantic"]
WRAPPED = [f"-Wl,--wrap={name}" for name in ("malloc", "calloc", "realloc", "free")]
SVDPI = Path("/usr/share/verilator/include/vltstd")
OFFLINE = ["--no-index", "--no-build-isolation", "--no-deps", "--quiet"]
# A block of a page: its language, and what it has.
BLOCK = re.compile(r"^```(\w*)\n(.*?)^```$", re.MULTILINE | re.DOTALL)

# What a page's block in C++ needs around it.
IN_CPP = """\
#include "hmc.hpp"
void bench(const std::string &text);
void bench(const std::string &text) {{
{}}}
"""


class Failed(Exception):
    """A test that failed, with why."""


class Skipped(Exception):
    """A test that wasn't run, with why."""


def run(*words: object, at: Path | None = None, env: dict[str, str] | None = None) -> str:
    """Runs a command, and returns what it wrote; it has to end with 0."""
    command = [str(word) for word in words]
    how = {**os.environ, **(env or {})}
    try:
        ran = subprocess.run(
            command,
            cwd=at,
            env=how,
            stdin=subprocess.DEVNULL,
            stdout=subprocess.PIPE,
            stderr=subprocess.STDOUT,
            timeout=SECONDS,
            check=False,
        )
    except FileNotFoundError as error:
        raise Failed(f"{command[0]} is not there") from error
    except subprocess.TimeoutExpired as error:
        raise Failed(f"{command[0]} took over {SECONDS} seconds") from error
    written = ran.stdout.decode(errors="replace")
    if ran.returncode != 0:
        raise Failed(f"{' '.join(command)}: status {ran.returncode}\n{written[-3000:]}")
    return written


def last_line(written: str) -> str:
    """The last line that isn't empty."""
    lines = [line for line in written.splitlines() if line.strip()]
    return lines[-1] if lines else ""


def require(tool: str, package: str) -> None:
    """Skips where a tool isn't there."""
    if shutil.which(tool) is None:
        raise Skipped(f"{package} is not installed")


def compiled(room: Path, name: str, sources: list[Path], words: list[str]) -> Path:
    """A program of C with the sanitizers, over the library."""
    program = room / name
    command = ["cc", "-std=c99", *STRICT, *SANITIZED, *INCLUDES, *words, "-o", program]
    run(*command, *sources, ARCHIVE)
    return program


def benches(page: str) -> list[tuple[str, str]]:
    """The benches of a page: each program that a block with what it prints follows."""
    blocks = BLOCK.findall((TOP / "docs" / page).read_text(encoding="utf-8"))
    pairs = zip(blocks, blocks[1:])
    return [(code, printed) for (word, code), (after, printed) in pairs if word and not after]


def run_bench(
    page: str, suffix: str, room: Path, words: Callable[[Path, Path], list[object]]
) -> None:
    """Builds the first bench of a page and compares what it prints. `words` are the command, for
    the source and the program."""
    code, printed = benches(page)[0]
    source, program = room / f"first{suffix}", room / "first"
    source.write_text(code, encoding="utf-8")
    run(*words(source, program))
    said = run(program, at=TOP).replace("\0", "")
    if printed not in said:
        raise Failed(f"the first bench of docs/{page} prints\n{said}")


def test_c(room: Path) -> str:
    """Misuse of each call, the benches of two pages, and an example whose lines are those of its
    report."""
    cc = ["cc", "-std=c99", *STRICT, *SANITIZED, *INCLUDES, "-o"]
    # By -lhmc, as pkg-config has it: that has to find the archive.
    library = [f"-L{BUILD}", "-lhmc"]
    for page in ("co-simulation.md", "c-library.md"):
        run_bench(page, ".c", room, lambda at, to: [*cc, to, at, *library])
    example = TOP / "examples" / "write-then-read.toml"
    text = example.read_text(encoding="utf-8").splitlines(keepends=True)
    case = room / "case.toml"
    case.write_text("".join("\n" if line.startswith("0 ") else line for line in text))
    program = compiled(room, "test", [BINDINGS / "c" / "test.c"], [])
    lines = run(program, case)
    report = example.with_suffix(".report").read_text(encoding="utf-8")
    if lines != report:
        raise Failed("the lines of the example are not those of its report")
    return f"{lines.count(chr(10))} lines as stored"


COMMENT = re.compile(r"/\*.*?\*/", re.DOTALL)
DECLARED = re.compile(r"^(?!static|typedef)\w[\w *]*?\b(hmc_\w+)\(", re.MULTILINE)


def test_header(_: Path) -> str:
    """Each call that the headers declare is in the archive, and they declare each one there."""
    declared: set[str] = set()
    for header in ("hmc.h", "hmc_driver.h"):
        text = (BINDINGS / "c" / header).read_text(encoding="utf-8")
        declared.update(DECLARED.findall(COMMENT.sub("", text)))
    rows = [row.split() for row in run("nm", "--defined-only", "-g", ARCHIVE).splitlines()]
    defined = {row[2] for row in rows if len(row) == 3 and row[2].startswith("hmc_")}
    for names, where in ((declared - defined, "not in the archive"),
                         (defined - declared, "in no header")):
        if names:
            raise Failed(f"{', '.join(sorted(names))}: {where}")
    return f"{len(declared)} calls"


# A program with the names of the kit's heap, as another library that is made with the kit has them.
COLLIDES = """\
#include "hmc.h"
int rattle_alloc, rattle_realloc, rattle_dealloc;
int main(void) { return hmc_version() != HMC_VERSION; }
"""


def defined_in(*words: object) -> set[str]:
    """The names that nm shows as defined."""
    rows = [row.split() for row in run("nm", *words).splitlines()]
    return {row[2].split("@")[0] for row in rows if len(row) == 3}


def test_symbols(room: Path) -> str:
    """The libraries define no global name but hmc_*, and link beside another of the kit. The shared
    one has a version of its interface."""
    shared = BUILD / "shared" / "libhmc.so.1"
    names = defined_in("-g", "--defined-only", ARCHIVE)
    others = defined_in("-D", "--defined-only", shared) - {"HMC_1"}
    wrong = {name for name in names | others if not name.startswith("hmc_")} | (names ^ others)
    if wrong:
        raise Failed(f"{', '.join(sorted(wrong))}: not a name of both libraries")
    if "Library soname: [libhmc.so.1]" not in run("readelf", "-d", shared):
        raise Failed("the shared library has another name than libhmc.so.1")
    source = room / "collides.c"
    source.write_text(COLLIDES, encoding="utf-8")
    run("cc", *INCLUDES, "-o", room / "collides", source, ARCHIVE)
    run(room / "collides")
    return f"{len(names)} names"


# A call that a header declares with a pointer, after the comment that is its own.
POINTED = re.compile(r"/\*((?:(?!\*/).)*)\*/\n((?:(?!/\*)[^\n]+\n)+)", re.DOTALL)


def test_pointers(_: Path) -> str:
    """The comment of each call that takes a pointer says what a null one does."""
    found = 0
    for header in ("hmc.h", "hmc_driver.h"):
        text = (BINDINGS / "c" / header).read_text(encoding="utf-8")
        for comment, declared in POINTED.findall(text):
            names = DECLARED.findall(declared)
            if not names or "*" not in declared.partition("(")[2]:
                continue
            if not re.search(r"\b(No null pointer|NULL (is allowed|may be)|may be NULL)", comment):
                raise Failed(f"{', '.join(names)}: the comment is silent about null pointers")
            found += len(names)
    return f"{found} calls"


def test_drive(room: Path) -> str:
    """Random requests and steps, and the tape of them replayed by the program."""
    program = compiled(room, "drive", [HERE / "drive.c"], [])
    net = HERE / "net.toml"
    script, schedule, lines = room / "script", room / "schedule", room / "lines"
    said = run(program, net, script, schedule, lines, CHOICES, SEED)
    tape = net.read_text(encoding="utf-8")
    for key, path in (("script", script), ("schedule", schedule)):
        tape = tape.replace(f"{key} = ''", f"{key} = '''\n{path.read_text(encoding='utf-8')}'''")
    return f"{said.strip()}; {replay(tape.encode(), lines.read_bytes())}"


def replay(tape: bytes, lines: bytes) -> str:
    """Replays a tape by the program, whose report begins with the lines of the session."""
    if not build.is_current():
        raise Skipped("the proved program is not built, so the tape is not replayed")
    ran = subprocess.run(
        [build.PROGRAM, "run"], input=tape, stdout=subprocess.PIPE, timeout=SECONDS, check=False
    )
    if ran.returncode not in (0, 7):
        raise Failed(f"the tape is no case: status {ran.returncode}, {ran.stdout[:200]!r}")
    if not lines or not ran.stdout.startswith(lines):
        raise Failed("the report of the tape has other lines than the session")
    return "the same lines by the program"


def test_keep(room: Path) -> str:
    """Drivers with a tape, each saved as a case that has their lines; the program replays the last
    one."""
    sources = [HERE / "keep.c", BINDINGS / "c" / "driver.c"]
    saved = room / "saved.toml"
    said = run(compiled(room, "keep", sources, []), CHAIN, saved)
    return f"{said.strip()}; {replay(saved.read_bytes(), b'retired 0')}"


def test_whole(room: Path) -> str:
    """The report of each stored example, its check, and a session of it to its final lines."""
    program = compiled(room, "whole", [HERE / "whole.c"], [])
    pairs: list[Path] = []
    for case in sorted((TOP / "examples").glob("*.toml")):
        report = case.with_suffix(".report")
        if report.is_file() and not report.read_bytes().startswith(b"bad "):
            pairs += [case, report]
    return run(program, *pairs).strip()


def test_refuse(room: Path) -> str:
    """Each allocation refused in turn."""
    sources = [HERE / "refuse.c", BINDINGS / "c" / "driver.c"]
    return run(compiled(room, "refuse", sources, WRAPPED), CHAIN).strip()


def test_stack(room: Path) -> str:
    """The calls on stacks as short as hmc.h states."""
    words = ["cc", "-std=c99", "-D_GNU_SOURCE", "-O1", *STRICT, *INCLUDES, "-pthread"]
    run(*words, "-o", room / "stack", HERE / "stack.c", ARCHIVE)
    return run(room / "stack", CHAIN).strip()


def test_threads(room: Path) -> str:
    """Two threads with a session each."""
    sources = [HERE / "threads.c", BINDINGS / "c" / "driver.c"]
    return run(compiled(room, "threads", sources, ["-pthread"]), CHAIN).strip()


def test_cpp(room: Path) -> str:
    """The header for C++, with and without std::span, and the page's block."""
    require("g++", "g++")
    blocks = BLOCK.findall((TOP / "docs" / "co-simulation.md").read_text(encoding="utf-8"))
    (code,) = [code for word, code in blocks if word == "cpp"]
    block = room / "block.cpp"
    block.write_text(IN_CPP.format(code), encoding="utf-8")
    run("g++", "-std=c++20", *STRICT, *INCLUDES, "-fsyntax-only", block)
    source, program = BINDINGS / "cpp" / "test.cpp", room / "cpp"
    run("g++", "-std=c++17", *STRICT, *INCLUDES, "-fsyntax-only", source)
    words = ["g++", "-std=c++20", *STRICT, *SANITIZED, *INCLUDES, "-o", program]
    run(*words, source, ARCHIVE)
    return run(program, CHAIN, room / "saved.toml").strip()


def test_systemc(room: Path) -> str:
    """A TLM-2.0 target with two initiators, and the page's bench."""
    require("g++", "g++")
    if not Path("/usr/include/systemc").exists():
        raise Skipped("libsystemc-dev is not installed")
    program = room / "systemc"
    gxx = ["g++", "-std=c++17", *STRICT[:2], *INCLUDES]
    run(*gxx, "-O1", "-o", program, BINDINGS / "systemc" / "test.cpp", ARCHIVE, "-lsystemc")
    saved = room / "saved.toml"
    fails(program, CHAIN, 1000, saved)
    require_read(saved)
    link = [ARCHIVE, "-lsystemc"]
    run_bench("systemc.md", ".cpp", room, lambda at, to: [*gxx, "-o", to, at, *link])
    return last_line(run(program, CHAIN, 1000))


def fails(*words: object) -> None:
    """Runs a command that has to end with another status than 0."""
    try:
        run(*words)
    except Failed:
        return
    raise Failed(f"{words[0]} ends with 0")


def require_read(saved: Path) -> None:
    """A bench that failed after a read has left a case, and the program's report of it has one."""
    if not saved.is_file():
        raise Failed("a run that failed leaves no case")
    ran = subprocess.run(
        [sys.executable, HERE / "report_of.py", saved], capture_output=True, check=False
    )
    if ran.returncode != 0 or b"\ntook 0 0 " not in ran.stdout:
        raise Failed(f"what a run leaves is no case with an answer: {ran.stderr.decode()[-500:]}")


def test_verilator(room: Path) -> str:
    """A clocked bench over DPI."""
    require("verilator", "verilator")
    folder = BINDINGS / "verilator"
    shim = room / "hmc_dpi.o"
    run("cc", "-std=c99", "-O2", *STRICT, *INCLUDES, "-I", SVDPI, "-c", folder / "hmc_dpi.c",
        "-o", shim)
    sources = [folder / name for name in ("hmc_pkg.sv", "hmc_port.sv")]
    words = ["verilator", "--binary", "-O3", "-CFLAGS", "-O1", "--Mdir", room / "obj"]
    top = ["-Wall", "--top-module", "test", f'-GCASE="{CHAIN}"']
    run(*words, *top, *sources, folder / "test.sv", shim, ARCHIVE)
    said = run(room / "obj" / "Vtest", "+verilator+seed+1")
    leave_case(words, [*sources, folder / "test.sv", shim, ARCHIVE], room)
    words += ["--top-module", "first", *sources, shim, ARCHIVE]
    run_bench("verilator.md", ".sv", room, lambda at, to: [*words, at, "-o", to])
    counted = [line for line in said.splitlines() if line.startswith("verilator: ")]
    if not counted:
        raise Failed(said[-1000:])
    return counted[-1]


def leave_case(words: list[object], sources: list[Path], room: Path) -> None:
    """A bench that fails after an answer leaves its case."""
    saved = room / "saved.toml"
    names = [f'-GCASE="{CHAIN}"', f'-GTAPE="{saved}"', "-GFAIL=1"]
    words = [it if it != room / "obj" else room / "failing" for it in words]
    run(*words, "-Wall", "--top-module", "test", *names, *sources)
    fails(room / "failing" / "Vtest", "+verilator+seed+1")
    require_read(saved)


def test_icarus(room: Path) -> str:
    """A bench of Icarus Verilog over VPI."""
    require("iverilog", "iverilog")
    flags = run("iverilog-vpi", "--cflags").split()
    words = ["cc", "-std=c11", "-O2", *STRICT[:2], *flags, "-shared", *INCLUDES]
    source = BINDINGS / "icarus" / "hmc_vpi.c"
    run(*words, "-o", room / "hmc.vpi", source, ARCHIVE)
    bench = BINDINGS / "icarus" / "test.v"
    run("iverilog", "-g2012", f'-DCASE="{CHAIN}"', "-o", room / "test", bench)
    said = run("vvp", "-M", room, "-m", "hmc", room / "test")
    if "icarus: 2000 answers, 0 wrong" not in said:
        raise Failed(said[-1000:])
    return next(line for line in said.splitlines() if line.startswith("icarus: "))


def test_ghdl(room: Path) -> str:
    """A bench of GHDL over VHPIDIRECT."""
    require("ghdl", "ghdl")
    folder = BINDINGS / "ghdl"
    words = ["cc", "-std=c99", "-O2", *STRICT, "-fPIC", "-shared", *INCLUDES]
    run(*words, "-o", room / "libhmc_ghdl.so", folder / "hmc_ghdl.c", ARCHIVE)
    shutil.copy(CHAIN, room)
    run("ghdl", "-a", "--std=08", folder / "hmc_vhdl.vhd", folder / "test.vhd", at=room)
    run("ghdl", "-e", "--std=08", "test", at=room)
    said = run("ghdl", "-r", "--std=08", "test", at=room)
    if "ghdl: 2000 answers, 0 wrong" not in said:
        raise Failed(said[-1000:])
    return "2000 answers, 0 wrong"


def test_examples(_: Path) -> str:
    """The stored examples step by step."""
    return last_line(run(sys.executable, HERE / "steps.py", TOP / "examples"))


def test_python(room: Path) -> str:
    """The package as it is installed, without a network: its wheel has the same bytes whoever makes
    it, and its library asks for no later system than the wheel's name states."""
    python = packages.packer()
    if python is None:
        raise Skipped("python3-pip is not installed")
    words = [python, "-m", "pip", "wheel", *OFFLINE, BINDINGS / "python", "-w"]
    run(*words, room / "one", at=room)
    run("sh", "-c", 'umask 077 && exec "$@"', "sh", *words, room / "two", at=room)
    (one,), (two,) = [list((room / it).glob("*.whl")) for it in ("one", "two")]
    if one.read_bytes() != two.read_bytes():
        raise Failed("two wheels of the same sources differ")
    require_metadata(one)
    require_cause(words[:-2], room)
    asked = re.findall(r"GLIBC_2\.([0-9]+)", run("objdump", "-T", BUILD / "shared" / "libhmc.so"))
    if one.name.split("-")[-1] != "manylinux_2_17_x86_64.whl" or max(map(int, asked)) > 17:
        raise Failed(f"{one.name}: its library asks for glibc 2.{max(map(int, asked))}")
    run(python, "-m", "pip", "install", *OFFLINE, "--target", room / "packages", one, at=room)
    # The test stands away from the sources, so that it finds the package that was installed.
    test = shutil.copy(BINDINGS / "python" / "test.py", room)
    installed = {"PYTHONPATH": str(room / "packages")}
    said = run(sys.executable, test, CHAIN, at=room, env=installed)
    for code, printed in benches("python.md"):
        if run(sys.executable, "-c", code, at=TOP, env=installed) != printed:
            raise Failed(f"a bench of docs/python.md doesn't print\n{printed}")
    return last_line(said.replace("\nOK", "")).strip()


def require_metadata(wheel: Path) -> None:
    """A wheel says what it is, and its licence."""
    with zipfile.ZipFile(wheel) as file:
        (name,) = [it for it in file.namelist() if it.endswith(".dist-info/METADATA")]
        said = file.read(name).decode()
        licences = [it for it in file.namelist() if "LICENSE-" in it]
    for row in ("Summary: A proved model", "License: MIT OR Apache-2.0", "Requires-Python: >=3.9"):
        if f"\n{row}" not in said:
            raise Failed(f"the wheel's metadata lacks `{row}`")
    if len(licences) != 2:
        raise Failed(f"the wheel has {len(licences)} licences")


def require_cause(words: list[object], room: Path) -> None:
    """A build before `make` says last what is to be done."""
    top = room / "unmade"
    shutil.copytree(BINDINGS / "python", top / "bindings" / "python")
    shutil.copy(TOP / "VERSION", top)
    try:
        run(*words, top / "bindings" / "python", "-w", room / "none", at=room)
    except Failed as failed:
        before, end, _ = str(failed).partition("[end of output]")
        cause = last_line(before).strip()
        if end and cause.startswith("there is no /") and cause.endswith("run make -C bindings first"):
            return
        raise Failed(f"a build without the library ends with `{cause}`") from failed
    raise Failed("a package is built without the library")


def test_rust(room: Path) -> str:
    """The crate, with two threads."""
    require("rustc", "rustc")
    crate = BINDINGS / "rust"
    rustc = ["rustc", "--edition", "2021", "-O", "-D", "warnings", "-L", f"native={BUILD}"]
    words = ["--crate-type", "rlib", "--crate-name", "hmc", "-o", room / "libhmc.rlib"]
    run(*rustc, *words, crate / "src" / "lib.rs")
    words = ["--test", "--extern", f"hmc={room / 'libhmc.rlib'}", "-o", room / "rust"]
    run(*rustc, *words, crate / "tests" / "threads.rs")
    words = ["--extern", f"hmc={room / 'libhmc.rlib'}", "-o"]
    run_bench("rust.md", ".rs", room, lambda at, to: [*rustc, *words, to, at])
    return last_line(run(room / "rust", env={"HMC_TEST_CASE": str(CHAIN)}))


def test_fields(room: Path) -> str:
    """What C, Python and Rust read says what the lines say, and is laid out as hmc.h has it."""
    require("rustc", "rustc")
    rustc = ["rustc", "--edition", "2021", "-O", "-D", "warnings", "-L", f"native={BUILD}"]
    words = ["--crate-type", "rlib", "--crate-name", "hmc", "-o", room / "libhmc.rlib"]
    run(*rustc, *words, BINDINGS / "rust" / "src" / "lib.rs")
    words = ["--extern", f"hmc={room / 'libhmc.rlib'}", "-o", room / "rust"]
    run(*rustc, *words, HERE / "fields.rs")
    program = compiled(room, "fields", [HERE / "fields.c"], [])
    words = [HERE / "fields.py", program, room / "rust", TOP / "examples"]
    return last_line(run(sys.executable, *words))


def test_hosts(room: Path) -> str:
    """A driver of a network with two hosts."""
    sources = [HERE / "two_hosts.c", BINDINGS / "c" / "driver.c"]
    return run(compiled(room, "hosts", sources, []), HERE / "net.toml").strip()


def test_types(_: Path) -> str:
    """The types of the package and of the tests in Python."""
    require("mypy", "mypy")
    mypy = ["mypy", "--strict", f"--cache-dir={os.devnull}"]
    env = {"MYPYPATH": f"{BINDINGS / 'python'}:{TOP}"}
    sources = [BINDINGS / "python" / name for name in ("hmc", "test.py")]
    names = ("run", "steps", "fields", "report_of", "packages")
    sources += [HERE / f"{name}.py" for name in names]
    return last_line(run(*mypy, *sources, at=HERE, env=env))


TESTS: dict[str, Callable[[Path], str]] = {
    "c": test_c,
    "drive": test_drive,
    "header": test_header,
    "pointers": test_pointers,
    "refuse": test_refuse,
    "stack": test_stack,
    "symbols": test_symbols,
    "threads": test_threads,
    "cpp": test_cpp,
    "examples": test_examples,
    "fields": test_fields,
    "ghdl": test_ghdl,
    "hosts": test_hosts,
    "icarus": test_icarus,
    "keep": test_keep,
    "python": test_python,
    "rust": test_rust,
    "systemc": test_systemc,
    "types": test_types,
    "verilator": test_verilator,
    "whole": test_whole,
}


def outcome(name: str) -> str:
    """Runs a test, says what became of it, and returns that in a word."""
    start = time.monotonic()
    with tempfile.TemporaryDirectory(prefix=f"hmc-{name}-") as room:
        try:
            said = TESTS[name](Path(room))
        except Skipped as skipped:
            print(f"SKIPPED {name}: {skipped}", flush=True)
            return "failed" if os.environ.get("HMC_BINDINGS") == "all" else "skipped"
        except Failed as failed:
            print(f"FAILED {name}: {failed}", flush=True)
            return "failed"
    print(f"passed {name} ({time.monotonic() - start:.1f} s): {said}", flush=True)
    return "passed"


def is_built() -> bool:
    """Whether make needs to build no archive of the crate."""
    words = ["make", "-q", "-C", str(BINDINGS), "../crates/hmc_c/out/libhmc_c.a"]
    return subprocess.run(words, capture_output=True, check=False).returncode == 0


def main(names: list[str]) -> int:
    """Builds the library, runs the tests, and counts them."""
    unknown = [name for name in names if name not in TESTS]
    if unknown:
        print(f"no test of the bindings: {' '.join(unknown)}")
        return 2
    try:
        is_left = from_kit.is_after_gate(from_kit.ARCHIVE) and not is_built()
        why = from_kit.make(from_kit.ARCHIVE) if is_left else ""
        if why:
            raise Failed(why)
        run("make", "-C", BINDINGS)
        with ThreadPoolExecutor(os.cpu_count()) as pool:
            outcomes = list(pool.map(outcome, names or TESTS))
    except Failed as failed:
        print(f"FAILED build: {failed}")
        outcomes = ["failed"]
    counts = [f"{outcomes.count(it)} {it}" for it in ("passed", "failed", "skipped")]
    print(f"bindings: {', '.join(counts)}")
    return 1 if "failed" in outcomes else 0


if __name__ == "__main__":
    sys.exit(main(sys.argv[1:]))
