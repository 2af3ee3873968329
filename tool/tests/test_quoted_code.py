"""Tests of code that pages quote and no bench of the bindings runs: it is C for the header, or in a
file that the gate builds or runs."""

import re
import subprocess
import tempfile
import unittest
from pathlib import Path

from tool.tests import pages
from tool.tests.pages import flat, text_of
from tool.tests.shared import EXAMPLES, TOP

HEADER = text_of("bindings/c/hmc.h")
# What a block of C needs around it: what its page says of it in words.
BENCH = """
#include "hmc_driver.h"
void bench(hmc_driver *d, const uint8_t *text, size_t length);
void bench(hmc_driver *d, const uint8_t *text, size_t length) {{
    uint64_t id;
    {}
    (void)d, (void)text, (void)length, (void)id;
}}
"""
ENTRY = "hmc_entry_t entry;\n"
BENCH_OF_C = "A first bench"


class Code(unittest.TestCase):
    """Blocks of code, and what sentences say of them."""

    def check_c(self, block: str) -> None:
        """A compiler accepts the block in a function, without a warning."""
        with tempfile.TemporaryDirectory() as folder:
            source = Path(folder) / "block.c"
            source.write_text(BENCH.format(block), encoding="utf-8")
            words = ["-std=c99", "-Wall", "-Wextra", "-Werror", "-fsyntax-only"]
            words += ["-Wno-unused-but-set-variable", "-I", str(TOP / "bindings" / "c")]
            ran = subprocess.run(["cc", *words, str(source)], capture_output=True, text=True)
        self.assertEqual((ran.returncode, ran.stderr), (0, ""), block)

    def test_first_benches(self) -> None:
        """README.md has lines of the one in docs/c-library.md, which bindings/tests/run.py runs.
        A compiler accepts that in hmc.h."""
        quoted = pages.block_after(text_of("README.md"), "in a chain of two cubes:\n")
        whole, _, printed = pages.blocks(pages.section(text_of("docs/c-library.md"), BENCH_OF_C))
        self.assertIn("".join(f"    {it}\n" for it in quoted.splitlines()), whole)
        for line in printed.splitlines():
            self.assertIn(f"    {line}\n", text_of("README.md"))
        in_header = re.findall(r"^ \*     (.*?;)(?: .*)?$", HEADER, re.MULTILINE)
        self.assertGreater(len(in_header), 8)
        self.check_c("\n".join(in_header))

    def test_masks(self) -> None:
        page = text_of("docs/co-simulation.md")
        self.check_c(ENTRY + pages.block_after(page, "first flit of a further request:\n"))

    def test_other_languages(self) -> None:
        """What no bench runs of three pages: it is Python, and what it names is there."""
        blocks = pages.blocks(text_of("docs/python.md"))
        (cocotb,) = [it for it in blocks if it.startswith("import cocotb")]
        compile(cocotb, "docs/python.md", "exec")
        named = re.findall(r"\bhmc\.(\w+)\(", cocotb)
        self.assertEqual(named, ["Driver"])
        self.assertIn("Driver", text_of("bindings/python/hmc/__init__.py"))
        (cargo,) = [it for it in pages.blocks(text_of("docs/rust.md")) if "[dependencies]" in it]
        row = r'^(\w+) = \{ package = "(\w+)", path = "\.\./(.*)" \}$'
        ((library, package, path),) = re.findall(row, cargo, re.MULTILINE)
        manifest = text_of(f"{path}/Cargo.toml")
        self.assertIn(f'[package]\nname = "{package}"\n', manifest)
        self.assertIn(f'[lib]\nname = "{library}"\n', manifest)
        mask = pages.blocks(text_of("docs/verilator.md"))[-1]
        calls = set(re.findall(r"\bhmc_\w+(?=\()", mask))
        self.assertEqual(calls, {"hmc_sv_step", "hmc_sv_line"})
        for call in calls:
            self.assertRegex(text_of("bindings/verilator/hmc_pkg.sv"), rf"\b{call}\(")

    def test_the_link(self) -> None:
        """The block of docs/link.md is code of the program whose lines it shows."""
        code = pages.block_after(text_of("docs/link.md"), "where the landing passed.\n")
        indented = "".join(f"    {it}\n" for it in code.splitlines())
        self.assertIn(indented, text_of("bench/link-example"))

    def test_a_trace(self) -> None:
        """The first block of docs/trace.md is the trace of its examples."""
        block = pages.blocks(text_of("docs/trace.md"))[0]
        self.assertEqual(block, text_of("traces/load-and-store.trace"))

    def test_a_packet_that_goes_on(self) -> None:
        """The schedule of docs/through.md is in its case, which first trains so often."""
        page = text_of("docs/through.md")
        block = pages.block_after(page, "Then a write of two flits goes\nto cube 1:\n")
        text = (EXAMPLES / "through-two-cubes.toml").read_text(encoding="utf-8")
        before, found, _ = text.partition(f"\n{block}")
        self.assertTrue(found)
        said = "in each direction there are ([0-9]+) sends and ([0-9]+) landings"
        ((sends, landings),) = re.findall(said, flat(page))
        steps = before.splitlines()
        for way in range(4):
            self.assertEqual(steps.count(f"send {way}"), int(sends))
            self.assertEqual(steps.count(f"land {way}"), int(landings))

    def test_steps_of_a_retry(self) -> None:
        """The steps that docs/retry-example.md quotes are in its cases."""
        page = text_of("docs/retry-example.md")
        said = r"examples/([a-z-]+)\.report`[^`]*has the step\s+`([^`]+)`"
        steps = re.findall(said, page)
        self.assertEqual(len(steps), 2)
        for name, step in steps:
            self.assertIn(f"\n{step}\n", (EXAMPLES / f"{name}.toml").read_text(encoding="utf-8"))


if __name__ == "__main__":
    unittest.main()
