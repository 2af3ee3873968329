"""Tests that tables and lists of pages which state fields, sizes and codes have those of the
sources, where no other test compares them."""

import re
import unittest
from collections.abc import Iterator

from tool import case, convert, packets
from tool.commands import BY_WORD
from tool.tests import pages
from tool.tests.pages import flat, quoted, text_of
from tool.quantities import value_of
from tool.style import FUNCTION_LINES
from tool.tests.shared import EXAMPLES, TOP, tool

PACKETS = text_of("docs/packets.md")
COMMANDS = text_of("docs/commands.md")
OPERATIONS = text_of("crates/hmc_atomics/specs/Operations.antt")


class Packets(unittest.TestCase):
    """docs/packets.md."""

    def test_what_must_be_zero(self) -> None:
        rows = {row[0].lower(): row[1] for row in pages.rows(PACKETS, "Packet")}
        self.assertEqual(rows.pop("null"), f"all {packets.FLIT_BYTES} bytes")
        for name, wanted in packets.ZERO_FIELDS.items():
            self.assertEqual(rows.pop(name).split("; ")[0], ", ".join(wanted))
        self.assertEqual(rows, {})


class Commands(unittest.TestCase):
    """docs/commands.md and docs/grammar-case.md."""

    def test_the_bytes_of_atomic_commands(self) -> None:
        """Those that act on a half are named by their operation."""
        operations = dict(re.findall(r"commands\.(\w+) = Some atomics\.(\w+)", OPERATIONS))
        halves = set(re.findall(r"by_halves atomics\.(\w+) = true", OPERATIONS))
        variants = {name.lower().replace("two", "2"): it for name, it in operations.items()}
        found: dict[str, int] = {}
        for names, size, *_ in pages.rows(COMMANDS, "Command | Bytes"):
            found |= {word: int(size) for word in quoted(names)}
        wanted = {word: 8 if it in halves else 16 for word, it in variants.items()}
        self.assertEqual(found, wanted)

    def test_the_payloads_of_the_grammar(self) -> None:
        """The words with a size in bytes are those of commands with such a payload."""
        grammar = text_of("docs/grammar-case.md")
        sized = [row for row in pages.rows(grammar, "WRITE") if row[1].isdigit()]
        self.assertGreater(len(sized), 3)
        for names, size in sized:
            for word in quoted(names):
                lengths = BY_WORD[word].lengths
                self.assertEqual(lengths, (1 + int(size) // packets.FLIT_BYTES,), word)
        reads = pages.rows(grammar, "READ, without payload")
        self.assertEqual([row[1] for row in reads if re.search("[0-9]", row[1])], [])

    def test_the_errors(self) -> None:
        """They are numbered from 1, and each is there."""
        errors = [int(row[0]) for row in pages.rows(COMMANDS, "Error")]
        self.assertEqual(errors, list(range(1, value_of("last_error") + 1)))


BEGIN = re.compile(r'( *)(?:pub(?:\(crate\))? )?(?:extern "C" )?fn (\w+)')


def functions() -> Iterator[tuple[str, list[str]]]:
    """Yields each function of the code with the lines of its body."""
    for path in sorted(TOP.glob("crates/*/src/**/*.rt")):
        name, indent = "", ""
        body: list[str] | None = None
        for line in path.read_text(encoding="utf-8").splitlines():
            begin = BEGIN.match(line)
            if begin and body is None:
                indent, name = begin[1], f"{path.relative_to(TOP)}: {begin[2]}"
            if body is not None and line == f"{indent}}}":
                yield name, body
                body, name = None, ""
            elif body is not None:
                body.append(line)
            elif name and (line == f"{indent}{{" or begin and line.endswith("{")):
                body = []


class Functions(unittest.TestCase):
    """The sizes of functions that docs/DECISIONS.md and CONTRIBUTING.md state."""

    def test_the_lines_of_functions(self) -> None:
        """Only those that are one `match`, a table of rows, may have more."""
        bodies = list(functions())
        self.assertGreater(len(bodies), 2000)
        longer = {name: body for name, body in bodies if len(body) > FUNCTION_LINES}
        self.assertEqual([it for it, body in longer.items() if "match " not in body[0]], [])


class Others(unittest.TestCase):
    """Other pages."""

    def test_the_statuses(self) -> None:
        """docs/report.md has each status of the program."""
        statuses = [int(row[0]) for row in pages.rows(text_of("docs/report.md"), "Status")]
        self.assertEqual(statuses, list(range(value_of("last_status") + 1)))

    def test_the_shipped_units(self) -> None:
        """docs/units.md has the slots in order, each with the cube and the number of its unit."""
        rows = pages.rows(text_of("docs/units.md"), "Slot")
        units = [f"cube {cube}, `unit{code}`" for cube, code in convert.UNITS]
        self.assertEqual([[row[0], row[2]] for row in rows], [[*it] for it in zip("01", units)])

    def test_the_other_keys_of_the_grammar(self) -> None:
        """The sizes of blocks and the profiles; test_quoted_tables has the ranges."""
        rows = {row[0]: row[1] for row in pages.rows(text_of("docs/grammar-case.md"), "Table")}
        first, last = case.PROFILES
        self.assertIn(f"`profile` = {first} or {last}, `script`", rows["top"])
        blocks = ", ".join(map(str, case.BLOCKS[:-1]))
        cube = f"with `profile = 2` also `block` = {blocks} or {case.BLOCKS[-1]}"
        self.assertTrue(rows["each of `[[cubes]]`"].endswith(cube))
        least, most = case.RETRY_OF_TWO
        link = f"`profile` = {first} or {last}, and `retry` {least}..{most} where it is {last}"
        self.assertTrue(rows["each of `[[links]]`"].endswith(f"with `profile = 2` also {link}"))

    def test_the_round_of_a_change(self) -> None:
        """The program of docs/link.md changes a flit in the round whose landing is aborted."""
        said = f"if round == {value_of('landed.aborted_bad')} {{"
        self.assertIn(said, text_of("docs/link.md"))

    def test_the_status_of_a_difference(self) -> None:
        """`diff` ends with that of the table, and the sentences have it."""
        one, other = (str(EXAMPLES / f"{it}.report") for it in ("write-then-read", "fence"))
        same, differ = (tool("diff", one, it).returncode for it in (one, other))
        page = text_of("docs/tool.md")
        ((status, _),) = [it for it in pages.rows(page, "Status") if "`diff`" in it[1]]
        self.assertEqual((same, differ), (0, int(status)))

    def test_ranges_of_words(self) -> None:
        """Ranges of words, as `h0` to `h7`, are those of what they name."""
        short = str(value_of("longest_short"))
        ends = {
            "h": ("0", str(case.HOSTS - 1)),
            "c": ("0.0", f"{case.CUBES[1] - 1}.{len(case.EVERY_PORT) - 1}"),
            "unit": ("0", str(value_of("last_code"))),
            **{word: ("16", short) for word in ("rd", "wr", "pwr")},
        }
        pattern = re.compile(r"`([a-z]+)([0-9][0-9.]*)`,? (?:to|\.\.) `\1([0-9][0-9.]*)`")
        count = 0
        for path in (*TOP.glob("*.md"), *TOP.glob("docs/*.md"), *TOP.glob("crates/*/CALLING.md")):
            for word, *found in pattern.findall(flat(path.read_text(encoding="utf-8"))):
                with self.subTest(page=path.name, word=word):
                    self.assertEqual(tuple(found), ends[word])
                count += 1
        self.assertGreater(count, 10)

    def test_versions_of_python(self) -> None:
        """Those of the script and of the bindings are those that these ask for."""
        (script,) = re.findall(r"version_info < \((\d+), (\d+)\)", text_of("zehimbado"))
        wanted = f"Python {'.'.join(script)}"
        for page in ("README.md", "CONTRIBUTING.md", "docs/tool.md", "docs/co-simulation.md"):
            self.assertEqual(set(re.findall(r"Python\s[0-9.]+\b", text_of(page))), {wanted}, page)
        (bindings,) = re.findall('python = ">=(.*)"', text_of("bindings/python/pyproject.toml"))
        self.assertIn(f"Python {bindings} or later", flat(text_of("docs/python.md")))

    def test_the_counts_of_the_plain_model(self) -> None:
        """The table of docs/speed.md has those of the file in which they are kept."""
        kept = text_of("bench/measured/plain-model.txt").splitlines()
        counts = dict(it.split(": ") for it in kept if not it.startswith("#"))
        rows = pages.rows(text_of("docs/speed.md"), "Workload")
        self.assertEqual({row[0]: row[2] for row in rows}, counts)

    def test_what_is_said_of_the_ratios(self) -> None:
        """docs/speed.md says that no row is above 1.00 exactly where none is."""
        page = text_of("docs/speed.md")
        ratios = [float(row[3]) for row in pages.rows(page, "Workload")]
        self.assertEqual(max(ratios) <= 1, "No row is above 1.00: in none" in flat(page))


if __name__ == "__main__":
    unittest.main()
