"""Tests that tables and sentences of pages which state keys, limits, words and codes have those by
which the script reads, and those of the header for C."""

import re
import signal
import unittest

from tool import case, commands, schedule, texts, traces, trouble
from tool.commands import BY_WORD
from tool.tests import pages
from tool.tests.pages import flat, quoted, text_of

HEADER = text_of("bindings/c/hmc.h")
LIMITS = "crates/hmc_codes/src/limits.rt"
# Words of a table that follow one another by so much.
GROW = {"wr": 16, "pwr": 16, "rd": 16, "unit": 1}


def limits() -> dict[str, tuple[int, int]]:
    """The rows of the limits of docs/case.md, by what the script reads by."""
    cube, link = case.CUBE_RANGES, case.LINK_RANGES
    return {
        "`profile`": case.PROFILES,
        "cubes": case.CUBES,
        "links": case.LINKS,
        "hosts, which are numbered from 0": (1, case.HOSTS),
        "ports of a cube, which are numbered from 0": (texts.PORTS, texts.PORTS),
        "`vault_bits`": cube["vault_bits"],
        "`bank_bits`": cube["bank_bits"],
        "`rows`": cube["rows"],
        "bytes of all cubes together": (0, texts.MOST_BYTES),
        "`block`: 32, 64, 128 or 256": (case.BLOCKS[0], case.BLOCKS[-1]),
        "`queue`, `output`": cube["queue"],
        "`line`": link["line"],
        "`tokens`": link["tokens"],
        "`retry` of a link of profile One": link["retry"],
        "`retry` of a link of profile Two": case.RETRY_OF_TWO,
        "requests of a script; fences are not counted": (0, texts.MOST_REQUESTS),
        "steps of a schedule, each step of a round counted": (0, texts.MOST_STEPS),
        "rounds of one line of a schedule": (1, texts.MOST_ROUNDS),
        "slots of logic units, which are numbered from 0": (texts.SLOTS, texts.SLOTS),
        "bytes of an input": (0, texts.INPUT_BYTES),
    }


class Cases(unittest.TestCase):
    """docs/case.md and docs/grammar-case.md."""

    TEXT = text_of("docs/case.md")
    GRAMMAR = text_of("docs/grammar-case.md")

    def test_the_limits(self) -> None:
        """Each row."""
        rows = {}
        for name, *ends in pages.rows(self.TEXT, "Number"):
            digits = [re.sub(r"(?<=\d),(?=\d)", "", it).split(", ")[0] for it in ends]
            rows[name] = tuple(int(it or 0) for it in digits)
        (tags,) = map(int, re.findall(r"TAGS: u16 = ([0-9]+);", text_of(LIMITS)))
        self.assertEqual(rows.pop("tags of a host"), (tags, tags))
        self.assertEqual(case.CUBE_RANGES["queue"], case.LINK_RANGES["output"])
        self.assertEqual(list(rows.items()), list(limits().items()))

    def test_the_keys(self) -> None:
        """Those of each of the three tables, in the order in which faults are looked for."""
        top = [key for row in pages.rows(self.TEXT, "Key") for key in quoted(row[0])]
        self.assertEqual(top, list(case.TOP_KEYS))
        cube = [key for row in pages.rows(self.TEXT, "Key of a cube") for key in quoted(row[0])]
        self.assertEqual(cube, [*case.CUBE_RANGES, "block", "profile = 2"])
        link = [key for row in pages.rows(self.TEXT, "Key of a link") for key in quoted(row[0])]
        self.assertEqual(link, ["a", "b", *case.LINK_RANGES, "profile", "profile = 2"])

    def test_the_ranges_of_the_grammar(self) -> None:
        rows = {row[0]: row[1] for row in pages.rows(self.GRAMMAR, "Table")}
        range_of = re.compile(r"`(\w+)` ([0-9]+)\.\.([0-9]+)")
        ranges = {name: range_of.findall(it) for name, it in rows.items()}
        cube = [(key, str(least), str(most)) for key, (least, most) in case.CUBE_RANGES.items()]
        self.assertEqual(ranges["each of `[[cubes]]`"], cube)
        link = [(key, str(least), str(most)) for key, (least, most) in case.LINK_RANGES.items()]
        of_two = ("retry", *map(str, case.RETRY_OF_TWO))
        self.assertEqual(ranges["each of `[[links]]`"], [*link, of_two])

    def test_the_words_of_the_grammar(self) -> None:
        """The steps of a schedule, and the words of requests."""
        block = pages.blocks(pages.section(self.GRAMMAR, "A line of the schedule"))[0]
        self.assertEqual(set(re.findall(r"'(\w+)'", block)), {*schedule.STEPS, "r", "off"})
        words = [*quoted(self.first_cells("READ, without payload"))]
        cells = self.first_cells("WRITE")
        self.assertIn("`wr16` .. `wr128` in steps of 16", cells)
        for item in quoted(cells.replace("` .. `", " .. ")):
            words += expanded(item)
        posted = [f"p{it}" for it in words if it.startswith("wr")]
        self.assertIn("the same with `p` in front, posted", self.GRAMMAR)
        words = [it for it in words if it != "p"] + posted + ["mdrd", "mdwr"]
        requests = [it.word for it in BY_WORD.values() if it.family == commands.REQUEST]
        self.assertEqual(sorted(words), sorted(requests))

    def test_the_lines_of_the_grammar(self) -> None:
        """Each step has the operands by which the script reads it, and numbers their limits."""
        instead = {"place": "(vault | 'r')", "landings": "landings mask"}
        wanted = {
            f"'{word}' {' '.join(instead.get(it, it) for it in operands)}"
            for word, operands in schedule.STEPS.items()
        }
        block = flat(pages.blocks(pages.section(self.GRAMMAR, "A line of the schedule"))[0])
        lines, _, meanings = block.removeprefix("line = ").partition(" direction 2i")
        found = set(re.split(r" \| (?='[a-z]{3})", lines))
        wanted = (wanted - {"'land' direction"}) | {"'land' direction [mask]", "'noise' 'off'"}
        self.assertEqual(found, wanted)
        for said in (
            f"slot 0..{texts.SLOTS - 1} ",
            f"rounds 1..{texts.MOST_ROUNDS:,}; a schedule has at most {texts.MOST_STEPS:,} steps",
            f"landings 1..{texts.MOST_ROUNDS:,}",
        ):
            self.assertIn(said, meanings)

    def test_the_forms_of_the_grammar(self) -> None:
        """Requests have the words of docs/script.md; ends and numbers have what is read."""
        requests = flat(pages.blocks(pages.section(self.GRAMMAR, "A line of the script"))[0])
        for row in pages.rows(text_of("docs/script.md"), "Line")[2:4]:
            word, *operands = quoted(row[0])[0].removeprefix("HOST ").split()
            self.assertIn(" ".join([f"| '{word}'", *operands]).lower(), requests)
        self.assertIn("= READ cube address | WRITE cube address bytes |", requests)
        self.assertIn("line = host 'fence' | host ['poison'] request request =", requests)
        hosts, cubes, ports = case.HOSTS - 1, case.CUBES[1] - 1, texts.PORTS - 1
        ends = pages.blocks(self.GRAMMAR)[0]
        self.assertEqual(flat(ends), f"end = 'h' 0..{hosts} | 'c' 0..{cubes} '.' 0..{ports}")
        (digits,) = set(re.findall(r"\{1,([0-9]+)\}", texts.NUMBER.pattern))
        words = flat(pages.blocks(self.GRAMMAR)[1])
        number = f"1 to {digits} decimal digits | '0x' and 1 to {digits} hexadecimal digits"
        self.assertIn(f"number = {number}, in either case", words)
        self.assertIn("bytes = two hexadecimal digits for each byte, in either case", words)
        self.assertIn("mask = 32 hexadecimal digits", words)

    def first_cells(self, head: str) -> str:
        """The first column of a table of the grammar."""
        return " ".join(row[0] for row in pages.rows(self.GRAMMAR, head))

    def test_other_pages(self) -> None:
        """The steps of docs/status.md and docs/schedule.md, and the limits of docs/trace.md."""
        rows = {row[0]: row[1] for row in pages.rows(text_of("docs/status.md"), "Part")}
        self.assertEqual(set(rows["Lines of a schedule"].split(", ")), set(schedule.STEPS))
        lines = [row[0] for row in pages.rows(text_of("docs/schedule.md"), "Line")]
        self.assertEqual({quoted(it)[0].split()[0] for it in lines}, set(schedule.STEPS))
        vault, bank = (case.CUBE_RANGES[it][1] for it in ("vault_bits", "bank_bits"))
        least, most = case.CUBE_RANGES["rows"]
        said = (
            f"VAULT_BITS is at most {vault}, BANK_BITS at most {bank}, ROWS {least} to {most:,}, "
            f"and all cubes together have at most {texts.MOST_BYTES:,} bytes. "
            f"Then come loads and stores of 1 to {traces.MOST_LENGTH:,} bytes."
        )
        self.assertIn(said, flat(text_of("docs/trace.md")))


def expanded(item: str) -> list[str]:
    """The words that a table has as `FIRST .. LAST`, or one."""
    found = re.fullmatch(r"([a-z]+)([0-9]+) \.\. \1([0-9]+)", item)
    if not found:
        return [item]
    stem, first, last = found.groups()
    return [f"{stem}{it}" for it in range(int(first), int(last) + 1, GROW[stem])]


def codes_of(cell: str) -> list[int]:
    """The codes, or the lengths, of a cell: a list, or a range."""
    first, _, last = cell.partition(" .. ")
    return list(range(int(first), int(last) + 1)) if last else [int(it) for it in cell.split(", ")]


def lengths_of(cell: str, place: int) -> tuple[int, ...]:
    """The lengths of the word at this place of a row: one, unless the last is named apart."""
    known = codes_of(cell.replace(" or 17", ""))
    if cell.endswith(" or 17"):
        return (*known, 17)
    return (known[place] if len(known) > 1 else known[0],)


class Commands(unittest.TestCase):
    """The codes of docs/packets.md and docs/co-simulation.md."""

    def test_the_table(self) -> None:
        found = {}
        for names, code, flits, reply in pages.rows(text_of("docs/packets.md"), "Word"):
            shown = re.sub(r"(\w+), (?:\w+, )?\.\. (\w+)(, in steps of 16)?", r"\1 .. \2", names)
            words = [it for part in shown.split(", ") for it in expanded(part)]
            codes = [it for part in code.split(", ") for it in codes_of(part)]
            replied = reply.split(" of ")[0].removeprefix("none: posted")
            for at, (word, number) in enumerate(zip(words, codes, strict=True)):
                length = lengths_of(flits, at)
                found[word] = commands.Command(word, number, BY_WORD[word].family, length, replied)
        self.assertEqual(found, BY_WORD)


class Header(unittest.TestCase):
    """The numbers that pages state of hmc.h."""

    def names(self, title: str) -> dict[str, int]:
        """The names and numbers of the enumeration under a comment."""
        text = HEADER[HEADER.index(f"/* {title}") :].split("};")[0]
        return {name: int(it) for name, it in re.findall(r"\bHMC_(\w+) = ([0-9]+)", text)}

    def test_the_statuses(self) -> None:
        """The rows of docs/co-simulation.md are all statuses, each with its name."""
        known = self.names("Statuses.")
        rows = pages.rows(text_of("docs/co-simulation.md"), "Status")
        numbers = []
        for cell, _ in rows:
            first, _, last = cell.partition(" to ")
            number, *name = first.split()
            numbers += list(range(int(number), int(last or number) + 1))
            if name:
                self.assertEqual(known[name[0][1:-1].removeprefix("HMC_")], int(number))
        self.assertEqual(numbers, sorted(known.values()))

    def test_what_an_entry_has(self) -> None:
        """The answers of docs/verilator.md, and the flits and outcomes of docs/co-simulation.md."""
        header = re.sub(r"\s+(?:\* )?", " ", HEADER)
        answers = "1 done, 2 bytes, 3 a register's value, 4 stored, 5 an error"
        self.assertTrue(f"/* 0 none, {answers} */" in header)
        self.assertIn(answers, flat(text_of("docs/verilator.md")))
        page = text_of("docs/co-simulation.md")
        self.assertIn("/* entry.what: 7 and 8 are flits of packets */", page)
        self.assertTrue("7 new, 8 again */" in header)
        self.assertIn("has an `outcome` of 7 to 11, and the link retries", flat(page))
        aborted = "7 to 10 aborted for length, command, reserved, crc, 11 aborted for order"
        self.assertTrue(aborted in header)


class Statuses(unittest.TestCase):
    """The statuses of the script, in docs/tool.md."""

    def test_the_table(self) -> None:
        """It has those that the script ends with, beside 0 and 1."""
        rows = pages.rows(text_of("docs/tool.md"), "Status")
        found = sorted(int(it) for row in rows for it in row[0].split(", "))
        known = {it for it in vars(trouble).values() if isinstance(it, int)}
        known -= {trouble.SIGNALLED, trouble.MOST_QUOTED}
        signals = {trouble.SIGNALLED + it for it in (signal.SIGHUP, signal.SIGTERM)}
        self.assertEqual(found, sorted({0, 1, *known, *signals}))


if __name__ == "__main__":
    unittest.main()
