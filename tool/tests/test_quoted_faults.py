"""Tests that the faults which pages quote are those that the program states, each for an input that
leads to it."""

import re
import unittest
from collections.abc import Callable, Iterator

from tool import case, explain_fault, texts
from tool.tests import pages
from tool.tests.pages import answer, quoted
from tool.tests.shared import EXAMPLES, bad_cases, require_program, text_rows

PAGE = "docs/case.md"
# The case of docs/case.md, of which its examples are changes.
BASE = pages.blocks(pages.text_of(PAGE))[0]
# Two hosts at two cubes, for which docs/script.md reads its examples.
TWO = (EXAMPLES / "two-hosts-two-cubes.toml").read_text(encoding="utf-8")
# The tables of a case, in the order in which it has them.
TOP_TABLE, CUBE, LINK = range(3)
VALUE = re.compile(r"(\w+) = (.+)")
# What joins the changes of a row.
JOINS = {"", "alone", "and", "beside", "the link with"}


def tables_of(text: str) -> list[str]:
    """The text of each table of a case: the top, the cube and the link."""
    return re.split(r"^(?=\[\[)", text, flags=re.MULTILINE)


def line_of(key: str) -> re.Pattern[str]:
    """The line of a key, or its lines."""
    return re.compile(rf"^{key} = (?:'''.*?'''|.*?)\n", re.MULTILINE | re.DOTALL)


def place_of(key: str, tables: list[str]) -> int:
    """The table that has a key, or has it with `profile = 2`; the top where none has it."""
    if key == "block":
        return CUBE
    return next((at for at, it in enumerate(tables) if line_of(key).search(it)), TOP_TABLE)


def with_value(tables: list[str], at: int, item: str) -> None:
    """Puts a line in place of that with the same key, or adds it to the table."""
    key = item.split(" = ")[0]
    table, count = line_of(key).subn(f"{item}\n", tables[at])
    if count == 0:
        head, rest = ("", table) if at == TOP_TABLE else table.split("\n", 1)
        table = f"{head}\n{item}\n{rest}"
    tables[at] = table


def without(tables: list[str], item: str) -> None:
    """Leaves out a line, or a table."""
    if item.startswith("[["):
        tables[:] = [it for it in tables if not it.startswith(item)]
    else:
        at = place_of(item, tables)
        tables[at] = line_of(item).sub("", tables[at])


def changed(cell: str) -> str:
    """The case of the page with the changes that a cell names."""
    tables = tables_of(BASE)
    of_all, _, of_link = cell.partition("the link with")
    for item in quoted(of_all):
        if VALUE.fullmatch(item):
            with_value(tables, place_of(item.split(" = ")[0], tables), item)
    for item in quoted(of_link):
        with_value(tables, LINK, item)
    for item in re.findall(r"\bno `([^`]+)`", cell):
        without(tables, item)
    left = re.sub(r"\bno `[^`]+`|beside `profile`|`[^`]+`|,", "/", cell).split("/")
    assert {it.strip().removeprefix("and ") for it in left} <= JOINS, cell
    return "".join(tables)


def with_script(script: str) -> str:
    """The case of the page with another script."""
    return pages.with_text(BASE, "script", script)


# The rows that no line of the case states by itself.
OTHERWISE: dict[str, Callable[[], str]] = {
    "the text ends after `0 rd16`": lambda: BASE[: BASE.index("0 rd16") + len("0 rd16")],
    "no bytes at all": lambda: "",
    "a second link from `h1` to `c0.0`": lambda: BASE
    + "\n"
    + tables_of(BASE)[LINK].replace('"h0"', '"h1"'),
    "a second cube, and no link to it": lambda: "".join(
        [*tables_of(BASE)[:LINK], *tables_of(BASE)[CUBE:]]
    ),
    "an empty line and `0 rd17 0 0` as script": lambda: with_script("\n0 rd17 0 0\n"),
    "`send 2` as schedule": lambda: pages.with_text(BASE, "schedule", "send 2\n"),
}


def kinds_of_the_page() -> dict[str, set[str]]:
    """The kinds that the list of docs/case.md names, by their section."""
    text = pages.section(pages.text_of(PAGE), "Faults").split("\nExamples ")[0]
    known = {kind for kinds in explain_fault.MEANINGS.values() for kind in kinds}
    kinds: dict[str, set[str]] = {}
    for item in re.split(r"^[0-9]\. ", text, flags=re.MULTILINE)[1:]:
        for name in re.findall(r"^Section `(\w+)`", item):
            words = quoted(item.removeprefix(f"Section `{name}`"))
            kinds.setdefault(name, set()).update(known & set(words))
        for name, _, kind in re.findall(r"`bad (\w+) ([0-9]+) (\w+)`", item):
            kinds.setdefault(name, set()).add(kind)
    return kinds


class Cases(unittest.TestCase):
    @classmethod
    def setUpClass(cls) -> None:
        require_program()

    def test_the_case_of_the_page(self) -> None:
        self.assertIsNone(case.read(BASE.encode())[1])
        self.assertEqual(pages.lines_of(BASE)[-1], "state drained")

    def test_each_example(self) -> None:
        """A row is a change of the case and its first fault, by the program and by the script."""
        rows = pages.rows(pages.text_of(PAGE), "Change")
        self.assertGreater(len(rows), 20)
        self.assertLessEqual(set(OTHERWISE), {change for change, _ in rows})
        for change, fault in rows:
            with self.subTest(change):
                text = OTHERWISE[change]() if change in OTHERWISE else changed(change)
                self.assertEqual(answer("run", text.encode()), (6, f"{fault[1:-1]}\n"))
                self.assertEqual(f"`{case.read(text.encode())[1]}`", fault)

    def test_each_kind(self) -> None:
        """The kinds of the list are those that the script explains, and the program states each."""
        named = kinds_of_the_page()
        for name in ("script", "schedule"):
            self.assertEqual(named.pop(name), set())
        for name in ("toml", "top", "cube", "net", "link"):
            self.assertEqual(named[name], set(explain_fault.MEANINGS[name]), name)
        rows = {tuple(fault.split()[1::2]): (text, fault) for _, text, fault in bad_cases()}
        for name, kinds in named.items():
            for kind in kinds - {"single"}:
                text, fault = rows[name, kind]
                self.assertEqual(answer("run", text.encode()), (6, f"{fault}\n"))

    def test_the_fault_of_bound(self) -> None:
        """A valid case of two links has it."""
        given = (EXAMPLES / "two-hosts-one-cube.toml").read_bytes()
        self.assertEqual((answer("run", given)[0], answer("bound", BASE.encode())[0]), (0, 0))
        status, said = answer("bound", given)
        self.assertEqual(status, 6)
        for page in (PAGE, "docs/drain.md", "docs/tool.md"):
            self.assertIn(f"`{said.strip()}`", pages.text_of(page))

    def test_forms_of_a_document(self) -> None:
        """A byte order mark is skipped, and two forms of TOML 1.1 are read."""
        text = pages.flat(pages.text_of(PAGE))
        self.assertIn("It skips one byte order mark at the beginning.", text)
        self.assertEqual(answer("run", b"\xef\xbb\xbf" + BASE.encode())[0], 0)
        self.assertIn(r"such as `\x68` in a string and a time without seconds", text)
        self.assertEqual(answer("run", BASE.replace('"h0"', r'"\x680"').encode())[0], 0)
        clock = tables_of(BASE)
        with_value(clock, TOP_TABLE, "profile = 07:32")
        self.assertEqual(answer("run", "".join(clock).encode()), (6, "bad top 0 kind\n"))


def examples_of(page: str) -> Iterator[tuple[str, str]]:
    """Yields each line that a page of texts quotes with its kind: those of its table, and those of
    the sentences after it."""
    text = pages.section(pages.text_of(page), "Faults")
    for kind, _, cell in pages.rows(text, "Kind"):
        yield from ((line, kind[1:-1]) for line in quoted(cell))
    after = pages.flat(text[text.rindex("\n|") :])
    yield from re.findall(r"`([^`]+)`(?: alone)? is `(\w+)`", after)


class Texts(unittest.TestCase):
    @classmethod
    def setUpClass(cls) -> None:
        require_program()

    def check_page(self, key: str, base: str, least: int) -> None:
        """Each line that the page quotes has its fault, and each kind has a row."""
        page = f"docs/{key}.md"
        count = 0
        for line, kind in examples_of(page):
            with self.subTest(line):
                text = pages.with_text(base, key, f"{line}\n")
                self.assertEqual(answer("run", text.encode()), (6, f"bad {key} 1 {kind}\n"))
                count += 1
        self.assertGreaterEqual(count, least)
        rows = pages.rows(pages.text_of(page), "Kind")
        self.assertEqual([row[0][1:-1] for row in rows], [*explain_fault.MEANINGS[key]])

    def test_scripts(self) -> None:
        self.check_page("script", TWO, 20)

    def test_schedules(self) -> None:
        self.check_page("schedule", BASE, 35)

    def test_a_number_of_so_many_digits(self) -> None:
        page = pages.text_of("docs/schedule.md")
        ((number, digits),) = re.findall(r"`give ([0-9]+)` \(([0-9]+) digits\)", page)
        self.assertEqual(len(number), int(digits))

    def test_too_many_requests(self) -> None:
        """The first request that is too many is at fault, and no fence is counted."""
        most = pages.with_text(BASE, "schedule", "")
        lines = "0 fence\n" + "0 rd16 0 0\n" * texts.MOST_REQUESTS
        self.assertEqual(answer("run", pages.with_text(most, "script", lines).encode())[0], 0)
        more = pages.with_text(most, "script", f"{lines}0 rd16 0 0\n")
        said = f"bad script {texts.MOST_REQUESTS + 2} toomany\n"
        self.assertEqual(answer("run", more.encode()), (6, said))

    def test_numbers_of_a_script(self) -> None:
        """The forms that docs/script.md quotes are read as their values."""
        page = pages.section(pages.text_of("docs/script.md"), "Lines, words and numbers")
        item = page[page.index("- A number is decimal") :].split("\n- ")[0]
        found = [it for it in quoted(item) if it not in ("0x", "x")]
        self.assertEqual(len(found), 4)
        for number in found:
            lines = pages.lines_of(with_script(f"0 rd16 0 {number}\n"))
            value = int(number, 16 if "x" in number else 10)
            self.assertEqual(lines[0], f"gave 0 0 rd16 0 {value:#x}")


class Traces(unittest.TestCase):
    @classmethod
    def setUpClass(cls) -> None:
        require_program()

    def test_each_kind(self) -> None:
        """The kinds of docs/trace.md, each with a trace that has it."""
        rows = pages.rows(pages.text_of("docs/trace.md"), "Kind")
        named = [row[0][1:-1] for row in rows]
        self.assertEqual(set(named), set(explain_fault.MEANINGS["trace"]) - {"text"})
        known = {it[1].split()[-1]: it for it in text_rows("trace-faults.txt")}
        for kind in set(named) - {"toomany"}:
            text, fault = known[kind]
            self.assertEqual(answer("trace", text.encode()), (6, f"bad trace {fault}\n"))
        text = "cube 0 0 4\n" + "0 load 0 1\n" * (texts.MOST_REQUESTS + 1)
        said = f"bad trace {texts.MOST_REQUESTS + 2} toomany\n"
        self.assertEqual(answer("trace", text.encode()), (6, said))

    def test_bytes_that_are_no_text(self) -> None:
        status, said = answer("trace", b"cube 0 0 4\n\xff\n")
        self.assertEqual(status, 6)
        page = pages.flat(pages.text_of("docs/trace.md"))
        self.assertIn(f"Bytes that are not UTF-8 are `{said.strip()}`.", page)


class Heads(unittest.TestCase):
    """The faults of an input of `check`."""

    def test_each_head(self) -> None:
        """Those of a head are the line that docs/check.md and docs/report.md have for them."""
        require_program()
        rows = pages.rows(pages.text_of("docs/check.md"), "Status")
        (head,) = [line for _, line, meaning in rows if "no such first line" in meaning]
        self.assertIn(head, pages.section(pages.text_of("docs/report.md"), "Exit status"))
        faults = text_rows("check-heads.txt")
        for text, fault in faults:
            self.assertEqual(answer("check", text.encode()), (6, f"{fault}\n"), text)
        self.assertEqual({it for _, it in faults if " check " in it}, {head[1:-1]})


if __name__ == "__main__":
    unittest.main()
