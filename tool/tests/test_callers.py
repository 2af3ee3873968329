"""Tests of the pages CALLING.md: what they quote is what the gate compiles and proves."""

import re
import unittest

from tool.tests.shared import TOP

CALLERS = TOP / "crates" / "hmc_callers"
# The crates that have a page, each with the file of its caller.
PAGES = {
    "hmc_crc": "crc",
    "hmc_packet": "packet",
    "hmc_serial": "serial",
    "hmc_case": "case",
    "hmc_report": "report",
    "hmc_link": "link",
    "hmc_net": "net",
    "hmc_session": "session",
}
MOST_COLUMNS = 100


def page_of(crate: str) -> str:
    """The page of a crate."""
    return (TOP / "crates" / crate / "CALLING.md").read_text(encoding="utf-8")


def blocks(page: str, language: str) -> list[str]:
    """The blocks of code of a page that are in this language."""
    return re.findall(rf"^```{language}\n(.*?)^```$", page, re.MULTILINE | re.DOTALL)


def squeezed(text: str) -> str:
    """The text without comments, and with one space for each run of spaces and line ends."""
    return " ".join(re.sub(r"^\s*//.*$", "", text, flags=re.MULTILINE).split())


def functions(contracts: str) -> list[str]:
    """Each function of a block of contracts, with its clauses, squeezed."""
    text = re.sub(r"^impl.* \{$|^\}$", "", contracts, flags=re.MULTILINE)
    parts = re.split(r"^(?=\s*pub fn )", text, flags=re.MULTILINE)
    return [squeezed(part) for part in parts if part.strip()]


class Callers(unittest.TestCase):
    def test_the_caller_is_the_file(self) -> None:
        for crate, name in PAGES.items():
            source = (CALLERS / "src" / f"{name}.rt").read_text(encoding="utf-8")
            self.assertEqual(blocks(page_of(crate), "rust"), [source], crate)

    def test_the_unit_is_the_file(self) -> None:
        page = (TOP / "docs" / "units.md").read_text(encoding="utf-8")
        source = (CALLERS / "src" / "units.rt").read_text(encoding="utf-8")
        self.assertEqual(blocks(page, "rust"), [source])

    def test_the_contracts_are_those_of_the_crate(self) -> None:
        """Each stands in a file of the crate, whole: the body follows the last clause."""
        for crate in PAGES:
            files = (TOP / "crates" / crate / "src").glob("*.rt")
            sources = [squeezed(path.read_text(encoding="utf-8")) for path in files]
            (contracts,) = blocks(page_of(crate), "text")
            self.assertTrue(functions(contracts), crate)
            for function in functions(contracts):
                count = sum(source.count(f"{function} {{") for source in sources)
                self.assertEqual(count, 1, f"{crate}: {function}")

    def test_lines_are_short(self) -> None:
        for crate in PAGES:
            for line in page_of(crate).splitlines():
                self.assertLessEqual(len(line), MOST_COLUMNS, line)


if __name__ == "__main__":
    unittest.main()
