"""Tests that each block of code or output of the pages is in the table of what compares it."""

import unittest
from pathlib import Path

from tool.tests import pages
from tool.tests.shared import DATA, TOP

PAGES = ("*.md", "bindings/*.md", "crates/*/CALLING.md", "docs/*.md")
# What shows no output of a program, and is no code that is built.
ALONE = {"commands", "outline", "picture", "usage"}


def table() -> list[list[str]]:
    """The rows of the table: the page, what compares the block, and the block's first line."""
    _, _, rows = (DATA / "blocks.txt").read_text(encoding="utf-8").partition("\n\n")
    return [row.split(" ", 2) for row in rows.splitlines()]


class Blocks(unittest.TestCase):
    def test_each_block_has_a_row(self) -> None:
        """In the order of the pages. A new block needs a row, and a test that compares it."""
        paths = sorted(str(it.relative_to(TOP)) for part in PAGES for it in TOP.glob(part))
        found = [
            (path, block.splitlines()[0].strip())
            for path in paths
            for block in pages.blocks(pages.text_of(path))
        ]
        self.assertEqual(found, [(page, first) for page, _, first in table()])

    def test_what_compares_a_block_names_its_page(self) -> None:
        for page, by, first in table():
            if by not in ALONE:
                path = TOP / (by if "/" in by else f"tool/tests/{by}.py")
                self.assertIn(Path(page).name, path.read_text(encoding="utf-8"), first)


if __name__ == "__main__":
    unittest.main()
