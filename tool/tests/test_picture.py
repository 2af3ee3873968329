"""Tests of the picture of `view`, which tool/picture.py makes by Chromium."""

import unittest
from pathlib import Path

from tool import picture

# The first bytes of a picture, and where its width and height are.
PNG, SIZES = b"\x89PNG\r\n\x1a\n", slice(16, 24)


def size_of(path: Path) -> str:
    """The width and the height of a picture."""
    data = path.read_bytes()
    assert data.startswith(PNG)
    numbers = data[SIZES]
    return ",".join(str(int.from_bytes(it, "big")) for it in (numbers[:4], numbers[4:]))


class Picture(unittest.TestCase):
    def test_the_picture_of_the_page(self) -> None:
        """It has the size that the script makes."""
        self.assertEqual(size_of(picture.PICTURE), picture.SIZE)
        self.assertIn("(view.png)", (picture.TOP / "docs" / "tool.md").read_text("utf-8"))


if __name__ == "__main__":
    unittest.main()
