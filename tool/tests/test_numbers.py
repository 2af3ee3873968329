"""Tests that the numbers of the documents are those of these sources.

Each number of a page is one that `tool.stated` puts there, or that of a row of tool/phrases.txt, or
one of which such a row says why no script makes it; or it names one of several things, as `port 3`.
"""

import re
import unittest

from tool import stated
from tool.phrases import EVERY, PAGES, Row, put_right, rows
from tool.quantities import value_of
from tool.tests import pages, phrases

# Why no script makes the numbers of a row, in brackets; nothing, where one does.
BY = re.compile(r"|\([a-z].*\)")


def another(shown: str) -> str:
    """Another number, in digits or in letters as this one."""
    if shown.startswith("0x"):
        return "0xABCDEF01"
    if shown[0].isdigit():
        return "4" if shown == "3" else "3"
    return "four" if shown.lower() == "three" else "three"


def plain(text: str) -> str:
    """A text whose numbers have no commas and no zeros before them, and no capitals."""
    return re.sub(r"\b0+(?=[0-9])", "", re.sub(r"(?<=[0-9]),(?=[0-9]{3})", "", text)).lower()


class Numbers(unittest.TestCase):
    def test_each_number_is_known(self) -> None:
        said = "a row of tool/phrases.txt has to say where these numbers come from"
        for page in PAGES:
            with self.subTest(page=page):
                self.assertEqual(list(phrases.unknown(page)), [], said)

    def test_each_number_is_the_quantity_of_its_row(self) -> None:
        for row in rows():
            if not row.by and row.page != EVERY:
                with self.subTest(page=row.page, words=row.words):
                    self.assertEqual(list(phrases.wrong(phrases.text_of(row.page), row)), [])

    def test_names_have_their_limits(self) -> None:
        """No page names a host, a port or a status that isn't there."""
        for page in PAGES:
            with self.subTest(page=page):
                self.assertEqual(list(phrases.beyond(phrases.text_of(page))), [])

    def test_lists_count_on(self) -> None:
        """The numbers of a list begin at 1, and each is one more than the one before it."""
        for page in PAGES:
            last: dict[str, int] = {}
            text = phrases.blanked(phrases.text_of(page), phrases.APART)
            for indent, number in re.findall(r"^( *)([0-9]+)\. ", text, re.MULTILINE):
                with self.subTest(page=page, number=number):
                    self.assertIn(int(number), (1, last.get(indent, 0) + 1))
                last[indent] = int(number)

    def test_each_row_is_of_use(self) -> None:
        """Its words are in its page, or in one of all."""
        texts = {page: phrases.text_of(page) for page in PAGES}
        for row in rows():
            where = PAGES if row.page == EVERY else [row.page]
            with self.subTest(page=row.page, words=row.words):
                found = [it for page in where for it in phrases.spans(texts[page], row)]
                self.assertGreater(max(found)[1], 0)

    def test_each_row_has_quantities_or_a_reason(self) -> None:
        for row in rows():
            with self.subTest(page=row.page, words=row.words):
                self.assertRegex(row.by, f"^(?:{BY.pattern})$")
                self.assertEqual("*" in row.quantities, bool(row.by))

    def test_a_number_that_differs_is_found(self) -> None:
        """In digits, in letters, as an ordinal, and where a line ends within the words."""
        row = Row("a page", "", "sends {hmc_irtry/burst.BURST} Starts")
        for number, count in (("32", 0), ("33\n", 1), ("ten", 1)):
            found = list(phrases.wrong(f"sends {number} Starts", row))
            self.assertEqual(len(found), count, number)
        ordinal = Row("a page", "", "the {hmc_irtry/runs.RUN}th Start")
        self.assertEqual(len(list(phrases.wrong("the 25th Start", ordinal))), 1)
        self.assertEqual(list(phrases.beyond("port 3, hosts 0 and 7")), [])
        self.assertEqual(list(phrases.beyond("ports 0 to 4")), ["ports 0 to 4"])

    def test_a_number_that_differs_is_put_right(self) -> None:
        """And only that number of the words."""
        row = stated.Number("has {} lines", lambda: "1,148")
        self.assertEqual(stated.put("It has 7\nlines, 7.", row), "It has 1,148\nlines, 7.")
        with self.assertRaises(AssertionError):
            stated.put("It has no lines.", row)

    def test_each_number_comes_back(self) -> None:
        """A page in which one number of a row is another is put right, for each of them."""
        count = 0
        for page in PAGES:
            text = pages.text_of(page)
            for put, places in phrases.written_in(page, text):
                for start, end in places:
                    changed = text[:start] + another(text[start:end]) + text[end:]
                    with self.subTest(page=page, at=text[start - 30 : end + 20]):
                        self.assertEqual(plain(put(changed)), plain(text))
                    count += 1
        self.assertGreater(count, 900)

    def test_a_quantity_is_put_into_its_row(self) -> None:
        """In digits or in letters, as the page has it; and of every page only the row's number."""
        row = Row("a page", "", "sends {hmc_irtry/burst.BURST} Starts")
        for text, wanted in (("sends 7\nStarts", "sends 32\nStarts"), ("7 Starts", "7 Starts")):
            self.assertEqual(put_right(row, text), wanted)
        letters = Row("a page", "", "{least_cubes} of {hmc_schedule/meaning.SLOTS} units")
        self.assertEqual(put_right(letters, "Two of seven units"), "One of eight units")
        every = Row(EVERY, "", "{7: hmc_schedule/meaning.SLOTS} units")
        self.assertEqual(put_right(every, "6 units, 7 units"), "6 units, 8 units")

    def test_rows_of_every_page_have_their_numbers(self) -> None:
        for row in rows():
            with self.subTest(words=row.words):
                wanted = [value_of(it) for it in row.quantities] if row.page == EVERY else []
                self.assertEqual(row.last, wanted)


if __name__ == "__main__":
    unittest.main()
