"""Tests of what follows the definitions that a promise rests on."""

import re
import unittest

from tool import definitions, promises
from tool.definitions import count_of, lines_of, read, rests_on
from tool.tests import pages, phrases
from tool.tests.shared import TOP

DELIVERED = "crates/hmc_journal/specs/Delivered.antt"
SERIAL = "crates/hmc_journal/specs/Serial.antt"

# Words of the command line, of scripts, schedules and reports, and a clause that has its link.
OF_TEXTS = set("use run check trace make bound land bank registers Memory replayed".split())
OF_TEXTS |= set("gave landed executed took retired passed memory register host lawful".split())

OUT = "  -- and at most one that was asked isn't answered yet"


def defined() -> set[str]:
    """The names of all definitions, fields of records, types and laws."""
    names: set[str] = set()
    for path in TOP.glob("crates/*/specs/*.antt"):
        for name, it in read(str(path.relative_to(TOP))).definitions.items():
            names |= {name, *it.fields}
    for path in TOP.glob("crates/*/src/**/*.rt"):
        text = path.read_text(encoding="utf-8")
        names |= set(re.findall(r"^ *pub (?:fn|enum|struct)? ?(\w+)", text, re.MULTILINE))
    return names


def without_fields(names: set[str]) -> set[str]:
    """The names of whole definitions."""
    return {name for name in names if "." not in name}


class Definitions(unittest.TestCase):
    def test_each_name_of_a_use_line_is_found(self) -> None:
        """So nothing is passed over because a file is written otherwise."""
        for path in sorted(TOP.glob("crates/*/specs/*.antt")):
            file = read(str(path.relative_to(TOP)))
            for module, name in file.brought.values():
                found = definitions.of_module(module, name)
                self.assertIsNotNone(found, f"{file.path}: {module}.{name}")
                assert found is not None
                self.assertTrue(lines_of(found), f"{file.path}: {module}.{name}")

    def test_a_definition_has_its_comment_and_no_more(self) -> None:
        lines = lines_of((SERIAL, "state_after"))
        self.assertTrue(lines[0].startswith("-- "))
        self.assertEqual(lines[1], "unfoldable pub state_after : State → List Entry → State")
        self.assertTrue(lines[-1].startswith("state_after opening (_ ∷ past)"))

    def test_what_a_name_rests_on(self) -> None:
        """Names in use, in a data type and in another file, and types of the code."""
        known = rests_on(SERIAL, ["IsSerial"])
        self.assertEqual(known[SERIAL], {"IsSerial", "state_after"})
        self.assertIn("perform_on", known["crates/hmc_serial/specs/Perform.antt"])
        self.assertIn("Entry", known["crates/hmc_entries/src/entry.rt"])
        self.assertNotIn(DELIVERED, known)

    def test_a_field_is_less_than_its_record(self) -> None:
        field = rests_on(DELIVERED, ["DeliveredInOrder.out"])
        record = rests_on(DELIVERED, ["DeliveredInOrder"])
        self.assertLess(count_of(field), count_of(record))
        self.assertEqual(lines_of((DELIVERED, "DeliveredInOrder.out"))[0], OUT)
        for path, names in field.items():
            self.assertLessEqual(without_fields(names), record[path])

    def test_the_headline_is_part_of_what_is_guaranteed(self) -> None:
        """All that it rests on is part of what the top call rests on, and far less."""
        whole = promises.definitions_of(promises.PROMISES["all that `replay` promises"])
        headline = promises.definitions_of(promises.HEADLINE)
        for path, names in headline.items():
            self.assertLessEqual(without_fields(names), whole[path], path)
        self.assertLess(4 * count_of(headline), count_of(whole))
        self.assertLess(count_of(headline), 2000)

    def test_each_word_of_the_page_has_its_line(self) -> None:
        """What docs/TRUST.md has in backquotes, and is defined, is in the table of
        docs/definitions.md; and the other way."""
        text = re.sub(r"\]\([^)]*\)", "", phrases.text_of("docs/TRUST.md"))
        words = set(pages.quoted(text)) & defined() - OF_TEXTS
        rows = {it.rpartition(".")[2] for names in promises.WORDS.values() for it in names}
        self.assertEqual(words - rows, set())
        self.assertEqual(rows - words, set())
        self.assertGreater(len(words), 80)


if __name__ == "__main__":
    unittest.main()
