"""Tests of the mutants of definitions."""

import unittest

from tool import mutants
from tool.mutants import Mutant, equations, of_crate
from tool.tests.shared import TOP

TEXT = """\
-- A comment = none.
use Rattle.std.specs.Prelude.{Bool, true, ◌&&◌}

abbrev pub both : (a b : Bool) → Bool
both a b =
    a && b
both _ _ = true

pub record Is (n : ℕ) : Type 0 where
  -- Not read either.
  pub less : n < 8
"""
# The file that nothing but a reader of these tests would change.
WALK = "crates/hmc_judge/specs/Walk.antt"


class Mutants(unittest.TestCase):
    def test_equations_and_fields_are_read(self) -> None:
        """Comments, `use` lines and types are left alone."""
        found = [(it.name, it.line, it.said().split()) for it in equations(TEXT)]
        both = [("both", 5, ["a", "&&", "b"]), ("both", 7, ["true"])]
        self.assertEqual(found, [*both, ("", 11, ["n", "<", "8"])])

    def test_a_mutant_brings_in_the_sign_that_it_writes(self) -> None:
        """Else it could not be read, and would count for nothing."""
        it = Mutant("a", 6, ("    a && b",), ("    a || b",), "|| for &&")
        changed = it.applied(TEXT)
        self.assertIn("    a || b\n", changed)
        self.assertIn("{Bool, true, ◌&&◌, ◌||◌}", changed)
        self.assertEqual(len(changed.split("\n")), len(TEXT.split("\n")))

    def test_each_changes_its_file(self) -> None:
        """Those of one crate: each once, and none in a comment."""
        found = of_crate("hmc_judge")
        self.assertGreater(len(found), 30)
        self.assertEqual(len(set(found)), len(found))
        for it in found:
            text = (TOP / it.path).read_text(encoding="utf-8")
            self.assertNotEqual(it.applied(text), text)
            self.assertFalse(it.old[-1].lstrip().startswith("--"), it)

    def test_changes_of_one_value(self) -> None:
        """A field for its neighbour, two arms and two arguments exchanged, a sign for its twin."""
        changes = {it.change for it in mutants.mutants(WALK)}
        wanted = {"a.address for a.cube", "two arms exchanged", "host and tag exchanged"}
        self.assertLessEqual({*wanted, "|| for &&", "false for true"}, changes)


if __name__ == "__main__":
    unittest.main()
