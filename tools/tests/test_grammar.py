"""Rules of a grammar, as they stand in definitions with their examples."""
import unittest

import grammar

SPECS = """\
-- The grammar of sums.
use Rattle.std.specs.Prelude.{ℕ}

mutual
  -- `Sums tokens e`: the tokens are a sum,
  -- which stands for this tree
  pub data Sums : List Lexeme → Tree → Type 0 where
    -- e.g. 1
    no_sum : {ts : List Lexeme} → Sums ts e
    -- Number { '+' Number }
    -- e.g. 1 + 2
    plus : {ts : List Lexeme} → Numbers ts e
        → Sums ts e

-- no relation with examples
pub data Numbers : List Lexeme → Type 0 where
  -- a digit
  digit : {w : List ℕ} → Numbers w

-- the tokens are a sum
abbrev pub Stands : List Lexeme → Type 0
Stands ts = Sums ts
"""


class OfDefinitions(unittest.TestCase):
    def setUp(self) -> None:
        self.relations = grammar.read_relations("Sums", SPECS)

    def test_relations_with_their_rules(self) -> None:
        (sums,) = self.relations
        said = "the tokens are a sum, which stands for this tree"
        self.assertEqual((sums.name, sums.module, sums.said), ("Sums", "Sums", said))
        plus = grammar.Rule("plus", "1 + 2", "Number { '+' Number }")
        self.assertEqual(sums.rules, [grammar.Rule("no_sum", "1", ""), plus])

    def test_examples_that_no_program_parses(self) -> None:
        self.assertEqual(list(grammar.untried(self.relations, "1 + 2\n\n1\n")), [])
        missing = list(grammar.untried(self.relations, "1 + 2 + 3\n\n1\n"))
        self.assertEqual(missing, ["Sums, plus: 1 + 2"])

    def test_rules_without_an_example(self) -> None:
        self.relations[0].rules[0].example = ""
        missing = list(grammar.untried(self.relations, "1 + 2\n"))
        self.assertEqual(missing, ["Sums, no_sum: no example"])


if __name__ == "__main__":
    unittest.main()
