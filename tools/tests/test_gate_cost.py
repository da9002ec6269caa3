"""Which part of the gate a check is of, by what `rt ci` prints and how the check was called."""
import unittest

from tests import tool

gate_cost = tool("gate_cost")
CHECK = ["rattle", "check", "--crate-name", "a"]


class Parts(unittest.TestCase):
    def test_parts_in_order(self) -> None:
        gate = gate_cost.Gate()
        seen = []
        for line in ("== a\n", "rt: a proved\n", "rt: a: trying its must-fail edits (3)\n"):
            gate.hear(line)
            seen.append(gate.part_of(CHECK))
        self.assertEqual(seen, [("a", "proof"), ("a", "before edits"), ("a", "edits")])
        self.assertEqual(gate.part_of(["rattle", "build", "--crate-name", "a"]), ("a", "proof"))
        self.assertEqual(gate.part_of([*CHECK, "--test"]), ("a", "tests"))
        self.assertIsNone(gate.part_of(["rattle", "fmt"]))

    def test_a_process_keeps_its_part(self) -> None:
        gate = gate_cost.Gate()
        gate.see((7, 1), CHECK, 1.0)
        gate.hear("rt: a proved\n")
        gate.see((7, 1), CHECK, 2.5)
        gate.see((8, 2), CHECK, 0.5)
        sums = gate.sums()["a"]
        self.assertEqual((sums["proof"], sums["before edits"]), (2.5, 0.5))
