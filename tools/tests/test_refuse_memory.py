"""Which units have their memory refused, how a run may end, and which requests have names."""
import re
import unittest

from repository import text_of
from tests import tool

memory = tool("refuse_memory")
USUAL = memory.Run((b"one\ntwo\n", b"said\n", 0), False)


def run(shown: bytes, said: bytes, status: int) -> object:
    return memory.Run((shown, said, status), True)


class Units(unittest.TestCase):
    def test_each_command_of_scripts_is_in_a_family(self) -> None:
        listed = text_of("docs/SCRIPT.md").split("## Commands\n")[1].split("\n## ")[0]
        rows = re.findall(r"^- ((?:`[^`]+`,?\s+)*`[^`]+`): ", listed, re.M)
        commands = [words.split()[0] for row in rows for words in re.findall(r"`([^`]+)`", row)]
        lines = [line for script in memory.FAMILIES.values() for line in script.split("\n")]
        used = {line.split()[0] for line in lines if line}
        self.assertEqual(set(commands) - used, set())
        self.assertGreater(len(commands), 30)

    def test_each_program_has_units_of_different_names(self) -> None:
        units = memory.units()
        self.assertEqual({unit.program for unit in units}, set(memory.NO_MEMORY))
        names = [(unit.program, unit.name) for unit in units]
        repeated = {name for name in names if names.count(name) > 1}
        self.assertEqual(repeated, set())

    def test_a_tenth(self) -> None:
        self.assertEqual(memory.sampled(list(range(25)), 0), [0, 10, 20])
        self.assertEqual(memory.sampled(list(range(25)), 13), [3, 13, 23])


class Ends(unittest.TestCase):
    def test_a_beginning_and_no_memory(self) -> None:
        unit = memory.Unit("cedar", "a")
        for shown in (b"", b"one\n", b"one\ntwo\n"):
            self.assertTrue(memory.is_right(unit, run(shown, b"error: no memory\n", 3), USUAL))
        self.assertTrue(memory.is_right(unit, run(b"", b"said\nerror: no memory\n", 3), USUAL))
        for shown, said, status in (
            (b"two\n", b"error: no memory\n", 3),
            (b"one\n", b"error: no memory\n", 2),
            (b"one\n", b"", 3),
            (b"one\n", b"other\nerror: no memory\n", 3),
        ):
            self.assertFalse(memory.is_right(unit, run(shown, said, status), USUAL))

    def test_a_call_is_answered_again(self) -> None:
        unit = memory.Unit("recorded_calls", "a")
        usual = memory.Run((b"true\n", b"", 0), False)
        self.assertTrue(memory.is_right(unit, run(b"refused, then true\n", b"", 0), usual))
        self.assertFalse(memory.is_right(unit, run(b"refused, then false\n", b"", 0), usual))
        self.assertFalse(memory.is_right(unit, run(b"false\n", b"", 0), usual))

    def test_the_usual_end(self) -> None:
        unit = memory.Unit("cedar", "a", wanted=(["one", ".."], [], 0))
        self.assertTrue(unit.is_usual((b"one\ntwo\n", b"", 0)))
        self.assertFalse(unit.is_usual((b"one\ntwo\n", b"", 3)))
        self.assertFalse(unit.is_usual((b"two\n", b"", 0)))


class Names(unittest.TestCase):
    def test_named_requests(self) -> None:
        text = "# A heading.\n\na | b | c | 3 5 | hint in f\na | b | c | 7 | sort in g\n"
        named = memory.read_named(text)
        names = {3: "hint in f", 5: "hint in f", 7: "sort in g"}
        self.assertEqual(named, {("a", "b | c"): names})

    def test_what_is_misnamed(self) -> None:
        told = memory.Told(memory.Unit("a", "b"), unnoticed=[3, 4])
        named = {("a", "b"): {3: "why", 5: "why"}}
        wrong = ["a: b: goes unnoticed: 4\n", "a: b: is noticed: 5\n"]
        self.assertEqual(memory.misnamed(told, named), wrong)

    def test_each_name_is_that_of_a_unit(self) -> None:
        units = {(unit.program, unit.name) for unit in memory.units()}
        with open(memory.NAMED, encoding="utf-8") as text:
            self.assertEqual(set(memory.read_named(text.read())) - units, set())
