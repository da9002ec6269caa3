"""What the tools read of crates.txt and of mutants."""
import unittest
from unittest import mock

import repository

CRATES_TXT = """\
# cedar_: the layers, from below
cedar_names: thiserror
cedar_terms: cedar_names # a remark
cedar_exprs staticlib: cedar_terms

# test_: tests
test_layers: cedar_exprs cedar_names
"""
EDIT = """\
file: src/id.rt
old: a < b
new: a <= b
file: src/name.rt
old: drop(x);
new:
"""


class Crates(unittest.TestCase):
    def setUp(self) -> None:
        for cached in (repository.families, repository.below):
            cached.cache_clear()
            self.addCleanup(cached.cache_clear)
        patch = mock.patch.object(repository, "text_of", return_value=CRATES_TXT)
        patch.start()
        self.addCleanup(patch.stop)

    def test_families_in_order(self) -> None:
        heads = ["cedar_: the layers, from below", "test_: tests"]
        self.assertEqual(list(repository.families()), heads)
        names = ["cedar_names", "cedar_terms", "cedar_exprs", "test_layers"]
        self.assertEqual(repository.crate_names(), names)
        self.assertEqual(repository.crate_libraries()["cedar_terms"], ["cedar_names"])

    def test_below_from_below(self) -> None:
        found = ("cedar_names", "cedar_terms", "cedar_exprs", "test_layers")
        self.assertEqual(repository.below("test_layers"), found)
        self.assertEqual(repository.below("cedar_names"), ("cedar_names",))


class Edits(unittest.TestCase):
    def test_changes_of_an_edit(self) -> None:
        changes = [("src/id.rt", "a < b", "a <= b"), ("src/name.rt", "drop(x);", "")]
        self.assertEqual(repository.read_edit("id", EDIT).changes, changes)
