"""What tools/promises.txt says of a library, and what its page shows."""
import unittest
from types import SimpleNamespace

import promises
from sources import Item, Library
from tests import tool

api_reference = tool("api_reference")

TEXT = """\
# A comment.

cedar_shapes
+ Shape::new: it has so many sides
- Shape::a, Shape::b: both: exactly
+ laws::of_sides
< crates/example_shapes/src/main.rt main

cedar_other
+ plain
"""


class OfTheFile(unittest.TestCase):
    def test_what_a_line_says(self) -> None:
        found = promises.read_promises(TEXT)
        self.assertEqual(list(found), ["cedar_shapes", "cedar_other"])
        shapes = found["cedar_shapes"]
        self.assertEqual(shapes.shown, ["Shape::new", "laws::of_sides"])
        both = (["Shape::a", "Shape::b"], "both: exactly")
        self.assertEqual(shapes.said, [(["Shape::new"], "it has so many sides"), both])
        self.assertEqual(shapes.caller, ["crates/example_shapes/src/main.rt", "main"])
        wanted = ["Shape::new", "laws::of_sides", "Shape::a", "Shape::b"]
        self.assertEqual(shapes.calls(), wanted)
        self.assertEqual(found["cedar_other"].said, [])

    def test_laws_have_paths_of_their_own(self) -> None:
        law = Item("fn", "new", "src/laws.rt", [], "", "")
        method = Item("fn", "new", "src/shapes.rt", [], "", "", owner="Shape")
        shape = Item("struct", "Shape", "src/shapes.rt", [], "", "", calls=[method])
        library = Library("cedar_shapes", [], [shape], [law], {}, {})
        self.assertEqual(list(promises.calls_of(library)), ["laws::new", "Shape::new"])


class OfThePages(unittest.TestCase):
    def test_first_sentences(self) -> None:
        lines = ["A name, as `a.b`. It is short", "and plain (Cedar's file `b.rs`).", "", "More."]
        self.assertEqual(api_reference.first_sentence(lines), "A name, as `a.b`.")
        paragraph = "A name, as `a.b`. It is short and plain."
        self.assertEqual(api_reference.paragraph(lines), paragraph)

    def test_contracts_as_guides_quote_them(self) -> None:
        clauses = ["requires { IsTrue x }", "ensures sides { IfOk result (λ s.", "    s ≡ 0) }"]
        clauses += ["", "// A note.", "ensures { result ≡ record { n = x } }"]
        signature = "pub const fn len(&self) -> usize"
        call = Item("fn", "len", "src/shapes.rt", [], "", "", [], [], signature, clauses, "Shape")
        wanted = ["const fn Shape::len(&self) -> usize", "  requires: IsTrue x"]
        wanted += ["  ensures sides: IfOk result (λ s.", "      s ≡ 0)"]
        wanted += ["  ensures: result ≡ record { n = x }", ""]
        self.assertEqual(list(api_reference.entry(call)), wanted)

    def test_contracts_in_words(self) -> None:
        sources = SimpleNamespace(promises=promises.read_promises(TEXT))
        docs = ["Its first side. It is long."]
        calls = [Item("fn", it, "src/shapes.rt", docs, "", "", owner="Shape") for it in ("new", "a")]
        said = [api_reference.in_words(call, "cedar_shapes", sources) for call in calls]
        self.assertEqual(said, ["It has so many sides.", "Its first side."])

    def test_contracts_of_one_word(self) -> None:
        matches = api_reference.ONE_WORD.match
        self.assertTrue(matches("ensures { IsTotal X.cmp X.eq }"))
        self.assertTrue(matches("ensures total { IsTotal }"))
        self.assertFalse(matches("ensures { IsTotal a → IsTotal b }"))

    def test_other_types_and_calls_by_name(self) -> None:
        calls = [Item("fn", it, "src/shapes.rt", [], "", "", owner="Shape") for it in ("new", "a")]
        shape = Item("struct", "Shape", "src/shapes.rt", [], "", "", calls=calls)
        kind = Item("enum", "Kind", "src/kind.rt", [], "", "")
        free = Item("fn", "round", "src/flat.rt", [], "", "")
        library = Library("cedar_shapes", [], [shape, kind], [free], {}, {})
        at = "](../../crates/cedar_shapes/src/"
        wanted = [f"- [`Shape`{at}shapes.rt): `a`", f"- Functions: [`round`{at}flat.rt)"]
        wanted.append(f"- Other types: [`Kind`{at}kind.rt)")
        self.assertEqual(list(api_reference.in_short(library, {"Shape::new"})), wanted)

    def test_what_a_library_is_in_short(self) -> None:
        brief = api_reference.brief
        self.assertEqual(brief("Stores of entities, by name: more."), "Stores of entities, by name")
        self.assertEqual(brief("Values, sets of values and records of values, of a type."), "Values")

    def test_what_is_made_stands_between_marks(self) -> None:
        page = "By hand.\n<!-- pages -->\nold\n<!-- end -->\nBy hand too.\n"
        made = "By hand.\n<!-- pages -->\n\nnew\n<!-- end -->\nBy hand too.\n"
        self.assertEqual(api_reference.filled(page, "pages", iter(["new", ""])), made)
        self.assertEqual(api_reference.filled("None.\n", "pages", iter(["new"])), "None.\n")

    def test_words_by_letters(self) -> None:
        words = [("b", "", "", ""), ("B", "", "", ""), ("a", "", "", "")]
        self.assertEqual([word[0] for word in api_reference.in_order(words)], ["a", "B", "b"])
