"""What is inferred from a source file, compared with what stands in it."""
import unittest
from unittest import mock

import sources

SHAPES = '''\
//! Shapes.

/// A shape.
///
/// It has sides.
#[derive(Debug, PartialEq, Drop)]
#[derive_where(Hash)]
pub struct Shape<T> {
    /// How many.
    pub sides: usize,
    name: T,
}

/// Why there is no shape.
#[derive(Debug, Error)]
#[error("no shape of {0}")]
pub struct NoShape(pub usize);

/// Its kind.
pub enum Kind {
    /// Flat.
    Flat,
    Round(u8),
}

// A private note.
pub const MOST: usize = 12;

pub type Shapes = Vec<Shape<u8>>;

struct Hidden;

impl<T: Fn(u8) -> u8> Shape<T> {
    /// A new one.
    #[tactic(
        auto,
        using(lemma),
    )]
    pub fn new<'a, F: Fn(&T) -> u8>(
        alloc: Global,
        name: &'a T,
    ) -> Result<Shape<T>, AllocError>
        requires { IsTrue (name.now) }
        ensures sides { IfOk result (λ s.
            s.sides ≡ 0) }
    {
        {
            let inner = fn_like(alloc);
        }
    }

    fn private(&self) {}

    pub const fn sides(&self) -> usize
    { self.sides }

    /// Nothing.
    pub fn clear(&mut self) {}
}

impl<T> fmt::Display for Shape<T> {
    fn fmt(&self) -> fmt::Result {
        Ok(())
    }
}

impl Clone for Shape<u8> {}

/// What has corners.
pub trait Corners: Sized {
    ghost corners_of = { λ _. 0 };

    /// How many corners.
    fn corners(&self) -> usize
        ensures { result ≡ Self.corners_of self.now };

    fn has_some(&self) -> bool {
        self.corners() > 0
    }
}

/// All of them.
pub fn all(alloc: Global) -> Vec<u8> {
    Vec::new(alloc)
}

fn hidden() -> u8 {
    1
}
'''
ROOT = '''\
//! A library of shapes, by their sides. It has more.
//!
//! Another paragraph.
#![tactic(auto)]

mod flat;
pub mod laws;
mod shapes;

pub use flat::{inner::{Square, Side}, round};
pub use other::{Else, sub::Other};
pub use shapes::Shape;
'''
FLAT = '''\
pub struct Square;

pub struct Unnamed;

pub fn round() {}

pub fn unnamed() {}

impl Square {
    pub fn area(&self) -> u8 {
        4
    }
}
'''
LAWS = '''\
pub use crate::flat::unnamed_law;
pub use other::passed_law;

pub fn of_sides() {}
'''
WORDS = '''\
-- how many
-- there are
abbrev pub count : List A → ℕ
count xs = length xs

-- no word

-- whether it is a shape
mutual
  pub data IsShape : Set where
    -- one with sides
    -- e.g. a square
    sided : IsShape

count-not-said : ℕ
'''


class OfOneFile(unittest.TestCase):
    def setUp(self) -> None:
        items, self.calls, self.impls = sources.read_file("src/shapes.rt", SHAPES)
        self.items = {item.name: item for item in items}
        self.by_path = {call.path: call for call in self.calls}

    def test_public_items_with_their_kinds(self) -> None:
        kinds = [(item.kind, item.name) for item in self.items.values()]
        wanted = [("struct", "Shape"), ("struct", "NoShape"), ("enum", "Kind"), ("const", "MOST")]
        self.assertEqual(kinds, [*wanted, ("type", "Shapes"), ("trait", "Corners")])

    def test_comments_and_declarations(self) -> None:
        self.assertEqual(self.items["Shape"].docs, ["A shape.", "", "It has sides."])
        self.assertEqual(self.items["NoShape"].text, "pub struct NoShape(pub usize);")
        self.assertEqual(self.items["Kind"].text.split("\n")[0], "pub enum Kind {")
        self.assertEqual(self.items["Kind"].text.split("\n")[-1], "}")
        self.assertEqual(self.items["MOST"].docs, [])

    def test_derives_and_error_texts(self) -> None:
        self.assertEqual(self.items["Shape"].traits, ["Debug", "PartialEq", "Hash"])
        self.assertIn('#[error("no shape of {0}")]', self.items["NoShape"].marks)
        self.assertEqual(self.items["Kind"].marks, "")

    def test_impls_of_traits(self) -> None:
        self.assertEqual(self.impls, [("Shape", "fmt::Display"), ("Shape", "Clone")])

    def test_public_calls(self) -> None:
        paths = ["all", "Shape::new", "Shape::sides", "Shape::clear"]
        self.assertEqual(list(self.by_path), paths)

    def test_signature_and_clauses(self) -> None:
        new = self.by_path["Shape::new"]
        self.assertEqual(
            new.signature,
            "pub fn new<'a, F: Fn(&T) -> u8>(alloc: Global, name: &'a T)"
            " -> Result<Shape<T>, AllocError>",
        )
        clauses = ["requires { IsTrue (name.now) }", "ensures sides { IfOk result (λ s."]
        self.assertEqual(new.clauses, [*clauses, "    s.sides ≡ 0) }"])
        self.assertEqual(new.docs, ["A new one."])
        self.assertEqual(new.head, "impl<T: Fn(u8) -> u8> Shape<T>")
        self.assertTrue(new.text.startswith("    /// A new one.\n"))
        self.assertTrue(new.text.endswith("        }\n    }"))

    def test_every_function(self) -> None:
        found = {it.name: it for it in sources.read_functions(SHAPES, "src/shapes.rt")}
        wanted = {"all", "hidden", "new", "private", "sides", "clear", "fmt", "corners", "has_some"}
        self.assertEqual(set(found), wanted)
        self.assertTrue(found["private"].text.startswith("fn private"))
        clause = "ensures { result ≡ Self.corners_of self.now };"
        self.assertEqual(found["corners"].clauses, [clause])

    def test_bodies_of_one_line(self) -> None:
        sides = self.by_path["Shape::sides"]
        self.assertEqual(sides.signature, "pub const fn sides(&self) -> usize")
        self.assertTrue(sides.text.endswith("{ self.sides }"))
        self.assertEqual(self.by_path["Shape::clear"].signature, "pub fn clear(&mut self)")

    def test_calls_of_a_trait(self) -> None:
        corners, has_some = self.items["Corners"].calls
        self.assertEqual(corners.signature, "fn corners(&self) -> usize")
        self.assertEqual(corners.clauses, ["ensures { result ≡ Self.corners_of self.now }"])
        self.assertEqual((corners.path, corners.head), ("Corners::corners", ""))
        self.assertEqual(has_some.text.split("\n")[-1], "    }")


class OfALibrary(unittest.TestCase):
    def setUp(self) -> None:
        texts = {
            "src/lib.rt": ROOT,
            "src/flat.rt": FLAT,
            "src/laws.rt": LAWS,
            "src/shapes.rt": SHAPES,
        }
        with mock.patch.object(sources, "source_files", return_value=texts):
            self.library = sources.read_library("shapes")

    def test_what_others_may_name(self) -> None:
        self.assertEqual([item.name for item in self.library.items], ["Square", "Shape"])
        self.assertEqual([call.name for call in self.library.calls], ["round", "of_sides"])
        self.assertEqual(self.library.modules["of_sides"], "laws")
        self.assertEqual(self.library.modules["round"], "")

    def test_methods_and_traits_stand_with_their_type(self) -> None:
        square, shape = self.library.items
        self.assertEqual([call.name for call in square.calls], ["area"])
        self.assertEqual([call.name for call in shape.calls], ["new", "sides", "clear"])
        self.assertEqual(shape.traits, ["Debug", "PartialEq", "Hash", "fmt::Display", "Clone"])

    def test_names_of_other_crates(self) -> None:
        passed = {"other": ["Else", "Other", "laws::passed_law"]}
        self.assertEqual(self.library.passed_on, passed)

    def test_about(self) -> None:
        head = "A library of shapes, by their sides. It has more."
        self.assertEqual(self.library.about, [head, "", "Another paragraph."])

    def test_words_of_definitions(self) -> None:
        texts = {"specs/Shapes.antt": WORDS}
        with mock.patch.object(sources, "files_below", return_value=texts):
            words = sources.read_words("shapes")
        shapes = {"count": "how many there are", "IsShape": "whether it is a shape"}
        self.assertEqual(words, {("Shapes", word): said for word, said in shapes.items()})

    def test_words_that_a_file_takes(self) -> None:
        text = (
            "ghost use Rattle.shapes.specs.Shapes.{count, IsShape as IsOne};\n"
            "    ghost use Rattle.other.specs.Kinds.{\n      flat,\n    };\n"
            "pub use Rattle.other.specs.Kinds.{round}\n"
            "ghost use Rattle.other.specs.Kinds as kinds;\n"
        )
        wanted = {
            "count": ("shapes", "Shapes", "count"),
            "IsOne": ("shapes", "Shapes", "IsShape"),
            "flat": ("other", "Kinds", "flat"),
            "round": ("other", "Kinds", "round"),
        }
        self.assertEqual(sources.uses_of(text), wanted)


class OfTexts(unittest.TestCase):
    def test_brackets_do_not_end_at_arrows(self) -> None:
        words = sources.parted("<F: Fn(u8) -> u8> Shape<F>", " ")
        self.assertEqual(words, ["<F: Fn(u8) -> u8>", "Shape<F>"])

    def test_parameters_and_result(self) -> None:
        text = "pub fn of<F: Fn(&T) -> u8>(mut x: (u8, F), &self) -> Vec<(u8, F)> where F: Drop"
        params = {"x": "(u8, F)", "&self": ""}
        self.assertEqual(sources.parameters(text), (params, "Vec<(u8, F)>"))
        self.assertEqual(sources.parameters("fn none() where T: Drop"), ({}, ""))

    def test_targets_of_impls(self) -> None:
        target = sources.impl_target("<'a, T: Drop> Iterator for Slots<'a, T>")
        self.assertEqual(target, ("Slots", "Iterator"))
        self.assertEqual(sources.impl_target(" Slots<'a>"), ("Slots", ""))

    def test_parts_of_lists(self) -> None:
        parts = sources.parted("a: (u8, u8), f: Fn(A, B) -> C<D, E>, ")
        self.assertEqual(parts, ["a: (u8, u8)", "f: Fn(A, B) -> C<D, E>"])

    def test_leaves_of_uses(self) -> None:
        self.assertEqual(sources.leaves("a::{b::{C, D}, E}"), ["a::b::C", "a::b::D", "a::E"])
        self.assertEqual(sources.leaves("a::B"), ["a::B"])
