"""Which old words are found, and where."""
import unittest

from tests import tool

check_words = tool("check_words")


def found(path: str, text: str) -> list[str]:
    return list(check_words.faults(path, text))


class OldWords(unittest.TestCase):
    def test_whole_words_alone(self) -> None:
        wanted = ["docs/A.md:2: the old word sorted_slices: now cedar_sorted_slices"]
        self.assertEqual(found("docs/A.md", "cedar_sorted_slices\n`sorted_slices`\n"), wanted)

    def test_names_of_crates_and_usual_words(self) -> None:
        self.assertEqual(found("docs/A.md", "Two evaluations, and evaluations of them.\n"), [])
        for text in ("`evaluations`", "use evaluations::laws;", "Rattle.evaluations.specs"):
            self.assertEqual(len(found("crates/a/src/lib.rt", text)), 1, text)

    def test_prose_is_no_code(self) -> None:
        text = "The keys are\nRising. `rising E ..` asks.\n\n    rises\n\n"
        text += "```text\nlent\n```\nIt lends.\n"
        wanted = ["docs/A.md:2: the old word Rising: now ascending"]
        wanted.append("docs/A.md:9: the old word lends: now borrow")
        self.assertEqual(found("docs/A.md", text), wanted)
        self.assertEqual(found("crates/a/src/lib.rt", "// What is left rises.\n"), [])

    def test_words_over_two_lines(self) -> None:
        wanted = ["README.md:1: the old word what is left: now residual"]
        self.assertEqual(found("README.md", "It prints what\nis left.\n"), wanted)

    def test_names_of_files(self) -> None:
        wanted = ["crates/a/src/one_walk.rt: the name has the old word one_walk: now simplification"]
        self.assertEqual(found("crates/a/src/one_walk.rt", ""), wanted)

    def test_words_of_some_crates(self) -> None:
        self.assertEqual(len(found("crates/cedar_parser/src/parser.rt", "Held")), 1)
        self.assertEqual(found("crates/cedar_exprs/src/expr.rt", "Held"), [])
