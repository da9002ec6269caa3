"""Calls of a program in a transcript, and what lines are like."""
import os
import unittest

from transcripts import is_like, read_calls

TEXT = """A heading.

$ program -f 'a b' -
< one
< 
| shown
! said
! ..
= 3

$ program
"""


class Transcripts(unittest.TestCase):
    def test_a_call_is_read_whole(self) -> None:
        first, second = read_calls(TEXT)
        self.assertEqual(first.words, ["-f", "a b", "-"])
        self.assertEqual(first.input(), b"one\n\n")
        self.assertEqual((first.shown, first.said, first.status), (["shown"], ["said", ".."], 3))
        self.assertEqual((second.words, second.shown, second.status), ([], [], 0))

    def test_a_byte_that_is_no_text(self) -> None:
        (call,) = read_calls("$ program a $'\\xff'")
        self.assertEqual([os.fsencode(word) for word in call.words], [b"a", b"\xff"])

    def test_two_dots_stand_for_any_lines(self) -> None:
        self.assertTrue(is_like(["a", "b", "c"], ["a", "..", "c"]))
        self.assertTrue(is_like(["a"], ["a", ".."]))
        self.assertTrue(is_like(["a", "c", "b", "c"], ["..", "b", "..", "c"]))
        self.assertFalse(is_like(["a", "b"], ["..", "a"]))
        self.assertFalse(is_like(["a"], ["a", "b"]))
