"""Heads of functions: where they end, and what their contracts are."""
from __future__ import annotations

import textwrap
import unittest

from tools.functions import heads_of

SOURCE = textwrap.dedent(
    """
    /// Adds.
    pub fn add(one: u8, other: u8) -> u8
        requires { one.now + other.now < 256 }
        // a comment isn't counted
        ensures sum { result ≡ one.now + other.now }
    {
        one + other
    }

    pub fn example()
        ensures first { record {
            size = 1;
            nodes = [];
        } ≡ made }
    {}

    impl Ring {
        pub(crate) fn len(&self) -> usize { self.len }
        const fn is_full(&self) -> bool
            ensures full { result ≡ true }
        { true }
    }

    trait Store {
        fn store(&mut self) -> bool
            ensures kept { result ≡ true };
        fn name(&self) -> u8;
    }
    """
)


class Heads(unittest.TestCase):
    def test_each_function_is_found_with_its_length(self) -> None:
        found = [(head.name, head.is_public, len(head.contract())) for head in heads_of(SOURCE)]
        expected = [
            ("add", True, 2),
            ("example", True, 4),
            ("len", False, 0),
            ("is_full", False, 1),
            ("store", False, 1),
            ("name", False, 0),
        ]
        self.assertEqual(found, expected)

    def test_clauses_have_names(self) -> None:
        names = {head.name: head.clauses() for head in heads_of(SOURCE)}
        self.assertEqual(names["add"], ["sum"])
        self.assertEqual(names["example"], ["first"])
        self.assertEqual(names["store"], ["kept"])

    def test_a_text_without_its_body_and_comments(self) -> None:
        head = next(heads_of(SOURCE))
        self.assertIn("requires", head.text)
        self.assertNotIn("comment", head.text)
        self.assertNotIn("one + other\n}", head.text)
        self.assertEqual(head.first, 3)

    def test_a_head_that_never_ends(self) -> None:
        self.assertEqual([head.name for head in heads_of("fn cut(\n    a: u8,")], ["cut"])


if __name__ == "__main__":
    unittest.main()
