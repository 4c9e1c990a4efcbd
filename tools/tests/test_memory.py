"""What is held of the places that say that memory was refused."""
from __future__ import annotations

import unittest

from tools.checks import memory
from tools.tests.trees import TreeTest

SOURCE = "crates/a/src/lib.rt"


class Values(unittest.TestCase):
    def test_a_value_counts(self) -> None:
        for text in (
            "return Err(AllocError);",
            "Err((value, NoMemory::from(AllocError)))",
            "let refused = AllocError;",
            "None => AllocError,",
            "Err(AllocFailed { value })",
        ):
            with self.subTest(text):
                self.assertGreaterEqual(memory.values_in(text), 1)

    def test_a_type_and_a_comment_do_not(self) -> None:
        for text in (
            "use std::alloc::{AllocError, AllocFailed};",
            "fn from(_: AllocError) -> NoMemory {",
            "impl From<AllocError> for Refusal {",
            "fn new() -> Result<(), AllocError>",
            "fn from(_: AllocFailed<T>) -> Refusal {",
            "// Err(AllocError)",
        ):
            with self.subTest(text):
                self.assertEqual(memory.values_in(text), 0)


class Places(TreeTest):
    def test_a_place_outside_the_table_is_told(self) -> None:
        tree = self.tree({SOURCE: "//! A.\nfn f() { return Err(AllocError); }\n"})
        self.holds(
            memory.refusals_from_nothing(tree, {}),
            f"{SOURCE}: names AllocError or AllocFailed as a value 1 times, and not 0",
        )

    def test_a_place_of_the_table_passes(self) -> None:
        tree = self.tree({SOURCE: "//! A.\nfn f() { return Err(AllocError); }\n"})
        self.holds(memory.refusals_from_nothing(tree, {SOURCE: 1}))

    def test_a_row_of_the_table_that_is_gone_is_told(self) -> None:
        tree = self.tree({SOURCE: "//! A.\n"})
        self.holds(
            memory.refusals_from_nothing(tree, {"crates/a/src/b.rt": 1}),
            "crates/a/src/b.rt: is in the table of refused memory, but isn't there",
        )


if __name__ == "__main__":
    unittest.main()
