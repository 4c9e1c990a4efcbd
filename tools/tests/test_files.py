"""What is held of the calls that change files."""
from __future__ import annotations

import unittest

from tools.checks import files
from tools.tests.trees import TreeTest

SOURCE = "crates/a/src/lib.rt"
TEST = "crates/a_tests/src/lib.rt"


class Calls(unittest.TestCase):
    def test_a_call_counts(self) -> None:
        self.assertEqual(
            files.calls_in("fs::remove_file(rt, a)?; file.set_len(0); OpenOptions::new()"),
            {"remove_file": 1, "set_len": 1, "OpenOptions::new": 1},
        )

    def test_a_definition_and_a_comment_do_not(self) -> None:
        self.assertEqual(files.calls_in("fn set_len(&mut self) {} // file.set_len(0)"), {})


class Places(TreeTest):
    def test_a_call_outside_the_table_is_told(self) -> None:
        tree = self.tree({SOURCE: "//! A.\nfn f() { fs::remove_file(rt, a) }\n"})
        self.holds(
            files.changes_of_files(tree, {}),
            f"{SOURCE}: calls remove_file 1 times, and not 0",
        )

    def test_a_call_of_the_table_passes_and_tests_may_do_all(self) -> None:
        text = "//! A.\nfn f() { fs::remove_file(rt, a) }\n"
        tree = self.tree({SOURCE: text, TEST: text})
        self.holds(files.changes_of_files(tree, {("remove_file", SOURCE): 1}))

    def test_a_row_without_a_call_is_told(self) -> None:
        tree = self.tree({SOURCE: "//! A.\n"})
        self.holds(
            files.changes_of_files(tree, {("rename", SOURCE): 1}),
            f"{SOURCE}: is in the table of files, but doesn't call rename",
        )


if __name__ == "__main__":
    unittest.main()
