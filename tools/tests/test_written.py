"""Written limits."""
from __future__ import annotations

import re
import unittest
from unittest import mock

from tools.checks import written
from tools.tests.trees import TreeTest

LIMITS = """
    //! Limits.
    pub const MAX_NODES: u8 = 7;
    pub const MAX_PAYLOAD: usize = 16_384;
    pub const LONGEST_IN_SECOND: usize = 16_384;
"""
DECLARED = {
    name: ("urb_a", "src/limits.rt")
    for name in ("MAX_NODES", "MAX_PAYLOAD", "LONGEST_IN_SECOND", "GONE")
}
WRITTEN = {
    ("MAX_NODES", "1 to #"): {"README.md": 1},
    ("MAX_PAYLOAD", "#"): {"README.md": 2, "crates/urb_a/src/limits.rt": 1},
    ("LONGEST_IN_SECOND", "#"): {"README.md": 1, "crates/urb_a/src/limits.rt": 1},
    ("LONGEST_IN_SECOND + 1", "#"): {"README.md": 1},
}
README = """
    A node is 1 to
    7. Payloads have 16384 bytes (16,384), in files too (16_384), and never 16,385.
"""


class Patterns(unittest.TestCase):
    def test_forms_of_a_value(self) -> None:
        rows = (
            ("#", 16384, "16384, 16_384 and 16,384.", 3),
            ("#", 16384, "16,384,000 116,384 16,3845 16384.5 x16", 0),
            ("1 to #", 7, "1 to 7, 1 to\n7 and 1 to 70", 2),
            ("@ nodes", 7, "seven nodes, seven of them, fn seven_nodes", 2),
            ("@ nodes", 7, "/// of seven\n    /// nodes; -- seven\n-- nodes", 2),
            ("@ nodes", 70, "70 nodes", 1),
            ("~", 3, "(1 2 3) '1 2 3' 1 2 3 4 0 1 2 3", 2),
            ("F(x) = #", 1, "F(x) = 1", 1),
        )
        for words, value, text, count in rows:
            with self.subTest(words, text=text):
                found = re.findall(written.pattern_of(words, value), text)
                self.assertEqual(len(found), count)


class Counts(TreeTest):
    def found(self, limits: str, readme: str, table: written.Written = WRITTEN) -> list[str]:
        tree = self.tree({"crates/urb_a/src/limits.rt": limits, "README.md": readme})
        with mock.patch.object(written, "DECLARED", DECLARED):
            return [str(misfit) for misfit in written.written_limits(tree, table)]

    def test_a_value_is_there_as_often_as_the_table_says(self) -> None:
        self.assertEqual(self.found(LIMITS, README), [])

    def test_a_place_that_is_new_or_gone_is_named(self) -> None:
        both = "`MAX_PAYLOAD` (16,384) or `LONGEST_IN_SECOND` (16,384)"
        self.assertEqual(
            self.found(LIMITS, README + "One more: 16384.\n"),
            [f"README.md: {both} is there 3 times by the table: 2, 2, 2, 3"],
        )
        self.assertEqual(
            self.found(LIMITS, README.replace("16,385", "more")),
            ["README.md: `LONGEST_IN_SECOND + 1` (16,385) is there 1 times by the table: none"],
        )

    def test_a_change_of_a_limit_names_each_file_that_gives_it(self) -> None:
        limits = LIMITS.replace("PAYLOAD: usize = 16_384", "PAYLOAD: usize = 32_768")
        self.assertEqual(
            self.found(limits, README),
            [
                "README.md: `MAX_PAYLOAD` (32,768) is there 2 times by the table: none",
                "README.md: `LONGEST_IN_SECOND` (16,384) is there 1 times by the table: 2, 2, 2",
            ],
        )

    def test_a_table_of_a_constant_that_is_gone(self) -> None:
        self.assertEqual(
            self.found(LIMITS, README, {("GONE", "#"): {}}),
            ["tools/checks/written.py: there is no constant for `GONE`"],
        )

    def test_what_is_made_or_measured_is_left_out(self) -> None:
        files = {name: "16384\n" for name in written.LEFT_OUT}
        self.assertEqual(written.files_of(self.tree(files)), {})


if __name__ == "__main__":
    unittest.main()
