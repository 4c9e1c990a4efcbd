"""Names of types."""
from __future__ import annotations

import unittest

from tools.checks import types
from tools.tests.trees import TreeTest

FIRST = """
    //! A file.
    pub struct Ring<A> {
        len: usize,
    }
    pub trait Grows {
        type Item;
    }
    pub(crate) enum Step {}
    struct Row;
"""


class Names(TreeTest):
    def test_a_public_name_is_declared_in_one_crate(self) -> None:
        files = {
            "crates/urb_a/src/lib.rt": FIRST,
            "crates/urb_b/src/rings.rt": "//! Rings.\npub enum Ring {}\n",
            "crates/urb_c/src/lib.rt": "//! A file.\n\nstruct Grows;\n",
        }
        self.holds(
            types.names_of_types(self.tree(files), {}),
            "crates/urb_c/src/lib.rt:3: `Grows` is also a type of urb_a",
            "crates/urb_b/src/rings.rt:2: `Ring` is also a type of urb_a",
        )

    def test_names_that_no_crate_publishes_may_be_repeated(self) -> None:
        files = {
            "crates/urb_a/src/lib.rt": FIRST,
            "crates/urb_b/src/lib.rt": "struct Step;\ntype Row = u8;\ntrait Item {}\n",
        }
        self.holds(types.names_of_types(self.tree(files), {}))

    def test_a_name_may_be_allowed_for_a_reason(self) -> None:
        files = {
            "crates/urb_a/src/lib.rt": FIRST,
            "crates/urb_b/src/lib.rt": "struct Ring;\n",
        }
        allowed = {"Ring": "it is private", "Grows": "it was private"}
        self.holds(
            types.names_of_types(self.tree(files), allowed),
            "tools/checks/types.py: `Grows` is a type of one crate alone",
        )

    def test_tests_and_what_rt_makes_are_left_out(self) -> None:
        files = {
            "crates/urb_a/src/lib.rt": FIRST,
            "crates/urb_a_tests/src/lib.rt": "pub struct Ring;\n",
            "crates/urb_b/out/src/lib.rt": "pub struct Ring;\n",
        }
        self.holds(types.names_of_types(self.tree(files), {}))


if __name__ == "__main__":
    unittest.main()
