"""What is held of source files."""
from __future__ import annotations

import unittest

from tools.checks import sources
from tools.tests.trees import TreeTest


def contract_of(count: int, body: str = "{}") -> str:
    """A file with a function whose contract has so many lines."""
    lines = ["//! A file.", "/// Says.", "pub fn says()"]
    lines += [f"    ensures {'e' * (at + 1)} {{ true }}" for at in range(count)]
    return "\n".join([*lines, body, ""])


class Contracts(TreeTest):
    def test_a_contract_over_an_empty_body_is_measured(self) -> None:
        tree = self.tree({"crates/a/src/lib.rt": contract_of(21)})
        place = "crates/a/src/lib.rt:3"
        self.holds(
            sources.contracts(tree), f"{place}: the contract of `says` has 21 lines, over 20"
        )

    def test_a_contract_at_the_limit_passes(self) -> None:
        tree = self.tree({"crates/a/src/lib.rt": contract_of(20, "{\n    1\n}")})
        self.holds(sources.contracts(tree))

    def test_a_worked_example_may_be_longer(self) -> None:
        files = {
            "crates/a/src/worked/runs.rt": contract_of(100),
            "crates/a/src/worked/long.rt": contract_of(101),
        }
        self.holds(
            sources.contracts(self.tree(files)),
            "crates/a/src/worked/long.rt:3: the contract of `says` has 101 lines, over 100",
        )

    def test_what_rt_makes_is_no_source(self) -> None:
        self.holds(sources.contracts(self.tree({"crates/a/out/src/lib.rt": contract_of(21)})))


class Files(TreeTest):
    def test_a_file_begins_with_its_idea_and_is_short(self) -> None:
        files = {
            "crates/a/src/lib.rt": "fn f() {}\n",
            "crates/a/src/long.rt": "//! Long.\n" + "// x\n" * 400,
            "crates/a/specs/Long.antt": "-- x\n" * 401,
        }
        self.holds(
            sources.source_files(self.tree(files)),
            "crates/a/src/lib.rt:1: the first line is no `//!`",
            "crates/a/src/long.rt: 401 lines",
            "crates/a/specs/Long.antt: 401 lines",
        )

    def test_a_public_function_has_a_comment(self) -> None:
        text = """
            //! A file.
            /// Has one.
            #[inline]
            pub fn told() {}
            pub fn untold() {}
            fn private() {}
        """
        files = {"crates/a/src/lib.rt": text, "crates/a_tests/src/tests/x.rt": text}
        self.holds(
            sources.source_files(self.tree(files)),
            "crates/a/src/lib.rt:5: a public function without a comment",
        )


if __name__ == "__main__":
    unittest.main()
