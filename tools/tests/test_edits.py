"""What is held of edits, and how wrong bodies are tried."""
from __future__ import annotations

import subprocess
import tempfile
import unittest
from pathlib import Path
from unittest import mock

from tools import wrong_bodies
from tools.checks import edits
from tools.tests.trees import TreeTest

GUARANTEES = """
    # What is proved

    There are 1 edits in `must-fail/` and 2 in `wrong-bodies/`. There are 1 parts.

    ## `urb_a`

    - It adds.
      - Clause: `sum` of `add`
      - Edits: `adds_nothing`, `adds_twice`, `forgets`
"""
README = "the 1 in `crates/*/must-fail/` and a part of the 2 in `wrong-bodies/`\n"
SOURCE = "//! A.\n/// Adds.\npub fn add() -> u8\n    ensures sum { true }\n{\n    1 + 1\n}\n"


class Edits(TreeTest):
    def files(self) -> dict[str, str]:
        edit = "file: src/lib.rt\nold:     1 + 1\nnew:     1 + 2\n"
        return {
            "docs/GUARANTEES.md": GUARANTEES,
            "README.md": README,
            "crates/urb_a/src/lib.rt": SOURCE,
            "crates/urb_a/must-fail/forgets.edit": edit,
            "crates/urb_a/wrong-bodies/adds_nothing.edit": edit,
            "crates/urb_a/wrong-bodies/adds_twice.edit": edit,
        }

    def test_all_is_well(self) -> None:
        tree = self.tree(self.files())
        for check in (edits.edit_texts, edits.named_edits, edits.told_edits, edits.counted_edits):
            with self.subTest(check.__name__):
                self.holds(check(tree))

    def test_texts_that_cannot_be_replaced(self) -> None:
        files = self.files()
        folder = "crates/urb_a/must-fail"
        files[f"{folder}/forgets.edit"] = "file: src/no.rt\n"
        files[f"{folder}/gone.edit"] = "file: src/lib.rt\nold: 1 + 3\nnew: 0\n"
        files[f"{folder}/twice.edit"] = "file: src/lib.rt\nold: 1\nnew: 0\n"
        self.holds(
            edits.edit_texts(self.tree(files)),
            f"{folder}/forgets.edit:1: there is no src/no.rt",
            f"{folder}/gone.edit:2: its text stands 0 times",
            f"{folder}/twice.edit:2: its text stands 2 times",
        )

    def test_a_second_pair_applies_to_what_the_first_made(self) -> None:
        files = self.files()
        files[
            "crates/urb_a/must-fail/forgets.edit"
        ] = "file: src/lib.rt\nold:     1 + 1\nnew:     3\nold:     3\nnew:     4\n"
        self.holds(edits.edit_texts(self.tree(files)))

    def test_names_and_counts_that_differ(self) -> None:
        files = self.files()
        del files["crates/urb_a/wrong-bodies/adds_twice.edit"]
        files["crates/urb_b/must-fail/untold.edit"] = ""
        tree = self.tree(files)
        self.holds(
            edits.named_edits(tree),
            "docs/GUARANTEES.md:7: there is no edit `adds_twice` of urb_a",
        )
        self.holds(
            edits.told_edits(tree),
            "crates/urb_b/must-fail/untold.edit: an edit that GUARANTEES doesn't name",
        )
        told = "there are 2 edits in `must-fail/` and 1 in `wrong-bodies/`"
        self.holds(edits.counted_edits(tree), f"docs/GUARANTEES.md: {told}", f"README.md: {told}")


class WrongBodies(TreeTest):
    def files(self, count: int) -> dict[str, str]:
        files = {f"crates/urb_a/wrong-bodies/e{at:02}.edit": "new: 1\n" for at in range(count)}
        files["crates/urb_a/must-fail/gate.edit"] = "new: 0\n"
        files["crates/urb_a/out/large"] = "x"
        files["crates.txt"] = "urb_a:\n"
        return files

    def test_parts_are_of_one_crate_and_of_bounded_size(self) -> None:
        files = self.files(9)
        files["crates/urb_worker/wrong-bodies/x.edit"] = ""
        found = wrong_bodies.parts(self.tree(files))
        sizes = [(part.crate.name, len(part.edits)) for part in found]
        self.assertEqual(sizes, [("urb_a", 8), ("urb_a", 1), ("urb_worker", 1)])

    def test_the_hash_chooses_a_part(self) -> None:
        tree = self.tree(self.files(9))
        self.assertEqual(len(wrong_bodies.chosen_part(tree, "0" * 40).edits), 8)
        self.assertEqual(len(wrong_bodies.chosen_part(tree, f"{1:012x}" + "f" * 28).edits), 1)

    def test_a_sample_comes_and_goes(self) -> None:
        files = self.files(2)
        del files["crates/urb_a/must-fail/gate.edit"]
        tree = self.tree(files)
        done = subprocess.CompletedProcess([], 0, stdout="0" * 40 + "\n")
        with mock.patch("subprocess.run", return_value=done), mock.patch("builtins.print"):
            wrong_bodies.sample(tree)
        names = [path.name for path in tree.files("crates/urb_a/must-fail/*")]
        self.assertEqual(names, ["sample_e00.edit", "sample_e01.edit"])
        wrong_bodies.clear(tree)
        self.assertFalse(tree.has("crates/urb_a/must-fail"))
        self.assertEqual(len(tree.files("crates/urb_a/wrong-bodies/*")), 2)

    def test_clear_leaves_the_gates_own_edits(self) -> None:
        tree = self.tree({**self.files(1), "crates/urb_a/must-fail/sample_e00.edit": ""})
        wrong_bodies.clear(tree)
        self.assertTrue(tree.has("crates/urb_a/must-fail/gate.edit"))

    def test_a_copy_has_the_wrong_bodies_alone(self) -> None:
        kept = {"crates/urb_a/out/rlib/stamp": "1", "crates/urb_a/out/incremental/x": "2"}
        tree = self.tree({**self.files(1), **kept})
        with tempfile.TemporaryDirectory() as room:
            copy = wrong_bodies.copy_of(tree, Path(room))
            names = [path.name for path in copy.files("crates/urb_a/must-fail/*")]
            self.assertEqual(names, ["e00.edit"])
            self.assertTrue(copy.has("crates.txt"))
            self.assertTrue(copy.has("crates/urb_a/out/rlib/stamp"))
            self.assertFalse(copy.has("crates/urb_a/out/incremental"))
        self.assertTrue(tree.has("crates/urb_a/must-fail/gate.edit"))
        self.assertTrue(tree.has("crates/urb_a/wrong-bodies/e00.edit"))

    def test_what_rt_says_is_counted(self) -> None:
        said = """
            rt: urb_a/a.edit: refused, as it must be
            rt: urb_a/b.edit: refused, as it must be: a proof names it, so this says nothing
            rt: urb_a/c.edit: NOT REFUSED
            rt: urb_a/d.edit: BAD EDIT: no such text
        """
        found = wrong_bodies.outcome_of(said, 1)
        self.assertEqual((found.refused, len(found.weakly), len(found.wrong)), (2, 1, 2))

    def test_a_run_that_failed_counts_as_wrong(self) -> None:
        self.assertEqual(wrong_bodies.outcome_of("one\ntwo\n", 1).wrong, ["one", "two"])
        self.assertEqual(len(wrong_bodies.outcome_of("", 2).wrong), 1)

    def test_an_unknown_crate(self) -> None:
        with mock.patch("builtins.print") as told:
            self.assertEqual(wrong_bodies.main(["urb_none"], self.tree(self.files(1))), 2)
        told.assert_called_once_with("no wrong bodies of urb_none")


if __name__ == "__main__":
    unittest.main()
