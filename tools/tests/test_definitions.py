"""The page of definitions, and which definitions are to be believed."""
from __future__ import annotations

import unittest
from unittest import mock

from tools import believed, check, definitions
from tools.tests.trees import TreeTest
from tools.tree import Tree

NAMES = """
    -- Names of messages.
    use Rattle.std.specs.Prelude.{ℕ}

    -- a name: its sender and its number
    pub record Label : Type 0 where
      pub sender : ℕ
      pub seq : ℕ

    -- ---- numbers

    -- the next number
    abbrev pub next : ℕ → ℕ
    next n = suc n
"""
HELPING = """
    -- Helps proofs.
    use Rattle.urb_a.specs.Names.{Label}

    -- helps
    abbrev pub helps : Label → Label
    helps x = x
"""
SOURCE = """
    //! A.
    ghost use Rattle.urb_a.specs.Names.{next, Label};
    pub mod steps;
    pub use steps::step;
    /// Steps.
    pub fn step(n: u8) -> u8
        ensures stepped { result ≡ next n.now }
        ensures named { (x : Label) → true }
    {
        n
    }
"""
PAGE = """
    # Definitions

    ## `urb_a`

    ### `crates/urb_a/specs/Names.antt`

    Names of messages.

    - `Label`: a name: its sender and its number. Source: the book.

    *numbers:*

    - `next`: the next number.

    ### `crates/urb_a/specs/internal/Helping.antt`

    Helps proofs.

    - `helps`: helps.
"""


class DefinitionsTest(TreeTest):
    def files(self) -> dict[str, str]:
        return {
            "crates/urb_a/specs/Names.antt": NAMES,
            "crates/urb_a/specs/internal/Helping.antt": HELPING,
            "crates/urb_a/src/lib.rt": SOURCE,
            "docs/DEFINITIONS.md": PAGE,
        }

    def stale(self, tree: Tree) -> list[str]:
        text = tree.text_of(definitions.PAGE)
        return [str(it) for it in definitions.stale(tree, text)]


class Page(DefinitionsTest):
    def test_a_page_that_is_right(self) -> None:
        self.assertEqual(self.stale(self.tree(self.files())), [])

    def test_a_changed_sentence_is_copied_and_its_source_stays(self) -> None:
        files = self.files()
        files["crates/urb_a/specs/Names.antt"] = NAMES.replace("its number", "its place")
        tree = self.tree(files)
        self.assertEqual(
            self.stale(tree),
            [
                "docs/DEFINITIONS.md:9: not as in the files of specs/;"
                " run python3 -m tools definitions --write"
            ],
        )
        self.assertEqual(definitions.main(["--write"], tree), 0)
        line = "- `Label`: a name: its sender and its place. Source: the book."
        self.assertIn(line, tree.text_of(definitions.PAGE))
        self.assertEqual(self.stale(tree), [])

    def test_a_file_without_a_heading_and_one_out_of_order(self) -> None:
        files = self.files()
        files["crates/urb_a/specs/Other.antt"] = "-- Other.\n\n-- x\nabbrev pub x : ℕ\n"
        head, first, second = PAGE.split("    ### ")
        files["docs/DEFINITIONS.md"] = "    ### ".join([head, second + "\n", first.rstrip() + "\n"])
        told = self.stale(self.tree(files))
        self.assertIn(
            "docs/DEFINITIONS.md: has not exactly one heading for crates/urb_a/specs/Other.antt",
            told,
        )
        self.assertTrue(any("Helping.antt before crates/urb_a/specs/Names" in it for it in told))

    def test_a_definition_needs_its_sentence(self) -> None:
        files = self.files()
        files["crates/urb_a/specs/Names.antt"] = NAMES.replace("    -- the next number\n", "")
        found = [str(it) for it in check.sentences_of_specs(self.tree(files))]
        self.assertIn("crates/urb_a/specs/Names.antt:11: `next` has no sentence", found)

    def test_lines_that_define(self) -> None:
        cases = {
            "pub record Label : Type 0 where": "Label",
            "abbrev pub next : ℕ → ℕ": "next",
            "  abbrev pub Plays : Clustered S": "Plays",
            "pub data Act : Type 0 where": "Act",
            "    pub sender : ℕ": None,
            "pub use Rattle.std": None,
            "next n = suc n": None,
        }
        for line, name in cases.items():
            with self.subTest(line):
                self.assertEqual(definitions.defined(line), name)


class Believed(DefinitionsTest):
    def test_the_head_of_an_impl_may_have_more_lines(self) -> None:
        cases: dict[tuple[str, ...], tuple[str, str]] = {
            ("impl<A: X> Model for Desk<A> {",): ("impl of a trait", "Desk"),
            ("impl<A: X> Model", "    for Desk<A>", "{"): ("impl of a trait", "Desk"),
            ("impl<A: X>", "    Desk<A>", "{", "fn x() {"): ("impl", "Desk"),
        }
        for lines, owner in cases.items():
            with self.subTest(lines):
                item = believed.item_at(lines, 0)
                assert item is not None
                self.assertEqual(believed.owner_of(item), owner)

    def test_all_stand_where_they_belong(self) -> None:
        self.holds(believed.misfits(believed.Specs(self.tree(self.files()))))

    def test_definitions_in_the_wrong_folder(self) -> None:
        files = self.files()
        files["crates/urb_a/specs/Helping.antt"] = files.pop(
            "crates/urb_a/specs/internal/Helping.antt"
        )
        text = files.pop("crates/urb_a/specs/Names.antt")
        files["crates/urb_a/specs/internal/Names.antt"] = text
        for name in files:
            files[name] = files[name].replace("specs.Names", "specs.internal.Names")
        self.holds(
            believed.misfits(believed.Specs(self.tree(files))),
            "crates/urb_a/specs/Helping.antt:5: `helps` belongs in specs/internal/:"
            " no public contract rests on it",
            "crates/urb_a/specs/internal/Names.antt:5: `Label` has to be believed:"
            " `step` in crates/urb_a/src/lib.rt cites it",
            "crates/urb_a/specs/internal/Names.antt:12: `next` has to be believed:"
            " `step` in crates/urb_a/src/lib.rt cites it",
        )

    def test_what_a_function_rests_on_and_why(self) -> None:
        specs = believed.Specs(self.tree(self.files()))
        names = {it.name for it in believed.under_names(specs, ["step"])}
        self.assertEqual(names, {"Label", "next"})
        self.assertEqual(
            {it.name for it in believed.under_names(specs, ["helps"])}, {"helps", "Label"}
        )
        self.assertEqual(
            list(believed.explanations(specs, "next")),
            ["urb_a, Names: `next`, cited by `step` in crates/urb_a/src/lib.rt"],
        )
        self.assertEqual(
            list(believed.explanations(specs, "helps")),
            ["urb_a, internal.Helping: `helps`, cited by no public contract"],
        )

    def test_a_private_function_makes_nothing_believed(self) -> None:
        files = self.files()
        files["crates/urb_a/src/lib.rt"] = SOURCE.replace("pub fn step", "fn step")
        found = [it.text for it in believed.misfits(believed.Specs(self.tree(files)))]
        self.assertEqual(len(found), 2)

    def test_pages_count_the_headline(self) -> None:
        files = self.files()
        files["README.md"] = "The headline rests on 2 of\nthem.\n"
        files["docs/READING.md"] = "Those are 3 definitions in 1 files.\n"
        with mock.patch.object(check, "HEADLINE", ("step",)):
            self.holds(
                check.believed_definitions(self.tree(files)),
                "docs/READING.md: the headline rests on 2 definitions",
            )


if __name__ == "__main__":
    unittest.main()
