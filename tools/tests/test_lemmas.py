"""The page of lemmas, and what is held of proofs."""
from __future__ import annotations

import unittest

from tools import lemmas
from tools.checks import lemmas as checks
from tools.tests.trees import TreeTest
from tools.tree import Tree

LIB = """
    -- Sums never shrink (`grows`), and each is even (`even`, `twice`). Read Sums first.
    pub mod Sums
    mod turns
"""
TURNS = """
    -- Turns of a wheel.
    pub mod Wheels
"""
SUMS = """
    -- Sums of numbers.
    use Rattle.std.specs.Prelude.{ℕ}

    -- what holds of a sum
    pub record Sum (n : ℕ)
        (m : ℕ) : Type 0 where
      pub size : n ≤ m

    -- ---- two parts

    -- a sum is at least
    -- its first part
    pub grows : (n m : ℕ) → n ≤ n + m
    grows n m = omega arith

    module _ {X : Type 0} where
      -- Twice a number is even.
      pub even : (n : ℕ) → n + n ≡ 2 * n
      even n = omega arith

    private : (n : ℕ) → n ≡ n
    private n = refl
"""
WHEELS = """
    -- Wheels.

    -- ---- no sentence
    pub twice : (n : ℕ) → n ≡ n
    twice n = refl
"""
PAGE = """\
## urb_a

Sums never shrink (`grows`), and each is even (`even`, `twice`). Read Sums first.

### `Sums`

Sums of numbers.

- `grows`: a sum is at least its first part.
- `even`: Twice a number is even.
"""


class LemmasTest(TreeTest):
    def files(self) -> dict[str, str]:
        return {
            "crates.txt": "# the crates\nurb_b:\nurb_a staticlib: urb_b\n",
            "crates/urb_a/proofs/Lib.antt": LIB,
            "crates/urb_a/proofs/Sums.antt": SUMS,
            "crates/urb_a/proofs/turns.antt": TURNS,
            "crates/urb_a/proofs/turns/Wheels.antt": WHEELS,
            "crates/urb_a/proofs/sum/Answers.antt": "pub made : ℕ\n",
            "crates/urb_a/specs/Lib.antt": "pub mod Numbers\n",
            "crates/urb_a/specs/Numbers.antt": "-- Numbers.\n",
            "docs/LEMMAS.md": lemmas.BEGIN + "\n" + PAGE,
        }


class Page(LemmasTest):
    def test_lemmas_and_their_sentences(self) -> None:
        tree = self.tree(self.files())
        found = lemmas.lemmas_of(tree.crates / "urb_a/proofs/Sums.antt")
        told = [(it.name, it.text, it.line) for it in found]
        self.assertEqual(
            told,
            [
                ("grows", "a sum is at least its first part", 13),
                ("even", "Twice a number is even.", 18),
            ],
        )

    def test_files_in_the_order_of_their_lists(self) -> None:
        files = self.files()
        files["crates/urb_a/proofs/sum/Proof.antt"] = "pub made : ℕ\n"
        tree = self.tree(files)
        names = [tree.name_of(path) for path in lemmas.proofs_of(tree, "urb_a")]
        self.assertEqual(
            names,
            [
                "crates/urb_a/proofs/Sums.antt",
                "crates/urb_a/proofs/turns/Wheels.antt",
                "crates/urb_a/proofs/sum/Proof.antt",
            ],
        )

    def test_a_page_that_is_right(self) -> None:
        self.holds(checks.page(self.tree(self.files())))

    def test_a_changed_sentence_is_copied(self) -> None:
        files = self.files()
        files["crates/urb_a/proofs/Sums.antt"] = SUMS.replace("first part", "greater part")
        tree = self.tree(files)
        line = len(lemmas.BEGIN.splitlines()) + 10
        self.holds(
            checks.page(tree),
            f"docs/LEMMAS.md:{line}: not as in the files of proofs/;"
            " run python3 -m tools lemmas --write",
        )
        self.assertEqual(lemmas.main(["--write"], tree), 0)
        self.assertIn("- `grows`: a sum is at least its greater part.", tree.text_of(lemmas.PAGE))

    def test_a_page_that_is_too_short(self) -> None:
        files = self.files()
        files["docs/LEMMAS.md"] = files["docs/LEMMAS.md"].replace("- `even`", "- `odd`")
        self.assertEqual(len(list(checks.page(self.tree(files)))), 1)
        del files["docs/LEMMAS.md"]
        tree = self.tree(files)
        self.assertEqual(len(list(checks.page(tree))), 1)


class Held(LemmasTest):
    def sentences(self, tree: Tree) -> list[str]:
        return [str(it) for it in checks.sentences_of_lemmas(tree, ["urb_a"])]

    def test_a_lemma_needs_its_sentence(self) -> None:
        self.assertEqual(
            self.sentences(self.tree(self.files())),
            ["crates/urb_a/proofs/turns/Wheels.antt:4: `twice` has no sentence"],
        )

    def test_a_crate_without_proofs(self) -> None:
        self.holds(
            checks.sentences_of_lemmas(self.tree(self.files()), ["urb_c"]),
            "urb_c: should have sentences above its lemmas, but has no proofs",
        )

    def test_a_head_names_lemmas_that_are_there(self) -> None:
        files = self.files()
        self.holds(checks.heads_of_proofs(self.tree(files), ["urb_a"]))
        files["crates/urb_a/proofs/Lib.antt"] = LIB.replace("`twice`", "`thrice`")
        self.holds(
            checks.heads_of_proofs(self.tree(files), ["urb_a"]),
            "crates/urb_a/proofs/Lib.antt:1: there is no lemma `thrice`",
        )
        files["crates/urb_a/proofs/Lib.antt"] = "pub mod Sums\n"
        self.holds(
            checks.heads_of_proofs(self.tree(files), ["urb_a"]),
            "crates/urb_a/proofs/Lib.antt:1: no comment at its head says what the crate proves",
        )

    def test_files_with_one_name(self) -> None:
        files = self.files()
        self.holds(checks.names_of_files(self.tree(files), ["urb_a"]))
        files["crates/urb_a/specs/internal/Sums.antt"] = "-- Sums.\n"
        files["crates/urb_a/proofs/product/Answers.antt"] = ""
        self.holds(
            checks.names_of_files(self.tree(files), ["urb_a"]),
            "crates/urb_a/proofs/Sums.antt: has the name of"
            " crates/urb_a/specs/internal/Sums.antt",
        )


if __name__ == "__main__":
    unittest.main()
