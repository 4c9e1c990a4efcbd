"""Lemmas that are stated twice."""
from __future__ import annotations

import unittest

from tools.checks import twins
from tools.tests.trees import TreeTest

FIRST = """\
-- Lists.
use Rattle.std.proofs.Common.{List, length, suc, ◌≡◌}
use Rattle.urb_a.specs.Rows.{row}

-- one more
pub one_longer : {A : Type 0} (xs : List A) (y : A)
    → length (xs ++ y ∷ []) ≡ suc (length xs)
one_longer [] y = refl

module _ (w : World) (inv : Kept
    w) where
  held : (λ p. row w p) ≡ row w
  held = refl
"""


def file(crate: str, name: str) -> str:
    return f"crates/{crate}/proofs/{name}.antt"


class Twins(TreeTest):
    def told(self, second: str, *misfits: str) -> None:
        files = {file("urb_a", "Lists"): FIRST, file("urb_b", "More"): second}
        self.holds(twins.no_twins(self.tree(files)), *misfits)

    def test_names_of_variables_and_lemmas_make_no_difference(self) -> None:
        self.told(
            "longer : {X : Type 0} (ys : List X) (x : X) → length (ys ++ x ∷ [])\n"
            "    ≡ suc (length ys)\nlonger [] x = refl\n",
            "crates/urb_b/proofs/More.antt:1: `longer` states what `one_longer` at"
            " crates/urb_a/proofs/Lists.antt:6 states",
        )

    def test_another_order_or_another_word_makes_one(self) -> None:
        self.told(
            "a : {X : Type 0} (x : X) (ys : List X) → length (ys ++ x ∷ []) ≡ suc (length ys)\n"
        )
        self.told(
            "a : {X : Type 0} (ys : List X) (x : X) → length (ys ++ x ∷ []) ≡ 1 + length ys\n"
        )

    def test_the_parameters_of_a_module_stand_in_front(self) -> None:
        same = "  there : (λ q. row v q) ≡ row v\n"
        use = "use Rattle.urb_a.specs.Rows.{row}\n"
        self.told(
            f"{use}module _ (v : World) (i : Kept v) where\n{same}",
            "crates/urb_b/proofs/More.antt:3: `there` states what `held` at"
            " crates/urb_a/proofs/Lists.antt:12 states",
        )
        self.told(f"{use}module _ (v : World) where\n{same}")

    def test_a_word_means_what_its_file_declares_or_imports(self) -> None:
        rest = "module _ (w : World) (inv : Kept w) where\n  held : (λ p. row w p) ≡ row w\n"
        self.told(f"use Rattle.urb_b.specs.Rows.{{row}}\n{rest}")
        self.told(f"abbrev row : ℕ\nrow = 0\n\n{rest}")

    def test_lemmas_of_a_where_and_answers_are_left_out(self) -> None:
        lemma = "{A : Type 0} (xs : List A) (y : A) → length (xs ++ y ∷ []) ≡ suc (length xs)"
        self.told(f"other : ℕ\nother = 0\n  where\n    longer : {lemma}\n")
        files = {
            file("urb_a", "Lists"): FIRST,
            file("urb_b", "longer/Answers"): f"longer : {lemma}\n",
            file("urb_b", "worked/lists"): f"longer : {lemma}\n",
        }
        self.holds(twins.no_twins(self.tree(files)))


if __name__ == "__main__":
    unittest.main()
