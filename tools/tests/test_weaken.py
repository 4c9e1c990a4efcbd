"""Wrong versions of definitions, by each rule, and what refuses them."""
from __future__ import annotations

import unittest

from tools import weaken, weakening
from tools.believed import Specs
from tools.tests.trees import TreeTest
from tools.weakening import Rules, Version, changed_file

WORLD = """
    -- A world.
    use Rattle.std.specs.Prelude.{List, Option, Some, None, Bool, if◌then◌else◌, ◌≡◌, ◌&&◌, ℕ}

    -- limits
    pub record Limits : Type 0 where
      pub n : ℕ

    -- a message
    pub record Content : Type 0 where
      pub payload : List ℕ

    -- a world
    pub record World : Type 0 where
      pub size : Limits
      pub stored : ℕ → List Content  -- by node

    -- every log is in order
    pub record Safe (w : World) : Type 0 where
      pub in_order : (p : ℕ) → IsKnown w p
          → w.stored p ≡ w.stored p
      pub no_twice : w.size ≡ w.size

    -- few nodes, in a record whose fields stand further in
    pub record IsFew (w : World) : Type 0
      where
        pub few : w.size.n ≤ 2
        pub known : (p : ℕ) → IsKnown w p
            → p ≡ p

    -- the node is known
    abbrev pub IsKnown : World → ℕ → Type 0
    IsKnown w p = (w.size ≡ w.size) × (p ≡ p)

    -- nothing, and never
    abbrev pub IsOpen : World → Option ℕ → Type 0
    IsOpen w None = Unit {0}
    IsOpen w (Some p) = ⊥

    -- all contents are the same
    abbrev pub AreSame : ℕ → Type 0
    AreSame p = (m o : Content) → m ≡ o

    -- whether both are set
    abbrev pub both : Bool → Bool → Bool
    both a b = a && b

    -- the messages, if there are any
    abbrev pub messages : Option (List ℕ) → List ℕ → List ℕ
    messages None rest = rest
    messages (Some them) rest = if both rest rest then them else rest

    -- all nodes are known, with some number
    abbrev pub AllKnown : World → Type 0
    AllKnown w = (p : ℕ) → IsKnown w p → (k : Option ℕ) × (p ≡ p) × IsKnown w p

    -- one of two, if both are set
    abbrev pub one_of : Bool → Bool → Bool → Bool
    one_of a b c = if a && b then c else a

    -- a node's log and its number
    abbrev pub Shown : Type 0
    Shown = List ℕ × ℕ

    -- a log and a number, by a node
    abbrev pub shown : ℕ → List ℕ × ℕ
    shown p = ([], p)

    -- a value in a world
    abbrev pub IsIn : {A : Type 0} → World → A → Type 0
    IsIn w a = a ≡ a

    -- a case
    pub data Kind : Type 0 where
      One : Kind

    -- the number is one of a world
    abbrev pub IsOf : Option ℕ → World → World → Type 0
    IsOf (option.Some p) old new = old ≡ new
    IsOf None old new = new ≡ old
"""


class WeakeningTest(TreeTest):
    def setUp(self) -> None:
        files = {"crates/urb_a/specs/World.antt": WORLD, "crates.txt": "urb_a:\nurb_b: urb_a\n"}
        self.specs = Specs(self.tree(files))
        self.rules = Rules(self.specs)

    def versions(self, name: str) -> list[Version]:
        definition = next(it for it in self.specs.text if it.name == name)
        return list(self.rules.versions_of(definition))

    def texts(self, name: str, rule: str) -> list[str]:
        """The texts of a definition's versions by one rule, on one line each."""
        return [" ".join(it.text.split()) for it in self.versions(name) if it.rule == rule]


class Making(WeakeningTest):
    def test_a_field_that_is_a_claim_says_nothing(self) -> None:
        first, second = self.texts("Safe", "unit")
        head = "pub record Safe (w : World) : Type 0 where"
        self.assertTrue(first.startswith(f"{head} pub in_order : Unit {{0}} pub no_twice : w.size"))
        self.assertTrue(second.endswith("pub no_twice : Unit {0}"))

    def test_data_stays_as_it_is(self) -> None:
        for name in ("Limits", "World", "Content", "Kind"):
            self.assertEqual(self.versions(name), [], name)

    def test_a_part_of_a_product_or_a_conjunction(self) -> None:
        head = "abbrev pub IsKnown : World → ℕ → Type 0 IsKnown w p = "
        expected = [f"{head}Unit {{0}} × (p ≡ p)", f"{head}(w.size ≡ w.size) × Unit {{0}}"]
        self.assertEqual(self.texts("IsKnown", "unit"), expected)
        self.assertEqual(
            [it.rpartition("= ")[2] for it in self.texts("both", "unit")],
            ["true && b", "a && true"],
        )

    def test_a_part_of_the_test_of_a_choice(self) -> None:
        self.assertEqual(
            [it.rpartition("c = ")[2] for it in self.texts("one_of", "unit")],
            ["if true && b then c else a", "if a && true then c else a"],
        )

    def test_a_part_of_what_premises_lead_to(self) -> None:
        head = "(p : ℕ) → IsKnown w p → (k : Option ℕ)"
        expected = [f"{head} × Unit {{0}} × IsKnown w p", f"{head} × (p ≡ p) × Unit {{0}}"]
        found = [it.rpartition("w = ")[2] for it in self.texts("AllKnown", "unit")]
        self.assertEqual(found, expected)

    def test_a_type_of_values_and_a_pair_are_no_claims_and_no_lists(self) -> None:
        self.assertEqual(self.versions("Shown"), [])
        self.assertEqual(self.versions("shown"), [])

    def test_the_words_name_the_case_if_there_are_several(self) -> None:
        self.assertIn("false of four nodes in case 1", [it.what for it in self.versions("IsOpen")])
        self.assertEqual([it.what for it in self.versions("both")], ["without `a`", "without `b`"])

    def test_a_premise_is_left_out(self) -> None:
        found = self.texts("Safe", "premise")
        self.assertEqual(len(found), 1)
        self.assertIn("in_order : (p : ℕ) → w.stored p ≡ w.stored p", found[0])

    def test_four_nodes_and_more(self) -> None:
        false, nothing = self.texts("Safe", "few")
        self.assertIn("pub few : w.size.n ≤ 3 pub in_order", false)
        self.assertIn("pub no_twice : w.size.n ≤ 3 → (w.size ≡ w.size)", nothing)
        rights = [it.rpartition(" p = ")[2] for it in self.texts("IsKnown", "few")]
        body = "((w.size ≡ w.size) × (p ≡ p))"
        self.assertEqual(rights, [f"(w.size.n ≤ 3) × {body}", f"w.size.n ≤ 3 → {body}"])

    def test_fields_may_stand_further_in(self) -> None:
        few, known = self.texts("IsFew", "unit")
        claim = "(p : ℕ) → IsKnown w p → p ≡ p"
        self.assertTrue(few.endswith(f"where pub few : Unit {{0}} pub known : {claim}"))
        self.assertTrue(known.endswith("where pub few : w.size.n ≤ 2 pub known : Unit {0}"))
        (text,) = [it.text for it in self.versions("IsFew") if it.what == "false of four nodes"]
        lines = [line.rstrip() for line in text.split("\n")]
        added = ["    pub few_nodes : w.size.n ≤ 3", "    pub few : w.size.n ≤ 2"]
        self.assertEqual(lines[2:4], added)

    def test_a_type_that_is_left_out_is_no_world(self) -> None:
        false, _ = self.texts("IsIn", "few")
        self.assertTrue(false.endswith("IsIn w a = (w.size.n ≤ 3) × (a ≡ a)"), false)

    def test_an_argument_in_brackets_is_one_argument(self) -> None:
        texts = self.texts("IsOf", "few")
        self.assertEqual(len(texts), 4)
        self.assertIn("IsOf (option.Some p) old new = (old.size.n ≤ 3) × (old ≡ new)", texts[0])
        self.assertTrue(
            texts[3].endswith("IsOf None old new = old.size.n ≤ 3 → (new ≡ old)"), texts
        )

    def test_a_claim_of_nothing_and_a_false_one_have_one_version_each(self) -> None:
        false, nothing = self.texts("IsOpen", "few")
        self.assertIn("IsOpen w None = (w.size.n ≤ 3) × (Unit {0})", false)
        self.assertIn("IsOpen w (Some p) = w.size.n ≤ 3 → (⊥)", nothing)

    def test_long_payloads(self) -> None:
        (text,) = self.texts("AreSame", "few")
        self.assertTrue(text.endswith("(m o : Content) → length m.payload ≤ 1000 → m ≡ o"), text)

    def test_one_entry_of_a_list(self) -> None:
        (text,) = self.texts("messages", "one")
        self.assertIn("messages None rest = take 1 (rest)", text)

    def test_cases_are_exchanged_if_their_names_are_in_scope(self) -> None:
        (choice,) = self.texts("messages", "exchange")
        self.assertTrue(choice.endswith("if both rest rest then rest else them"), choice)

    def test_each_version_is_listed_once(self) -> None:
        for name in ("Safe", "IsKnown", "messages"):
            texts = [it.text for it in self.versions(name)]
            self.assertEqual(len(texts), len(set(texts)))


class Writing(WeakeningTest):
    def test_a_version_stands_in_the_place_of_its_definition(self) -> None:
        version = self.versions("both")[0]
        text = changed_file(self.specs, version)
        own = self.specs.files["urb_a", "World"].text
        changed = [line for line in text.split("\n") if line not in own.split("\n")]
        added = "use Rattle.std.specs.Prelude.{true}"
        self.assertEqual(changed, [added, "both a b = true && b"])
        self.assertEqual(len(text.split("\n")), len(own.split("\n")) + 1)

    def test_what_is_imported_is_not_imported_again(self) -> None:
        self.assertEqual(weakening.with_imports("use x\n", ()), "use x\n")
        file = "use Rattle.std.specs.Prelude.{true}\n"
        self.assertEqual(weakening.with_imports(file, ("true",)), file)


class Judging(TreeTest):
    SOURCE = """
        //! A.
        pub mod laws;
        /// Adds.
        pub fn add()
            ensures { true }
        {}

        fn private()
            ensures { true }
        {}
    """

    def judge(self, said: str, status: int = 1) -> tuple[str, str] | None:
        files = {
            "crates/urb_a/src/lib.rt": self.SOURCE,
            "crates/urb_a/src/worked/runs.rt": self.SOURCE,
            "crates/urb_a/src/laws.rt": self.SOURCE,
        }
        found = weaken.verdict_of(self.tree(files), "urb_a", said, status)
        return (found.word, found.by) if found else None

    def test_what_refuses(self) -> None:
        cases = {
            "src/lib.rt:4:5: error: not proved": ("refused", "clause `add` of urb_a"),
            "./src/worked/runs.rt:5:1: error": ("refused", "example `add` of urb_a"),
            "src/laws.rt:5:1: error": ("refused", "law `add` of urb_a"),
            "proofs/add/Answers.antt:1:1: error": ("refused", "clause `add` of urb_a"),
            "proofs/Lemmas.antt:1:1: error": ("only by a private proof", "proofs/Lemmas.antt"),
            "src/lib.rt:9:1: error": ("not tried", "src/lib.rt:9:1: error"),
            "specs/World.antt:1:1: error": ("not tried", "no definition: specs/World.antt"),
            "killed": ("not tried", "killed"),
            "fn urb_a::add: not proved": ("refused", "clause `add` of urb_a"),
            "fn urb_a::worked::runs::add: no proof: expected answers": (
                "refused",
                "example `add` of urb_a",
            ),
            "fn urb_a::add: no proof: it calls `urb_a::private`": (
                "not tried",
                "fn urb_a::add: no proof: it calls `urb_a::private`",
            ),
            "fn urb_a::private: not proved": ("only by a private function", "private"),
            "fn urb_b::add: not proved": ("only by a private function", "add"),
            "./proofs/add/Answers.antt:2:3: error: `sent` is not in scope: add\n"
            "fn urb_a::add: not proved": ("only by a private proof", "proofs/add/Answers.antt"),
            "so far: src/lib.rt:4:5: error": ("not tried", "so far: src/lib.rt:4:5: error"),
        }
        for said, expected in cases.items():
            with self.subTest(said):
                self.assertEqual(self.judge(said), expected)

    def test_a_check_that_passes_lets_it_through(self) -> None:
        self.assertIsNone(self.judge("proved", 0))

    def test_the_crates_above_come_in_order(self) -> None:
        lines = "low:\nother:\nmiddle: low\ntop: middle low\nmiddle_tests: middle\n"
        tree = self.tree({"crates.txt": lines})
        self.assertEqual(weaken.crates_above(tree, "low"), ["low", "middle", "top"])


if __name__ == "__main__":
    unittest.main()
