"""Wrong versions of definitions, tried on worked examples."""
from __future__ import annotations

import os
import tempfile
import textwrap
import unittest
from pathlib import Path
from unittest import mock

from tools import judging
from tools.believed import Definition, Specs
from tools.judging import Clause, Trial
from tools.tests.trees import TreeTest
from tools.weakening import Rules, Version

WORLD = """
    -- A world.
    use Rattle.std.specs.Prelude.{Bool, ◌≡◌, ◌&&◌, ℕ}

    -- a world
    pub record World : Type 0 where
      pub size : ℕ

    -- the world is good
    pub record Good (w : World) : Type 0 where
      pub size : w.size ≡ w.size

    -- both are set
    abbrev pub both : Bool → Bool → Bool
    both a b = a && b
"""

ABOVE = """
    -- What rests on it.
    use Rattle.urb_a.specs.World.{Good, World}

    -- the world is better
    abbrev pub Better : World → Type 0
    Better w = Good w
"""

WORKED = """
    //! Examples.
    ghost use Rattle.urb_a.specs.Above.{Better};
    ghost use Rattle.urb_a.specs.World.{Good, World, both};

    /// What is so.
    pub fn what_is_so()
        ensures of_any { (w : World) → Good w }
        ensures of_none { Good (record { size = 1 }) → ⊥ }
        ensures of_the_better { (w : World) → Better w → Good w }
        ensures both_are_set { both a b ≡ true }
    {}
"""

PROOF = textwrap.dedent(
    """
    use Rattle.urb_a.proofs.Runs.{kept}

    helper : ℕ
    helper = kept

    pub returns-clause-of_any : goal.returns-clause-of_any
    returns-clause-of_any c = helper

    pub returns-clause-of_none : goal.returns-clause-of_none
    returns-clause-of_none c = refl
    """
)


class JudgingTest(TreeTest):
    def setUp(self) -> None:
        self.files = self.tree(
            {
                "crates/urb_a/specs/World.antt": WORLD,
                "crates/urb_a/specs/Above.antt": ABOVE,
                "crates/urb_a/src/worked/runs.rt": WORKED,
                "crates.txt": "urb_a:\n",
            }
        )
        self.specs = Specs(self.files)
        (self.example,) = judging.examples_of(self.specs, "urb_a")

    def version(self, name: str, rule: str) -> Version:
        definition = next(it for it in self.specs.text if it.name == name)
        return next(it for it in Rules(self.specs).versions_of(definition) if it.rule == rule)

    def clause(self, name: str) -> Clause:
        return next(it for it in self.example.clauses if it.name == name)


class Clauses(JudgingTest):
    def test_they_are_cut_at_their_names(self) -> None:
        names = ["of_any", "of_none", "of_the_better", "both_are_set"]
        self.assertEqual([it.name for it in self.example.clauses], names)
        self.assertTrue(self.clause("of_none").is_denial)
        self.assertFalse(self.clause("both_are_set").is_denial)

    def test_a_weaker_claim_is_refused_where_it_is_a_premise(self) -> None:
        weaker = self.version("Good", "unit")
        found = [it.name for it in self.example.clauses if self.may_refuse(it, weaker)]
        self.assertEqual(found, ["of_none", "of_the_better"])

    def test_a_clause_on_small_groups_says_nothing_of_larger_ones(self) -> None:
        self.assertTrue(judging.is_small("Safe (opened (limits 3 10) images) → ⊥"))
        self.assertFalse(judging.is_small("Safe (opened (limits 4 10) images) → ⊥"))
        self.assertFalse(judging.is_small("(size : Limits) → Safe (started size)"))

    def test_another_test_is_refused_by_any_clause_about_it(self) -> None:
        self.assertTrue(self.may_refuse(self.clause("both_are_set"), self.version("both", "unit")))

    def may_refuse(self, clause: Clause, version: Version) -> bool:
        return judging.may_refuse(clause, version, self.specs)


class Cuts(JudgingTest):
    """A copy of an example has only the clauses that may refuse the version."""

    def test_of_an_example(self) -> None:
        text = judging.with_clauses(self.example.head, {"of_none"})
        self.assertEqual(
            text.splitlines(),
            [
                "pub fn what_is_so()",
                "    ensures of_none { Good (record { size = 1 }) → ⊥ }",
                judging.SECOND,
                "{}",
            ],
        )
        text = judging.with_clauses(self.example.head, {"of_none", "of_any"})
        self.assertEqual(text.count("ensures"), 2)

    def test_of_a_proof(self) -> None:
        text = judging.with_answers(PROOF, {"of_none"})
        self.assertIn("helper = kept", text)
        self.assertIn("returns-clause-of_none c", text)
        self.assertNotIn("of_any", text)
        self.assertEqual(judging.with_answers(PROOF, {"of_the_better"}), "")

    def test_of_a_proof_with_a_long_name(self) -> None:
        name = "returns-clause-of_all"
        proof = f"{PROOF}\npub {name}\n    : goal.{name}\n{name} c = helper\n"
        self.assertIn(f"{name} c", judging.with_answers(proof, {"of_all"}))
        self.assertNotIn(name, judging.with_answers(proof, {"of_none"}))


class Copies(JudgingTest):
    def test_a_moved_name_is_imported_from_its_new_place(self) -> None:
        text = "ghost use Rattle.urb_a.specs.World.{Good, World};\nghost use Rattle.std.x.{y};\n"
        expected = (
            "ghost use Rattle.urb_a.specs.internal.Wrong1_0.{Good};\n"
            "ghost use Rattle.urb_a.specs.World.{World};\n"
            "ghost use Rattle.std.x.{y};\n"
        )
        moved = {("urb_a", "World", "Good"): "Rattle.urb_a.specs.internal.Wrong1_0"}
        self.assertEqual(judging.redirected(text, moved), expected)

    def test_a_copy_imports_of_what_a_crate_declares_only_what_it_cites(self) -> None:
        own = "use Rattle.urb_a.specs.declared.batch.End."
        self.assertFalse(judging.is_nameable(f"{own}{{End}}\n", "works n (job ∷ jobs)"))
        self.assertTrue(judging.is_nameable(f"{own}{{End}}\n", "f : End → ℕ"))
        self.assertTrue(judging.is_nameable(f"{own}TheVariants as end\n", "f end.Full = 1"))
        self.assertTrue(judging.is_nameable("use Rattle.urb_a.specs.World.{Good}\n", ""))

    def test_clauses_that_rest_on_a_declaration(self) -> None:
        self.assertEqual(judging.resting_on(PROOF, "helper"), ["returns-clause-of_any"])
        self.assertEqual(judging.resting_on(PROOF, "kept"), ["returns-clause-of_any"])

    def test_lemmas_of_the_own_crate_may_speak_of_a_definition(self) -> None:
        proof = "use Rattle.urb_a.proofs.Runs.{kept}\nuse Rattle.urb_low.proofs.Lists.{ends}\n"
        self.assertEqual(judging.foreign_lemmas(proof, {"urb_low"}), {"kept"})
        self.assertEqual(judging.foreign_lemmas(proof, set()), {"kept", "ends"})

    def test_a_shared_import_is_one_from_where_the_name_comes_from(self) -> None:
        common = (
            "-- Names.\npub use Rattle.std.proofs.Common.{ap, refl}\n"
            "pub use Rattle.urb_a.specs.World.{Good}\npub use Rattle.urb_a.proofs.Runs.{kept}\n"
        )
        origins = {"urb_a": judging.passed_on(common)}
        proof = "use Rattle.urb_a.proofs.Common.{Good, refl, kept, ap}\nuse Rattle.x.{y}\n"
        expected = (
            "use Rattle.urb_a.specs.World.{Good}\n"
            "use Rattle.std.proofs.Common.{refl, ap}\n"
            "use Rattle.urb_a.proofs.Runs.{kept}\n"
            "use Rattle.x.{y}\n"
        )
        self.assertEqual(judging.unshared(proof, origins), expected)
        self.assertEqual(judging.unshared(expected, origins), expected)


STORES = """
    -- Stores.
    use Rattle.std.specs.Prelude.{◌≡◌, ℕ}
    use Rattle.urb_a.specs.World.{World}

    -- a number
    abbrev pub first : ℕ
    first = 1

    module _ {S : Type 0} (g : S → ℕ) where
      -- the store is whole
      pub record IsWhole (store : S) : Type 0 where
        pub count : g store ≡ 1

      -- the store is whole after a call
      pub record IsKept (before after : S) : Type 0 where
        pub before : IsWhole before
        pub same : after ≡ before

    module _ {S : Type 0} (g : S → ℕ) where
      -- all is kept
      abbrev pub AllKept : S → Type 0
      AllKept store = IsKept g store store
"""

WORKED_STORES = """
    //! Examples.
    ghost use Rattle.urb_a.specs.Stores.{AllKept, IsKept};

    /// What is kept.
    pub fn what_is_kept()
        ensures of_two { IsKept double 1 2 → ⊥ }
        ensures of_all { AllKept double 2 → ⊥ }
    {}
"""


class Modules(TreeTest):
    """Definitions inside a module with parameters."""

    def setUp(self) -> None:
        self.files = self.tree(
            {
                "crates/urb_a/specs/World.antt": WORLD,
                "crates/urb_a/specs/Stores.antt": STORES,
                "crates/urb_a/specs/internal.antt": "",
                "crates/urb_a/specs/internal/Words.antt": "-- Words.\n",
                "crates/urb_a/src/worked.rt": "//! Examples.\n",
                "crates/urb_a/src/worked/stores.rt": WORKED_STORES,
                "crates.txt": "urb_a:\n",
                "HANDLES": "Handles allowed: none.\n",
            }
        )
        folder = tempfile.TemporaryDirectory()
        self.addCleanup(folder.cleanup)
        self.room = judging.Room(self.files, "urb_a", Path(folder.name))

    def named(self, name: str) -> Definition:
        return Definition("urb_a", "Stores", name)

    def test_a_text_ends_before_the_next_module(self) -> None:
        specs = self.room.specs
        self.assertEqual(specs.text[self.named("first")].strip().splitlines()[-1], "first = 1")
        self.assertEqual(specs.header_of(self.named("first")), "")
        header = "module _ {S : Type 0} (g : S → ℕ) where"
        self.assertEqual(specs.header_of(self.named("IsKept")), header)

    def test_what_a_copy_cites_in_its_module_is_copied_with_it(self) -> None:
        copied = self.room.copied(self.room.examples, self.named("IsKept"))
        self.assertEqual(copied, {self.named(it) for it in ("IsWhole", "IsKept", "AllKept")})

    def test_a_copy_stands_in_a_module_with_the_same_parameters(self) -> None:
        versions = Rules(self.room.specs).versions_of(self.named("IsKept"))
        version = next(it for it in versions if it.what == "`same` says nothing")
        functions = self.room.write(self.room.trial_of(version, 3, 0, 2))
        self.assertEqual(functions, ["urb_a::worked::wrong3_stores::what_is_kept"])
        text = (self.room.folder / "specs/internal/Wrong3_0.antt").read_text()
        header = "module _ {S : Type 0} (g : S → ℕ) where"
        places = [text.index(it) for it in (header, "IsWhole (store", "IsKept (before")]
        places += [text.rindex(header), text.index("AllKept :")]
        self.assertEqual(places, sorted(places))
        self.assertEqual(text.count(header), 2)
        self.assertIn("    pub same : Unit {0}\n", text)
        self.assertIn("Stores.{first}\n", text)


# A kit's file about crates.
KIT_CRATES = """
    class Crate:
        def __init__(self, folder, root, known):
            self.folder, self.root, self.known = folder, root, known

        def stamp(self):
            return f"sum of {self.folder.removeprefix(self.root)}"
"""


class Marks(TreeTest):
    def test_a_built_library_has_the_sum_of_its_crate(self) -> None:
        files = {"kit/rt": "", "kit/rtlib.py": KIT_CRATES}
        top = self.tree({**files, "crates/urb_a/out/rlib/urb_a.rlib": ""}).top
        (top / "kit/rt").chmod(0o755)
        with mock.patch.dict(os.environ, {"PATH": str(top / "kit")}):
            judging.mark_built(top, ["urb_a"])
        stamp = (top / "crates/urb_a/out/rlib/stamp").read_text()
        self.assertEqual(stamp, "sum of /crates/urb_a")

    def test_without_a_kit_no_library_is_marked(self) -> None:
        top = self.tree({"crates/urb_a/out/rlib/urb_a.rlib": ""}).top
        with mock.patch.dict(os.environ, {"PATH": str(top)}):
            judging.mark_built(top, ["urb_a"])
        self.assertFalse((top / "crates/urb_a/out/rlib/stamp").exists())


class Reports(JudgingTest):
    def trial(self) -> Trial:
        counting = {("runs", "what_is_so", "of_none")}
        return Trial(self.version("Good", "unit"), 7, [self.example], counting)

    def note(self, *lines: str) -> Trial:
        trial, folder = self.trial(), Path(self.files.top, "crates/urb_a")
        place = "worked/wrong7_runs/what_is_so/Answers.antt"
        self.write(folder / "proofs" / place, PROOF)
        self.write(folder / "src/worked/wrong7_runs.rt", self.example.path.read_text())
        judging.note(folder, [trial], "\n".join(lines))
        return trial

    def write(self, path: Path, text: str) -> None:
        path.parent.mkdir(parents=True, exist_ok=True)
        path.write_text(text)

    def test_a_clause_that_failed(self) -> None:
        place = "proofs/worked/wrong7_runs/what_is_so/Answers.antt:9:1: error"
        self.assertEqual(self.note(f"./{place}: `helper`: no").refusers(), [])
        trial = self.note(f"./{place}: `returns-clause-of_none`: no")
        self.assertEqual(trial.refusers(), ["`runs::what_is_so`, `of_none` *"])

    def test_a_clause_that_no_tactic_proved(self) -> None:
        line = "note: src/worked/wrong7_runs.rt:8:1: it is not proved (`returns-clause-of_none`)"
        self.assertEqual(self.note(line).refusers(), ["`runs::what_is_so`, `of_none`"])

    def test_a_version_that_cannot_be_read(self) -> None:
        trial = self.note("specs/internal/Wrong7_0.antt:3:1: error: no such name")
        self.assertEqual(trial.unread, "no such name")


class Answers(unittest.TestCase):
    def test_a_check_without_an_answer_tries_no_version(self) -> None:
        version, room = mock.Mock(), mock.Mock()
        room.trial_of.return_value = Trial(version, 1, [mock.Mock()], set())
        room.check.return_value = judging.Run("a note\nno such library\n", 2)
        (told,) = judging.try_versions(room, [(1, version)], ())
        self.assertEqual(told.word, "not tried")
        self.assertEqual(told.by, "the prover gave no answer: no such library")


if __name__ == "__main__":
    unittest.main()
