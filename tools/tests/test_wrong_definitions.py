"""The page of wrong definitions: what its rows name, and how the gate tries them again."""
from __future__ import annotations

import contextlib
import io
import subprocess
from collections.abc import Sequence
from unittest import mock

from tools import judging, wrong_definitions
from tools.judging import Room, Run, Trial
from tools.tests.trees import TreeTest
from tools.tree import Tree
from tools.wrong_definitions import Listed, Row

WORLD = """
    -- A world.
    use Rattle.std.specs.Prelude.{Bool, ◌≡◌, ◌||◌, ℕ}

    -- it is good
    pub record Good (size : ℕ) : Type 0 where
      pub size : size ≡ size
      pub same : size ≡ size

    -- one is set
    abbrev pub first : Bool → Bool → Bool
    first a b = if a || b then a else b
"""
WORKED = """
    //! Examples.
    ghost use Rattle.urb_a.specs.World.{Good, first};

    /// What isn't so.
    pub fn what_is_not_so()
        ensures of_none { Good 1 → ⊥ }
        ensures of_both { first a b ≡ true }
    {}
"""
SIZE = "| `Good` | `size` says nothing | `runs::what_is_not_so`, `of_none` |"
SAME = "| `Good` | `same` says nothing | no: it says the same: it is said before |"
SIDES = (
    "| `first` | the sides of `if a \\|\\| b` are exchanged | `runs::what_is_not_so`, `of_both` |"
)


def page(*rows: str, refused: int = 1, same: int = 1) -> str:
    """A page with these rows in one table."""
    counts = f"| of a world | {refused + same} | {refused} | {same} | 0 |"
    return "\n".join(["| versions | made |", counts, "", "## Of a world", "", *rows, ""])


class PageTest(TreeTest):
    def listed(self, text: str, **more: str) -> Listed:
        files = {
            "crates/urb_a/specs/World.antt": WORLD,
            "crates/urb_a/src/worked/runs.rt": WORKED,
            "crates.txt": "urb_low:\nurb_a: urb_low std\n",
            wrong_definitions.PAGE: text,
            **more,
        }
        return Listed(self.tree(files))


class Pages(PageTest):
    def test_a_row_names_a_version_and_a_clause(self) -> None:
        first, second, third = self.listed(page(SIZE, SAME, SIDES)).rows
        self.assertEqual((first.name, first.what), ("Good", "`size` says nothing"))
        self.assertEqual(first.clause, ("runs", "what_is_not_so", "of_none"))
        self.assertTrue(second.says_same)
        self.assertEqual(third.what, "the sides of `if a || b` are exchanged")

    def test_a_page_that_is_right(self) -> None:
        self.holds(self.listed(page(SIZE, SAME)).misfits())
        self.holds(self.listed(page(SIZE, SAME, SIDES, refused=2)).misfits())

    def test_what_is_wrong_on_a_page(self) -> None:
        of = f"{wrong_definitions.PAGE}:6: "
        cases = {
            SIZE.replace("size", "weight"): (
                of + "the rules don't make this version of `Good`: `weight` says nothing"
            ),
            SIZE.replace("of_none", "of_many"): (
                of + "this names no clause of a worked example: `runs::what_is_not_so`, `of_many`"
            ),
            SIZE.replace("`runs", "* `runs"): (
                of + "this names no clause of a worked example: * `runs::what_is_not_so`, `of_none`"
            ),
        }
        for row, misfit in cases.items():
            with self.subTest(row):
                self.holds(self.listed(page(row, SAME)).misfits(), misfit)

    def test_a_version_stands_once(self) -> None:
        misfits = self.listed(page(SIZE, SIZE, SAME, refused=2)).misfits()
        where = f"{wrong_definitions.PAGE}:7"
        self.holds(misfits, f"{where}: this version of `Good` stands here twice")

    def test_a_definition_of_two_crates_is_named_with_its_crate(self) -> None:
        other = {"crates/urb_low/specs/World.antt": WORLD}
        of = f"{wrong_definitions.PAGE}:6: "
        told = "several crates have this version of `Good`: `size` says nothing"
        self.holds(self.listed(page(SIZE, same=0), **other).misfits(), of + told)
        named = SIZE.replace("`Good`", "`Good` of `urb_a`")
        self.holds(self.listed(page(named, same=0), **other).misfits())

    def test_the_first_table_counts_the_rows(self) -> None:
        misfits = self.listed(page(SIZE, SAME, refused=2)).misfits()
        told = "of `of a world`, 1 versions were refused, and 1 say the same"
        self.holds(misfits, f"{wrong_definitions.PAGE}: {told}")


class Parts(PageTest):
    def test_a_part_is_of_one_crate_and_has_no_version_that_says_the_same(self) -> None:
        with mock.patch.object(wrong_definitions, "PART", 1):
            parts = self.listed(page(SIZE, SAME, SIDES, refused=2)).parts()
        self.assertEqual([(crate, len(rows)) for crate, rows in parts], [("urb_a", 1)] * 2)
        self.assertEqual([rows[0].name for _, rows in parts], ["Good", "first"])

    def test_the_hash_of_the_crates_chooses_the_part(self) -> None:
        tree = self.listed(page(SIZE, SIDES, refused=2, same=0)).tree
        chosen = []
        for number in ("0" * 12, "0" * 11 + "1"):
            with mock.patch.multiple(wrong_definitions, PART=1, PARTS=1):
                with mock.patch.object(wrong_definitions, "hash_of_crates", lambda _: number):
                    with mock.patch.object(wrong_definitions, "try_parts") as tried:
                        wrong_definitions.main(["--part"], tree)
            chosen.append([row.name for _, rows in tried.call_args[0][1] for row in rows])
        self.assertEqual(chosen, [["Good"], ["first"]])

    def test_the_parts_of_a_run_lie_far_from_each_other(self) -> None:
        parts: list[tuple[str, list[Row]]] = [(f"urb_{at}", []) for at in range(9)]
        for digest, expected in (("0" * 12, "0246"), ("0" * 11 + "7", "7024")):
            chosen = wrong_definitions.chosen_parts(parts, digest)
            self.assertEqual("".join(crate[-1] for crate, _ in chosen), expected)
        self.assertEqual(wrong_definitions.chosen_parts(parts[:2], "0" * 12), parts[:2])
        self.assertEqual(wrong_definitions.chosen_parts([], "0" * 12), [])


class Tries(PageTest):
    LIBRARY = {"crates/urb_low/out/rlib/urb_low.rlib": ""}

    def setUp(self) -> None:
        # The libraries of these trees are empty.
        self.addCleanup(mock.patch.stopall)
        mock.patch.object(judging, "mark_built").start()

    def said(self, listed: Listed, leaves_out_late: bool = False) -> tuple[int, list[str]]:
        told = io.StringIO()
        with contextlib.redirect_stdout(told):
            status = wrong_definitions.try_parts(listed, listed.parts(), leaves_out_late)
        return status, told.getvalue().splitlines()

    def tried(self, refused: bool, unread: str = "", status: int = 1) -> tuple[int, list[str]]:
        """A page with one version, whose check has this outcome."""

        def check(room: Room, trials: Sequence[Trial]) -> Run:
            for trial in trials:
                trial.unread = unread
                trial.failed += trial.counting if refused else []
            return Run("some words\nthe last line\n", status)

        mock.patch.object(Room, "check", check).start()
        worked = {"crates/urb_a/specs/internal.antt": "", "crates/urb_a/src/worked.rt": ""}
        return self.said(self.listed(page(SIZE, same=0), **self.LIBRARY, **worked, HANDLES=""))

    def test_a_version_that_its_clause_refuses_passes(self) -> None:
        status, lines = self.tried(refused=True)
        self.assertEqual((status, lines[-1]), (0, "1 passed, 0 failed"))

    def test_a_version_that_nothing_refuses_fails(self) -> None:
        status, lines = self.tried(refused=False)
        row = f"{wrong_definitions.PAGE}:6: `Good`: `size` says nothing: NOT REFUSED"
        self.assertEqual((status, lines[-2:]), (1, [row, "0 passed, 1 failed"]))

    def test_a_version_that_was_not_tried_fails(self) -> None:
        self.assertIn("can't read it: no such name", self.tried(False, "no such name")[1][-2])
        told = self.tried(refused=False, status=2)[1]
        self.assertIn("the prover gave no answer: the last line", told[-2])

    def test_a_check_that_takes_too_long_fails_or_is_left_out(self) -> None:
        late = subprocess.TimeoutExpired(["rt"], 1800)
        worked = {"crates/urb_a/specs/internal.antt": "", "crates/urb_a/src/worked.rt": ""}
        listed = self.listed(page(SIZE, same=0), **self.LIBRARY, **worked, HANDLES="")
        since = "since a check took over 1800 seconds"
        with mock.patch.object(Room, "check", side_effect=late):
            failed, left_out = self.said(listed), self.said(listed, leaves_out_late=True)
        told = [f"wrong definitions: not tried, {since}", "0 passed, 1 failed"]
        self.assertEqual((failed[0], failed[1][-2:]), (1, told))
        told = [f"wrong definitions: left out, {since}", "0 passed, 0 failed"]
        self.assertEqual((left_out[0], left_out[1][-2:]), (0, told))

    def test_without_libraries_nothing_is_counted(self) -> None:
        status, lines = self.said(self.listed(page(SIZE, same=0)))
        left_out = "wrong definitions: left out, since there is no library of urb_low"
        self.assertEqual((status, lines), (0, [left_out, "0 passed, 0 failed"]))

    def test_a_page_that_is_wrong_is_not_tried(self) -> None:
        tree: Tree = self.listed(page(SIZE, same=1)).tree
        told = io.StringIO()
        with contextlib.redirect_stdout(told):
            self.assertEqual(wrong_definitions.main([], tree), 1)
        self.assertTrue(told.getvalue().endswith("\n0 passed, 1 failed\n"))
