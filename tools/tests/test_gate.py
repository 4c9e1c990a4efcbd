"""The gate: what it counts, and when it fails."""
from __future__ import annotations

import contextlib
import io
import sys
import time
import unittest
from unittest import mock

from tools import gate
from tools.gate import Count, Step
from tools.tests.trees import TreeTest


def telling(text: str, status: int = 0) -> list[str]:
    """A command that says this, and ends with this status."""
    return [sys.executable, "-c", f"print({text!r}); raise SystemExit({status})"]


class Counts(unittest.TestCase):
    def test_what_a_command_says(self) -> None:
        cases: dict[str, tuple[str, int, tuple[int, int]]] = {
            "rt": ("rt: ok\n12 passed, 0 failed\n", 0, (12, 0)),
            "the last count": ("1 passed, 1 failed\n12 passed, 3 failed\n", 1, (12, 3)),
            "unittest": ("Ran 7 tests in 0.1s\n\nOK\n", 0, (7, 0)),
            "skipped": ("Ran 7 tests in 0.1s\n\nOK (skipped=2)\n", 0, (5, 0)),
            "failing": ("Ran 7 tests in 1s\nFAILED (failures=1, errors=2)\n", 1, (4, 3)),
            "both": ("Ran 3 tests in 1s\nFAILED (failures=1, skipped=1)\n", 1, (1, 1)),
            "a class is skipped": ("Ran 0 tests in 0s\n\nOK (skipped=1)\n", 0, (0, 0)),
            "parts fail": ("Ran 1 test in 1s\nFAILED (failures=7)\n", 1, (0, 7)),
            "no count": ("done\n", 0, (1, 0)),
            "no count, failed": ("", 3, (0, 1)),
            "a count that hides a failure": ("12 passed, 0 failed\n", 1, (12, 1)),
        }
        for name, (said, status, expected) in cases.items():
            with self.subTest(name):
                count = gate.count_of(said, status)
                self.assertEqual((count.passed, count.failed), expected)

    def test_the_last_line(self) -> None:
        self.assertEqual(str(Count(3, 1)), "3 passed, 1 failed")


class Gates(TreeTest):
    def run_gate(self, files: dict[str, str], steps: list[Step], *words: str) -> tuple[int, str]:
        """The gate over a tree with these files, with these quick steps."""
        told = io.StringIO()
        with mock.patch.object(gate, "quick_steps", lambda tree: steps):
            with mock.patch.object(gate, "time_line", lambda *_: "gate: 2 minutes"):
                with contextlib.redirect_stdout(told):
                    status = gate.main(words, self.tree(files))
        return status, told.getvalue()

    def test_a_step_that_needs_what_is_not_there_is_left_out(self) -> None:
        steps = [Step("one", telling("x"), ["no-such-command"]), Step("two", telling("x"))]
        status, told = self.run_gate({}, steps, "--quick")
        self.assertEqual(status, 0)
        self.assertIn("one: left out, since no-such-command isn't installed", told)
        self.assertTrue(told.endswith("\n1 passed, 0 failed\n"), told)

    def test_the_end_shows_what_a_failing_step_said(self) -> None:
        steps = [Step("one", telling("fine\nit failed here\nfine", 1)), Step("two", telling("x"))]
        _, told = self.run_gate({}, steps, "--quick")
        failure = "gate: one failed, with status 1. It said:\n  it failed here\n"
        end = f"{failure}gate: 2 minutes\n1 passed, 1 failed\n"
        self.assertTrue(told.endswith(end), told)

    def test_the_end_says_how_long_it_took(self) -> None:
        self.assertEqual(gate.time_line(7199.0, 2), "gate: 120 minutes on 2 processors")

    def test_the_end_shows_no_success(self) -> None:
        fine = [
            "test tests::refusals::an_error_is_refused ... ok",
            "test result: ok. 3 passed; 0 failed; 0 ignored; 0 filtered out",
            "rt: urb_one: trying its must-fail edits (2)",
            "gate: documents: 35 passed, 0 failed",
        ]
        bad = ["src/lib.rt:1:1: error: not proved", *fine, "2 passed, 1 failed"]
        shown = gate.failure_of("one", "\n".join(bad), 1).splitlines()
        self.assertEqual(shown[1:], ["  src/lib.rt:1:1: error: not proved", "  2 passed, 1 failed"])

    def test_a_failing_step_that_names_no_failure_shows_its_last_lines(self) -> None:
        lines = [f"line {number}" for number in range(50)]
        shown = gate.failure_of("one", "\n".join(lines), 3).splitlines()
        self.assertEqual(shown[0], "gate: one failed, with status 3. It said:")
        self.assertEqual(shown[1:], [f"  {line}" for line in lines[-gate.SHOWN_LINES :]])

    def test_a_quick_step_that_fails_ends_the_run(self) -> None:
        with mock.patch.object(gate, "prove", side_effect=AssertionError):
            status, told = self.run_gate({}, [Step("bad", telling("x", 1))])
        self.assertEqual(status, 1)
        self.assertTrue(told.endswith("\n0 passed, 1 failed\n"), told)

    def test_all_is_counted_in_the_last_line(self) -> None:
        steps = [Step("documents", telling("20 passed, 0 failed"))]
        with mock.patch.object(gate, "prove", return_value=Count(40, 0)):
            with mock.patch.object(gate, "run_step", wraps=gate.run_step) as run:
                run.side_effect = [Count(20, 0), Count(12, 0), Count(5, 1)]
                status, told = self.run_gate({gate.PROGRAM: ""}, steps)
        self.assertEqual(status, 1)
        self.assertTrue(told.endswith("77 passed, 1 failed\n"), told)
        names = [call.args[1].name for call in run.call_args_list]
        self.assertEqual(names, ["documents", "wrong definitions", "the built program"])

    def test_a_wrong_definition_that_passes_fails_the_gate(self) -> None:
        with mock.patch.object(gate, "prove", return_value=Count(40, 0)):
            with mock.patch.object(gate, "try_definitions", return_value=Count(11, 1)):
                with mock.patch.object(gate, "try_program", return_value=Count(5, 0)):
                    status, told = self.run_gate({}, [])
        self.assertEqual((status, told.splitlines()[-1]), (1, "56 passed, 1 failed"))

    def test_after_a_long_run_no_wrong_definition_is_tried(self) -> None:
        told = io.StringIO()
        with mock.patch.object(gate, "run_step", side_effect=AssertionError):
            with contextlib.redirect_stdout(told):
                begin = time.monotonic() - 60 * (gate.LONG + 1)
                count = gate.try_definitions(self.tree({}), begin)
        self.assertEqual((count.passed, count.failed), (0, 0))
        self.assertIn("left out, since 111 minutes have passed", told.getvalue())

    def test_without_a_program_the_gate_fails(self) -> None:
        with mock.patch.object(gate, "prove", return_value=Count(40, 0)):
            with mock.patch.object(gate, "try_definitions", return_value=Count()):
                status, told = self.run_gate({}, [])
        self.assertEqual((status, told.splitlines()[-1]), (1, "40 passed, 1 failed"))

    def test_quick_tries_no_wrong_definition(self) -> None:
        with mock.patch.object(gate, "try_definitions", side_effect=AssertionError):
            status, told = self.run_gate({}, [], "--quick")
        self.assertEqual((status, told), (0, "gate: 2 minutes\n0 passed, 0 failed\n"))

    def test_the_sample_is_cleared_even_if_rt_fails(self) -> None:
        tree = self.tree({"crates/a/must-fail/sample_x.edit": ""})
        with mock.patch("tools.wrong_bodies.sample"):
            with mock.patch.object(gate, "run_step", side_effect=KeyboardInterrupt):
                with self.assertRaises(KeyboardInterrupt):
                    gate.prove(tree)
        self.assertFalse(tree.has("crates/a/must-fail"))


class UnitTests(TreeTest):
    def test_each_folder_of_unit_tests_is_found(self) -> None:
        names = (
            "tools/__init__.py",
            "tools/tests/__init__.py",
            "tools/tests/test_a.py",
            "clients/python/tests/__init__.py",
            "clients/python/tests/test_b.py",
            "trials/__init__.py",
            "trials/gate/test_c.py",
            "trials/unit/__init__.py",
            "trials/unit/test_d.py",
        )
        steps = list(gate.unit_tests(self.tree({name: "" for name in names})))
        found = [(step.folder, step.words[-1]) for step in steps]
        expected = [
            ("clients/python/tests", ".."),
            ("tools/tests", "../.."),
            ("trials/unit", "../.."),
        ]
        self.assertEqual(found, expected)


if __name__ == "__main__":
    unittest.main()
