"""The programs in C, and what they measure."""
from __future__ import annotations

import sys
import unittest
from unittest import mock

from bench import load
from bench.groups import new_group
from bench.load import Answer, Floor, Load
from bench.tests.stubs import PROGRAM, StubTest
from trials.lib.needs import missing_of
from trials.lib.program import all_ports

HAS_COMPILER = not missing_of(["a C compiler"])


class Answers(StubTest):
    def test_the_line_of_a_run(self) -> None:
        self.assertEqual(Answer.read("812.5 3.1 9.4 2\n"), Answer(812.5, 3.1, 9.4, 2))
        self.assertEqual(Answer.read("812.5 3.1 9.4 2 7\n"), Answer(812.5, 3.1, 9.4, 2, 7))

    def test_a_run_that_fails(self) -> None:
        run = load.begin([sys.executable, "-c", "raise SystemExit(3)"])
        with self.assertRaisesRegex(AssertionError, "ended with 3"):
            run.answer()

    def test_no_compiler(self) -> None:
        with mock.patch("shutil.which", return_value=None):
            with self.assertRaisesRegex(AssertionError, "it needs a C compiler"):
                Load.built(self.room)


@unittest.skipUnless(HAS_COMPILER, "it needs a C compiler")
class Programs(StubTest):
    def test_clients_submit_and_read(self) -> None:
        clients = Load.built(self.room)
        with new_group(PROGRAM, self.room, 3, 50) as daemon:
            port = all_ports(daemon.options)[0]
            submits = clients.begin("submit", port, 2, 20, client=50, messages=6)
            self.assertEqual(submits.answer().refused, 0)
            self.assertEqual(daemon.node(1).status().accepted, 6)
            ahead = clients.begin("submit", port, 2, 20, client=60, messages=80, under_way=16)
            self.assertEqual(ahead.answer().refused, 0)
            self.assertEqual(daemon.node(1).status().accepted, 86)
            for kind, count in (("read", 1), ("visible", 3)):
                with self.subTest(kind):
                    answer = clients.run(kind, port, count, 0.1)
                    self.assertEqual(answer.refused, 0)
                    self.assertLessEqual(answer.median, answer.late)

    def test_the_floor(self) -> None:
        floor = Floor.built(self.room)
        for what in ((), ("together", 16, 1), ("together", 16, 4)):
            with self.subTest(what):
                self.assertGreater(floor.run(self.room, 1, 2, 0.1, *what).rate, 0)
        self.assertGreater(floor.run(self.room, 3, 3, 0.1, "together", 4, 2).rate, 0)
        self.assertEqual([it.name for it in self.room.iterdir()], ["floor"])


if __name__ == "__main__":
    unittest.main()
