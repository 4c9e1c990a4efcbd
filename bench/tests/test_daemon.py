"""The table of figures, and the long history."""
from __future__ import annotations

import contextlib
import io
import sqlite3
import unittest
from unittest import mock

from bench import daemon
from bench.daemon import Figures, Row
from bench.load import Load
from bench.tests.stubs import StubTest
from trials.lib.needs import missing_of


class Rows(unittest.TestCase):
    def test_a_goal_that_is_the_most(self) -> None:
        row = Row("a submit; redis", "submit", "xadd", "us", 1.0)
        self.assertTrue(row.line(50, 100).endswith("50.0      100.0 us     0.50  at most 1.0: yes"))
        self.assertTrue(row.line(150, 100).endswith("1.50  at most 1.0: no"))

    def test_a_goal_that_is_the_least(self) -> None:
        row = Row("reads; redis", "read", "xrange", "/s", 1.0, True)
        self.assertTrue(row.line(150, 100).endswith("1.50  at least 1.0: yes"))
        self.assertTrue(row.line(50, 100).endswith("0.50  at least 1.0: no"))

    def test_what_was_not_measured(self) -> None:
        row = Row("reads; redis", "read", "xrange", "/s", 1.0, True)
        for figures in ((None, 1.0), (1.0, None)):
            self.assertTrue(row.line(*figures).endswith(" not measured"))

    def test_names_of_figures_go_in_pairs(self) -> None:
        self.assertEqual(len({(row.own, row.beside) for row in daemon.ROWS}), len(daemon.ROWS))


class Tables(StubTest):
    def test_a_figure_is_the_median_of_the_rounds(self) -> None:
        figures, said = Figures(), io.StringIO()
        for value in (3, 1, 2):
            figures.add("submit 1", value)
            figures.add("xadd", 4)
            figures.add("at rest", value / 10)
        with contextlib.redirect_stdout(said):
            figures.show(3)
        lines = said.getvalue().splitlines()
        self.assertEqual(len(lines), 2 + len(daemon.ROWS))
        self.assertTrue(lines[0].startswith("medians of 3 rounds "))
        self.assertTrue(lines[1].endswith("2.0        4.0 us     0.50  at most 1.0: yes"))
        self.assertTrue(lines[2].endswith("not measured"))
        self.assertEqual(lines[-1].split()[-2:], ["0.20", "%"])

    def test_the_disk(self) -> None:
        self.assertGreater(daemon.time_of_sync(self.room, 0.02), 0)
        if sqlite3.sqlite_version_info >= (3, 37):
            self.assertGreater(daemon.records_of_journals(self.room, 0.02), 0)


class Histories(StubTest):
    @unittest.skipIf(missing_of(["a C compiler"]), "it needs a C compiler")
    def test_many_messages_and_a_start_after_a_kill(self) -> None:
        with mock.patch.multiple(daemon, REST=0.05, SETTLE=0.0), mock.patch.object(
            Load, "built", lambda room: Load(room)
        ):
            told = self.told(daemon.main, "--rounds", 0, "--messages", 20)
        self.assertTrue(told.startswith("20 messages of 100 bytes on three nodes: "))
        self.assertIn("killed, and open again after ", told)


if __name__ == "__main__":
    unittest.main()
