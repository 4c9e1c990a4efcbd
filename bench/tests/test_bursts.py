"""Bursts, kills and lags: what is reckoned, and what is seen of a group."""
from __future__ import annotations

import unittest
from unittest import mock

from bench import bursts
from bench.bursts import Disturbance, Lags, Recovery
from bench.groups import new_group, submit_all
from bench.tests.stubs import PROGRAM, StubTest
from urbd.frames import Status


class Reckoned(unittest.TestCase):
    def test_twelve_clients_share_messages(self) -> None:
        self.assertEqual([bursts.accepted_of(it) for it in (20_000, 2_000)], [20_004, 2_004])

    def test_lags(self) -> None:
        told = [Status("ready", 3, 4), Status("ready", 2, 5), Status("down", 0, 6)]
        self.assertEqual(bursts.lags_of(told), [1, 0, 0])
        lags = Lags(5, [[0, 2], [1, 0]])
        self.assertEqual(
            str(lags), "worst lag of a log 2; lag of each log, second by second: 0/2 1/0"
        )

    def test_logs_are_whole_if_they_are_equal_and_long_enough(self) -> None:
        for last, is_whole in (([5, 5], True), ([6, 6], True), ([5, 6], False), ([4, 4], False)):
            with self.subTest(last):
                self.assertEqual(Recovery([0, 0], last, 1.0).is_whole(5), is_whole)


class Seen(StubTest):
    def test_logs_that_have_all(self) -> None:
        with new_group(PROGRAM, self.room, 3, 50) as daemon:
            submit_all(daemon, 4, 1)
            self.assertEqual(bursts.dropped(daemon), 0)
            with mock.patch.multiple(bursts, LONGEST=0.1, QUIET=0.0):
                self.assertEqual(bursts.await_all(daemon, 4).least, 4)
                self.assertEqual(bursts.await_all(daemon, 5).least, 4)
                found = bursts.await_rest(daemon, 4)
        self.assertEqual((found.first, found.last), ([4, 4, 4], [4, 4, 4]))
        self.assertTrue(found.is_whole(4))

    def test_lags_are_watched_until_logs_are_whole(self) -> None:
        with new_group(PROGRAM, self.room, 3, 50) as daemon:
            submit_all(daemon, 4, 1)
            for disturbance in Disturbance:
                with self.subTest(disturbance), mock.patch.multiple(
                    bursts, LOADED=1, AFTER=1, BUSY=1, MOMENT_OF_STOP=1
                ):
                    lags = bursts.watch_lags(daemon, disturbance)
                    self.assertEqual(lags, Lags(4, [[0, 0, 0], [0, 0, 0]]))


if __name__ == "__main__":
    unittest.main()
