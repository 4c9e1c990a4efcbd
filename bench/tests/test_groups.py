"""Groups of benchmarks, what fills them, and how a benchmark ends."""
from __future__ import annotations

import argparse
import contextlib
import io
import unittest
from collections.abc import Sequence
from unittest import mock

from bench import groups
from bench.tests.stubs import PROGRAM, StubTest
from trials.lib import stub
from trials.lib.messages import log_of
from trials.lib.program import NotOpen
from urbd import RefusedError


class Groups(StubTest):
    def test_messages_fill_a_group_in_order(self) -> None:
        with groups.new_group(PROGRAM, self.room, 3, 50) as daemon:
            groups.submit_all(daemon, 10, 3, under_way=4)
            groups.submit_all(daemon, 2, 0, first=11, under_way=1)
            groups.await_logs(daemon, 12)
            self.assertEqual(groups.shown_of(daemon), [12, 12, 12])
            found = [(it.client, it.number, it.payload) for it in log_of(daemon, 3)]
            self.assertGreater(groups.megabytes(daemon), 1)
        numbers = range(1, 13)
        expected = [(groups.CLIENT, it, b"xxx" if it <= 10 else b"") for it in numbers]
        self.assertEqual(found, expected)
        self.assertEqual(list(self.room.iterdir()), [])

    def test_a_message_that_is_refused_ends_the_measurement(self) -> None:
        with groups.new_group(PROGRAM, self.room, 1, 50) as daemon:
            with self.assertRaisesRegex(AssertionError, "expected that the message is accepted"):
                groups.submit_all(daemon, 1, 1, first=5)


class CommandLines(unittest.TestCase):
    def test_what_is_no_program(self) -> None:
        self.assertEqual(groups.program_at(str(stub.PATH)).path, stub.PATH)
        for path in ("/nowhere/urbd", "/"):
            with self.subTest(path), self.assertRaises(argparse.ArgumentTypeError):
                groups.program_at(path)

    def test_numbers(self) -> None:
        self.assertEqual(groups.at_least(2)("2"), 2)
        self.assertEqual(groups.duration("0.5"), 0.5)
        for text in ("1", "-1", "two", ""):
            with self.subTest(text), self.assertRaises(argparse.ArgumentTypeError):
                groups.at_least(2)(text)
        for text in ("0", "-1", "nan", "inf", "two"):
            with self.subTest(text), self.assertRaises(argparse.ArgumentTypeError):
                groups.duration(text)


class Ends(unittest.TestCase):
    def end(self, fault: BaseException) -> object:
        """The status with which a benchmark ends if this is raised."""

        def main(words: Sequence[str]) -> int:
            raise fault

        with mock.patch("sys.argv", ["/x/some.py"]), self.assertRaises(SystemExit) as ended:
            groups.run(main)
        return ended.exception.code

    def test_a_fault_is_told_in_one_line(self) -> None:
        for fault, text in (
            (AssertionError("no"), "some.py: no"),
            (ConnectionRefusedError("nobody listens"), "some.py: nobody listens"),
            (NotOpen(1, b"urbd: no memory\n"), "some.py: status 1, 'urbd: no memory'"),
            (RefusedError(8), f"some.py: {RefusedError(8)}"),
        ):
            with self.subTest(text):
                self.assertEqual(self.end(fault), text)

    def test_ctrl_c_and_an_orderly_end(self) -> None:
        self.assertEqual(self.end(KeyboardInterrupt()), 130)
        with self.assertRaises(SystemExit) as ended, contextlib.redirect_stdout(io.StringIO()):
            groups.run(lambda words: 0)
        self.assertEqual(ended.exception.code, 0)


if __name__ == "__main__":
    unittest.main()
