"""Memory of messages, starts and copies."""
from __future__ import annotations

import contextlib
import io
import os
import struct
import unittest
from unittest import mock

from bench import beside, copies, memory
from bench.copies import COUNTER, LENGTH, Counts
from bench.tests.stubs import StubTest
from trials.lib.needs import missing_of


class Memory(StubTest):
    def test_messages_and_starts(self) -> None:
        with mock.patch.multiple(memory, NODES=(1,), MESSAGES={16: 4}, SETTLED=0.0):
            told = self.told(memory.main, "--count", 4, "--length", 8)
        for text in (
            "1 nodes,     16 bytes,      4 messages",
            "4 messages of 8 bytes at three nodes",
            "after a kill: open after ",
            "after a stop: open after ",
            "as many messages more: ",
        ):
            self.assertIn(text, told)

    def test_starts_alone(self) -> None:
        with mock.patch.object(memory, "SETTLED", 0.0):
            told = self.told(memory.main, "--starts", "--count", 4, "--length", 8)
        self.assertNotIn("a program a column", told)


class Copies(StubTest):
    def test_counters_that_rose(self) -> None:
        path = self.room / "counts"
        counts = Counts(path)
        for more, count in ((0, 40), (9, 1)):
            struct.pack_into("=Q", counts.bytes, COUNTER * (LENGTH + more), count)
        rise = counts.rise()
        self.assertEqual(rise, {0: 40, 9: 1})
        self.assertEqual(counts.rise(), {})
        counts.bytes.close()
        said = io.StringIO()
        with contextlib.redirect_stdout(said):
            copies.tell("a step", 20, rise)
            copies.tell("another", 21, rise)
        self.assertEqual(
            said.getvalue().splitlines(),
            [
                "a step: 2.05 buffers a message",
                "  payload and    0 bytes: 2.00",
                "  payload and    9 bytes: 0.05",
                "another: 1.95 buffers a message",
                "  payload and    0 bytes: 1.90",
            ],
        )

    @unittest.skipIf(missing_of(["a C compiler"]), "it needs a C compiler")
    def test_a_run(self) -> None:
        with mock.patch.object(copies, "SETTLED", 0.0):
            told = self.told(copies.main, "--messages", 2)
        submits, reads = (line for line in told.splitlines() if "buffers a message" in line)
        self.assertRegex(submits, r"^a submit, until three logs show it: [1-9]")
        self.assertRegex(reads, r"^reads at three nodes: \d")


class Processes(unittest.TestCase):
    def test_figures_of_this_process(self) -> None:
        own = os.getpid()
        self.assertGreater(beside.peak(own), 1 << 20)
        self.assertLessEqual(beside.resident(own), beside.peak(own))
        self.assertGreaterEqual(beside.processor_time(own), 0)
        with self.assertRaisesRegex(AssertionError, "the system gives no VmNone"):
            beside.bytes_of("VmNone", own)


if __name__ == "__main__":
    unittest.main()
