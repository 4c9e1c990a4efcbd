"""The stub of the program, and what trials of an upgrade believe of old records."""
from __future__ import annotations

import tempfile
import unittest
from pathlib import Path

from urbdctl.journals import CERT, PEND, PEND_CERT

from trials.lib import stub
from trials.lib.messages import log_of
from trials.lib.program import NotOpen, Options, Program, free_base_port
from trials.long.old_files import MESSAGES, log_of_records, old_records


class AStub(unittest.TestCase):
    def setUp(self) -> None:
        room = tempfile.TemporaryDirectory()
        self.addCleanup(room.cleanup)
        self.options = Options(Path(room.name), free_base_port(), 3)
        self.program = Program(stub.PATH)

    def test_what_it_accepted_outlives_a_kill(self) -> None:
        with self.program.serve(self.options) as daemon:
            self.assertEqual(daemon.node(1).submit(7, 1, b"\0hi"), 1)
            before = log_of(daemon, 2)
            daemon.kill()
        with self.program.serve(self.options) as daemon:
            self.assertEqual(log_of(daemon, 2), before)
            self.assertEqual(daemon.node(1).submit(7, 1, b"\0hi"), 1)
            self.assertEqual(daemon.stop(), 1)

    def test_a_folder_that_is_not_there_is_refused(self) -> None:
        missing = Options(self.options.folder / "missing", free_base_port())
        with self.assertRaises(NotOpen) as caught:
            self.program.serve(missing)
        self.assertTrue(caught.exception.error.startswith(b"urbd: refused 15 0"))

    def test_options_that_are_missing(self) -> None:
        self.assertEqual(self.program.run("serve").returncode, 3)


class OldRecords(unittest.TestCase):
    def test_a_log_has_what_is_certified_without_a_gap(self) -> None:
        one, two, three = ((1, seq) for seq in (1, 2, 3))
        self.assertEqual(log_of_records([(PEND, one), (PEND_CERT, two)]), [])
        records = [(PEND_CERT, two), (PEND, one), (CERT, one), (PEND, three)]
        self.assertEqual(log_of_records(records), [MESSAGES[one], MESSAGES[two]])

    def test_nodes_that_were_up_have_all_messages(self) -> None:
        counts = [len(log_of_records(old_records(node))) for node in (1, 2, 3)]
        self.assertEqual(counts, [len(MESSAGES), len(MESSAGES), 5])


if __name__ == "__main__":
    unittest.main()
