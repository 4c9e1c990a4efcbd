"""What the trials share: ports, commands, and how logs are compared."""
from __future__ import annotations

import os
import socket
import sys
import tempfile
import unittest
from pathlib import Path
from unittest import mock

from urbd.frames import Accepted, Entry, Refused

from trials.lib import program
from trials.lib.messages import Sent, accepted, differences, some_of
from trials.lib.needs import missing_of
from trials.lib.program import NotOpen, Options, Program


def entry(sender: int, seq: int, payload: bytes = b"x") -> Entry:
    return Entry(sender, seq, 7, seq, payload)


class Logs(unittest.TestCase):
    def test_logs_that_agree(self) -> None:
        one = [entry(1, 1), entry(2, 1), entry(1, 2)]
        other = [entry(2, 1), entry(1, 1)]
        self.assertEqual(differences([one, other, []], (1, 2)), [])

    def test_logs_that_differ(self) -> None:
        cases: dict[str, list[list[Entry]]] = {
            "a gap": [[entry(1, 1), entry(1, 3)], []],
            "another order": [[entry(1, 2), entry(1, 1)], []],
            "twice": [[entry(1, 1), entry(1, 1)], []],
            "another message": [[entry(1, 1)], [entry(1, 1, b"y")]],
        }
        for name, logs in cases.items():
            with self.subTest(name):
                self.assertNotEqual(differences(logs, (1,)), [])

    def test_some_of_many_has_the_last_ones(self) -> None:
        self.assertEqual(list(some_of(5)), [1, 2, 3, 4, 5])
        found = list(some_of(1000, 30))
        self.assertEqual(found, sorted(set(found)))
        self.assertEqual(found[-10:], list(range(991, 1001)))

    def test_a_message_has_to_be_accepted(self) -> None:
        self.assertEqual(accepted(Accepted(3)), 3)
        with self.assertRaises(AssertionError):
            accepted(Refused(8, 0))

    def test_what_was_sent_becomes_entries(self) -> None:
        sent = Sent(7, 2, [b"a", b"b"], [4, 5])
        self.assertEqual([it.number for it in sent.requests([b"c", b"d"])], [3, 4])
        self.assertEqual(sent.entry(2), Entry(2, 5, 7, 2, b"b"))


class Programs(unittest.TestCase):
    def test_a_port_in_use_is_not_free(self) -> None:
        base = program.free_base_port()
        self.assertTrue(program.is_free(base, 7))
        with socket.create_server((program.LOCALHOST, base + 17)):
            self.assertFalse(program.is_free(base, 7))

    def test_a_process_keeps_to_its_ports(self) -> None:
        with mock.patch.dict(os.environ, {program.FIRST_PORT: "21200"}):
            for _ in range(20):
                self.assertIn(program.free_base_port(), range(21_200, 21_800))

    def stub(self, text: str) -> Program:
        """A command that stands for the program."""
        room = tempfile.TemporaryDirectory()
        self.addCleanup(room.cleanup)
        path = Path(room.name, "urbd")
        path.write_text(f"#!{sys.executable}\nimport sys\n{text}\n")
        path.chmod(0o755)
        return Program(path)

    def test_a_group_that_opens_and_stops(self) -> None:
        stub = self.stub('print("open 3", flush=True); sys.stdin.read(); print("closed 12")')
        with stub.serve(Options(Path("/tmp"), 21_000, 3)) as daemon:
            self.assertEqual(list(daemon.nodes), [1, 2, 3])
            self.assertEqual(daemon.stop(), 12)

    def test_a_group_that_does_not_open_says_why(self) -> None:
        stub = self.stub('print("urbd: refused 15 0", file=sys.stderr); sys.exit(1)')
        with self.assertRaises(NotOpen) as caught:
            stub.serve(Options(Path("/tmp"), 21_000))
        self.assertEqual(caught.exception.status, 1)
        self.assertEqual(caught.exception.error, b"urbd: refused 15 0\n")

    def test_a_group_that_says_something_else(self) -> None:
        stub = self.stub('print("open 3", flush=True); sys.stdin.read()')
        with self.assertRaises(AssertionError):
            stub.serve(Options(Path("/tmp"), 21_000, 7))

    def test_what_is_missing(self) -> None:
        with mock.patch("shutil.which", return_value=None):
            self.assertEqual(missing_of(["strace", "go"]), ["strace", "go"])
        self.assertEqual(missing_of([]), [])


if __name__ == "__main__":
    unittest.main()
