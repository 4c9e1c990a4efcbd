"""The examples tell what is wrong in a sentence, whatever they are given."""
from __future__ import annotations

import signal
import subprocess
import sys
import tempfile
import unittest
from pathlib import Path

from trials import TOP
from urbd import Node
from urbd.simulation import SimulatedGroup

LIMIT = 60.0  # seconds for an example


class Examples(unittest.TestCase):
    """A group of one node with three messages, and the examples as a shell runs them."""

    def setUp(self) -> None:
        room = tempfile.TemporaryDirectory()
        self.addCleanup(room.cleanup)
        self.room = Path(room.name)
        self.group = SimulatedGroup(1, knows_wait=True)
        self.addCleanup(self.group.close)
        self.port = self.group.nodes[0].port
        for number in (1, 2, 3):
            Node(self.port).submit(9, number, b"x")

    def run_line(self, line: str) -> subprocess.CompletedProcess[str]:
        """Runs a line of the shell. In it PUBLISH, FOLLOW, PORT and FILE stand for themselves."""
        for name, word in (
            ("PUBLISH", f"{sys.executable} {TOP}/examples/publish.py"),
            ("FOLLOW", f"{sys.executable} {TOP}/examples/follow.py"),
            ("PORT", str(self.port)),
            ("FILE", str(self.room / "file")),
        ):
            line = line.replace(name, word)
        return subprocess.run(
            ["bash", "-c", line], capture_output=True, text=True, timeout=LIMIT, cwd=self.room
        )

    def tells(self, line: str, expected: str) -> None:
        """This line of the shell tells that on standard error, and prints no traceback."""
        with self.subTest(line):
            done = self.run_line(line)
            self.assertNotIn("Traceback", done.stderr)
            self.assertIn(expected, done.stderr)

    def test_ports_and_numbers_that_are_none(self) -> None:
        of_range = "isn't a number from 1 to 65535"
        self.tells("PUBLISH --port 99999 --client 7 --file FILE", f"'99999' {of_range}")
        self.tells("PUBLISH --port host --client 7 --file FILE", f"'host' {of_range}")
        self.tells("PUBLISH --port PORT --client 0 --file FILE", f"'0' {of_range}")
        self.tells("PUBLISH --port PORT --client 70000 --file FILE", f"'70000' {of_range}")
        self.tells("FOLLOW --port PORT,0", "'0' isn't a port from 1 to 65535")
        self.tells("FOLLOW --port host", "'host' isn't a port from 1 to 65535")

    def test_files_that_can_not_be_used(self) -> None:
        (self.room / "bad").write_text("{bad")
        (self.room / "other").write_text("[1]")
        publish = "echo hi | PUBLISH --port PORT --client 7 --file"
        self.tells(f"{publish} bad", "bad isn't a file that a client has kept")
        self.tells(f"{publish} other", "isn't one that a publisher has kept")
        self.tells(f"{publish} /nowhere/x", "No such file or directory")
        self.tells(f"{publish} .", "Is a directory")
        self.tells("FOLLOW --port PORT --file bad", "bad isn't a file that a client has kept")
        self.tells("FOLLOW --port PORT --file other", "isn't one that a follower has kept")
        self.tells("FOLLOW --port PORT --file /nowhere/x", "No such file or directory")

    def test_streams_that_are_closed_or_full(self) -> None:
        publish = "PUBLISH --port PORT --client 7 --file FILE"
        self.tells(f"{publish} <&-", "publish.py: standard input is closed")
        self.tells(f"echo hi | {publish} > /dev/full", "No space left on device")
        self.tells("FOLLOW --port PORT > /dev/full", "No space left on device")

    def test_output_that_nobody_reads_any_more(self) -> None:
        for line in (
            "FOLLOW --port PORT | true",
            "seq 1 9 | PUBLISH --port PORT --client 8 --file FILE | true",
        ):
            with self.subTest(line):
                self.assertEqual(self.run_line(line).stderr, "")

    def test_a_message_that_is_refused(self) -> None:
        long = "head -c 20000 /dev/zero | tr '\\0' x"
        self.tells(
            f"{long} | PUBLISH --port PORT --client 7 --file FILE",
            "publish.py: refused 5 0: the payload is too long",
        )

    def test_ctrl_c_ends_a_follower_without_a_word(self) -> None:
        words = [sys.executable, str(TOP / "examples" / "follow.py"), "--port", str(self.port)]
        pipe = subprocess.PIPE
        with subprocess.Popen(words, stdout=pipe, stderr=pipe, text=True) as process:
            assert process.stdout is not None and process.stderr is not None
            self.assertEqual(process.stdout.readline(), "1.1 9 1 78\n")
            process.send_signal(signal.SIGINT)
            self.assertEqual(process.wait(LIMIT), 130)
            self.assertEqual(process.stderr.read(), "")


if __name__ == "__main__":
    unittest.main()
