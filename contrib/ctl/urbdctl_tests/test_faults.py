"""The command tells what is wrong in a sentence, whatever it is given."""
from __future__ import annotations

import signal
import subprocess
import sys
import unittest

from urbdctl_tests.running import COMMAND, OverAGroup, run

LIMIT = 60.0  # seconds for a command


class Streams(OverAGroup):
    def run_line(self, line: str) -> subprocess.CompletedProcess[str]:
        """Runs a line of the shell. In it CTL stands for the command, and GROUP for this group."""
        line = line.replace("CTL", f"{sys.executable} {COMMAND}")
        line = line.replace("GROUP", f"--base-port {self.base} --nodes 3 --cap 100 --dir .")
        return subprocess.run(["bash", "-c", line], capture_output=True, text=True, timeout=LIMIT)

    def test_a_full_disk(self) -> None:
        for word in ("status", "metrics", "watch"):
            with self.subTest(word):
                done = self.run_line(f"CTL {word} GROUP > /dev/full")
                self.assertEqual(done.returncode, 1)
                self.assertEqual(done.stderr, "urbdctl: [Errno 28] No space left on device\n")

    def test_a_check_on_a_full_disk_knows_nothing(self) -> None:
        done = self.run_line("CTL check GROUP --skip memory --skip disk > /dev/full")
        self.assertEqual((done.returncode, done.stderr), (3, ""))

    def test_output_that_is_closed(self) -> None:
        done = self.run_line("CTL check GROUP --skip memory --skip disk >&-")
        self.assertEqual((done.returncode, done.stderr), (0, ""))
        done = self.run_line("CTL status --base-port 1 2>&-")
        self.assertEqual((done.returncode, done.stdout), (3, ""))

    def test_output_that_nobody_reads(self) -> None:
        for word in ("status", "metrics", "watch --every 0.1"):
            with self.subTest(word):
                self.assertEqual(self.run_line(f"CTL {word} GROUP | true").stderr, "")

    def test_ctrl_c(self) -> None:
        group = ["--base-port", str(self.base), "--nodes", "3"]
        for words in (["watch", *group], ["metrics", "--listen", "0", *group]):
            with self.subTest(words[0]):
                pipe = subprocess.PIPE
                command = [sys.executable, str(COMMAND), *words]
                with subprocess.Popen(command, stdout=pipe, stderr=pipe, text=True) as process:
                    assert process.stdout is not None and process.stderr is not None
                    self.assertTrue(process.stdout.readline())
                    process.send_signal(signal.SIGINT)
                    self.assertEqual(process.wait(LIMIT), 130)
                    self.assertEqual(process.stderr.read(), "")


class Addresses(unittest.TestCase):
    def test_a_bridge_to_no_address(self) -> None:
        for kind in ("redis", "etcd"):
            for address in ("nohost", "127.0.0.1:99999", "::", "", ":1"):
                with self.subTest(f"{kind} {address}"):
                    status, _, errors = run("bridge", kind, address, "key")
                    self.assertEqual(status, 3)
                    self.assertEqual(
                        errors, f"urbdctl: {address!r} is no address: write HOST:PORT\n"
                    )

    def test_folders_that_are_none(self) -> None:
        for words, expected in (
            (("verify", "--dir", "/nowhere", "--nodes", 1, "--cap", 5), "is no folder"),
            (("verify", "--dir", "/etc/hostname", "--nodes", 1, "--cap", 5), "is no folder"),
            (("verify", "--dir", "/etc"), "verify needs --nodes and --cap, or --list"),
        ):
            with self.subTest(words):
                status, output, errors = run(*words)
                self.assertNotEqual(status, 0)
                self.assertIn(expected, output + errors)


if __name__ == "__main__":
    unittest.main()
