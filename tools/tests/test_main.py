"""The command `python3 -m tools`."""
from __future__ import annotations

import subprocess
import sys
import unittest

from tools.__main__ import TOOLS
from tools.tree import TOP


def run(*words: str) -> subprocess.CompletedProcess[str]:
    command = [sys.executable, "-m", "tools", *words]
    return subprocess.run(command, cwd=TOP, capture_output=True, text=True)


class Main(unittest.TestCase):
    def test_help_goes_to_standard_output(self) -> None:
        told = run("--help")
        self.assertEqual((told.returncode, told.stderr), (0, ""))
        for name in TOOLS:
            self.assertIn(f"python3 -m tools {name}", told.stdout)

    def test_each_tool_has_a_help(self) -> None:
        for name in TOOLS:
            with self.subTest(name):
                self.assertEqual(run(name, "--help").returncode, 0)
                self.assertEqual(run(name, "--no-such-option").returncode, 2)

    def test_output_that_nobody_reads(self) -> None:
        line = f"{sys.executable} -m tools believed | true"
        told = subprocess.run(["bash", "-c", line], cwd=TOP, capture_output=True, text=True)
        self.assertEqual(told.stderr, "")

    def test_words_that_it_does_not_know(self) -> None:
        for words in ((), ("chekc",)):
            told = run(*words)
            self.assertEqual((told.returncode, told.stdout), (2, ""))


if __name__ == "__main__":
    unittest.main()
