"""`urbdctl verify` over folders that are made by docs/FORMATS.md."""
from __future__ import annotations

import os
import shutil
import sqlite3
import subprocess
import sys
import tempfile
import unittest

from urbdctl.journals import path_of
from urbdctl_tests.folder_cases import CASES
from urbdctl_tests.folder_makers import THREE
from urbdctl_tests.journal_files import contents
from urbdctl_tests.running import COMMAND, execute, run

# Hold the bytes that SQLite locks: by a lock of the process, or by one of the open file.
HOLDERS = {
    "a process": "import fcntl, sys; f = open(sys.argv[1], 'r+b'); "
    "fcntl.lockf(f, fcntl.LOCK_EX, 512, 1 << 30); print(flush=True); sys.stdin.read()",
    "an open file": "import fcntl, struct, sys; f = open(sys.argv[1], 'r+b'); "
    "fcntl.fcntl(f, 37, struct.pack('hhqqi', fcntl.F_WRLCK, 0, 1 << 30, 512, 0)); "
    "print(flush=True); sys.stdin.read()",
}


@unittest.skipIf(sqlite3.sqlite_version_info < (3, 37), "SQLite 3.37 is needed")
class InAFolder(unittest.TestCase):
    def setUp(self) -> None:
        self.folder = tempfile.mkdtemp()

    def tearDown(self) -> None:
        shutil.rmtree(self.folder)

    def verified(self, folder: str, nodes: int = 3, cap: int = 10) -> tuple[int, str, str]:
        return run("verify", "--dir", folder, "--nodes", nodes, "--cap", cap)

    def test_each_folder_is_judged_as_a_start_has_to(self) -> None:
        for number, case in enumerate(CASES):
            with self.subTest(case.what):
                folder = os.path.join(self.folder, str(number))
                os.mkdir(folder)
                case.make(folder)
                before = contents(folder)
                status, output, _ = self.verified(folder, case.nodes, case.cap)
                is_open = case.answer.startswith("open")
                self.assertIn((case.answer if is_open else f"urbd: {case.answer}") + "\n", output)
                self.assertIn(case.says, output)
                self.assertEqual(status, 0 if is_open else 1)
                self.assertEqual(contents(folder), before, "it changes no file and makes none")

    def test_a_folder_that_is_not_there_is_refused(self) -> None:
        status, output, _ = self.verified(os.path.join(self.folder, "missing"))
        self.assertEqual(status, 1)
        self.assertIn("urbd: refused 15 0", output)

    def test_the_process_that_holds_a_journal_is_named(self) -> None:
        THREE(self.folder)
        for what, code in HOLDERS.items():
            words = [sys.executable, "-c", code, path_of(self.folder, 2)]
            pipe = subprocess.PIPE
            with self.subTest(what), subprocess.Popen(words, stdin=pipe, stdout=pipe) as process:
                assert process.stdin is not None and process.stdout is not None
                process.stdout.readline()
                status, output, _ = self.verified(self.folder)
                process.stdin.close()
                self.assertIn(f"node-2.db is held by process {process.pid} (python3", output)
                self.assertIn("urbd: refused 15 0", output)

    def test_a_page_that_is_damaged_is_found(self) -> None:
        THREE(self.folder)
        path = path_of(self.folder, 1)
        with open(path, "r+b") as file:
            file.seek(os.path.getsize(path) - 1024)
            file.write(b"\xff" * 600)
        status, output, _ = self.verified(self.folder)
        self.assertEqual(status, 1, output)
        self.assertIn("node 1: refused 15 0", output)

    def test_records_are_listed(self) -> None:
        THREE(self.folder)
        wanted = "1 journal2 Pend 1.1 7 1 312e31\n2 journal2 Cert 1.1 0 0 -\n"
        self.assertEqual(run("verify", "--dir", self.folder, "--list", 1), (0, wanted, ""))

    def test_a_list_that_nobody_reads_ends_without_a_trace(self) -> None:
        THREE(self.folder)
        line = f"{sys.executable} {COMMAND} verify --dir {self.folder} --list 1 | true"
        done = subprocess.run(line, shell=True, capture_output=True, text=True, timeout=60)
        self.assertEqual(done.stderr, "")

    def test_a_wrong_command_line_has_status_3(self) -> None:
        for words in ((), ("--nodes", 3), ("--nodes", 8, "--cap", 10), ("--list", 0)):
            status, _, errors = execute("verify", "--dir", self.folder, *words)
            self.assertEqual(status, 3, words)
            self.assertNotIn("Traceback", errors)


if __name__ == "__main__":
    unittest.main()
