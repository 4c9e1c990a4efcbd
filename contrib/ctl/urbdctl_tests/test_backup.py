"""`urbdctl backup` over a process that writes two files in turn, and how groups are found."""
from __future__ import annotations

import os
import shutil
import signal
import subprocess
import sys
import tempfile
import time
import unittest
from pathlib import Path
from unittest import mock

from urbdctl import backup, group
from urbdctl.errors import Trouble
from urbdctl.group import Group
from urbdctl_tests.running import run

# Writes a number into one file, and then the same into the other: in a copy at one moment they
# differ by one at most.
WRITER = """
import os, sys
names = ("node-1.db", "node-2.db")
files = [os.open(os.path.join(sys.argv[1], name), os.O_RDWR | os.O_CREAT) for name in names]
number = 0
while True:
    number += 1
    for file in files:
        os.pwrite(file, b"%12d" % number * 400, 0)
    if number == 10:
        print(flush=True)
"""

# Suspends a process, and stays in the middle of a backup.
KILLED = """
import sys, time
sys.path[:0] = sys.argv[2:]
from urbdctl import backup
with backup.stopped(int(sys.argv[1])):
    print(flush=True)
    time.sleep(60)
"""


class OverAWriter(unittest.TestCase):
    def setUp(self) -> None:
        self.room = tempfile.mkdtemp()
        self.folder = os.path.join(self.room, "group")
        os.mkdir(self.folder)
        words = [sys.executable, "-c", WRITER, self.folder]
        self.writer = subprocess.Popen(words, stdout=subprocess.PIPE)
        assert self.writer.stdout is not None
        self.writer.stdout.readline()

    def tearDown(self) -> None:
        self.writer.kill()
        self.writer.communicate()
        shutil.rmtree(self.room)

    def numbers(self, folder: str) -> list[int]:
        """The numbers in the two files."""
        found = []
        for name in ("node-1.db", "node-2.db"):
            with open(os.path.join(folder, name), "rb") as file:
                whole = file.read()
            self.assertEqual(whole, whole[:12] * 400, "a copy has no half of a write")
            found.append(int(whole[:12]))
        return found

    def goes_on(self) -> bool:
        first = self.numbers_of_a_stand()
        time.sleep(0.1)
        return self.numbers_of_a_stand() != first

    def numbers_of_a_stand(self) -> list[int]:
        with backup.stopped(self.writer.pid):
            return self.numbers(self.folder)

    def test_a_copy_is_of_one_moment(self) -> None:
        for turn in range(20):
            target = os.path.join(self.room, str(turn))
            backup.back_up(self.writer.pid, self.folder, target)
            first, second = self.numbers(target)
            self.assertIn(first - second, (0, 1))
        self.assertTrue(self.goes_on())

    def test_the_process_goes_on_after_a_fault(self) -> None:
        with self.assertRaises(ZeroDivisionError), backup.stopped(self.writer.pid):
            raise ZeroDivisionError
        self.assertTrue(self.goes_on())

    def test_the_process_goes_on_if_the_backup_is_killed(self) -> None:
        top = Path(__file__).resolve().parents[3]
        folders = [str(top / "contrib" / "ctl"), str(top / "clients" / "python" / "src")]
        words = [sys.executable, "-c", KILLED, str(self.writer.pid), *folders]
        killed = subprocess.Popen(words, stdout=subprocess.PIPE)
        assert killed.stdout is not None
        killed.stdout.readline()
        self.assertTrue(backup.stands(self.writer.pid))
        killed.send_signal(signal.SIGKILL)
        killed.communicate()
        end = time.monotonic() + 10
        while backup.stands(self.writer.pid) and time.monotonic() < end:
            time.sleep(0.01)
        self.assertTrue(self.goes_on())

    def test_a_folder_that_exists_or_can_not_be_made_is_told_in_a_sentence(self) -> None:
        running = Group(7400, 1, 10, self.folder, self.writer.pid)
        with self.assertRaisesRegex(Trouble, "exists: give the name of a new folder"):
            backup.backup(running, self.room)
        with self.assertRaisesRegex(Trouble, "No such file or directory"):
            backup.backup(running, os.path.join(self.room, "no", "folder"))
        with mock.patch.object(os, "mkdir", side_effect=PermissionError(13, "Permission denied")):
            with self.assertRaisesRegex(Trouble, "copy: Permission denied"):
                backup.backup(running, os.path.join(self.room, "copy"))
        self.assertTrue(self.goes_on())

    def test_a_program_that_is_not_seen_is_told_in_a_sentence(self) -> None:
        words = ("backup", "--base-port", 64998, "--nodes", 1, "--to", self.room)
        status, _, errors = run(*words)
        self.assertEqual(status, 1)
        self.assertIn("if it is stopped, copy the folder", errors)


class OfCommandLines(unittest.TestCase):
    def test_options_are_read_in_both_spellings(self) -> None:
        words = "--nodes 3 --cap=10 --no-crash --dir=--d --base-port 7400".split()
        wanted = {"--nodes": "3", "--cap": "10", "--no-crash": "", "--dir": "--d"}
        self.assertEqual(group.options_of(words), {**wanted, "--base-port": "7400"})
        wanted = {"--dir": "a=b", "--nodes": ""}
        self.assertEqual(group.options_of(["--dir=a=b", "--nodes"]), wanted)

    def test_a_program_is_found_by_its_port(self) -> None:
        words = ["urbd", "serve", "--nodes", "3", "--cap", "10", "--dir", "some/where"]
        words += ["--no-crash", "--base-port", "64999", "--tick-ms", "20"]
        self.assertIsNone(group.process_at(64999))
        with tempfile.TemporaryDirectory() as folder:
            with open(os.path.join(folder, "serve"), "w", encoding="utf-8") as file:
                file.write("import sys; print(flush=True); sys.stdin.read()")
            # Python under the program's command line
            process = subprocess.Popen(
                words,
                executable=sys.executable,
                cwd=folder,
                stdin=subprocess.PIPE,
                stdout=subprocess.PIPE,
            )
            assert process.stdout is not None
            process.stdout.readline()
            found = group.find(64999)
            process.communicate()
        where = os.path.join(folder, "some/where")
        self.assertEqual(found, Group(64999, 3, 10, where, process.pid))
        self.assertIsNone(group.process_at(64999))

    def test_a_process_has_memory_a_limit_and_a_start(self) -> None:
        seen = group.machine_of(Group(7400, 1, 10, ".", os.getpid()))
        assert seen.memory and seen.memory_limit and seen.started and seen.disk_size
        self.assertLess(seen.memory, seen.memory_limit)
        self.assertLess(abs(seen.started - time.time()), 3600)
        self.assertLessEqual(seen.disk_free or 0, seen.disk_size)


if __name__ == "__main__":
    unittest.main()
