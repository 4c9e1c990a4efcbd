"""Groups whose nodes are asked at Unix sockets."""
from __future__ import annotations

import os
import subprocess
import sys
import tempfile
import unittest

from urbd import Node
from urbd.simulation import SimulatedGroup
from urbdctl import group
from urbdctl.group import Group
from urbdctl_tests.running import free_base, run


class Sockets(unittest.TestCase):
    """A simulated group of three nodes at sockets, with two messages."""

    def setUp(self) -> None:
        folder = tempfile.TemporaryDirectory()
        self.addCleanup(folder.cleanup)
        self.dir = folder.name
        paths = [os.path.join(self.dir, f"node-{node}.sock") for node in (1, 2, 3)]
        self.group = SimulatedGroup(3, ports=paths)
        self.addCleanup(self.group.close)
        for number in (1, 2):
            Node(paths[0]).submit(7, number, b"x")
        self.base = free_base()

    def run_on(self, word: str, *words: object) -> tuple[int, str, str]:
        """Runs the command on this group."""
        return run(word, "--base-port", self.base, "--socket-dir", self.dir, *words)

    def test_a_group_is_shown(self) -> None:
        status, output, errors = self.run_on("status", "--nodes", 3, "--cap", 100)
        self.assertEqual((status, errors), (0, ""))
        self.assertIn("ready", output)
        self.assertNotIn("no answer", output)

    def test_a_node_is_restarted(self) -> None:
        Node(self.group.ports[1]).crash()
        status, _, errors = self.run_on("restart", "--node", 2)
        self.assertEqual((status, errors), (0, ""))
        self.assertFalse(Node(self.group.ports[1]).status().is_down)

    def test_nobody_at_the_socket_is_critical(self) -> None:
        self.group.close()
        status, output, _ = self.run_on("check")
        self.assertEqual(status, 2)
        self.assertIn(f"nobody listens at {self.dir}/node-1.sock", output)


class Programs(unittest.TestCase):
    def test_options_without_a_value_take_none(self) -> None:
        words = ["--no-tcp", "--socket-dir", "s", "--no-crash", "--nodes=3", "--cap"]
        wanted = {
            "--no-tcp": "",
            "--socket-dir": "s",
            "--no-crash": "",
            "--nodes": "3",
            "--cap": "",
        }
        self.assertEqual(group.options_of(words), wanted)

    def test_a_program_without_tcp_is_asked_at_its_sockets(self) -> None:
        for more, sockets in (
            (["--no-tcp", "--socket-dir", "s"], "s"),
            (["--socket-dir", "s"], None),
            (["--no-crash"], None),
        ):
            words = ["urbd", "serve", *more, "--nodes", "3", "--cap", "10", "--dir", "d"]
            words += ["--base-port", "64998", "--tick-ms", "20"]
            with tempfile.TemporaryDirectory() as folder:
                with open(os.path.join(folder, "serve"), "w", encoding="utf-8") as file:
                    file.write("import sys; print(flush=True); sys.stdin.read()")
                # Python under the program's command line
                process = subprocess.Popen(
                    words,
                    executable=sys.executable,
                    cwd=folder,
                    stdin=subprocess.PIPE,
                    stdout=subprocess.PIPE,
                )
                assert process.stdout is not None
                process.stdout.readline()
                found = group.find(64998)
                process.communicate()
                inside = os.path.realpath(folder)
            where = sockets and os.path.join(inside, sockets)
            wanted = Group(64998, 3, 10, os.path.join(inside, "d"), process.pid, where)
            self.assertEqual(found, wanted)
            at = os.path.join(inside, "s/node-2.sock") if sockets else 65010
            self.assertEqual(found.at(2), at)
