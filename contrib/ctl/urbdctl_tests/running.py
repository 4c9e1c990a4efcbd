"""Runs the command as its users do, and groups for it."""
from __future__ import annotations

import io
import socket
import subprocess
import sys
import unittest
from contextlib import redirect_stderr, redirect_stdout
from pathlib import Path

from urbd import Node
from urbd.simulation import SimulatedGroup
from urbdctl.main import main

COMMAND = Path(__file__).resolve().parents[2] / "urbdctl"


def run(*words: object) -> tuple[int, str, str]:
    """The status, the output and the errors of the command, in this process."""
    with redirect_stdout(io.StringIO()) as output, redirect_stderr(io.StringIO()) as errors:
        try:
            status = main([str(word) for word in words])
        except SystemExit as end:
            status = int(end.code or 0)
    return status, output.getvalue(), errors.getvalue()


def execute(*words: object) -> tuple[int, str, str]:
    """The same in a process of its own."""
    line = [sys.executable, str(COMMAND), *map(str, words)]
    done = subprocess.run(line, capture_output=True, text=True, timeout=60)
    return done.returncode, done.stdout, done.stderr


def free_base(nodes: int = 3) -> int:
    """A base port whose ports for these nodes' clients are free."""
    for base in range(20000, 30000, 20):
        try:
            for node in range(1, nodes + 1):
                socket.create_server(("127.0.0.1", base + 10 + node)).close()
            return base
        except OSError:
            pass
    raise OSError("no base port is free")


class OverAGroup(unittest.TestCase):
    """A simulated group of three nodes with ten messages."""

    def setUp(self) -> None:
        self.base = free_base()
        ports = [self.base + 10 + node for node in (1, 2, 3)]
        self.group = SimulatedGroup(3, ports=ports)
        for number in range(1, 11):
            Node(ports[0]).submit(7, number, b"x")

    def tearDown(self) -> None:
        self.group.close()

    def run_on(self, word: str, *words: object) -> tuple[int, str, str]:
        """Runs the command on this group."""
        group = ("--base-port", self.base, "--nodes", 3, "--cap", 100)
        return run(word, *group, *words)
