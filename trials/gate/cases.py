"""What the cases share: the program, a folder and free ports for each."""
from __future__ import annotations

import os
import subprocess
import tempfile
import unittest
from pathlib import Path

from trials.lib.program import Options, Program, free_base_port

# The environment variable that names the program.
PROGRAM = "URBD_PROGRAM"
SHOWN = 300  # of a command line and of an output, in a message


class Case(unittest.TestCase):
    """A case over the built program, in a folder of its own."""

    program: Program

    @classmethod
    def setUpClass(cls) -> None:
        path = os.environ.get(PROGRAM)
        if not path:
            raise unittest.SkipTest(f"{PROGRAM} doesn't name the built program")
        cls.program = Program(Path(path).resolve())

    def setUp(self) -> None:
        room = tempfile.TemporaryDirectory(prefix="urbd-gate-")
        self.addCleanup(room.cleanup)
        self.room = Path(room.name)

    def options(self, name: str = "group", nodes: int = 1, base_port: int = 0) -> Options:
        """A group on a new folder, at a base port that is free if none is given."""
        folder = self.room / name
        folder.mkdir()
        return Options(folder, base_port or free_base_port(), nodes)

    def ends(
        self,
        run: subprocess.CompletedProcess[bytes],
        status: int,
        output: bytes = b"",
        error: bytes = b"",
    ) -> None:
        """The command ended with this status. Each of its outputs begins with this text."""
        words = " ".join(map(str, run.args[1:]))
        said = f"`{words[:SHOWN]}`: {run.stdout[:SHOWN]!r}, {run.stderr[:SHOWN]!r}"
        self.assertEqual(run.returncode, status, said)
        self.assertTrue(run.stdout.startswith(output), f"expected {output!r} of {said}")
        self.assertTrue(run.stderr.startswith(error), f"expected {error!r} of {said}")
