"""Groups of the stub, for tests of benchmarks."""
from __future__ import annotations

import contextlib
import io
import tempfile
import unittest
from collections.abc import Callable, Sequence
from pathlib import Path

from trials.lib import stub
from trials.lib.program import Program

PROGRAM = Program(stub.PATH)


class StubTest(unittest.TestCase):
    """A test with a folder of its own, which is removed."""

    def setUp(self) -> None:
        room = tempfile.TemporaryDirectory()
        self.addCleanup(room.cleanup)
        self.room = Path(room.name)

    def told(self, main: Callable[[Sequence[str]], int], *words: object) -> str:
        """What a benchmark prints over the stub, which ends with status 0."""
        said = io.StringIO()
        with contextlib.redirect_stdout(said):
            status = main([str(stub.PATH), "--dir", str(self.room), *map(str, words)])
        self.assertEqual(status, 0)
        self.assertEqual(list(self.room.iterdir()), [])
        return said.getvalue()
