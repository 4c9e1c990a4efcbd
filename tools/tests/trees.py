"""Small trees of files for tests."""
from __future__ import annotations

import tempfile
import textwrap
import unittest
from collections.abc import Iterable, Mapping
from pathlib import Path

from tools.tree import Misfit, Tree


class TreeTest(unittest.TestCase):
    """A test over trees that it makes."""

    def tree(self, files: Mapping[str, str]) -> Tree:
        """A tree with these files, whose texts are dedented. It is removed after the test."""
        room = tempfile.TemporaryDirectory()
        self.addCleanup(room.cleanup)
        for name, text in files.items():
            path = Path(room.name, name)
            path.parent.mkdir(parents=True, exist_ok=True)
            path.write_text(textwrap.dedent(text).lstrip("\n"))
        return Tree(Path(room.name))

    def holds(self, misfits: Iterable[Misfit], *expected: str) -> None:
        """Exactly these misfits were found, in this order."""
        self.assertEqual([str(misfit) for misfit in misfits], list(expected))
