"""Programs that take turns at reading."""
from __future__ import annotations

import contextlib
import io
import unittest
from pathlib import Path
from unittest import mock

from bench import reads
from bench.groups import new_group
from bench.load import Answer, Load
from bench.tests.stubs import PROGRAM, StubTest
from trials.lib.program import all_ports


class Turns(StubTest):
    def test_a_turn_begins_with_the_next_program_and_goes_to_the_next_node(self) -> None:
        asked: list[int] = []

        def run(self: Load, kind: str, port: int, clients: int, seconds: float) -> Answer:
            asked.append(port)
            return Answer(float(len(asked)), 0, 0, 0)

        with new_group(PROGRAM, self.room, 3, 50) as one, new_group(
            PROGRAM, self.room, 3, 50
        ) as other, mock.patch.object(Load, "run", run):
            found = reads.measure(Load(self.room), [one, other], 3, 0.1)
            ports = [all_ports(it.options) for it in (one, other)]
        self.assertEqual(found, [[1.0, 4.0, 5.0], [2.0, 3.0, 6.0]])
        order = [(0, 0), (1, 0), (1, 1), (0, 1), (0, 2), (1, 2)]
        self.assertEqual(asked, [ports[group][node] for group, node in order])

    def test_a_line_for_each_program(self) -> None:
        said = io.StringIO()
        with contextlib.redirect_stdout(said):
            reads.show([Path("old"), Path("new")], [[100.0, 200.0, 300.0], [400.0, 400.0]])
        self.assertEqual(
            said.getvalue().splitlines(),
            [
                "old: 200 reads a second (100 to 300), 1.000 of the first",
                "new: 400 reads a second (400 to 400), 2.000 of the first",
            ],
        )


if __name__ == "__main__":
    unittest.main()
