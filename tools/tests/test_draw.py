"""Pictures of runs."""
from __future__ import annotations

import unittest

from tools import draw

SCRIPT = [
    "group 3 10",
    "submit 1 7 1 hello",
    "stored 1",
    "log 1",
    "arrive 1 2 1 1",
    "stored 2",
    "log 2",
    "crash 3",
    "arrive 1 3 1 1",
    "restart 3",
    "tick 1",
]
ANSWERS = [
    "group 3 10",
    "draft 1.1 at 1",
    "accepted 1.1 sent 2 released 0",
    "log 1:",
    "draft 1.1 at 1",
    "taken 1.1 sent 2 released 1",
    "log 2: 1.1=hello",
    "down 3",
    "refused down",
    "up 3",
    "sent 2:1.1 3:1.1",
]
NAME = draw.Name(1, 1)


class Draw(unittest.TestCase):
    def setUp(self) -> None:
        self.run_read = draw.Reader().read(SCRIPT, ANSWERS)

    def test_looks_take_no_column(self) -> None:
        self.assertEqual((self.run_read.nodes, self.run_read.columns), (3, 8))

    def test_a_stored_message_is_sent_to_all_others(self) -> None:
        sends = [(it.column, it.source, it.target) for it in self.run_read.sends]
        self.assertEqual(sends, [(2, 1, 2), (2, 1, 3), (4, 2, 1), (4, 2, 3), (8, 1, 2), (8, 1, 3)])

    def test_an_arrival_is_of_the_packet_that_was_sent(self) -> None:
        first, second = self.run_read.arrivals
        self.assertEqual((first.send, first.is_refused), (draw.Send(2, 1, 2, NAME), False))
        self.assertEqual((second.send, second.is_refused), (draw.Send(2, 1, 3, NAME), True))

    def test_a_majority_certifies_and_what_joins_the_log_is_shown(self) -> None:
        kinds = [(it.node, it.kind, it.shown) for it in self.run_read.marks]
        self.assertIn((1, "stored", ()), kinds)
        self.assertIn((2, "certified", ("1.1",)), kinds)

    def test_a_picture_has_a_line_a_node_and_is_the_same_each_time(self) -> None:
        picture = draw.Picture(self.run_read).draw()
        self.assertEqual(picture, draw.Picture(self.run_read).draw())
        for node in (1, 2, 3):
            self.assertIn(f">node {node}</text>", picture)
        self.assertTrue(picture.startswith("<svg ") and picture.endswith("</svg>\n"))

    def test_a_log_is_looked_at_behind_each_store(self) -> None:
        self.assertEqual(draw.with_logs(["stored 2", "tick 1"]), ["stored 2", "log 2", "tick 1"])


if __name__ == "__main__":
    unittest.main()
