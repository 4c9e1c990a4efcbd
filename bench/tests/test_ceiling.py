"""Who submits in the benchmark of the ceiling."""
from __future__ import annotations

import unittest

from bench.ceiling import CROWDS, Crowd


class Crowds(unittest.TestCase):
    def test_clients_are_shared_out_among_the_nodes(self) -> None:
        self.assertEqual(Crowd(1, 4).shares(), [4])
        self.assertEqual(Crowd(3, 64).shares(), [21, 21, 22])
        self.assertEqual(Crowd(3, 1).shares(), [0, 0, 1])

    def test_no_client_is_left_out(self) -> None:
        for crowd in CROWDS:
            self.assertEqual(sum(crowd.shares()), crowd.clients)

    def test_a_row_says_who_submits(self) -> None:
        self.assertEqual(str(Crowd(1, 4, 16)), "4 clients, 16 each, 1 node")
        self.assertEqual(str(Crowd(3, 12)), "12 clients, 3 nodes")


if __name__ == "__main__":
    unittest.main()
