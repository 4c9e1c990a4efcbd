"""The table of two versions of the program."""
from __future__ import annotations

import unittest

from bench.versions import AFTER, BEFORE, FLOOR, ONE, Times, table


class Tables(unittest.TestCase):
    def test_a_row_has_the_medians_and_the_median_of_each_rounds_ratio(self) -> None:
        times: Times = {
            ONE: {
                BEFORE: [100.0, 200.0, 100.0],
                AFTER: [101.0, 198.0, 104.0],
                FLOOR: [100.0, 100.0, 50.0],
            }
        }
        row = "| one client, one node | 100.0 µs | 104.0 µs | 100.0 µs | 1.010 | 1.980 |"
        self.assertEqual(table(times).splitlines()[2], row)

    def test_a_slow_round_of_all_hardly_moves_the_ratio(self) -> None:
        times: Times = {
            ONE: {BEFORE: [100.0, 900.0, 100.0], AFTER: [100.0, 909.0, 100.0], FLOOR: [1, 1, 1]}
        }
        self.assertIn("| 1.000 |", table(times))


if __name__ == "__main__":
    unittest.main()
