"""What the benchmark of crowds makes of its rounds."""
from __future__ import annotations

import unittest

from bench.crowds import Got, middle


class Rounds(unittest.TestCase):
    def test_each_figure_has_its_own_median(self) -> None:
        rounds = [Got(1, 30, 2, 5, 0.5), Got(3, 10, 1, 6, 0.7), Got(2, 20, 3, 4, 0.9)]
        self.assertEqual(middle(rounds), Got(2, 20, 2, 5, 0.7))

    def test_a_put_shows_nothing(self) -> None:
        put = middle([Got(2, 4), Got(4, 2)])
        self.assertEqual((put.rate, put.late), (3, 3))
        self.assertEqual("".join(put.cells()).split(), ["3", "3"])

    def test_a_row_has_a_cell_for_each_figure(self) -> None:
        cells = "".join(Got(8772.4, 5700, 2000, 6200, 0.62).cells())
        self.assertEqual(cells.split(), ["8772", "5700", "2000", "6200", "0.62"])
        self.assertEqual(len("".join(Got(8772.4, 5700).cells())), len(cells))


if __name__ == "__main__":
    unittest.main()
