"""What the benchmarks share beside groups."""
from __future__ import annotations

import unittest

from bench.beside import free_ports


class Ports(unittest.TestCase):
    def test_no_two_are_the_same(self) -> None:
        ports = free_ports(50)
        self.assertEqual(len(set(ports)), 50)
        self.assertTrue(all(0 < port < 65_536 for port in ports))


if __name__ == "__main__":
    unittest.main()
