"""A simulated group for each test, and what tests ask of it."""
from __future__ import annotations

import os
import tempfile
import unittest
from collections.abc import Callable
from typing import Any, Optional

from urbd import Address, Entry, Publisher, RefusedError
from urbd.simulation import SimulatedGroup


def refusal(call: Callable[[], Any]) -> Optional[tuple[int, int]]:
    """The number and detail of the refusal that the call raises; None if it raises none."""
    try:
        call()
    except RefusedError as refused:
        return refused.number, refused.detail
    return None


class OverAGroup(unittest.TestCase):
    """A group of `nodes` nodes, and a file for a publisher."""

    nodes = 1
    knows_wait = False

    def setUp(self) -> None:
        self.group = SimulatedGroup(self.nodes, knows_wait=self.knows_wait)
        self.folder = tempfile.TemporaryDirectory()
        self.path = os.path.join(self.folder.name, "publisher")

    def tearDown(self) -> None:
        self.group.close()
        self.folder.cleanup()

    @property
    def port(self) -> Address:
        """The port of node 1."""
        return self.group.ports[0]

    def publisher(
        self, client: int = 7, port: Optional[Address] = None, patience: float = 5
    ) -> Publisher:
        """A publisher with the test's file, closed at the end of the test."""
        publisher = Publisher(port or self.port, client, self.path, patience=patience, timeout=0.5)
        self.addCleanup(publisher.abandon)
        return publisher

    def fill(self, count: int, sender: int = 1, payload: bytes = b"x") -> None:
        """Adds this number of messages of a sender."""
        begin = len([entry for entry in self.group.entries if entry.sender == sender])
        numbers = range(begin + 1, begin + count + 1)
        self.group.add(*(Entry(sender, number, 7, number, payload) for number in numbers))

    def payloads(self) -> list[bytes]:
        """The payloads of all messages, in order."""
        return [entry.payload for entry in self.group.entries]

    def begin_anew(self) -> None:
        """The same ports, and an empty folder."""
        ports = self.group.ports
        self.group.close()
        self.group = SimulatedGroup(self.nodes, ports=ports, knows_wait=self.knows_wait)
