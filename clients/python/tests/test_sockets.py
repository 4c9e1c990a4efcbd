"""The client over Unix sockets: each call and class takes a path where it takes a port."""
from __future__ import annotations

import json
import os
import socket
import threading
import unittest

from tests.over_a_group import OverAGroup
from urbd import Connection, Follower, Node, Position, Publisher, Status, Stopped, aio, kept
from urbd.addresses import Address, address_in, name_of, place_of
from urbd.reading import Place
from urbd.simulation import SimulatedGroup


class OverSockets(OverAGroup):
    """A group whose nodes take clients at Unix sockets."""

    def setUp(self) -> None:
        super().setUp()
        self.group.close()
        folder = self.folder.name
        self.paths: list[Address] = [
            os.path.join(folder, f"node-{node}.sock") for node in range(1, self.nodes + 1)
        ]
        self.group = SimulatedGroup(self.nodes, ports=self.paths, knows_wait=self.knows_wait)


class AnAddress(unittest.TestCase):
    def test_digits_are_a_port_and_the_rest_is_a_path(self) -> None:
        for text, at in (("7411", 7411), ("/run/s", "/run/s"), ("./7411", "./7411")):
            self.assertEqual(address_in(text), at)
        self.assertEqual((name_of(7411, "h"), name_of("/run/s", "h")), ("h:7411", "/run/s"))
        self.assertEqual((place_of(7411), place_of("/run/s")), ("port 7411", "socket /run/s"))


class ANode(OverSockets):
    def test_it_serves_each_request(self) -> None:
        node = Node(self.port)
        self.assertEqual(node.submit(7, 1, "hi"), 1)
        self.assertEqual([entry.text for entry in node.log()], ["hi"])
        self.assertEqual(node.status(), Status("ready", 1, 1))
        node.crash()
        self.assertTrue(node.status().is_down)
        node.restart()
        with Connection(self.port) as connection:
            self.assertEqual(connection.next_number(7), 2)

    def test_faults_name_the_path(self) -> None:
        self.group.nodes[0].troubles = ["hang", "close"]
        with self.assertRaisesRegex(TimeoutError, f"no answer from {self.port} in 0.2 s"):
            Node(self.port, timeout=0.2).status()
        with self.assertRaisesRegex(ConnectionError, f"{self.port}: the node has closed"):
            Node(self.port).status()
        self.group.close()
        for _ in range(2):
            with self.assertRaisesRegex(ConnectionRefusedError, f"nobody listens at {self.port}"):
                Node(self.port).status()
            if os.path.exists(str(self.port)):
                os.remove(str(self.port))

    def test_a_failed_connection_leaves_nothing_open(self) -> None:
        before = len(os.listdir("/proc/self/fd"))
        for _ in range(5):
            with self.assertRaises(ConnectionRefusedError):
                Node(os.path.join(self.folder.name, "nobody.sock")).status()
        self.assertEqual(len(os.listdir("/proc/self/fd")), before)


class APublisher(OverSockets):
    def test_it_continues_after_a_stop(self) -> None:
        first = self.publisher()
        first.publish("one")
        self.group.nodes[0].troubles = ["lose"]
        first.patience = 0
        with self.assertRaises(OSError):
            first.publish("two")
        first.abandon()
        with Publisher(self.port, 7, self.path, timeout=0.5) as second:
            second.publish("three")
        self.assertEqual(self.payloads(), [b"one", b"two", b"three"])
        self.assertEqual(kept(self.path)["port"], self.port)

    def test_its_file_is_that_of_its_socket(self) -> None:
        first = self.publisher(patience=0)
        first.publish("one")
        self.group.close()
        with self.assertRaises(OSError):
            first.publish("two")
        first.abandon()
        with self.assertRaisesRegex(Stopped, f"of client 7 at socket {self.port}: finish it there"):
            Publisher(7411, 7, self.path)


class AFollower(OverSockets):
    nodes = 3

    def follow(self, position: Position) -> Follower:
        follower = Follower(self.paths, position)
        self.addCleanup(follower.close)
        return follower

    def test_it_goes_on_at_the_next_node_and_after_a_stop(self) -> None:
        self.fill(20)
        first = self.follow(Position())
        self.assertEqual(len(first.wait(1)) + len(first.wait(0.1)), 20)
        self.group.nodes[0].close()
        self.fill(3)
        found = []
        for _ in range(5):
            found += first.wait(0.1)
        self.assertEqual([entry.seq for entry in found], [21, 22, 23])
        value = json.loads(json.dumps(first.position.to_json()))
        position = Position.from_json(value)
        self.assertEqual(set(position.places), set(self.paths[:2]))
        second = Follower(self.paths[1:], position)
        self.addCleanup(second.close)
        self.fill(1)
        self.assertEqual([entry.seq for entry in second.wait(1)], [24])

    def test_a_position_may_have_ports_and_sockets(self) -> None:
        position = Position({}, {7411: Place(2, "d"), "/run/s": Place(3, "e")})
        value = json.loads(json.dumps(position.to_json()))
        self.assertEqual(Position.from_json(value), position)


class AFollowerThatWaits(OverSockets):
    knows_wait = True

    def test_it_keeps_one_connection(self) -> None:
        follower = Follower([self.port])
        self.addCleanup(follower.close)
        for count in range(1, 4):
            threading.Timer(0.05, self.fill, (1,)).start()
            self.assertEqual([entry.seq for entry in follower.wait(5)], [count])
        self.assertEqual(len(self.group.nodes[0].open), 1)


class OfAsyncio(OverSockets, unittest.IsolatedAsyncioTestCase):
    knows_wait = True

    async def test_each_class_takes_a_path(self) -> None:
        async with aio.Publisher(self.port, 7, self.path, timeout=2) as publisher:
            self.assertEqual(await publisher.publish("hi"), 1)
        self.assertEqual(await aio.Node(self.port).status(), Status("ready", 1, 1))
        follower = aio.Follower([self.port])
        self.assertEqual([entry.text for entry in await follower.wait(1)], ["hi"])
        await follower.close()

    async def test_faults_name_the_path(self) -> None:
        self.group.close()
        with self.assertRaisesRegex(ConnectionRefusedError, f"nobody listens at {self.port}"):
            await aio.Node(self.port).status()


class ASimulation(OverSockets):
    def test_a_new_one_replaces_the_socket_of_an_ended_one(self) -> None:
        self.group.close()
        self.assertTrue(os.path.exists(str(self.port)))
        self.group = SimulatedGroup(ports=self.paths)
        self.assertEqual(Node(self.port).status(), Status("ready", 0, 0))
        with socket.socket(socket.AF_UNIX) as end:
            end.connect(str(self.port))
