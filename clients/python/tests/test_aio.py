"""The client for asyncio, over simulated groups."""
from __future__ import annotations

import asyncio
import time
import unittest

from tests.over_a_group import OverAGroup
from urbd import Status, Stopped, aio
from urbd.errors import RefusedError


class OfAsyncio(OverAGroup, unittest.IsolatedAsyncioTestCase):
    """A test's functions may wait."""


class ANode(OfAsyncio):
    async def test_it_asks_one_thing_at_a_time(self) -> None:
        node = aio.Node(self.port)
        self.assertEqual(await node.submit(7, 1, "hi"), 1)
        self.assertEqual(await node.next_number(7), 2)
        self.assertEqual(await node.status(), Status("ready", 1, 1))
        self.assertEqual([entry.text async for entry in node.log()], ["hi"])
        await node.crash()
        with self.assertRaises(RefusedError):
            await node.submit(7, 2, b"x")
        await node.restart()

    async def test_it_has_a_time_limit_and_names_its_node(self) -> None:
        self.group.nodes[0].troubles = ["hang"]
        with self.assertRaisesRegex(TimeoutError, f"no answer from 127.0.0.1:{self.port} in 0.2 s"):
            await aio.Node(self.port, timeout=0.2).status()
        self.group.nodes[0].troubles = ["close"]
        with self.assertRaisesRegex(ConnectionError, "the node has closed the connection"):
            await aio.Node(self.port).status()
        self.group.close()
        with self.assertRaisesRegex(ConnectionRefusedError, "nobody listens at"):
            await aio.Node(self.port).status()

    async def test_temporary_faults_are_repeated(self) -> None:
        self.group.nodes[0].troubles = [4, "close", "lose", 3]
        node = aio.Node(self.port, timeout=0.5)
        self.assertEqual(await aio.repeat(lambda: node.submit(7, 1, b"x"), 5), 1)
        with self.assertRaises(RefusedError):
            await aio.repeat(lambda: node.submit(7, 9, b"x"), 5)


class APublisher(OfAsyncio):
    def publish_to(self) -> aio.Publisher:
        publisher = aio.Publisher(self.port, 7, self.path, patience=0, timeout=2)
        self.addCleanup(publisher.abandon)
        return publisher

    async def test_tasks_share_it(self) -> None:
        async with self.publish_to() as publisher:
            work = [publisher.publish(f"{number}") for number in range(20)]
            self.assertEqual(sorted(await asyncio.gather(*work)), list(range(1, 21)))
        self.assertEqual(len(set(self.payloads())), 20)

    async def test_what_stops_on_the_way_is_sent_once(self) -> None:
        publisher = self.publish_to()
        await publisher.publish(b"one")
        self.group.nodes[0].troubles = ["lose"]
        with self.assertRaises(OSError):
            await publisher.publish(b"two")
        publisher.abandon()
        again = self.publish_to()
        self.assertEqual(await again.finish(), 2)
        self.assertEqual(await again.publish(b"three"), 3)
        self.assertEqual(self.payloads(), [b"one", b"two", b"three"])

    async def test_another_program_stops_it(self) -> None:
        publisher = self.publish_to()
        await publisher.publish(b"one")
        await aio.Node(self.port).submit(7, 2, b"not mine")
        for _ in range(2):
            with self.assertRaisesRegex(Stopped, "used by another program"):
                await publisher.publish(b"two")
        with self.assertRaises(BlockingIOError):
            self.publish_to()

    async def test_what_a_full_node_refuses_is_dropped(self) -> None:
        self.group.cap = 1
        publisher = self.publish_to()
        await publisher.publish(b"one")
        with self.assertRaises(RefusedError):
            await publisher.publish(b"two")
        self.assertIsNone(await publisher.finish())


class AFollower(OfAsyncio):
    nodes = 2

    async def test_it_reads_each_entry_once_and_goes_on_at_the_next_node(self) -> None:
        self.fill(100)
        async with aio.Follower(self.group.ports, timeout=0.3) as follower:
            read = []
            for _ in range(20):
                read += await follower.poll()
            self.group.nodes[0].close()
            self.fill(10)
            for _ in range(20):
                read += await follower.wait(0.05)
        self.assertEqual(read, self.group.entries)

    async def test_another_log_stops_it(self) -> None:
        self.fill(3)
        follower = aio.Follower(self.group.ports[:1])
        await follower.poll()
        self.begin_anew()
        with self.assertRaises(Stopped):
            await follower.poll()


class AFollowerThatWaits(OfAsyncio):
    knows_wait = True

    async def test_it_gets_an_entry_at_once(self) -> None:
        async with aio.Follower(self.group.ports) as follower:
            self.fill(1)
            async for entries in follower:
                self.assertEqual(len(entries), 1)
                break
            loop = asyncio.get_running_loop()
            for _ in range(3):
                loop.call_later(0.05, self.fill, 1)
                begin = time.monotonic()
                self.assertEqual(len(await follower.wait(5)), 1)
                self.assertLess(time.monotonic() - begin, 1)
            self.assertEqual(len(self.group.nodes[0].open), 1)

    async def test_a_task_that_is_cancelled_leaves_no_connection(self) -> None:
        follower = aio.Follower(self.group.ports)
        task = asyncio.create_task(follower.wait(30))
        await asyncio.sleep(0.1)
        task.cancel()
        with self.assertRaises(asyncio.CancelledError):
            await task
        await asyncio.sleep(1.1)  # the node's own wait ends
        self.assertEqual(len(self.group.nodes[0].open), 0)


if __name__ == "__main__":
    unittest.main()
