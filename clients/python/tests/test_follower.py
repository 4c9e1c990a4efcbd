"""`Follower` over simulated groups of older nodes, and of nodes that know WAIT."""
from __future__ import annotations

import json
import threading
import time
import unittest
from typing import Any, Optional

from tests.over_a_group import OverAGroup
from urbd import Entry, Follower, Node, Position, Stopped
from urbd.constants import MAX_PAYLOAD
from urbd.reading import Place


class OverThree(OverAGroup):
    nodes = 3

    def follower(self, position: Optional[Position] = None, **options: Any) -> Follower:
        follower = Follower(self.group.ports, position, timeout=0.3, **options)
        self.addCleanup(follower.close)
        return follower

    def drained(self, follower: Follower, polls: int = 60) -> list[Entry]:
        """The entries of this number of polls."""
        return [entry for _ in range(polls) for entry in follower.poll()]


class AFollower(OverThree):
    def test_it_reads_each_entry_once(self) -> None:
        self.fill(1000)
        follower = self.follower()
        self.assertEqual(self.drained(follower), self.group.entries)
        self.assertEqual(follower.poll(), [])
        self.fill(9)
        self.assertEqual([entry.seq for entry in self.drained(follower)], list(range(1001, 1010)))

    def test_a_long_log_takes_few_polls(self) -> None:
        self.fill(2000)
        self.assertEqual(len(self.drained(self.follower(), polls=22)), 2000)

    def test_long_messages_are_read_with_short_pages(self) -> None:
        self.fill(40, payload=bytes(MAX_PAYLOAD))
        seqs = [entry.seq for entry in self.drained(self.follower())]
        self.assertEqual(seqs, list(range(1, 41)))

    def test_it_holds_no_connection_at_an_older_node(self) -> None:
        followers = [self.follower() for _ in range(12)]
        self.fill(5)
        for follower in followers:
            self.assertEqual(len(follower.poll()), 5)
        for follower in followers:
            self.assertEqual(follower.wait(0.01), [])
        self.assertEqual(Node(self.port).status().shown, 5)

    def test_it_goes_on_at_another_node_whose_log_is_mixed_otherwise(self) -> None:
        for _ in range(30):
            self.fill(2, 1)
            self.fill(1, 2)
        mixed = sorted(
            self.group.entries,
            key=lambda entry: (entry.seq // 7, entry.sender, entry.seq),
        )
        self.group.nodes[1].shows = mixed[:70]
        self.group.nodes[2].shows = mixed
        self.group.nodes[0].shows = 33
        faults: list[int] = []
        follower = self.follower(on_fault=lambda port, fault: faults.append(port))
        read = self.drained(follower, 4)
        self.assertEqual(len(read), 33)
        self.group.nodes[0].troubles = ["close"] * 9
        read += self.drained(follower, 9)
        self.group.nodes[1].troubles = ["hang"]
        read += self.drained(follower, 9)
        self.assertEqual(len(read), 90)
        self.assertEqual(set(faults), set(self.group.ports[:2]))
        for sender, count in ((1, 60), (2, 30)):
            seqs = [entry.seq for entry in read if entry.sender == sender]
            self.assertEqual(seqs, list(range(1, count + 1)))

    def test_it_leaves_a_node_that_is_down(self) -> None:
        self.fill(20)
        self.group.nodes[0].shows, self.group.nodes[0].state = 11, "down"
        seqs = [entry.seq for entry in self.drained(self.follower())]
        self.assertEqual(seqs, list(range(1, 21)))

    def test_a_position_that_was_kept_goes_on_behind_it(self) -> None:
        self.fill(20)
        first = self.follower()
        self.drained(first)
        self.fill(3, 2)
        kept = json.loads(json.dumps(first.position.to_json()))
        names = [entry.name for entry in self.drained(self.follower(Position.from_json(kept)))]
        self.assertEqual(names, ["2.1", "2.2", "2.3"])

    def test_a_folder_that_was_begun_anew_stops_it(self) -> None:
        for count in (0, 5, 20):
            with self.subTest(count=count):
                self.fill(20)
                follower = self.follower()
                self.drained(follower)
                self.begin_anew()
                self.fill(count, payload=b"another")
                with self.assertRaisesRegex(Stopped, "isn't the one that was read up to place 20"):
                    follower.poll()
                self.begin_anew()

    def test_a_gap_stops_it(self) -> None:
        self.group.add(Entry(1, 2, 7, 2, b"x"))
        self.assertRaisesRegex(Stopped, "1.2 after 1.0", self.follower().poll)

    def test_pauses_grow_while_nothing_comes(self) -> None:
        follower, got = self.follower(), []

        def follow() -> None:
            for entries in follower:
                got.extend(entries)
                if len(got) > 3:
                    return

        thread = threading.Thread(target=follow)
        thread.start()
        time.sleep(1)
        asked = sum(node.asked for node in self.group.nodes)
        self.assertLess(asked, 50, "two requests a poll, some ten polls in the first second")
        self.fill(4)
        thread.join(5)
        self.assertEqual(len(got), 4)

    def test_pauses_are_parameters(self) -> None:
        follower = self.follower(least_pause=0.3, most_pause=0.3)
        follower.wait(1)
        asked = sum(node.asked for node in self.group.nodes)
        self.assertLess(asked, 14, "some four polls")


class AFollowerThatWaits(OverThree):
    knows_wait = True

    def test_it_gets_each_entry_at_once_over_one_connection(self) -> None:
        follower = self.follower()
        self.fill(3)
        self.assertEqual(len(follower.wait(1)), 3)
        for _ in range(5):
            begin = time.monotonic()
            threading.Timer(0.05, lambda: self.fill(1)).start()
            self.assertEqual(len(follower.wait(5)), 1)
            self.assertLess(time.monotonic() - begin, 1)
        self.assertLess(self.group.nodes[0].asked, 20)
        self.assertEqual(len(self.group.nodes[0].open), 1)

    def test_a_burst_is_read_in_few_turns(self) -> None:
        follower = self.follower()
        self.fill(1)
        follower.wait(1)
        self.fill(1000)
        begin, read = self.group.nodes[0].asked, 0
        while read < 1000:
            read += len(follower.wait(1))
        self.assertLess(self.group.nodes[0].asked - begin, 180)

    def test_it_goes_on_at_the_next_node_after_a_fault_and_when_a_node_is_down(
        self,
    ) -> None:
        follower = self.follower(longest_wait=0.1)

        def waited() -> int:
            """How many entries come in some turns."""
            return sum(len(follower.wait(0.2)) for _ in range(6))

        self.fill(5)
        self.assertEqual(waited(), 5)
        self.group.nodes[0].shows, self.group.nodes[0].state = 5, "down"
        self.fill(5)
        self.assertEqual(waited(), 5)
        self.group.nodes[1].close()
        self.fill(5)
        self.assertEqual(waited(), 5)
        self.assertEqual(follower.position.seen, {1: 15})

    def test_a_time_without_entries_ends(self) -> None:
        follower = self.follower()
        begin = time.monotonic()
        self.assertEqual(follower.wait(0.3), [])
        self.assertLess(abs(time.monotonic() - begin - 0.3), 0.2)


class APosition(unittest.TestCase):
    def test_its_json_is_that_of_the_go_client(self) -> None:
        position = Position({1: 3}, {7411: Place(4, "ab")})
        value = {"seen": {"1": 3}, "places": {"7411": [4, "ab"]}}
        self.assertEqual(position.to_json(), value)
        self.assertEqual(Position.from_json(value), position)
        self.assertEqual(Position.from_json(None), Position())

    def test_another_file_is_told_in_a_sentence(self) -> None:
        bad: list[Any] = [
            {},
            [],
            {"seen": {}, "places": {"1": []}},
            {"seen": 1, "places": {}},
        ]
        for value in bad:
            with self.subTest(value), self.assertRaisesRegex(
                Stopped, "isn't one that a follower has kept"
            ):
                Position.from_json(value)

    def test_a_follower_needs_a_port(self) -> None:
        self.assertRaises(ValueError, Follower, [])


if __name__ == "__main__":
    unittest.main()
