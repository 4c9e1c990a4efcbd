"""`urbdctl bridge` over a simulated group and simulated targets; no server is needed."""
from __future__ import annotations

import base64
import json
import threading
import unittest
from collections.abc import Callable, Sequence
from typing import Any, Optional
from unittest import mock

from urbd import Entry, Node
from urbd.simulation import SimulatedGroup
from urbdctl import bridge
from urbdctl.bridge import Bridge, Changed, Checkpoint, require_same_first
from urbdctl.to_etcd import Etcd
from urbdctl.to_redis import Redis
from urbdctl_tests.fake_redis import FakeRedis
from urbdctl_tests.running import run

MANY = 400  # steps in which each test comes to its end


class ListTarget:
    """Keeps entries one after the other. `faults` says after how many entries appends break off."""

    def __init__(self, faults: Sequence[int] = ()) -> None:
        self.entries: list[Entry] = []
        self.faults, self.asked = list(faults), 0
        self.first: Optional[str] = None

    def checkpoint(self, first: str) -> Checkpoint:
        self.asked += 1
        self.first = self.first or first
        require_same_first(first, self.first)
        last = self.entries[-1].digest() if self.entries else None
        return Checkpoint(len(self.entries) + 1, last)

    def append(self, place: int, entries: Sequence[Entry]) -> Checkpoint:
        left = self.faults.pop(0) if self.faults else -1
        for at, entry in enumerate(entries, place):
            if at != len(self.entries) + 1:
                raise ConnectionError("the id is equal or smaller")
            if left == 0:
                raise ConnectionError("it broke off")
            self.entries.append(entry)
            left -= 1
        if left == 0:
            raise ConnectionError("the answer was lost")
        return Checkpoint(place + len(entries), entries[-1].digest())


class OverAGroup(unittest.TestCase):
    def setUp(self) -> None:
        self.group = SimulatedGroup()
        self.node = Node(self.group.ports[0], timeout=1)
        self.notes: list[str] = []

    def tearDown(self) -> None:
        self.group.close()

    def fill(self, count: int, payload: bytes = b"x") -> None:
        first = len(self.group.entries) + 1
        numbers = range(first, first + count)
        self.group.add(*(Entry(1, number, 7, number, payload) for number in numbers))

    def bridge_to(self, target: bridge.Target) -> Bridge:
        return Bridge(self.node, target, self.notes.append)

    def steps(self, made: Bridge, is_done: Callable[[], bool]) -> None:
        """Steps until all is copied; it has to be so in time."""
        for _ in range(MANY):
            if is_done():
                return
            made.step()
        self.fail(f"not done: {self.notes}")


class ABridge(OverAGroup):
    def copied(self, target: ListTarget) -> list[Entry]:
        """What the target has once it has everything."""
        made = self.bridge_to(target)
        self.steps(made, lambda: len(target.entries) >= len(self.group.entries))
        made.step()
        return target.entries

    def test_what_breaks_off_is_asked_for_again(self) -> None:
        self.fill(200)
        target = ListTarget(faults=(0, 3, 31, 31, 5))
        self.assertEqual(self.copied(target), self.group.entries)
        self.assertEqual(target.asked, 6)
        self.assertIn("goes on", self.notes)

    def test_it_goes_on_behind_what_the_target_has(self) -> None:
        self.fill(50)
        target = ListTarget()
        self.copied(target)
        self.fill(7)
        self.assertEqual(self.copied(target), self.group.entries)

    def test_it_names_the_node_that_is_away_once_and_goes_on_when_it_is_back(self) -> None:
        self.fill(5)
        entries, ports = self.group.entries, self.group.ports
        made, target = self.bridge_to(ListTarget()), ListTarget()
        made.target = target
        self.group.close()
        for _ in range(3):
            self.assertFalse(made.step())
        self.assertEqual(self.notes, [f"waits: nobody listens at 127.0.0.1:{ports[0]}"])
        self.group = SimulatedGroup(ports=ports)
        self.group.add(*entries)
        self.steps(made, lambda: target.entries == entries)
        self.assertEqual(self.notes[1:], ["goes on"])

    def test_another_beginning_another_entry_and_a_shorter_log_stop_it(self) -> None:
        changes: list[tuple[str, Callable[[list[Entry]], Any]]] = [
            ("begun anew", lambda log: log.__setitem__(0, Entry(1, 1, 8, 1, b"x"))),
            ("isn't the one", lambda log: log.__setitem__(19, Entry(1, 20, 7, 20, b"y"))),
            ("isn't the one", lambda log: log.__delitem__(slice(10, None))),
        ]
        for what, change in changes:
            with self.subTest(what):
                self.group.entries.clear()
                self.fill(20)
                target = ListTarget()
                self.copied(target)
                change(self.group.entries)
                with self.assertRaisesRegex(Changed, what):
                    self.bridge_to(target).step()

    def test_an_empty_log_copies_nothing(self) -> None:
        target = ListTarget()
        self.assertIsNone(bridge.checkpoint_of(self.node, target))
        self.assertEqual(target.asked, 0)

    def test_an_idle_bridge_asks_the_target_again(self) -> None:
        self.fill(5)
        target = ListTarget()
        made = self.bridge_to(target)
        self.steps(made, lambda: len(target.entries) == 5)
        target.entries.clear()
        made.pause = bridge.MOST_PAUSE
        sleeps: list[float] = []

        def sleep(seconds: float) -> None:
            sleeps.append(seconds)
            if len(target.entries) == 5:
                raise InterruptedError

        with mock.patch("time.sleep", sleep), self.assertRaises(InterruptedError):
            made.run()
        self.assertIn("the target lost entries: goes on at place 1", self.notes)

    def test_a_wrong_address_is_told_in_a_sentence(self) -> None:
        for kind in ("redis", "etcd"):
            for address in ("localhost", "localhost:", ":1", "localhost:x", "localhost:0"):
                status, _, errors = run("bridge", kind, address, "key")
                self.assertEqual(status, 3)
                self.assertEqual(errors, f"urbdctl: {address!r} is no address: write HOST:PORT\n")


class ToRedis(OverAGroup):
    def setUp(self) -> None:
        super().setUp()
        self.redis = FakeRedis()
        self.addCleanup(self.redis.close)
        self.target = Redis(self.redis.address, "log")
        self.addCleanup(self.target.close)
        self.made = self.bridge_to(self.target)

    def has(self, count: int) -> Callable[[], bool]:
        return lambda: self.redis.places == list(range(1, count + 1))

    def test_entries_have_their_places_and_fields(self) -> None:
        self.fill(100)
        self.steps(self.made, self.has(100))
        assert self.redis.stream is not None
        fields = self.redis.stream[1][1]
        names = [b"sender", b"seq", b"client", b"number", b"digest", b"payload"]
        self.assertEqual(fields[::2], names)
        self.assertEqual(fields[1::2][:4], [b"1", b"2", b"7", b"2"])
        self.assertEqual(fields[11], b"x")

    def test_a_stream_that_was_removed_is_copied_again_without_a_hole(self) -> None:
        self.fill(96)
        self.steps(self.made, self.has(96))
        self.redis.flush()
        self.fill(1)
        self.steps(self.made, self.has(97))
        self.assertIn("the target lost entries: goes on at place 1", self.notes)

    def test_a_stream_that_is_removed_during_a_write_gets_no_hole(self) -> None:
        self.fill(96)
        self.steps(self.made, self.has(96))
        asking = self.target.ask

        def ask(*commands: Any) -> Any:
            if commands[0] == ("MULTI",):
                self.redis.flush()
            return asking(*commands)

        self.fill(1)
        with mock.patch.object(self.target, "ask", ask):
            self.made.step()
        self.assertEqual(self.redis.places, [])
        self.steps(self.made, self.has(97))

    def test_only_the_first_place_may_make_a_stream(self) -> None:
        entry = Entry(1, 1, 7, 1, b"")
        self.assertNotIn("NOMKSTREAM", self.target.adding(1, entry))
        self.assertEqual(self.target.adding(2, entry)[:4], ["XADD", "log", "NOMKSTREAM", "0-2"])

    def test_two_bridges_and_lost_replies_leave_no_hole_and_no_repeat(self) -> None:
        other = Bridge(self.node, Redis(self.redis.address, "log"), self.notes.append)
        self.redis.lose_replies = 5
        for turn in range(40):
            self.fill(7)
            if turn == 20:
                self.redis.flush()
            self.made.step()
            other.step()
        self.steps(self.made, self.has(280))
        assert isinstance(other.target, Redis)
        other.target.close()

    def test_a_stream_that_was_trimmed_to_nothing_goes_on(self) -> None:
        self.fill(5)
        self.steps(self.made, self.has(5))
        self.redis.stream = []
        self.redis.changes += 1
        self.made.at = None
        self.fill(2)
        self.steps(self.made, lambda: self.redis.places == [6, 7])

    def test_an_error_names_the_server(self) -> None:
        self.fill(1)
        self.redis.error = b"-OOM no memory\r\n"
        self.made.step()
        self.assertEqual(self.notes, [f"waits: redis at {self.redis.address}: OOM no memory"])
        self.redis.error = b"$5\r\nab"
        threading.Timer(0.2, self.redis.close).start()
        target = Redis("127.0.0.1:1", "log")
        with self.assertRaisesRegex(ConnectionError, "redis at 127.0.0.1:1: Connection refused"):
            target.ask(("PING",))

    def test_another_writer_stops_it(self) -> None:
        with self.assertRaisesRegex(Changed, "another program writes into log: its last id is 5-1"):
            self.target.last_place([b"last-generated-id", b"5-1"])
        self.fill(1)
        self.redis.keys[b"log:first"] = b"another"
        with self.assertRaises(Changed):
            self.made.step()


class ToEtcd(unittest.TestCase):
    def setUp(self) -> None:
        self.etcd = Etcd("127.0.0.1:1", "log")
        self.asked: list[tuple[str, dict[str, Any]]] = []
        self.kept: Optional[str] = None
        patched = mock.patch.object(self.etcd, "ask", self.ask)
        patched.start()
        self.addCleanup(patched.stop)
        self.entry = Entry(1, 1, 7, 1, b"hi")

    def ask(self, path: str, body: dict[str, Any]) -> dict[str, Any]:
        self.asked.append((path, body))
        if path.endswith("range"):
            return {"kvs": [{"value": self.kept}]} if self.kept else {}
        return {"succeeded": True}

    def test_a_transaction_compares_the_checkpoint_that_was_read(self) -> None:
        self.etcd.checkpoint("digest")
        self.etcd.append(1, [self.entry])
        self.etcd.append(2, [self.entry])
        first, second = (body for path, body in self.asked if path.endswith("txn"))
        key = base64.b64encode(b"log/checkpoint").decode()
        none = {"key": key, "result": "EQUAL", "target": "CREATE", "createRevision": "0"}
        self.assertEqual(first["compare"], [none])
        put = first["success"][-1]["requestPut"]
        self.assertEqual(put["key"], key)
        wanted = {"next": 2, "first": "digest", "last": self.entry.digest()}
        self.assertEqual(json.loads(base64.b64decode(put["value"])), wanted)
        there = {"key": key, "result": "EQUAL", "target": "VALUE", "value": put["value"]}
        self.assertEqual(second["compare"], [there])
        place = base64.b64decode(second["success"][0]["requestPut"]["key"])
        self.assertEqual(place, b"log/entry/0000000002")
        entry = json.loads(base64.b64decode(second["success"][0]["requestPut"]["value"]))
        fields = {"sender": 1, "seq": 1, "client": 7, "number": 1, "payload": "aGk="}
        self.assertEqual(entry, fields)

    def test_a_checkpoint_that_has_changed_is_a_fault_that_may_pass(self) -> None:
        self.etcd.checkpoint("digest")
        with mock.patch.object(self.etcd, "ask", lambda path, body: {}):
            with self.assertRaisesRegex(OSError, "etcd at 127.0.0.1:1: another bridge"):
                self.etcd.append(1, [self.entry])

    def test_another_first_entry_stops_it(self) -> None:
        value = {"next": 2, "first": "another", "last": "x"}
        self.kept = base64.b64encode(json.dumps(value).encode()).decode()
        with self.assertRaises(Changed):
            self.etcd.checkpoint("digest")

    def test_a_member_that_is_away_is_named_and_the_next_one_asked(self) -> None:
        etcd = Etcd("127.0.0.1:1,127.0.0.1:2", "log")
        for member in (1, 2, 1):
            with self.assertRaisesRegex(OSError, f"etcd at 127.0.0.1:{member}: Connection refused"):
                etcd.checkpoint("digest")


if __name__ == "__main__":
    unittest.main()
