"""`Node`, `Connection`, `Publisher` and files over a simulated group."""
from __future__ import annotations

import os
import threading
import time
import unittest
from typing import Any
from unittest import mock

from tests.over_a_group import OverAGroup, refusal
from urbd import (
    Connection,
    Node,
    Publisher,
    Status,
    Stopped,
    client_port,
    keep,
    kept,
    repeat,
)
from urbd.constants import MAX_PAYLOAD
from urbd.errors import BadReply, RefusedError
from urbd.frames import GetStatus
from urbd.simulation import SimulatedGroup, Trouble


class ANode(OverAGroup):
    def test_each_request_has_a_connection_of_its_own(self) -> None:
        nodes = [Node(self.port) for _ in range(20)]
        seqs = [node.submit(7, number, b"x") for number, node in enumerate(nodes, 1)]
        self.assertEqual(seqs, list(range(1, 21)))

    def test_a_submit_is_repeated_until_it_is_accepted_and_stored_once(self) -> None:
        troubles: list[Trouble] = [
            4,
            "close",
            b"\x00",
            b"\x00\x05\x81\x00",
            3,
            "lose",
            1,
            11,
        ]
        troubles += [15, 16, "hang"]
        self.group.nodes[0].troubles = list(troubles)
        node = Node(self.port, timeout=0.3)
        self.assertEqual(repeat(lambda: node.submit(7, 1, b"hi"), 20), 1)
        self.assertEqual(self.group.nodes[0].asked, len(troubles) + 1)
        self.assertEqual(self.payloads(), [b"hi"])
        self.assertEqual(node.submit(7, 1, "hi"), 1, "text is UTF-8")

    def test_final_refusals_are_raised_at_once(self) -> None:
        node = Node(self.port)
        node.submit(7, 1, b"hi")
        self.assertEqual(refusal(lambda: repeat(lambda: node.submit(7, 1, b"ho"))), (6, 0))
        self.assertEqual(refusal(lambda: repeat(lambda: node.submit(7, 9, b"ho"))), (7, 2))
        self.assertEqual(refusal(lambda: node.submit(7, 2, bytes(MAX_PAYLOAD + 1))), (5, 0))
        self.group.nodes[0].troubles = [99]
        self.assertEqual(refusal(lambda: repeat(lambda: node.read(1))), (99, 0))

    def test_pages_of_long_messages_are_short(self) -> None:
        node, payloads = Node(self.port), [bytes([each]) * MAX_PAYLOAD for each in range(5)]
        for number, payload in enumerate(payloads, 1):
            node.submit(7, number, payload)
        self.assertEqual([len(node.read(place)) for place in range(1, 7)], [3, 3, 3, 2, 1, 0])
        self.assertEqual([entry.payload for entry in node.log()], payloads)

    def test_an_answer_that_comes_in_drips_ends_in_time(self) -> None:
        self.group.nodes[0].troubles = ["drips", "hang"]
        begin = time.monotonic()
        for _ in range(2):
            with self.assertRaisesRegex(TimeoutError, f"no answer from 127.0.0.1:{self.port}"):
                Node(self.port, timeout=0.3).submit(7, 1, b"hi")
        self.assertLess(time.monotonic() - begin, 0.9)

    def test_nobody_at_the_port_is_named(self) -> None:
        self.group.close()
        with self.assertRaisesRegex(
            ConnectionRefusedError, f"nobody listens at 127.0.0.1:{self.port}"
        ):
            Node(self.port).status()

    def test_status_crash_and_restart(self) -> None:
        node = Node(self.port)
        node.submit(7, 1, b"hi")
        self.assertEqual(node.status(), Status("ready", 1, 1))
        self.assertEqual(refusal(node.restart), (12, 0))
        node.crash()
        self.assertTrue(node.status().is_down)
        self.assertEqual(
            (refusal(node.crash), refusal(lambda: node.submit(7, 2, b"x"))),
            ((3, 0),) * 2,
        )
        node.restart()
        self.assertFalse(node.status().is_down)

    def test_a_node_of_an_older_version_refuses_to_wait(self) -> None:
        with self.assertRaises(RefusedError) as refused:
            Node(self.port).wait(1, 0.1)
        self.assertTrue(refused.exception.is_unknown_request)

    def test_ports_follow_from_the_base_port(self) -> None:
        self.assertEqual(client_port(7400, 1), 7411)


class AConnection(OverAGroup):
    def test_it_serves_several_calls(self) -> None:
        with Node(self.port).connect() as connection:
            for number in range(1, 4):
                self.assertEqual(connection.submit(7, number, b"x"), number)
            self.assertEqual(len(connection.read(1)), 3)
            self.assertEqual(len(connection.ask(GetStatus(), GetStatus())), 2)
        with self.assertRaises(OSError):
            connection.status()

    def test_four_that_are_held_leave_room_for_no_fifth(self) -> None:
        held = [Connection(self.port) for _ in range(4)]
        with self.assertRaises(TimeoutError):
            Node(self.port, timeout=0.2).status()
        for connection in held:
            connection.close()
        self.assertEqual(Node(self.port).status().state, "ready")

    def test_after_a_fault_it_is_closed(self) -> None:
        self.group.nodes[0].troubles = ["drips"]
        with Connection(self.port, timeout=0.2) as connection:
            for _ in range(2):
                with self.assertRaises(OSError):
                    connection.status()

    def test_a_strange_answer_is_named(self) -> None:
        self.group.nodes[0].troubles = [b"\x00\x01\x84"]
        with self.assertRaisesRegex(BadReply, "no answer to what was asked"):
            Node(self.port).status()


class AConnectionThatWaits(OverAGroup):
    knows_wait = True

    def test_it_gets_an_entry_when_it_is_shown(self) -> None:
        threading.Timer(0.1, lambda: Node(self.port).submit(7, 1, b"hi")).start()
        with Connection(self.port, timeout=0.5) as connection:
            self.assertEqual(connection.wait(1, 0.01), [])
            self.assertEqual([entry.payload for entry in connection.wait(1, 5)], [b"hi"])


class AFile(OverAGroup):
    def test_a_value_is_kept_whole_or_not_at_all(self) -> None:
        keep(self.path, {"a": 1})
        for name in ("fsync", "replace"):
            with self.subTest(name), mock.patch.object(os, name, side_effect=OSError):
                self.assertRaises(OSError, keep, self.path, {"a": 2})
            self.assertEqual(kept(self.path), {"a": 1})

    def test_a_value_is_on_the_disk_before_it_has_its_name_and_the_name_before_the_end(
        self,
    ) -> None:
        calls: list[str] = []
        with mock.patch.object(os, "fsync", lambda _: calls.append("sync")):
            with mock.patch.object(os, "replace", lambda *_: calls.append("replace")):
                keep(self.path, {"a": 1})
        self.assertEqual(calls, ["sync", "replace", "sync"])

    def test_a_file_that_holds_no_value_is_told_in_a_sentence(self) -> None:
        for content in (b"{bad", b"\xff\xfe", b""):
            with self.subTest(content):
                with open(self.path, "wb") as file:
                    file.write(content)
                with self.assertRaisesRegex(Stopped, "isn't a file that a client has kept"):
                    kept(self.path)

    def test_another_file_is_told_in_a_sentence(self) -> None:
        keep(self.path, {"a": 1})
        with self.assertRaisesRegex(Stopped, "isn't one that a publisher has kept"):
            self.publisher()


class APublisher(OverAGroup):
    def test_it_begins_behind_what_its_client_has_sent(self) -> None:
        for number in range(1, 4):
            Node(self.port).submit(7, number, b"before")
        self.assertEqual(self.publisher().publish("now"), 4)

    def test_a_message_is_kept_before_it_is_sent(self) -> None:
        publisher = self.publisher()
        seen: list[Any] = []
        submit = publisher.node.submit

        def look(*words: Any) -> int:
            now = kept(self.path)
            seen.append((now["number"], bytes.fromhex(now["payload"]), now["done"]))
            return submit(*words)

        with mock.patch.object(publisher.node, "submit", look):
            publisher.publish(b"one")
            publisher.publish(b"two")
        self.assertEqual(seen, [(1, b"one", False), (2, b"two", False)])
        publisher.close()
        self.assertTrue(kept(self.path)["done"])

    def test_what_stops_on_the_way_is_sent_once(self) -> None:
        troubles: list[Trouble] = ["lose", "close", 15, "hang", "lose"]
        for number, trouble in enumerate(troubles, 1):
            publisher = self.publisher(patience=0)
            if number == 1:
                self.assertEqual(publisher.publish(b"m0"), 1)
            publisher.finish()
            self.group.nodes[0].troubles = [trouble]
            with self.assertRaises((OSError, RefusedError)):
                publisher.publish(b"m%d" % number)
            publisher.abandon()  # as the end of the program
            again = self.publisher()
            self.assertEqual(again.finish(), number + 1)
            self.assertEqual(again.finish(), None)
            again.abandon()
        self.assertEqual(self.payloads(), [b"m%d" % number for number in range(6)])

    def test_a_message_whose_patience_ended_goes_before_the_next(self) -> None:
        publisher = self.publisher(patience=0)
        publisher.publish(b"first")
        self.group.nodes[0].troubles = ["lose"]
        self.assertRaises(OSError, publisher.publish, b"second")
        self.assertEqual(publisher.publish(b"third"), 3)
        self.assertEqual(self.payloads(), [b"first", b"second", b"third"])

    def test_a_number_that_another_program_used_stops_it_for_good(self) -> None:
        publisher = self.publisher()
        publisher.publish(b"mine")
        Node(self.port).submit(7, 2, b"not mine")
        for payload in (b"mine", b"again"):
            with self.assertRaisesRegex(
                Stopped, "number 2 of client 7 was used by another program"
            ):
                publisher.publish(payload)
        publisher.abandon()
        self.assertRaises(Stopped, self.publisher().finish)
        self.assertEqual(self.payloads(), [b"mine", b"not mine"])

    def test_a_folder_that_was_begun_anew_stops_it_for_good(self) -> None:
        with self.publisher() as publisher:
            publisher.publish(b"one")
            publisher.publish(b"two")
        self.begin_anew()
        with self.assertRaisesRegex(Stopped, "expects number 1, and had accepted 2"):
            self.publisher().publish(b"three")
        self.assertEqual(self.payloads(), [])

    def test_a_closed_one_may_begin_elsewhere_and_an_open_one_may_not(self) -> None:
        publisher = self.publisher()
        publisher.publish(b"one")
        publisher.publish(b"two")
        publisher.abandon()
        other = SimulatedGroup()
        self.addCleanup(other.close)
        with self.assertRaisesRegex(Stopped, "finish it there"):
            self.publisher(port=other.ports[0])
        self.publisher().close()
        self.assertEqual(self.publisher(port=other.ports[0]).publish(b"three"), 1)
        self.assertEqual([entry.payload for entry in other.entries], [b"three"])

    def test_what_a_full_node_refuses_is_not_under_way(self) -> None:
        self.group.cap = 1
        publisher = self.publisher()
        publisher.publish(b"one")
        self.assertEqual(refusal(lambda: publisher.publish(b"two")), (8, 0))
        self.assertEqual(publisher.finish(), None)
        self.group.cap = 2
        self.assertEqual(publisher.publish(b"three"), 2)
        self.assertEqual(self.payloads(), [b"one", b"three"])

    def test_two_programs_do_not_share_a_file(self) -> None:
        first = self.publisher()
        with self.assertRaisesRegex(BlockingIOError, "another program uses"):
            self.publisher()
        first.close()
        self.publisher()

    def test_threads_share_a_publisher(self) -> None:
        publisher, faults = self.publisher(), []

        def publish(thread: int) -> None:
            try:
                for number in range(20):
                    publisher.publish(f"{thread} {number}")
            except Exception as fault:
                faults.append(fault)

        threads = [threading.Thread(target=publish, args=(each,)) for each in range(4)]
        for thread in threads:
            thread.start()
        for thread in threads:
            thread.join()
        self.assertEqual(faults, [])
        wanted = sorted(b"%d %d" % (each, number) for each in range(4) for number in range(20))
        self.assertEqual(sorted(self.payloads()), wanted)

    def test_it_waits_while_nobody_listens(self) -> None:
        publisher = self.publisher()
        publisher.publish(b"one")
        entries, ports = self.group.entries, self.group.ports
        self.group.close()

        def come_back() -> None:
            self.group = SimulatedGroup(self.nodes, ports=ports, entries=entries)

        threading.Timer(0.3, come_back).start()
        self.assertEqual(publisher.publish(b"two"), 2)

    def test_a_payload_is_bytes_or_text(self) -> None:
        publisher = self.publisher()
        for payload in (1, None, ["x"]):
            self.assertRaises(TypeError, publisher.publish, payload)
        self.assertEqual(refusal(lambda: publisher.publish("ä" * 8193)), (5, 0))
        self.assertEqual(publisher.publish("ä"), 1)
        self.assertEqual(self.payloads(), ["ä".encode()])

    def test_a_fault_in_a_with_leaves_the_message_in_progress(self) -> None:
        self.group.nodes[0].troubles = [7, "lose"]
        with self.assertRaises(OSError):
            with Publisher(self.port, 7, self.path, patience=0) as publisher:
                publisher.publish(b"one")
        self.assertFalse(kept(self.path)["done"])


if __name__ == "__main__":
    unittest.main()
