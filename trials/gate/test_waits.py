"""WAIT: what ends it, and what it answers."""
from __future__ import annotations

import time
import unittest
from concurrent.futures import ThreadPoolExecutor
from contextlib import ExitStack
from dataclasses import replace
from pathlib import Path

from urbd.constants import MAX_PAYLOAD
from urbd.frames import Accepted, Entries, GetStatus, Read, Response, Status, Wait
from urbd.node import Connection

from trials.gate.cases import Case
from trials.lib.messages import Sent, wait_for_logs
from trials.lib.program import PATIENCE, Daemon

CLIENT = 7
FOLLOWERS = 100
# The longest wait, in milliseconds and seconds. What ends by itself takes less, however busy the
# machine is.
LONGEST = 65_535
LONG = LONGEST / 1000
# A wait that nothing ends, in milliseconds.
SHORT = 1_500
NOTHING: list[Response] = [Entries(())]
# The longest time between two ticks, in milliseconds. A trial that needs no tick is over before.
RARE_TICKS = 60_000
BURST = 64  # long messages, more than wait in a socket
WATCHED = 2  # seconds
# How often a group without work wakes in a second: its timer looks for a stop 20 times.
MOST_WAKES = 60


def wakes_of(daemon: Daemon) -> int:
    """How often the threads of a group have slept and woken again."""
    count = 0
    for path in Path(f"/proc/{daemon.process.pid}/task").iterdir():
        lines = (path / "status").read_text().splitlines()
        count += sum(int(it.split()[1]) for it in lines if it.startswith("voluntary_ctxt"))
    return count


class Waits(Case):
    def submit(self, daemon: Daemon, sent: Sent, *payloads: bytes) -> None:
        with daemon.connect(sent.node) as connection:
            sent.submit_all(connection, payloads)

    def gets(self, waiting: Connection, expected: Response) -> None:
        """The wait that was sent is answered by this, long before its time is over."""
        begin = time.monotonic()
        self.assertEqual(waiting.receive(limit=PATIENCE), [expected])
        self.assertLess(time.monotonic() - begin, LONG - 5)

    def test_an_entry_ends_it(self) -> None:
        with self.program.serve(self.options(nodes=3)) as daemon:
            sent = Sent(CLIENT, 1)
            for place, node in enumerate(daemon.nodes, 1):
                with daemon.connect(node) as waiting:
                    waiting.send(Wait(place, 8, LONGEST))
                    time.sleep(0.2)
                    self.submit(daemon, sent, b"message %d" % place)
                    self.gets(waiting, Entries((sent.entry(place),)))
            daemon.stop()

    def test_it_is_answered_at_once_if_there_is_an_entry(self) -> None:
        with self.program.serve(self.options()) as daemon, daemon.connect(1) as connection:
            sent = Sent(CLIENT, 1)
            self.submit(daemon, sent, b"one", b"two", b"three")
            entries = tuple(sent.entry(number) for number in (1, 2, 3))
            for place, most, expected in (
                (1, 8, entries),
                (1, 2, entries[:2]),
                (3, 1, entries[2:]),
            ):
                connection.send(Wait(place, most, LONGEST))
                self.gets(connection, Entries(expected))
            daemon.stop()

    def test_its_time_ends_it(self) -> None:
        with self.program.serve(self.options()) as daemon, daemon.connect(1) as connection:
            sent = Sent(CLIENT, 1)
            self.submit(daemon, sent, b"one")
            for place in (2, 4_294_967_295):
                begin = time.monotonic()
                self.assertEqual(connection.ask(Wait(place, 8, SHORT)), NOTHING)
                self.assertGreaterEqual(time.monotonic() - begin, SHORT / 1000)
            self.assertEqual(connection.ask(Wait(2, 8, 0)), NOTHING)
            self.assertEqual(connection.read(1), [sent.entry(1)])
            daemon.stop()

    def test_an_entry_at_an_earlier_place_does_not_end_it(self) -> None:
        with self.program.serve(self.options()) as daemon, daemon.connect(1) as waiting:
            sent = Sent(CLIENT, 1)
            waiting.send(Wait(3, 8, LONGEST))
            for payload in (b"one", b"two", b"three"):
                time.sleep(0.2)
                self.submit(daemon, sent, payload)
            self.gets(waiting, Entries((sent.entry(3),)))
            daemon.stop()

    def test_a_stop_ends_it(self) -> None:
        for nodes in (1, 3):
            with self.subTest(nodes=nodes), ExitStack() as opened:
                daemon = opened.enter_context(
                    self.program.serve(self.options(f"of-{nodes}", nodes))
                )
                waiting = [opened.enter_context(daemon.connect(node)) for node in daemon.nodes]
                for connection in waiting:
                    connection.send(Wait(1, 8, LONGEST))
                time.sleep(0.2)
                begin = time.monotonic()
                daemon.stop()
                self.assertLess(time.monotonic() - begin, LONG - 5)
                for connection in waiting:
                    self.assertEqual(connection.receive(), NOTHING)

    def test_requests_behind_it_are_answered_after_it(self) -> None:
        with self.program.serve(self.options()) as daemon, daemon.connect(1) as connection:
            sent = Sent(CLIENT, 1)
            self.submit(daemon, sent, b"one")
            responses = connection.ask(Wait(2, 8, SHORT), Read(1, 8), GetStatus(), Wait(1, 8, 0))
            entries = Entries((sent.entry(1),))
            self.assertEqual(responses, [*NOTHING, entries, Status("ready", 1, 1), entries])
            daemon.stop()

    def test_answers_to_requests_before_it_do_not_wait(self) -> None:
        with self.program.serve(self.options()) as daemon, daemon.connect(1) as connection:
            sent = Sent(CLIENT, 1)
            requests = sent.requests((b"one", b"two"))
            connection.send(*requests, GetStatus(), Wait(3, 8, LONGEST))
            begin = time.monotonic()
            expected = [Accepted(1), Accepted(2), Status("ready", 2, 2)]
            self.assertEqual(connection.receive(3, PATIENCE), expected)
            self.assertLess(time.monotonic() - begin, LONG - 5)
            sent.payloads, sent.seqs = [b"one", b"two"], [1, 2]
            self.submit(daemon, sent, b"three")
            self.gets(connection, Entries((sent.entry(3),)))
            daemon.stop()

    def test_a_node_that_is_down_answers_it(self) -> None:
        with self.program.serve(self.options()) as daemon, daemon.connect(1) as waiting:
            sent = Sent(CLIENT, 1)
            self.submit(daemon, sent, b"one")
            daemon.node(1).crash()
            self.assertEqual(waiting.wait(1, 0), [sent.entry(1)])
            self.assertEqual(waiting.wait(2, SHORT / 1000), [])
            waiting.send(Wait(2, 8, LONGEST))
            daemon.node(1).restart()
            self.submit(daemon, sent, b"two")
            self.gets(waiting, Entries((sent.entry(2),)))
            daemon.stop()

    def test_what_a_restart_brings_ends_it(self) -> None:
        # No node ticks meanwhile. So node 3 gets the message from its own worker, which feeds it.
        with self.program.serve(replace(self.options(nodes=3), tick_ms=RARE_TICKS)) as daemon:
            sent = Sent(CLIENT, 1)
            daemon.node(3).crash()
            self.submit(daemon, sent, b"one")
            with daemon.connect(3) as waiting:
                waiting.send(Wait(1, 8, LONGEST))
                time.sleep(0.2)
                daemon.node(3).restart()
                self.gets(waiting, Entries((sent.entry(1),)))
            daemon.stop()

    def test_a_group_without_work_sleeps(self) -> None:
        options = replace(self.options(nodes=3), tick_ms=RARE_TICKS)
        with self.program.serve(options) as daemon, ExitStack() as opened:
            sent = [Sent(CLIENT, node) for node in daemon.nodes]
            with ThreadPoolExecutor(len(sent)) as pool:
                payloads = [bytes(MAX_PAYLOAD)] * BURST
                done = [pool.submit(self.submit, daemon, it, *payloads) for it in sent]
                for it in done:
                    it.result()
            wait_for_logs(daemon, len(sent) * BURST)
            for node in daemon.nodes:
                waiting = opened.enter_context(daemon.connect(node))
                waiting.send(Wait(1_000, 8, LONGEST))
            time.sleep(1)
            before = wakes_of(daemon)
            time.sleep(WATCHED)
            self.assertLess(wakes_of(daemon) - before, WATCHED * MOST_WAKES)
            daemon.stop()

    def test_all_followers_get_each_message(self) -> None:
        with self.program.serve(self.options(nodes=3)) as daemon, ExitStack() as opened:
            sent = Sent(CLIENT, 1)
            followers = [
                opened.enter_context(daemon.connect(1 + number % 3)) for number in range(FOLLOWERS)
            ]
            for place in (1, 2, 3):
                for follower in followers:
                    follower.send(Wait(place, 8, LONGEST))
                self.submit(daemon, sent, b"message %d" % place)
                for follower in followers:
                    self.gets(follower, Entries((sent.entry(place),)))
            # they wait again, and hold up neither submits nor reads of others
            for follower in followers:
                follower.send(Wait(100, 8, LONGEST))
            self.submit(daemon, sent, *[b"more"] * 50)
            self.assertEqual(len(wait_for_logs(daemon, 53)[0]), 53)
            daemon.stop()


if __name__ == "__main__":
    unittest.main()
