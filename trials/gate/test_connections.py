"""Many connections to a node, clients that say nothing, and the refusal of one client more."""
from __future__ import annotations

import re
import resource
import signal
import socket
import threading
import time
import unittest
from collections.abc import Callable, Iterator
from concurrent.futures import ThreadPoolExecutor
from contextlib import ExitStack, contextmanager, suppress
from dataclasses import replace
from pathlib import Path
from typing import Optional

from urbd.constants import ASK_STATUS, ASK_SUBMIT, MAX_PAYLOAD, Refusal
from urbd.errors import RefusedError
from urbd.frames import Read, Refused, Submit, encode_request, encode_response, frame
from urbd.node import Connection

from trials.gate.cases import Case
from trials.lib.messages import Sent
from trials.lib.program import LOCALHOST, PATIENCE, Daemon, Options, all_ports, wait_until

MANY = 300
ENOUGH_DESCRIPTORS = 4_096
FEW_DESCRIPTORS = 24  # so that a node serves some five to ten connections
FRAME_SECONDS = 10  # in which a frame has to be whole
IDLE_SECONDS = 60  # without a byte, until a full node gives a client up
UNREAD_SECONDS = 10  # until a node gives up a client that doesn't read its answers
STATUS = bytes((0, 1, ASK_STATUS))
STATUS_ANSWER = 12  # the bytes of the answer, with its length
TOLD = re.compile(rb"urbd: few descriptors: each node serves (\d+) connections\n")
# The beginnings of frames: a part of the length, a length alone, a request without its last byte.
HALF_FRAMES = (
    b"\0",
    b"\0\1",
    bytes((0, 12, ASK_SUBMIT, 0, 7)),
    bytes((0, 2, ASK_STATUS)),
)


def limit_descriptors(count: int) -> Callable[[], None]:
    """Lets a new process have this many descriptors, or as many as it may."""

    def limit() -> None:
        most = resource.getrlimit(resource.RLIMIT_NOFILE)[1]
        wanted = count if most == resource.RLIM_INFINITY else min(count, most)
        resource.setrlimit(resource.RLIMIT_NOFILE, (wanted, most))

    return limit


@contextmanager
def halted(daemon: Daemon) -> Iterator[None]:
    """All threads of a group stand still meanwhile."""

    def stands_still() -> bool:
        tasks = Path(f"/proc/{daemon.process.pid}/task").iterdir()
        return all((it / "stat").read_text().rpartition(") ")[2][0] == "T" for it in tasks)

    daemon.process.send_signal(signal.SIGSTOP)
    try:
        wait_until(stands_still, "each thread stands still")
        yield
    finally:
        daemon.process.send_signal(signal.SIGCONT)


def ask_in_pieces(stream: socket.socket, pause: float) -> None:
    """Asks for the status byte by byte, and reads the answer."""
    stream.setsockopt(socket.IPPROTO_TCP, socket.TCP_NODELAY, 1)
    for byte in STATUS:
        stream.sendall(bytes((byte,)))
        time.sleep(pause)
    answer = stream.recv(STATUS_ANSWER, socket.MSG_WAITALL)
    if len(answer) != STATUS_ANSWER:
        raise AssertionError(f"expected the answer to a request in pieces, and got {answer!r}")


def has_ended(stream: socket.socket) -> bool:
    """Waits until the node closes this connection. It must not say anything before."""
    try:
        return stream.recv(1) == b""
    except ConnectionError:
        return True


class ManyConnections(Case):
    @contextmanager
    def serving_few(self, options: Optional[Options] = None) -> Iterator[tuple[Daemon, int]]:
        """A node that serves few connections, and how many by its own words."""
        before = limit_descriptors(FEW_DESCRIPTORS)
        with self.program.serve(options or self.options(), before=before) as daemon:
            assert daemon.process.stderr
            told = daemon.process.stderr.readline()
            found = TOLD.fullmatch(told)
            if not found:
                self.fail(f"expected how many connections a node serves, and got {told!r}")
            yield daemon, int(found[1])

    def fill(self, daemon: Daemon, places: int, opened: ExitStack) -> list[Connection]:
        """Takes all places of the node."""
        held = []
        for _ in range(places):
            held.append(opened.enter_context(daemon.connect(1)))
            self.assertEqual(held[-1].status().state, "ready")
        return held

    def is_refused(self, daemon: Daemon) -> None:
        """One client more is refused at once, also if it asks nothing, and its connection ends."""
        with daemon.connect(1) as connection:
            self.assertEqual(connection.receive(), [Refused(Refusal.BUSY, 0)])
            with self.assertRaises(ConnectionError):
                connection.receive()

    def serves_again(self, daemon: Daemon) -> None:
        """A place becomes free, so a client is served."""

        def is_served() -> bool:
            try:
                return daemon.node(1).status().state == "ready"
            except (ConnectionError, RefusedError):
                return False

        wait_until(is_served, "a place is free, and a client is served")

    def test_three_hundred_connections_are_served(self) -> None:
        before = limit_descriptors(ENOUGH_DESCRIPTORS)
        with self.program.serve(self.options(), before=before) as daemon, ExitStack() as opened:
            held = [opened.enter_context(daemon.connect(1)) for _ in range(MANY)]
            for client, connection in enumerate(held, 1):
                self.assertEqual(connection.submit(client, 1, b"%d" % client), client)
            for place, connection in enumerate(reversed(held), 1):
                entry = Sent(place, 1, [b"%d" % place], [place]).entry(1)
                self.assertEqual(connection.read(place, 1), [entry])
            daemon.stop()
            for connection in held:
                with self.assertRaises(ConnectionError, msg="a stop ends each connection"):
                    connection.status()

    def test_one_connection_more_is_refused_at_once(self) -> None:
        with self.serving_few() as (daemon, places), ExitStack() as opened:
            held = self.fill(daemon, places, opened)
            for _ in range(3):
                self.is_refused(daemon)
            self.assertEqual(held[0].submit(7, 1, b"still served"), 1)
            for connection in held[1:3]:
                connection.close()
                self.serves_again(daemon)
            daemon.stop()

    def test_who_is_refused_after_a_request_gets_the_answer(self) -> None:
        options = replace(self.options(), socket_dir=self.room)
        requests = (STATUS, frame(encode_request(Submit(7, 1, b"more" * 20))))
        busy = frame(encode_response(Refused(Refusal.BUSY, 0)))
        with self.serving_few(options) as (daemon, places), ExitStack() as opened:
            held = self.fill(daemon, places, opened)
            for request in requests:
                for kind in (socket.AF_INET, socket.AF_UNIX):
                    stream = opened.enter_context(socket.socket(kind))
                    stream.settimeout(PATIENCE)
                    # The request is there before the node accepts the connection.
                    with halted(daemon):
                        is_unix = kind == socket.AF_UNIX
                        tcp = (LOCALHOST, options.port(1))
                        stream.connect(str(options.socket(1)) if is_unix else tcp)
                        stream.sendall(request)
                    self.assertEqual(stream.recv(len(busy), socket.MSG_WAITALL), busy)
                    self.assertEqual(stream.recv(1), b"", "it ends without an error")
            self.assertEqual(held[0].status().accepted, 0, "a refused client submits nothing")
            daemon.stop()

    def test_a_client_that_reads_no_answer_is_given_up(self) -> None:
        with self.serving_few() as (daemon, places), ExitStack() as opened:
            held = self.fill(daemon, places, opened)
            held[0].submit(7, 1, bytes(MAX_PAYLOAD))
            begin = time.monotonic()
            is_over = threading.Event()
            with ThreadPoolExecutor(2) as pool:
                reads = b"".join(frame(encode_request(Read(1, 1))) for _ in range(5_000))
                deaf = pool.submit(self.send_until_closed, held[-1], reads)
                asked = pool.submit(self.ask_all_until, held[:-1], is_over)
                try:
                    self.serves_again(daemon)
                finally:
                    is_over.set()
                    held[-1].close()
                self.assertGreater(time.monotonic() - begin, UNREAD_SECONDS - 1)
                self.assertLess(time.monotonic() - begin, IDLE_SECONDS)
                deaf.result(PATIENCE)
                self.assertGreater(asked.result(PATIENCE), 0, "who asks stays")
            daemon.stop()

    def send_until_closed(self, connection: Connection, raw: bytes) -> None:
        """Sends requests and reads no answer, until the node closes the connection."""
        stream = connection._socket
        stream.settimeout(PATIENCE)
        with suppress(OSError):
            while True:
                stream.sendall(raw)

    def ask_all_until(self, connections: list[Connection], is_over: threading.Event) -> int:
        """Asks each of these again and again. Gives how often the node answered."""
        count = 0
        while not is_over.wait(1.0):
            for connection in connections:
                connection.status()
                count += 1
        return count

    def test_half_frames_are_given_up(self) -> None:
        with self.serving_few() as (daemon, places), ExitStack() as opened:
            port = all_ports(daemon.options)[0]
            begin = time.monotonic()
            silent = []
            for number in range(places):
                stream = socket.create_connection((LOCALHOST, port), PATIENCE)
                silent.append(opened.enter_context(stream))
                stream.sendall(HALF_FRAMES[number % len(HALF_FRAMES)])
            self.serves_again(daemon)
            for stream in silent:
                self.assertTrue(has_ended(stream), "a half frame gets no answer")
            self.assertGreater(time.monotonic() - begin, FRAME_SECONDS - 1)
            daemon.stop()

    def test_idle_connections_make_room_once_a_node_is_full(self) -> None:
        with self.serving_few() as (daemon, places), ExitStack() as opened:
            asking = self.fill(daemon, places - 1, opened)[0]
            # The time for a frame doesn't hold any longer once the frame has come.
            port = all_ports(daemon.options)[0]
            slow = opened.enter_context(socket.create_connection((LOCALHOST, port), PATIENCE))
            ask_in_pieces(slow, 0.2)
            # Nor does it begin with a long frame that has come whole.
            for number in range(1, 5):
                asking.submit(7, number, bytes(number * 300))
            begin = time.monotonic()
            is_over = threading.Event()
            with ThreadPoolExecutor(1) as pool:
                asked = pool.submit(self.ask_until, asking, is_over)
                try:
                    self.serves_again(daemon)
                finally:
                    is_over.set()
                self.assertGreater(time.monotonic() - begin, IDLE_SECONDS - 1)
                self.assertGreater(asked.result(PATIENCE), 0, "who asks stays")
            daemon.stop()

    def ask_until(self, connection: Connection, is_over: threading.Event) -> int:
        """Asks again and again. Gives how often the node answered."""
        count = 0
        while not is_over.wait(1.0):
            connection.status()
            count += 1
        return count

    def test_frames_that_come_byte_by_byte_are_answered(self) -> None:
        # Each frame has its own time: together they take longer than one may.
        with self.program.serve(self.options()) as daemon:
            port = all_ports(daemon.options)[0]
            with socket.create_connection((LOCALHOST, port), PATIENCE) as stream:
                end = time.monotonic() + FRAME_SECONDS + 1
                while time.monotonic() < end:
                    ask_in_pieces(stream, 0.2)
            daemon.stop()


if __name__ == "__main__":
    unittest.main()
