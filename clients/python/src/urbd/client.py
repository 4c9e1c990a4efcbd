"""The blocking client: `Publisher` and `Follower`, over the requests of `urbd.node`."""
from __future__ import annotations

import fcntl
import threading
import time
from collections.abc import Callable, Iterator, Sequence
from dataclasses import replace
from types import TracebackType
from typing import Optional

from urbd.addresses import Address
from urbd.constants import Refusal
from urbd.errors import RefusedError, Stopped
from urbd.files import keep, kept
from urbd.frames import Entry
from urbd.node import LEAST_PAUSE, MOST_PAUSE, TIMEOUT, Connection, Node, repeat
from urbd.progress import InputMark, Payload, Progress, begin, bytes_of
from urbd.reading import Position, Reading

LONGEST_WAIT = 1.0  # seconds of one WAIT

__all__ = ["Connection", "Follower", "Node", "Publisher", "repeat"]


class Publisher:
    """Publishes at one node as one client. Each message is accepted once, even if the program or
    the node stops. Several threads may use a publisher; each call waits for the one before it.
    `port` is the node's port, or the path of its socket.

    `path` names the file that keeps the message in progress; one program may use it at a time
    (`BlockingIOError`). If `patience` seconds pass before a message is accepted, the fault is
    raised. `on_fault` is called with each fault before that. `Stopped` is raised, now and at each
    later call, if another program uses this client's number. It is raised too if the node no longer
    has what it accepted, because its folder was begun anew or restored from a backup."""

    def __init__(
        self,
        port: Address,
        client: int,
        path: str,
        *,
        patience: Optional[float] = None,
        timeout: float = TIMEOUT,
        on_fault: Optional[Callable[[Exception], None]] = None,
    ) -> None:
        self.node, self.client = Node(port, timeout), client
        self.path, self.patience, self.on_fault = path, patience, on_fault
        self._calls = threading.RLock()
        self._reason: Optional[str] = None
        self._file = open(path + ".lock", "w", encoding="utf-8")
        try:
            fcntl.flock(self._file, fcntl.LOCK_EX | fcntl.LOCK_NB)
            self._now = begin(kept(path), port, client)
        except BlockingIOError:
            self._file.close()
            raise BlockingIOError(f"another program uses {path}") from None
        except BaseException:
            self._file.close()
            raise

    def publish(self, payload: Payload) -> int:
        """Gets a message accepted, and returns its number at the node. If `patience` ends before,
        the message stays in progress, and the next call, or `finish`, continues it. A message that
        a full node refuses (8) is dropped."""
        return self._publish(bytes_of(payload), False)

    def publish_line(self, line: bytes) -> int:
        """The same for the next line of an input, which `input_mark` then counts as done."""
        return self._publish(bytes_of(line), True)

    def finish(self) -> Optional[int]:
        """Gets the message in progress accepted. Returns its number; None if there is none."""
        with self._calls:
            if self._reason:
                raise Stopped(self._reason)
            now = self._now
            if now is None or now.is_done:
                return None
            submit = (self.client, now.number, now.payload)
            try:
                seq = self._repeat(lambda: self.node.submit(*submit))
            except RefusedError as refused:
                self._reason = now.reason_to_stop(refused)
                if self._reason:
                    raise Stopped(self._reason) from None
                if refused.number == Refusal.FULL:
                    self._keep(now.dropped())
                raise
            self._now = now.accepted()  # the file says so later: a repeat does no harm
            return seq

    def close(self) -> None:
        """Finishes the message in progress, and notes that in the file. Then the file may be used
        at another node or folder."""
        with self._calls:
            self.finish()
            if self._now:
                keep(self.path, self._now.to_json())
            self._file.close()

    def abandon(self) -> None:
        """Closes the file, and leaves the message in progress to the next publisher with it."""
        self._file.close()

    @property
    def input_mark(self) -> InputMark:
        """How many lines of an input are done, and their digest."""
        return self._now.input if self._now else InputMark()

    def set_input_mark(self, mark: InputMark) -> None:
        """Begins to count the lines of an input from this mark on, or notes that it has ended."""
        with self._calls:
            self.finish()
            if self._now is None:
                self._now = Progress(self.node.port, self.client, self._next() - 1, b"", True)
            self._keep(replace(self._now, input=mark))

    def _publish(self, payload: bytes, is_line: bool) -> int:
        with self._calls:
            self.finish()
            now = self._now or Progress(self.node.port, self.client, self._next() - 1, b"", True)
            self._keep(now.next(now.number + 1, payload, is_line))
            seq = self.finish()
            assert seq is not None
            return seq

    def _next(self) -> int:
        return self._repeat(lambda: self.node.next_number(self.client))

    def _repeat(self, call: Callable[[], int]) -> int:
        return repeat(call, self.patience, on_fault=self.on_fault)

    def _keep(self, progress: Progress) -> None:
        keep(self.path, progress.to_json())
        self._now = progress

    def __enter__(self) -> Publisher:
        return self

    def __exit__(
        self,
        kind: Optional[type[BaseException]],
        fault: Optional[BaseException],
        trace: Optional[TracebackType],
    ) -> None:
        if kind is None:
            self.close()
        else:
            self.abandon()


class Follower:
    """Reads each message of a group once: at one node while it answers and is up, then at the next.

    `position` says what was read. Save it together with the results of the entries, and give it to
    the next follower, which continues after them, at any node. `Stopped` is raised if the node's
    log isn't the one that was read: its folder was begun anew, or restored from a backup.

    At a node that knows WAIT the follower keeps one connection, and gets an entry as soon as it is
    shown. At an older node it opens a connection for each poll. While polls find nothing, the
    pauses between them grow from `least_pause` to `most_pause`. `on_fault` is called with the port
    and the fault each time that a node fails and the next one's turn comes."""

    def __init__(
        self,
        ports: Sequence[Address],
        position: Optional[Position] = None,
        *,
        timeout: float = TIMEOUT,
        least_pause: float = LEAST_PAUSE,
        most_pause: float = MOST_PAUSE,
        longest_wait: float = LONGEST_WAIT,
        on_fault: Optional[Callable[[Address, Exception], None]] = None,
    ) -> None:
        self.timeout, self.longest_wait, self.on_fault = timeout, longest_wait, on_fault
        self.least_pause, self.most_pause, self._pause = (
            least_pause,
            most_pause,
            least_pause,
        )
        self._reading = Reading(ports, position)
        self._can_wait: dict[Address, bool] = {}
        self._connection: Optional[Connection] = None

    @property
    def position(self) -> Position:
        """What was read so far."""
        return self._reading.position

    def poll(self) -> list[Entry]:
        """The entries that are new since the last call, at once; there may be none."""
        return self._once(0)

    def wait(self, seconds: float) -> list[Entry]:
        """The same, but waits up to these seconds until there are some."""
        end = time.monotonic() + seconds
        while True:
            entries = self._once(max(end - time.monotonic(), 0))
            left = end - time.monotonic()
            if entries:
                self._pause = self.least_pause
            if entries or left <= 0:
                return entries
            if self._connection is None:
                time.sleep(min(self._pause, left))
                self._pause = min(2 * self._pause, self.most_pause)

    def __iter__(self) -> Iterator[list[Entry]]:
        """Yields, forever, lists of new entries; none of them is empty."""
        while True:
            if entries := self.wait(self.longest_wait):
                yield entries

    def close(self) -> None:
        """Closes the connection, if there is one."""
        if self._connection is not None:
            self._connection.close()
            self._connection = None

    def _once(self, seconds: float) -> list[Entry]:
        port = self._reading.port
        try:
            entries = self._ask(port, seconds)
        except (OSError, RefusedError) as fault:
            self.close()
            self._reading.turn()
            if self.on_fault:
                self.on_fault(port, fault)
            return []
        except Stopped:
            self.close()
            raise
        if self._reading.port != port or not self._can_wait.get(port):
            self.close()
        return entries

    def _ask(self, port: Address, seconds: float) -> list[Entry]:
        is_new = self._connection is None
        if self._connection is None:
            self._connection = Connection(port, self.timeout)
        connection, reading = self._connection, self._reading
        if is_new or reading.has_full_pages or seconds <= 0:
            entries = reading.take_pages(connection.ask(*reading.ask_pages()))
            if entries or reading.port != port:
                return entries
        if seconds <= 0 or not self._can_wait.get(port, True):
            return []
        try:
            requests = reading.ask_wait(min(seconds, self.longest_wait))
            entries = reading.take_wait(connection.ask(*requests))
        except RefusedError as refused:
            if not refused.is_unknown_request:
                raise
            self._can_wait[port] = False
            return []
        self._can_wait[port] = True
        return entries

    def __enter__(self) -> Follower:
        return self

    def __exit__(
        self,
        kind: Optional[type[BaseException]],
        fault: Optional[BaseException],
        trace: Optional[TracebackType],
    ) -> None:
        self.close()
