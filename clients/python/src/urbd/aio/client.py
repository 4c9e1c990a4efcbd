"""The publisher and the follower for asyncio (`urbd.client`)."""
from __future__ import annotations

import asyncio
import fcntl
from collections.abc import AsyncIterator, Awaitable, Callable, Sequence
from types import TracebackType
from typing import Optional

from urbd.addresses import Address
from urbd.aio.node import Connection, Node, repeat
from urbd.client import LONGEST_WAIT
from urbd.constants import Refusal
from urbd.errors import RefusedError, Stopped
from urbd.files import keep, kept
from urbd.frames import Entry
from urbd.node import LEAST_PAUSE, MOST_PAUSE, TIMEOUT
from urbd.progress import Payload, Progress, begin, bytes_of
from urbd.reading import Position, Reading


class Publisher:
    """Publishes at one node as one client, each message once (`urbd.Publisher`). Several tasks may
    use it; each call waits for the one before it."""

    def __init__(
        self,
        port: Address,
        client: int,
        path: str,
        *,
        patience: Optional[float] = None,
        timeout: float = TIMEOUT,
        on_fault: Optional[Callable[[Exception], None]] = None,
    ) -> None:
        self.node, self.client = Node(port, timeout), client
        self.path, self.patience, self.on_fault = path, patience, on_fault
        self._calls: Optional[asyncio.Lock] = None
        self._reason: Optional[str] = None
        self._file = open(path + ".lock", "w", encoding="utf-8")
        try:
            fcntl.flock(self._file, fcntl.LOCK_EX | fcntl.LOCK_NB)
            self._now = begin(kept(path), port, client)
        except BlockingIOError:
            self._file.close()
            raise BlockingIOError(f"another program uses {path}") from None
        except BaseException:
            self._file.close()
            raise

    async def publish(self, payload: Payload) -> int:
        """Gets a message accepted, and returns its number at the node."""
        whole = bytes_of(payload)
        async with self._one_call():
            await self._finish()
            now = self._now
            if now is None:
                number = await self._repeat(lambda: self.node.next_number(self.client))
                now = Progress(self.node.port, self.client, number - 1, b"", True)
            await self._keep(now.next(now.number + 1, whole, False))
            seq = await self._finish()
            assert seq is not None
            return seq

    async def finish(self) -> Optional[int]:
        """Gets the message in progress accepted. Returns its number; None if there is none."""
        async with self._one_call():
            return await self._finish()

    async def close(self) -> None:
        """Finishes the message in progress, and notes that in the file."""
        async with self._one_call():
            await self._finish()
            if self._now:
                await self._keep(self._now)
            self._file.close()

    def abandon(self) -> None:
        """Closes the file, and leaves the message in progress to the next publisher with it."""
        self._file.close()

    def _one_call(self) -> asyncio.Lock:
        if self._calls is None:
            self._calls = asyncio.Lock()  # made by the first call, in the loop that runs it
        return self._calls

    async def _finish(self) -> Optional[int]:
        if self._reason:
            raise Stopped(self._reason)
        now = self._now
        if now is None or now.is_done:
            return None
        submit = (self.client, now.number, now.payload)
        try:
            seq = await self._repeat(lambda: self.node.submit(*submit))
        except RefusedError as refused:
            self._reason = now.reason_to_stop(refused)
            if self._reason:
                raise Stopped(self._reason) from None
            if refused.number == Refusal.FULL:
                await self._keep(now.dropped())
            raise
        self._now = now.accepted()
        return seq

    async def _repeat(self, call: Callable[[], Awaitable[int]]) -> int:
        return await repeat(call, self.patience, on_fault=self.on_fault)

    async def _keep(self, progress: Progress) -> None:
        loop = asyncio.get_running_loop()
        await loop.run_in_executor(None, keep, self.path, progress.to_json())
        self._now = progress

    async def __aenter__(self) -> Publisher:
        return self

    async def __aexit__(
        self,
        kind: Optional[type[BaseException]],
        fault: Optional[BaseException],
        trace: Optional[TracebackType],
    ) -> None:
        if kind is None:
            await self.close()
        else:
            self.abandon()


class Follower:
    """Reads each message of a group once, and goes on at the next node (`urbd.Follower`)."""

    def __init__(
        self,
        ports: Sequence[Address],
        position: Optional[Position] = None,
        *,
        timeout: float = TIMEOUT,
        least_pause: float = LEAST_PAUSE,
        most_pause: float = MOST_PAUSE,
        longest_wait: float = LONGEST_WAIT,
        on_fault: Optional[Callable[[Address, Exception], None]] = None,
    ) -> None:
        self.timeout, self.longest_wait, self.on_fault = timeout, longest_wait, on_fault
        self.least_pause, self.most_pause, self._pause = (
            least_pause,
            most_pause,
            least_pause,
        )
        self._reading = Reading(ports, position)
        self._can_wait: dict[Address, bool] = {}
        self._connection: Optional[Connection] = None

    @property
    def position(self) -> Position:
        """What was read so far."""
        return self._reading.position

    async def poll(self) -> list[Entry]:
        """The entries that are new since the last call, at once; there may be none."""
        return await self._once(0)

    async def wait(self, seconds: float) -> list[Entry]:
        """The same, but waits up to these seconds until there are some."""
        clock = asyncio.get_running_loop().time
        end = clock() + seconds
        while True:
            entries = await self._once(max(end - clock(), 0))
            left = end - clock()
            if entries:
                self._pause = self.least_pause
            if entries or left <= 0:
                return entries
            if self._connection is None:
                await asyncio.sleep(min(self._pause, left))
                self._pause = min(2 * self._pause, self.most_pause)

    async def __aiter__(self) -> AsyncIterator[list[Entry]]:
        """Yields, forever, lists of new entries; none of them is empty."""
        while True:
            if entries := await self.wait(self.longest_wait):
                yield entries

    async def close(self) -> None:
        """Closes the connection, if there is one."""
        if self._connection is not None:
            await self._connection.close()
            self._connection = None

    async def _once(self, seconds: float) -> list[Entry]:
        port = self._reading.port
        try:
            entries = await self._ask(port, seconds)
        except (OSError, RefusedError) as fault:
            await self.close()
            self._reading.turn()
            if self.on_fault:
                self.on_fault(port, fault)
            return []
        except BaseException:
            await self.close()
            raise
        if self._reading.port != port or not self._can_wait.get(port):
            await self.close()
        return entries

    async def _ask(self, port: Address, seconds: float) -> list[Entry]:
        is_new = self._connection is None
        if self._connection is None:
            self._connection = await Connection(port, self.timeout).open()
        connection, reading = self._connection, self._reading
        if is_new or reading.has_full_pages or seconds <= 0:
            entries = reading.take_pages(await connection.ask(*reading.ask_pages()))
            if entries or reading.port != port:
                return entries
        if seconds <= 0 or not self._can_wait.get(port, True):
            return []
        try:
            requests = reading.ask_wait(min(seconds, self.longest_wait))
            entries = reading.take_wait(await connection.ask(*requests))
        except RefusedError as refused:
            if not refused.is_unknown_request:
                raise
            self._can_wait[port] = False
            return []
        self._can_wait[port] = True
        return entries

    async def __aenter__(self) -> Follower:
        return self

    async def __aexit__(
        self,
        kind: Optional[type[BaseException]],
        fault: Optional[BaseException],
        trace: Optional[TracebackType],
    ) -> None:
        await self.close()
