"""Requests to one node for asyncio: `Node`, `Connection`, and `repeat` (`urbd.node`)."""
from __future__ import annotations

import asyncio
from abc import ABC, abstractmethod
from collections.abc import AsyncIterator, Awaitable, Callable, Sequence
from types import TracebackType
from typing import Optional, TypeVar

from urbd.addresses import Address, name_of
from urbd.constants import MOST_ENTRIES, Refusal
from urbd.errors import BadReply, RefusedError
from urbd.frames import (
    LENGTH_BYTES,
    Accepted,
    Crash,
    Done,
    Entries,
    Entry,
    GetStatus,
    Read,
    Request,
    Response,
    Restart,
    Status,
    Submit,
    Wait,
    decode_response,
    encode_request,
    expect,
    frame,
    length_of,
)
from urbd.node import LEAST_PAUSE, LOCALHOST, MOST_PAUSE, TIMEOUT, limit_of, naming
from urbd.progress import Payload, bytes_of

Result = TypeVar("Result")


async def repeat(
    call: Callable[[], Awaitable[Result]],
    patience: Optional[float] = None,
    least_pause: float = LEAST_PAUSE,
    most_pause: float = MOST_PAUSE,
    on_fault: Optional[Callable[[Exception], None]] = None,
) -> Result:
    """The result of the call, which is made again after each temporary fault (`urbd.repeat`)."""
    clock = asyncio.get_running_loop().time
    pause, end = least_pause, None if patience is None else clock() + patience
    while True:
        try:
            return await call()
        except (OSError, RefusedError) as fault:
            is_final = isinstance(fault, RefusedError) and not fault.is_temporary
            if is_final or end is not None and clock() > end:
                raise
            if on_fault:
                on_fault(fault)
        await asyncio.sleep(pause)
        pause = min(2 * pause, most_pause)


class Requests(ABC):
    """The requests of docs/FORMATS.md (`urbd.node.Requests`)."""

    @abstractmethod
    async def ask(self, *requests: Request) -> list[Response]:
        """The responses to these requests, which are sent in one write."""

    async def submit(self, client: int, number: int, payload: Payload) -> int:
        """Submits a message once. Returns the number under which the node has accepted it."""
        request = Submit(client, number, bytes_of(payload))
        return expect(Accepted, (await self.ask(request))[0]).seq

    async def next_number(self, client: int) -> int:
        """The number that the node expects next from this client."""
        response = (await self.ask(Submit(client, 0, b"")))[0]
        try:
            expect(Accepted, response)
        except RefusedError as refused:
            if refused.number == Refusal.GAP:
                return refused.detail
            raise
        raise BadReply("a message with number 0 was accepted")

    async def read(self, place: int, most: int = MOST_ENTRIES) -> list[Entry]:
        """The entries from this place on: at most `most`, which is 1 to 8."""
        return list(expect(Entries, (await self.ask(Read(place, most)))[0]).entries)

    async def wait(self, place: int, seconds: float, most: int = MOST_ENTRIES) -> list[Entry]:
        """The same, but waits up to these seconds (65 at most) for an entry."""
        request = Wait(place, most, round(1000 * seconds))
        return list(expect(Entries, (await self.ask(request))[0]).entries)

    async def log(self, place: int = 1) -> AsyncIterator[Entry]:
        """Each entry from this place on, up to the present end of the log."""
        while page := await self.read(place):
            for entry in page:
                yield entry
            place += len(page)

    async def status(self) -> Status:
        """The node's state, how many messages it has accepted, and how many its log shows."""
        return expect(Status, (await self.ask(GetStatus()))[0])

    async def crash(self) -> None:
        """Takes the node down. Refused (3) if it is down."""
        expect(Done, (await self.ask(Crash()))[0])

    async def restart(self) -> None:
        """Brings the node back. Refused (12) if it isn't down."""
        expect(Done, (await self.ask(Restart()))[0])


class Connection(Requests):
    """One connection to a node, opened by `async with`, or by `open`."""

    def __init__(self, port: Address, timeout: float = TIMEOUT, host: str = LOCALHOST) -> None:
        self.port, self.timeout, self.host = port, timeout, host
        self.address = name_of(port, host)
        self._streams: Optional[tuple[asyncio.StreamReader, asyncio.StreamWriter]] = None

    async def open(self) -> Connection:
        """Opens the connection."""
        await self._limited(self._open(), self.timeout)
        return self

    async def ask(self, *requests: Request) -> list[Response]:
        return await self._limited(self._ask(requests), limit_of(self.timeout, requests))

    async def close(self) -> None:
        """Ends the connection."""
        if self._streams is not None:
            writer = self._streams[1]
            self._streams = None
            writer.close()
            try:
                await writer.wait_closed()
            except OSError:
                pass

    async def _open(self) -> None:
        if isinstance(self.port, str):
            self._streams = await asyncio.open_unix_connection(self.port)
        else:
            self._streams = await asyncio.open_connection(self.host, self.port)

    async def _ask(self, requests: Sequence[Request]) -> list[Response]:
        if self._streams is None:
            await self._open()
        assert self._streams is not None
        reader, writer = self._streams
        writer.write(b"".join(frame(encode_request(request)) for request in requests))
        await writer.drain()
        responses = []
        for _ in requests:
            length = length_of(await reader.readexactly(LENGTH_BYTES))
            responses.append(decode_response(await reader.readexactly(length)))
        return responses

    async def _limited(self, work: Awaitable[Result], limit: float) -> Result:
        """The result of the work. A fault ends the connection: an answer may still be due on it."""
        try:
            with naming(self.address, limit):
                try:
                    return await asyncio.wait_for(work, limit)
                except asyncio.TimeoutError:
                    raise TimeoutError from None
                except asyncio.IncompleteReadError:
                    raise ConnectionError("the node has closed the connection") from None
        except BaseException:
            await self.close()
            raise

    async def __aenter__(self) -> Connection:
        return await self.open()

    async def __aexit__(
        self,
        kind: Optional[type[BaseException]],
        fault: Optional[BaseException],
        trace: Optional[TracebackType],
    ) -> None:
        await self.close()


class Node(Requests):
    """One node, by its port for clients, or by the path of its socket. Each call opens a connection
    and closes it."""

    def __init__(self, port: Address, timeout: float = TIMEOUT, host: str = LOCALHOST) -> None:
        self.port, self.timeout, self.host = port, timeout, host

    async def ask(self, *requests: Request) -> list[Response]:
        async with self.connect() as connection:
            return await connection.ask(*requests)

    def connect(self) -> Connection:
        """A connection for several calls, for `async with`."""
        return Connection(self.port, self.timeout, self.host)
