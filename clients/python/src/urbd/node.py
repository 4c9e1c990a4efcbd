"""Requests to one node, each with a time limit: `Node`, `Connection`, and `repeat`.

A node serves a limited number of connections (four in older versions). Further ones wait, or are
refused. So a `Node` closes its connection after each call; use a `Connection` for several calls."""
from __future__ import annotations

import socket
import time
from abc import ABC, abstractmethod
from collections.abc import Callable, Iterator, Sequence
from contextlib import contextmanager
from types import TracebackType
from typing import Optional, TypeVar

from urbd.addresses import Address, connected, name_of
from urbd.constants import MOST_ENTRIES, Refusal
from urbd.errors import BadReply, RefusedError
from urbd.frames import (
    LENGTH_BYTES,
    Accepted,
    Crash,
    Done,
    Entries,
    Entry,
    GetStatus,
    Read,
    Request,
    Response,
    Restart,
    Status,
    Submit,
    Wait,
    decode_response,
    encode_request,
    expect,
    frame,
    length_of,
)
from urbd.progress import Payload, bytes_of

LOCALHOST = "127.0.0.1"
TIMEOUT = 2.0  # seconds for an answer
# Seconds between tries, or between polls that find nothing.
LEAST_PAUSE, MOST_PAUSE = 0.001, 0.2

Result = TypeVar("Result")


def repeat(
    call: Callable[[], Result],
    patience: Optional[float] = None,
    least_pause: float = LEAST_PAUSE,
    most_pause: float = MOST_PAUSE,
    on_fault: Optional[Callable[[Exception], None]] = None,
) -> Result:
    """The result of a call. It is made again after each temporary fault, with growing pauses, for
    `patience` seconds or forever. Then the last fault is raised. A refusal that isn't temporary is
    raised at once. `on_fault` is called with each fault after which the call is made again."""
    pause, end = least_pause, None if patience is None else time.monotonic() + patience
    while True:
        try:
            return call()
        except (OSError, RefusedError) as fault:
            is_final = isinstance(fault, RefusedError) and not fault.is_temporary
            if is_final or end is not None and time.monotonic() > end:
                raise
            if on_fault:
                on_fault(fault)
        time.sleep(pause)
        pause = min(2 * pause, most_pause)


@contextmanager
def naming(address: str, limit: float) -> Iterator[None]:
    """Faults of the network that name the address."""
    try:
        yield
    except BadReply as fault:
        raise BadReply(f"{address}: {fault}") from None
    except (ConnectionRefusedError, FileNotFoundError):
        raise ConnectionRefusedError(f"nobody listens at {address}") from None
    except (socket.timeout, TimeoutError):
        raise TimeoutError(f"no answer from {address} in {limit:g} s") from None
    except OSError as fault:
        raise ConnectionError(f"{address}: {fault.strerror or fault}") from None


def limit_of(timeout: float, requests: Sequence[Request]) -> float:
    """The time limit for the answers to these requests: those that wait have longer."""
    return timeout + sum(ask.millis / 1000 for ask in requests if isinstance(ask, Wait))


class Requests(ABC):
    """The requests of docs/FORMATS.md. `RefusedError` if the node refuses, `OSError` if no answer
    comes in time."""

    @abstractmethod
    def ask(self, *requests: Request) -> list[Response]:
        """The responses to these requests, which are sent in one write."""

    def submit(self, client: int, number: int, payload: Payload) -> int:
        """Submits a message once. Returns the number under which the node has accepted it.

        If no answer comes, submit the same again, at the same node: it is stored once.
        """
        request = Submit(client, number, bytes_of(payload))
        return expect(Accepted, self.ask(request)[0]).seq

    def next_number(self, client: int) -> int:
        """The number that the node expects next from this client. Its refusal of 0 says it."""
        response = self.ask(Submit(client, 0, b""))[0]
        try:
            expect(Accepted, response)
        except RefusedError as refused:
            if refused.number == Refusal.GAP:
                return refused.detail
            raise
        raise BadReply("a message with number 0 was accepted")

    def read(self, place: int, most: int = MOST_ENTRIES) -> list[Entry]:
        """The entries from this place on (from 1): at most `most`, which is 1 to 8, and fewer if a
        frame has no room for more. There are none only if the log has none there yet.
        """
        return list(expect(Entries, self.ask(Read(place, most))[0]).entries)

    def wait(self, place: int, seconds: float, most: int = MOST_ENTRIES) -> list[Entry]:
        """The same, but waits up to these seconds (65 at most) for an entry. Refused (19, 2) by a
        node of an older version."""
        request = Wait(place, most, round(1000 * seconds))
        return list(expect(Entries, self.ask(request)[0]).entries)

    def log(self, place: int = 1) -> Iterator[Entry]:
        """Each entry from this place on, up to the present end of the log."""
        while page := self.read(place):
            yield from page
            place += len(page)

    def status(self) -> Status:
        """The node's state, how many messages it has accepted, and how many its log shows."""
        return expect(Status, self.ask(GetStatus())[0])

    def crash(self) -> None:
        """Takes the node down. Refused (3) if it is down."""
        expect(Done, self.ask(Crash())[0])

    def restart(self) -> None:
        """Brings the node back. Refused (12) if it isn't down."""
        expect(Done, self.ask(Restart())[0])


class Connection(Requests):
    """One connection to a node, at a port or the path of a socket. Close it, or use it in a `with`:
    a node has room for few."""

    def __init__(self, port: Address, timeout: float = TIMEOUT, host: str = LOCALHOST) -> None:
        self.port, self.timeout, self.address = port, timeout, name_of(port, host)
        with naming(self.address, timeout):
            self._socket = connected(port, host, timeout)

    def ask(self, *requests: Request) -> list[Response]:
        self.send(*requests)
        return self.receive(len(requests), limit_of(self.timeout, requests))

    def send(self, *requests: Request) -> None:
        """Sends requests in one write, without waiting for their answers."""
        with naming(self.address, self.timeout):
            self._socket.settimeout(self.timeout)
            self._socket.sendall(b"".join(frame(encode_request(ask)) for ask in requests))

    def finish(self) -> None:
        """Says that no further request comes: the node closes the connection after its answers."""
        with naming(self.address, self.timeout):
            self._socket.shutdown(socket.SHUT_WR)

    def receive(self, count: int = 1, limit: Optional[float] = None) -> list[Response]:
        """The next responses, within a time limit for all of them."""
        limit = self.timeout if limit is None else limit
        end = time.monotonic() + limit
        try:
            with naming(self.address, limit):
                return [decode_response(self._frame(end)) for _ in range(count)]
        except OSError:  # an answer may still be due on this connection
            self.close()
            raise

    def close(self) -> None:
        """Ends the connection."""
        self._socket.close()

    def _frame(self, end: float) -> bytes:
        return self._bytes(length_of(self._bytes(LENGTH_BYTES, end)), end)

    def _bytes(self, count: int, end: float) -> bytes:
        taken = bytearray()
        while len(taken) < count:
            self._socket.settimeout(max(end - time.monotonic(), 0.001))
            more = self._socket.recv(count - len(taken))
            if not more:
                raise ConnectionError("the node has closed the connection")
            taken += more
        return bytes(taken)

    def __enter__(self) -> Connection:
        return self

    def __exit__(
        self,
        kind: Optional[type[BaseException]],
        fault: Optional[BaseException],
        trace: Optional[TracebackType],
    ) -> None:
        self.close()


class Node(Requests):
    """One node, by its port for clients, or by the path of its socket. Each call opens a connection
    and closes it."""

    def __init__(self, port: Address, timeout: float = TIMEOUT, host: str = LOCALHOST) -> None:
        self.port, self.timeout, self.host = port, timeout, host

    def ask(self, *requests: Request) -> list[Response]:
        with self.connect() as connection:
            connection.send(*requests)
            connection.finish()
            return connection.receive(len(requests), limit_of(self.timeout, requests))

    def connect(self) -> Connection:
        """A connection for several calls."""
        return Connection(self.port, self.timeout, self.host)
