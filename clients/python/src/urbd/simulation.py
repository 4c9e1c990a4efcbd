"""A simulated group, for tests of programs that use urbd: no daemon is needed.

Its nodes run in this process and serve clients' frames by docs/FORMATS.md, with faults on demand.
They share one list of messages, and each shows it up to a place of its own."""
from __future__ import annotations

import os
import socket
import struct
import threading
from collections.abc import Sequence
from typing import BinaryIO, Optional, Union

from urbd.addresses import Address
from urbd.constants import MAX_CAP, MAX_CONNECTIONS, MAX_PAYLOAD, UNKNOWN_OPCODE, Refusal
from urbd.frames import (
    LENGTH_BYTES,
    STATES,
    Accepted,
    BadRequest,
    Crash,
    Done,
    Entries,
    Entry,
    GetStatus,
    Read,
    Refused,
    Request,
    Response,
    Restart,
    Status,
    Submit,
    Wait,
    decode_request,
    encode_response,
    frame,
    length_of,
)

DOWN, READY = STATES[0], STATES[1]
SESSIONS = 4  # connections of an older node; further ones wait
HANG = 1.0  # seconds for which a node hangs on demand
DRIP = 0.1  # seconds from byte to byte of an answer in drips

# What a node does at a request: "close" the connection, "lose" the answer, "hang" for a while,
# answer in "drips", refuse with a number, or send the given bytes and close.
Trouble = Union[str, int, bytes]


class SimulatedGroup:
    """What a folder holds: entries in one order, and what each node shows of them.

    `knows_wait` says whether its nodes know WAIT, and serve any number of connections. Each node's
    port is free for it to choose unless `ports` says which, or says a path for a Unix socket.
    `entries` is what it holds at first."""

    def __init__(
        self,
        nodes: int = 1,
        cap: int = MAX_CAP,
        ports: Optional[Sequence[Address]] = None,
        knows_wait: bool = False,
        entries: Optional[list[Entry]] = None,
    ) -> None:
        self.changed = threading.Condition()
        self.entries: list[Entry] = [] if entries is None else entries
        self.cap, self.knows_wait = cap, knows_wait
        chosen: Sequence[Address] = ports or [0] * nodes
        self.nodes = [SimulatedNode(self, node, chosen[node - 1]) for node in range(1, nodes + 1)]
        self.ports = [node.port for node in self.nodes]

    def add(self, *entries: Entry) -> None:
        """Adds entries, and wakes those that wait for them."""
        with self.changed:
            self.entries.extend(entries)
            self.changed.notify_all()

    def close(self) -> None:
        """Acts like the end of the program."""
        for node in self.nodes:
            node.close()


def listening(at: Address) -> socket.socket:
    """A socket that takes clients at this port, or at this path, where it replaces a file."""
    if not isinstance(at, str):
        return socket.create_server(("127.0.0.1", at))
    if os.path.exists(at):
        os.remove(at)
    end = socket.socket(socket.AF_UNIX, socket.SOCK_STREAM)
    end.bind(at)
    end.listen()
    return end


class SimulatedNode(threading.Thread):
    """One node. It works off `troubles`, one at each request. `shows` is how many entries its log
    has, or the log itself, or None for all entries."""

    def __init__(self, group: SimulatedGroup, node: int, port: Address) -> None:
        super().__init__(daemon=True)
        self.group, self.node = group, node
        self.troubles: list[Trouble] = []
        self.state = READY
        self.shows: Union[int, list[Entry], None] = None
        self.asked = 0
        self.is_closed = False
        self.open: set[socket.socket] = set()
        self._sessions = threading.Semaphore(MAX_CONNECTIONS if group.knows_wait else SESSIONS)
        self._listener = listening(port)
        self.port: Address = port or self._listener.getsockname()[1]
        self.start()

    def close(self) -> None:
        """Acts like the end of the program: nothing listens, and all connections end."""
        self.is_closed = True
        for connection in [self._listener, *self.open]:
            try:
                connection.shutdown(socket.SHUT_RDWR)
            except OSError:  # it is closed
                pass
        self._listener.close()
        with self.group.changed:
            self.group.changed.notify_all()

    @property
    def log(self) -> list[Entry]:
        """What the node shows."""
        if isinstance(self.shows, list):
            return self.shows
        return self.group.entries[: self.shows]

    @property
    def own(self) -> list[Entry]:
        """The messages that this node has accepted."""
        return [entry for entry in self.group.entries if entry.sender == self.node]

    def run(self) -> None:
        """Takes connections until the node is closed."""
        while True:
            self._sessions.acquire()
            try:
                connection, _ = self._listener.accept()
            except OSError:
                return
            self.open.add(connection)
            threading.Thread(target=self._serve, args=(connection,), daemon=True).start()

    def _serve(self, connection: socket.socket) -> None:
        try:
            with connection, connection.makefile("rb") as source:
                while self._one(connection, source):
                    pass
        except OSError:
            pass
        finally:
            self.open.discard(connection)
            self._sessions.release()

    def _one(self, connection: socket.socket, source: BinaryIO) -> bool:
        """Serves one request, and says whether the connection goes on."""
        head = source.read(LENGTH_BYTES)
        if len(head) < LENGTH_BYTES:
            return False
        body = source.read(length_of(head))
        self.asked += 1
        trouble = self.troubles.pop(0) if self.troubles else None
        if trouble == "close":
            return False
        if trouble == "hang":
            threading.Event().wait(HANG)
            return False
        if isinstance(trouble, bytes):
            connection.sendall(trouble)
            return False
        if isinstance(trouble, int):
            connection.sendall(frame(encode_response(Refused(trouble))))
            return True
        answer = frame(encode_response(self._answer(body)))
        if trouble == "lose":
            return False
        if trouble == "drips":
            for byte in answer:
                connection.sendall(struct.pack("B", byte))
                threading.Event().wait(DRIP)
            return True
        connection.sendall(answer)
        return True

    def _answer(self, body: bytes) -> Response:
        try:
            request = decode_request(body)
        except BadRequest as bad:
            return Refused(Refusal.FRAME, bad.code)
        with self.group.changed:
            return self._answered(request)

    def _answered(self, request: Request) -> Response:
        if isinstance(request, Submit):
            return self._submit(request)
        if isinstance(request, Read):
            return self._read(request.place, request.most)
        if isinstance(request, Wait):
            if not self.group.knows_wait:
                return Refused(Refusal.FRAME, UNKNOWN_OPCODE)
            place = request.place
            self.group.changed.wait_for(
                lambda: self.is_closed or len(self.log) >= place, request.millis / 1000
            )
            return self._read(place, request.most)
        if isinstance(request, GetStatus):
            return Status(self.state, len(self.own), len(self.log))
        if isinstance(request, Crash):
            return self._change(READY, DOWN, Refusal.DOWN)
        assert isinstance(request, Restart)
        return self._change(DOWN, READY, Refusal.NOT_DOWN)

    def _change(self, before: str, after: str, refusal: Refusal) -> Response:
        if self.state != before:
            return Refused(refusal)
        self.state = after
        return Done()

    def _read(self, place: int, most: int) -> Response:
        return Entries(tuple(self.log[place - 1 : place - 1 + most]))

    def _submit(self, request: Submit) -> Response:
        if self.state == DOWN:
            return Refused(Refusal.DOWN)
        if len(request.payload) > MAX_PAYLOAD:
            return Refused(Refusal.TOO_LONG)
        own = self.own
        of_client = [entry for entry in own if entry.client == request.client]
        if 0 < request.number <= len(of_client):
            entry = of_client[request.number - 1]
            is_same = entry.payload == request.payload
            return Accepted(entry.seq) if is_same else Refused(Refusal.CONFLICT)
        if request.number != len(of_client) + 1:
            return Refused(Refusal.GAP, len(of_client) + 1)
        if len(own) >= self.group.cap:
            return Refused(Refusal.FULL)
        seq = len(own) + 1
        self.group.entries.append(
            Entry(self.node, seq, request.client, request.number, request.payload)
        )
        self.group.changed.notify_all()
        return Accepted(seq)
