"""A small redis in this process: one stream and some keys, over a socket, with faults on demand."""
from __future__ import annotations

import contextlib
import socket
import threading
from typing import BinaryIO, Optional

Command = list[bytes]


class FakeRedis(threading.Thread):
    """Serves what the bridge asks. `lose_replies` closes the connection after so many commands that
    were done, without their replies."""

    def __init__(self) -> None:
        super().__init__(daemon=True)
        self.keys: dict[bytes, bytes] = {}
        self.stream: Optional[list[tuple[int, Command]]] = None
        self.last = 0
        self.changes = 0
        self.lose_replies = 0
        self.error: Optional[bytes] = None
        self.listener = socket.create_server(("127.0.0.1", 0))
        self.address = f"127.0.0.1:{self.listener.getsockname()[1]}"
        self.start()

    def flush(self) -> None:
        """Loses everything, as FLUSHALL does."""
        self.keys, self.stream, self.last = {}, None, 0
        self.changes += 1

    @property
    def places(self) -> list[int]:
        """The places that the stream has."""
        return [place for place, _ in self.stream or ()]

    def close(self) -> None:
        """Nothing listens any more."""
        self.listener.close()

    def run(self) -> None:
        while True:
            try:
                connection, _ = self.listener.accept()
            except OSError:
                return
            threading.Thread(target=self.serve, args=(connection,), daemon=True).start()

    def serve(self, connection: socket.socket) -> None:
        """Serves one connection, until its client leaves."""
        with contextlib.suppress(ConnectionError):
            self.serve_commands(connection)

    def serve_commands(self, connection: socket.socket) -> None:
        queued: Optional[list[Command]] = None
        watched = self.changes
        with connection, connection.makefile("rb") as source:
            while command := read_command(source):
                word = command[0]
                if word == b"WATCH":
                    watched, reply = self.changes, b"+OK\r\n"
                elif word == b"MULTI":
                    queued, reply = [], b"+OK\r\n"
                elif word == b"EXEC" and queued is not None:
                    is_same = watched == self.changes
                    replies = [self.one(each) for each in queued] if is_same else []
                    reply = b"*%d\r\n" % len(replies) + b"".join(replies) if is_same else b"*-1\r\n"
                    queued = None
                elif queued is not None:
                    queued.append(command)
                    reply = b"+QUEUED\r\n"
                else:
                    reply = self.one(command)
                if word == b"EXEC" and self.lose_replies > 0:
                    self.lose_replies -= 1
                    return
                connection.sendall(self.error or reply)

    def one(self, command: Command) -> bytes:
        """The reply to one command."""
        word, key, *rest = command
        if word == b"SET":
            self.keys.setdefault(key, rest[0])
            return b"+OK\r\n"
        if word == b"GET":
            return bulk(self.keys[key]) if key in self.keys else b"$-1\r\n"
        if word == b"EXISTS":
            return b":%d\r\n" % (self.stream is not None)
        if word == b"XINFO":
            facts = [b"length", b"%d" % len(self.places), b"last-generated-id", b"0-%d" % self.last]
            return b"*4\r\n" + b"".join(map(bulk, facts))
        if word == b"XRANGE":
            return self.range_of(int(rest[0][2:]))
        assert word == b"XADD", command
        return self.add(rest)

    def range_of(self, place: int) -> bytes:
        """The entry at a place."""
        found = [fields for at, fields in self.stream or () if at == place]
        if not found:
            return b"*0\r\n"
        fields = b"*%d\r\n" % len(found[0]) + b"".join(map(bulk, found[0]))
        return b"*1\r\n*2\r\n" + bulk(b"0-%d" % place) + fields

    def add(self, words: Command) -> bytes:
        """Adds an entry, as XADD does."""
        makes_none = words[0] == b"NOMKSTREAM"
        words = words[1:] if makes_none else words
        if self.stream is None and makes_none:
            return b"$-1\r\n"
        place = int(words[0][2:])
        if place <= self.last:
            return b"-ERR The ID is equal or smaller\r\n"
        self.stream = (self.stream or []) + [(place, words[1:])]
        self.last = place
        self.changes += 1
        return bulk(words[0])


def bulk(value: bytes) -> bytes:
    """A value as redis writes it."""
    return b"$%d\r\n%b\r\n" % (len(value), value)


def read_command(source: BinaryIO) -> Command:
    """The next command; an empty one at the end."""
    head = source.readline()
    command = []
    for _ in range(int(head[1:]) if head else 0):
        length = int(source.readline()[1:])
        command.append(source.read(length + 2)[:-2])
    return command
