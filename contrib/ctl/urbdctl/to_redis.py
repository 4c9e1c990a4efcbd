"""A redis stream as the target of a bridge.

The entry at a place has the id `0-PLACE`, and the key `KEY:first` has the digest of the first one.
Some entries are appended in one transaction, which redis drops if the stream has changed since the
bridge looked at its last id. Needs redis 6.2 or later."""
from __future__ import annotations

import socket
from collections.abc import Sequence
from typing import BinaryIO, Optional, Union

from urbd import Entry
from urbdctl.bridge import LIMIT, Changed, Checkpoint, host_and_port, require_same_first

Word = Union[bytes, str, int]
Reply = Union[bytes, None, list["Reply"]]


class RedisError(ConnectionError):
    """What redis answered in place of a result."""


def encoded(*words: Word) -> bytes:
    """A command as redis reads it."""
    whole = [word if isinstance(word, bytes) else str(word).encode() for word in words]
    parts = b"".join(b"$%d\r\n%b\r\n" % (len(word), word) for word in whole)
    return b"*%d\r\n" % len(whole) + parts


class Redis:
    """A stream of a redis server."""

    def __init__(self, address: str, key: str) -> None:
        self.host, self.port = host_and_port(address)
        self.address, self.key = address, key
        self.socket: Optional[socket.socket] = None
        self.input: Optional[BinaryIO] = None

    def ask(self, *commands: Sequence[Word]) -> list[Reply]:
        """The replies to these commands, sent in one write. After a fault the connection is closed,
        and the next call opens another one."""
        try:
            if self.socket is None:
                self.socket = socket.create_connection((self.host, self.port), LIMIT)
                self.input = self.socket.makefile("rb")
            self.socket.sendall(b"".join(encoded(*command) for command in commands))
            return [self.reply() for _ in commands]
        except OSError as fault:
            self.close()
            cause = fault.strerror or str(fault) or "no answer in time"
            raise RedisError(f"redis at {self.address}: {cause}") from None

    def reply(self) -> Reply:
        """One reply. An error is raised."""
        assert self.input is not None
        line = self.input.readline()
        if line[-2:] != b"\r\n":
            raise RedisError("the connection was closed")
        kind, rest = line[:1], line[1:-2]
        if kind == b"-":
            raise RedisError(rest.decode(errors="replace"))
        if kind == b"$" and rest != b"-1":
            whole = self.input.read(int(rest) + 2)
            if len(whole) < int(rest) + 2:
                raise RedisError("the connection was closed")
            return whole[:-2]
        if kind == b"*" and rest != b"-1":
            return [self.reply() for _ in range(int(rest))]
        return None if kind in b"$*_" else rest

    def close(self) -> None:
        """Closes the connection, and with it what a transaction had begun."""
        if self.input is not None:
            self.input.close()
        if self.socket is not None:
            self.socket.close()
        self.socket = self.input = None

    def last_place(self, reply: Reply) -> int:
        """The place of the stream's last entry, by a reply to XINFO STREAM."""
        assert isinstance(reply, list)
        facts = dict(zip(reply[::2], reply[1::2]))
        found = facts[b"last-generated-id"]
        assert isinstance(found, bytes)
        last = found.decode()
        if not last.startswith("0-"):
            raise Changed(f"another program writes into {self.key}: its last id is {last}")
        return int(last[2:])

    def checkpoint(self, first: str) -> Checkpoint:
        name = f"{self.key}:first"
        _, was, exists = self.ask(("SET", name, first, "NX"), ("GET", name), ("EXISTS", self.key))
        require_same_first(first, was.decode() if isinstance(was, bytes) else "")
        if exists == b"0":
            return Checkpoint()
        last = self.last_place(self.ask(("XINFO", "STREAM", self.key))[0])
        found = self.ask(("XRANGE", self.key, f"0-{last}", f"0-{last}"))[0]
        if not found:
            return Checkpoint(last + 1)  # the stream was trimmed to nothing
        assert isinstance(found, list)
        return Checkpoint(last + 1, digest_in(found[0]))

    def append(self, place: int, entries: Sequence[Entry]) -> Checkpoint:
        _, exists = self.ask(("WATCH", self.key), ("EXISTS", self.key))
        last = 0
        if exists != b"0":
            last = self.last_place(self.ask(("XINFO", "STREAM", self.key))[0])
        if last != place - 1:
            self.close()
            raise RedisError(f"redis at {self.address}: the copy ends at place {last} now")
        adds = [self.adding(at, entry) for at, entry in enumerate(entries, place)]
        replies = self.ask(("MULTI",), *adds, ("EXEC",))
        if replies[-1] is None:
            self.close()
            raise RedisError(f"redis at {self.address}: another program has written")
        done = replies[-1]
        if not isinstance(done, list) or None in done:
            self.close()
            raise RedisError(f"redis at {self.address}: the stream is gone")
        return Checkpoint(place + len(entries), entries[-1].digest())

    def adding(self, place: int, entry: Entry) -> list[Word]:
        """The command that appends an entry. Only the first one may make the stream."""
        head: list[Word] = ["XADD", self.key, *([] if place == 1 else ["NOMKSTREAM"])]
        fields: list[Word] = ["sender", entry.sender, "seq", entry.seq, "client", entry.client]
        fields += ["number", entry.number, "digest", entry.digest(), "payload", entry.payload]
        return [*head, f"0-{place}", *fields]


def digest_in(found: Reply) -> str:
    """The digest of an entry of a stream."""
    assert isinstance(found, list) and isinstance(found[1], list)
    pairs = dict(zip(found[1][::2], found[1][1::2]))
    digest = pairs[b"digest"]
    assert isinstance(digest, bytes)
    return digest.decode()
