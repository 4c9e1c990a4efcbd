"""Servers of redis and etcd, to which a bridge copies a log. A trial kills and starts them."""
from __future__ import annotations

import base64
import json
import socket
import subprocess
from abc import ABC, abstractmethod
from collections.abc import Sequence
from pathlib import Path
from typing import Any

from urbd.frames import Entry
from urbdctl.to_etcd import Etcd
from urbdctl.to_redis import Redis

from trials.lib.program import LOCALHOST, wait_until

KEY = "log"  # of the stream, or the prefix of the keys
NUMBERS = (b"sender", b"seq", b"client", b"number")  # fields of an entry in redis
MOST_KEYS = 100_000  # of one answer of etcd


def listens(port: int) -> bool:
    """Whether somebody listens at a port."""
    try:
        socket.create_connection((LOCALHOST, port), 1).close()
        return True
    except OSError:
        return False


class Server(ABC):
    """A running server at a port, over a folder that outlives it."""

    name: str
    command: str

    def __init__(self, folder: Path, port: int) -> None:
        self.folder, self.port = folder, port
        self.start()

    @property
    def address(self) -> str:
        return f"{LOCALHOST}:{self.port}"

    @abstractmethod
    def words(self) -> Sequence[object]:
        """The command line of the server."""

    @abstractmethod
    def count(self) -> int:
        """How many entries it holds."""

    @abstractmethod
    def held(self) -> dict[int, Entry]:
        """All entries, by their places."""

    def start(self) -> None:
        self.process = subprocess.Popen(
            [self.command, *map(str, self.words())],
            stdout=subprocess.DEVNULL,
            stderr=subprocess.DEVNULL,
        )
        wait_until(lambda: listens(self.port), f"{self.name} listens at {self.port}")

    def kill(self) -> None:
        self.process.kill()
        self.process.wait()


class RedisServer(Server):
    """A redis server, which syncs each command."""

    name, command = "redis", "redis-server"

    def __init__(self, folder: Path, port: int) -> None:
        self.reader = Redis(f"{LOCALHOST}:{port}", KEY)
        super().__init__(folder, port)

    def words(self) -> Sequence[object]:
        plain = ["--port", self.port, "--bind", LOCALHOST, "--dir", self.folder, "--save", ""]
        return [*plain, "--appendonly", "yes", "--appendfsync", "always"]

    def count(self) -> int:
        reply = self.reader.ask(("XLEN", KEY))[0]
        assert isinstance(reply, bytes), reply
        return int(reply)

    def held(self) -> dict[int, Entry]:
        found = {}
        rows: Any = self.reader.ask(("XRANGE", KEY, "-", "+"))[0]
        for place, fields in rows:
            it = dict(zip(fields[::2], fields[1::2]))
            sender, seq, client, number = (int(it[name]) for name in NUMBERS)
            found[int(place[2:])] = Entry(sender, seq, client, number, it[b"payload"])
        return found

    def trim(self) -> None:
        """Removes all entries from the stream."""
        self.reader.ask(("XTRIM", KEY, "MAXLEN", "0"))

    def kill(self) -> None:
        self.reader.close()
        super().kill()


class EtcdServer(Server):
    """An etcd of one member, at a port and the next one."""

    name, command = "etcd", "etcd"

    def __init__(self, folder: Path, port: int) -> None:
        self.reader = Etcd(f"{LOCALHOST}:{port}", KEY)
        super().__init__(folder, port)

    def words(self) -> Sequence[object]:
        own, peers = f"http://{self.address}", f"http://{LOCALHOST}:{self.port + 1}"
        plain = ["--name", "one", "--data-dir", self.folder / "etcd"]
        clients = ["--listen-client-urls", own, "--advertise-client-urls", own]
        members = ["--listen-peer-urls", peers, "--initial-advertise-peer-urls", peers]
        return [*plain, "--initial-cluster", f"one={peers}", *clients, *members]

    def range(self, **more: object) -> dict[str, Any]:
        """The keys of the entries."""
        ends = (f"{KEY}/entry/", f"{KEY}/entry0")
        begin, end = (base64.b64encode(it.encode()).decode() for it in ends)
        return self.reader.ask("/v3/kv/range", {"key": begin, "range_end": end, **more})

    def count(self) -> int:
        return int(self.range(count_only=True).get("count", 0))

    def held(self) -> dict[int, Entry]:
        found = {}
        for pair in self.range(limit=MOST_KEYS).get("kvs", []):
            it = json.loads(base64.b64decode(pair["value"]))
            it["payload"] = base64.b64decode(it["payload"])
            place = int(base64.b64decode(pair["key"]).rpartition(b"/")[2])
            found[place] = Entry(**it)
        return found
