"""How soon followers see a message: WAIT of one node beside redis' XREAD BLOCK, in turns.

    python3 -m bench.followers PROGRAM [--rounds R] [--messages M] [--dir D]

Both keep each message by a sync. A round takes a new urbd and a new redis. In each, one publisher
appends M messages of 16 bytes, one every few milliseconds, and the followers are in a process of
their own. It prints, for each server:

- the time from the call that appends a message until one follower has it, and until its publisher
  has the answer (median and 99th percentile);
- the time until all of 256 followers have it (the process of the followers reads them one after the
  other, and that is counted too);
- the share of one processor that the server takes while 100 followers wait for nothing.

It needs redis-server; without it urbd alone is measured. The files are made below D.
"""
from __future__ import annotations

import argparse
import multiprocessing
import select
import shutil
import socket
import statistics
import tempfile
import time
from abc import ABC, abstractmethod
from collections.abc import Iterator, Sequence
from contextlib import contextmanager
from dataclasses import dataclass, field
from multiprocessing.connection import Connection as Pipe
from pathlib import Path

from bench.beside import load_of_machine, percentile, running_redis, share_of_processor
from bench.groups import at_least, program_at, run
from trials.lib.program import LOCALHOST, Options, Program, all_ports, free_base_port
from urbd.frames import Submit, Wait, encode_request, frame

PAYLOAD = b"sixteen bytes .."
CLIENT = 7
LONGEST_WAIT = 60_000  # milliseconds
PAUSE = 0.003  # seconds between two messages
LONG_PAUSE = 0.05  # the same for many followers
SETTLE = 0.3  # seconds until all followers wait
WAITING, MANY = 100, 256
REST = 10.0  # seconds for which followers wait for nothing
MESSAGES_TO_MANY = 60
MILLISECOND = 1e6  # in nanoseconds


class Talk(ABC):
    """The bytes of a server's requests, and where its responses end."""

    @abstractmethod
    def publish(self, number: int) -> bytes:
        """Appends message number `number`, from 1."""

    @abstractmethod
    def follow(self, place: int) -> bytes:
        """Waits for the message at this place, from 1."""

    @abstractmethod
    def is_whole(self, taken: bytes) -> bool:
        """Whether these bytes are a whole response."""


class OfUrbd(Talk):
    def publish(self, number: int) -> bytes:
        return frame(encode_request(Submit(CLIENT, number, PAYLOAD)))

    def follow(self, place: int) -> bytes:
        return frame(encode_request(Wait(place, 1, LONGEST_WAIT)))

    def is_whole(self, taken: bytes) -> bool:
        return len(taken) >= 2 and len(taken) == 2 + int.from_bytes(taken[:2], "big")


class OfRedis(Talk):
    @staticmethod
    def command(*words: object) -> bytes:
        parts = [str(it).encode() if not isinstance(it, bytes) else it for it in words]
        rows = b"".join(b"$%d\r\n%s\r\n" % (len(it), it) for it in parts)
        return b"*%d\r\n%s" % (len(parts), rows)

    def publish(self, number: int) -> bytes:
        return self.command("XADD", "log", f"{number}-1", "m", PAYLOAD)

    def follow(self, place: int) -> bytes:
        words = ("BLOCK", LONGEST_WAIT, "COUNT", 1, "STREAMS", "log", f"{place - 1}-1")
        return self.command("XREAD", *words)

    def is_whole(self, taken: bytes) -> bool:
        # the answer to XADD is one text of a known length; that to XREAD ends with the payload
        if taken.startswith(b"$"):
            return taken.count(b"\r\n") == 2 and taken.endswith(b"\r\n")
        return taken.endswith(PAYLOAD + b"\r\n")


@dataclass
class Server:
    """A running server."""

    talk: Talk
    process: int
    port: int

    def connect(self) -> socket.socket:
        stream = socket.create_connection((LOCALHOST, self.port))
        stream.setsockopt(socket.IPPROTO_TCP, socket.TCP_NODELAY, 1)
        return stream

    def receive(self, stream: socket.socket) -> None:
        taken = b""
        while not self.talk.is_whole(taken):
            more = stream.recv(65_536)
            if not more:
                raise ConnectionError("the server has closed a connection")
            taken += more


@dataclass
class Figures:
    """Times in milliseconds, and a share of one processor."""

    answered: list[float] = field(default_factory=list)
    seen: list[float] = field(default_factory=list)
    seen_by_all: list[float] = field(default_factory=list)
    waiting: list[float] = field(default_factory=list)


def follow(server: Server, count: int, messages: int, pipe: Pipe) -> None:
    """Follows with so many connections. Sends when all of them had each message."""
    streams = [server.connect() for _ in range(count)]
    poller = select.epoll()
    for stream in streams:
        poller.register(stream, select.EPOLLIN)
    of_descriptor = {stream.fileno(): stream for stream in streams}
    times = []
    for place in range(1, messages + 1):
        for stream in streams:
            stream.sendall(server.talk.follow(place))
        if place == 1:
            pipe.send("ready")
        left = count
        while left:
            for descriptor, _ in poller.poll():
                server.receive(of_descriptor[descriptor])
                left -= 1
        times.append(time.monotonic_ns())
    pipe.send(times)


@contextmanager
def followers(server: Server, count: int, messages: int) -> Iterator[Pipe]:
    """Followers in a process of their own."""
    here, there = multiprocessing.Pipe()
    child = multiprocessing.Process(target=follow, args=(server, count, messages, there))
    child.start()
    try:
        if here.recv() != "ready":
            raise AssertionError("the followers aren't ready")
        time.sleep(SETTLE)
        yield here
    finally:
        child.terminate()
        child.join()


def publish(server: Server, messages: int, pause: float) -> tuple[list[int], list[int]]:
    """Appends messages. Gives when each was sent, and when it was answered."""
    sent, answered = [], []
    with server.connect() as stream:
        for number in range(1, messages + 1):
            request = server.talk.publish(number)
            sent.append(time.monotonic_ns())
            stream.sendall(request)
            server.receive(stream)
            answered.append(time.monotonic_ns())
            time.sleep(pause)
    return sent, answered


def differences(sent: Sequence[int], then: Sequence[int]) -> list[float]:
    """Milliseconds between each two times."""
    return [(late - early) / MILLISECOND for early, late in zip(sent, then)]


def measure(
    server: Server, count: int, messages: int, pause: float
) -> tuple[list[float], list[float]]:
    """The times until messages were answered, and until all of so many followers had them."""
    with followers(server, count, messages) as pipe:
        sent, answered = publish(server, messages, pause)
        seen = pipe.recv()
    return differences(sent, answered), differences(sent, seen)


def measure_waiting(server: Server) -> float:
    """The share of one processor that a server takes while followers wait for nothing."""
    with followers(server, WAITING, 1):
        return share_of_processor(server.process, REST)


@contextmanager
def running_urbd(program: Program, folder: Path) -> Iterator[Server]:
    folder.mkdir()
    options = Options(folder, free_base_port(), tick_ms=1_000)
    with program.serve(options) as daemon:
        yield Server(OfUrbd(), daemon.process.pid, all_ports(options)[0])
        daemon.stop()


@contextmanager
def server_of(name: str, program: Program, folder: Path) -> Iterator[Server]:
    """A new server of this name."""
    if name == "urbd":
        with running_urbd(program, folder) as server:
            yield server
    else:
        folder.mkdir()
        with running_redis(folder) as (process, port):
            yield Server(OfRedis(), process, port)


def show(name: str, figures: Figures) -> None:
    for what, times in (
        ("answered", figures.answered),
        ("seen by one follower", figures.seen),
        (f"seen by all of {MANY}", figures.seen_by_all),
    ):
        middle, high = statistics.median(times), percentile(times, 99)
        print(f"{name:6} {what:22} median {middle:7.3f} ms, 99th percentile {high:7.3f} ms")
    share = statistics.median(figures.waiting)
    print(f"{name:6} {WAITING} followers wait       {100 * share:.2f} % of one processor")


def main(words: Sequence[str]) -> int:
    parser = argparse.ArgumentParser(
        prog="python3 -m bench.followers",
        description=__doc__,
        formatter_class=argparse.RawDescriptionHelpFormatter,
    )
    parser.add_argument("program", type=program_at, help="the built urbd")
    parser.add_argument("--rounds", type=at_least(1), default=5)
    parser.add_argument("--messages", type=at_least(2), default=500)
    parser.add_argument("--dir", default=tempfile.gettempdir(), help="where files are made")
    options = parser.parse_args(words)
    names = ["urbd"] + (["redis"] if shutil.which("redis-server") else [])
    found = {name: Figures() for name in names}
    with tempfile.TemporaryDirectory(prefix="urbd-followers-", dir=options.dir) as room:
        for turn in range(options.rounds):
            for name in names if turn % 2 == 0 else reversed(names):
                figures, places = found[name], [Path(room, f"{name}-{turn}-{it}") for it in (1, 2)]
                with server_of(name, options.program, places[0]) as server:
                    answered, seen = measure(server, 1, options.messages, PAUSE)
                    figures.answered += answered
                    figures.seen += seen
                with server_of(name, options.program, places[1]) as server:
                    figures.waiting.append(measure_waiting(server))
                    figures.seen_by_all += measure(server, MANY, MESSAGES_TO_MANY, LONG_PAUSE)[1]
    for name, figures in found.items():
        show(name, figures)
    if "redis" in found:
        urbd, redis = found["urbd"].seen, found["redis"].seen
        ratio = statistics.median(urbd) / statistics.median(redis)
        tail = percentile(urbd, 99) / percentile(redis, 99)
        print(
            f"urbd's follower sees a message {ratio:.2f} times as late, 99th percentile {tail:.2f}"
        )
    print(f"load: {load_of_machine()}")
    return 0


if __name__ == "__main__":
    run(main)
