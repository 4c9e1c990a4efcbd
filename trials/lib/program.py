"""The built program as a user starts it: its commands, and running groups.

A group listens on 127.0.0.1. Node P has the UDP port B + P and serves clients at B + 10 + P, if B
is the base port. It may serve them at Unix sockets too, or at these alone.
"""
from __future__ import annotations

import os
import random
import signal
import socket
import subprocess
import time
from collections.abc import Callable, Mapping, Sequence
from dataclasses import dataclass, replace
from pathlib import Path
from types import TracebackType
from typing import Optional, TypeVar

from urbd.constants import CLIENT_PORT_OFFSET, MAX_CAP, MAX_NODES
from urbd.node import Connection, Node

PATIENCE = 180.0  # seconds for a step that ends by itself, also on a busy machine
LOCALHOST = "127.0.0.1"
# The environment variable with the first of the ports that this process may use.
FIRST_PORT = "URBD_FIRST_PORT"
# By default all below the range that Linux gives to outgoing connections (32768 to 60999).
ALL_PORTS = range(20_000, 32_000)
MY_PORTS = 580  # how many a process may use that was told the first


class NotOpen(Exception):
    """The program ended without `open N`. The text is what it wrote on standard error."""

    def __init__(self, status: int, error: bytes) -> None:
        super().__init__(f"status {status}, {error.decode(errors='replace').strip()!r}")
        self.status, self.error = status, error


def ports_of(base: int, nodes: int) -> list[tuple[int, int]]:
    """The port for packets and the port for clients of each node."""
    return [(base + node, base + CLIENT_PORT_OFFSET + node) for node in range(1, nodes + 1)]


def is_free(base: int, nodes: int) -> bool:
    """Whether nobody has a port of such a group."""
    held = []
    try:
        for packets, clients in ports_of(base, nodes):
            for kind, port in ((socket.SOCK_DGRAM, packets), (socket.SOCK_STREAM, clients)):
                held.append(socket.socket(socket.AF_INET, kind))
                held[-1].setsockopt(socket.SOL_SOCKET, socket.SO_REUSEADDR, 1)
                held[-1].bind((LOCALHOST, port))
                if kind == socket.SOCK_STREAM:
                    held[-1].listen(1)
        return True
    except OSError:
        return False
    finally:
        for it in held:
            it.close()


def free_base_port() -> int:
    """A base port at which a group of any number of nodes finds its ports free."""
    first = os.environ.get(FIRST_PORT)
    ports = range(int(first), int(first) + MY_PORTS) if first else ALL_PORTS
    for _ in range(1000):
        base = random.choice(ports)
        if is_free(base, MAX_NODES):
            return base
    raise OSError("no base port with free ports")


@dataclass(frozen=True)
class Options:
    """What `urbd serve` is asked for."""

    folder: Path
    base_port: int
    nodes: int = 1
    cap: int = MAX_CAP
    tick_ms: int = 20
    socket_dir: Optional[Path] = None
    takes_tcp: bool = True

    def words(self) -> list[str]:
        named: dict[str, object] = {
            "nodes": self.nodes,
            "cap": self.cap,
            "dir": self.folder,
            "base-port": self.base_port,
            "tick-ms": self.tick_ms,
        }
        if self.socket_dir is not None:
            named["socket-dir"] = self.socket_dir
        flags = [] if self.takes_tcp else ["--no-tcp"]
        return ["serve", *(f"--{name}={value}" for name, value in named.items()), *flags]

    def port(self, number: int) -> int:
        """The port at which a node serves clients."""
        return self.base_port + CLIENT_PORT_OFFSET + number

    def socket(self, number: int) -> Path:
        """The path of a node's Unix socket."""
        assert self.socket_dir is not None
        return self.socket_dir / f"node-{number}.sock"

    def node(self, number: int, timeout: float = PATIENCE) -> Node:
        """A node, for single requests: at its port, or at its socket if it has no port."""
        return Node(self.port(number) if self.takes_tcp else str(self.socket(number)), timeout)


@dataclass(frozen=True)
class Program:
    """The built urbd."""

    path: Path

    def run(
        self, *words: object, given: bytes = b"", limit: float = PATIENCE
    ) -> subprocess.CompletedProcess[bytes]:
        """Runs a command to its end, with this on its standard input."""
        command = [str(self.path), *map(str, words)]
        return subprocess.run(command, input=given, capture_output=True, timeout=limit)

    def start(
        self,
        options: Options,
        prefix: Sequence[str] = (),
        before: Optional[Callable[[], object]] = None,
        environment: Optional[Mapping[str, str]] = None,
        errors: int = subprocess.PIPE,
    ) -> subprocess.Popen[bytes]:
        """Starts a group, and doesn't wait until it is open.

        The words of `prefix` come first (a tool that runs the program). `before` is called in the
        new process, before the program. `errors` is the descriptor of its standard error.
        """
        return subprocess.Popen(
            [*prefix, str(self.path), *options.words()],
            stdin=subprocess.PIPE,
            stdout=subprocess.PIPE,
            stderr=errors,
            preexec_fn=before,
            env=None if environment is None else {**os.environ, **environment},
        )

    def start_words(self, words: Sequence[str]) -> subprocess.Popen[bytes]:
        """Starts a command by its words, and doesn't wait for its end."""
        return subprocess.Popen(
            [str(self.path), *words],
            stdin=subprocess.PIPE,
            stdout=subprocess.PIPE,
            stderr=subprocess.DEVNULL,
        )

    def serve(
        self,
        options: Options,
        prefix: Sequence[str] = (),
        before: Optional[Callable[[], object]] = None,
        environment: Optional[Mapping[str, str]] = None,
        errors: int = subprocess.PIPE,
    ) -> Daemon:
        """Starts a group, and waits until it is open. `NotOpen` if it ends before."""
        return Daemon(self.start(options, prefix, before, environment, errors), options)


Group = TypeVar("Group", bound="Daemon")


class Daemon:
    """A running group. At the end of a `with` it is killed, unless it has ended."""

    def __init__(self, process: subprocess.Popen[bytes], options: Options) -> None:
        self.process, self.options = process, options
        assert process.stdout is not None
        line = process.stdout.readline()
        if not line:
            _, error = process.communicate(timeout=PATIENCE)
            raise NotOpen(process.returncode, error or b"")
        if line != b"open %d\n" % options.nodes:
            self.kill()
            raise AssertionError(f"it said {line!r}, and not 'open {options.nodes}'")

    @property
    def nodes(self) -> range:
        return range(1, self.options.nodes + 1)

    def node(self, number: int, timeout: float = PATIENCE) -> Node:
        """A node, for single requests."""
        return self.options.node(number, timeout)

    def connect(self, number: int, timeout: float = PATIENCE) -> Connection:
        """A connection to a node, for several requests."""
        return self.node(number, timeout).connect()

    def kill(self) -> None:
        """Kills the program at once, if it runs."""
        if self.process.poll() is None:
            self.process.send_signal(signal.SIGKILL)
        self.process.wait(PATIENCE)
        for stream in (self.process.stdin, self.process.stdout, self.process.stderr):
            if stream and not stream.closed:
                try:
                    stream.close()
                except OSError:
                    pass

    def stop(self, limit: float = PATIENCE) -> int:
        """Closes its standard input and waits for its end. Gives the number of events."""
        told, error = self.process.communicate(timeout=limit)
        words = told.split()
        if self.process.returncode or len(words) != 2 or words[0] != b"closed":
            raise AssertionError(
                f"a stop ends with status 0 and 'closed E', and not with status"
                f" {self.process.returncode}, {told!r} and {error!r}"
            )
        return int(words[1])

    def memory(self) -> int:
        """Its resident memory in bytes."""
        status = Path(f"/proc/{self.process.pid}/status").read_text()
        line = next(it for it in status.splitlines() if it.startswith("VmRSS"))
        return int(line.split()[1]) * 1024

    def __enter__(self: Group) -> Group:
        return self

    def __exit__(
        self,
        kind: Optional[type[BaseException]],
        fault: Optional[BaseException],
        trace: Optional[TracebackType],
    ) -> None:
        self.kill()


def wait_until(
    is_so: Callable[[], bool], what: str, limit: float = PATIENCE, pause: float = 0.02
) -> None:
    """Waits until this is so. `AssertionError` with these words if it takes too long."""
    end = time.monotonic() + limit
    while not is_so():
        if time.monotonic() > end:
            raise AssertionError(f"not within {limit:g} s: {what}")
        time.sleep(pause)


def files_of(folder: Path) -> list[str]:
    """The names of a folder's files, in order."""
    return sorted(os.listdir(folder))


def journals_of(nodes: int) -> list[str]:
    """The files that a stopped group leaves."""
    return [f"node-{node}.db" for node in range(1, nodes + 1)]


def elsewhere(options: Options, base_port: int) -> Options:
    """The same group at another base port."""
    return replace(options, base_port=base_port)


def all_ports(options: Options) -> Sequence[int]:
    """The ports for clients of all nodes."""
    return [clients for _, clients in ports_of(options.base_port, options.nodes)]
