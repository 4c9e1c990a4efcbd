"""What the benchmarks share beside groups: redis and etcd, processor time, and figures."""
from __future__ import annotations

import os
import socket
import statistics
import subprocess
import time
from collections.abc import Iterator, Sequence
from contextlib import ExitStack, contextmanager
from pathlib import Path

from trials.lib.program import LOCALHOST, PATIENCE, wait_until

MOMENT = 0.2  # seconds
MEMBERS = 3  # of etcd
ELECTION = 3.0  # seconds until the members of etcd have a leader


def free_ports(count: int) -> list[int]:
    """TCP ports that nobody has. No two are the same."""
    with ExitStack() as stack:
        servers = [stack.enter_context(socket.create_server((LOCALHOST, 0))) for _ in range(count)]
        ports = [int(server.getsockname()[1]) for server in servers]
    return ports


@contextmanager
def running_redis(folder: Path) -> Iterator[tuple[int, int]]:
    """A redis that syncs each message: the id of its process, and its port."""
    (port,) = free_ports(1)
    options = {
        "port": port,
        "bind": LOCALHOST,
        "dir": folder,
        "appendonly": "yes",
        "appendfsync": "always",
        "save": "",
        "maxclients": 2_000,
    }
    words = [word for key, it in options.items() for word in (f"--{key}", str(it))]
    process = subprocess.Popen(["redis-server", *words], stdout=subprocess.DEVNULL)
    try:
        wait_until(lambda: is_open(port), "redis takes connections")
        yield process.pid, port
    finally:
        process.kill()
        process.wait(PATIENCE)


def is_open(port: int) -> bool:
    """Whether somebody takes connections at a port."""
    try:
        socket.create_connection((LOCALHOST, port), MOMENT).close()
        return True
    except OSError:
        return False


@contextmanager
def running_etcd(folder: Path) -> Iterator[list[int]]:
    """Members of etcd on loopback, which have a leader: their ports for clients."""
    ports = free_ports(2 * MEMBERS)
    clients, peers = ports[:MEMBERS], ports[MEMBERS:]
    urls = [[f"http://{LOCALHOST}:{port}" for port in pair] for pair in zip(clients, peers)]
    cluster = ",".join(f"m{at}={peer}" for at, (_, peer) in enumerate(urls))
    members = []
    try:
        for at, (own, peer) in enumerate(urls):
            words = ["--name", f"m{at}", "--data-dir", str(folder / f"m{at}")]
            words += ["--initial-cluster", cluster]
            words += ["--listen-client-urls", own, "--advertise-client-urls", own]
            words += ["--listen-peer-urls", peer, "--initial-advertise-peer-urls", peer]
            members.append(
                subprocess.Popen(
                    ["etcd", *words], stdout=subprocess.DEVNULL, stderr=subprocess.DEVNULL
                )
            )
        wait_until(lambda: all(map(is_open, clients)), "etcd takes connections")
        time.sleep(ELECTION)
        yield clients
    finally:
        for member in members:
            member.terminate()
        for member in members:
            member.wait(PATIENCE)


def processor_time(process: int) -> float:
    """The processor seconds of a process so far, in steps of some milliseconds.

    Threads that have ended count too.
    """
    fields = Path(f"/proc/{process}/stat").read_text().rsplit(")", 1)[1].split()
    return (int(fields[11]) + int(fields[12])) / os.sysconf("SC_CLK_TCK")


def processor_seconds(process: int) -> float:
    """The processor time that the threads of a process have had so far.

    Threads that have ended don't count.
    """
    spent = 0
    for path in Path(f"/proc/{process}/task").glob("*/schedstat"):
        try:
            spent += int(path.read_text().split()[0])
        except OSError:
            pass  # the thread has just ended
    return spent / 1e9


def share_of_processor(process: int, seconds: float) -> float:
    """Which part of one processor a process uses in the next so many seconds."""
    spent, begin = processor_seconds(process), time.monotonic()
    time.sleep(seconds)
    return (processor_seconds(process) - spent) / (time.monotonic() - begin)


def resident(process: int) -> int:
    """The resident memory of a process, in bytes."""
    return bytes_of("VmRSS", process)


def peak(process: int) -> int:
    """The most bytes of a process that were resident at a time."""
    return bytes_of("VmHWM", process)


def bytes_of(figure: str, process: int) -> int:
    """A figure that the system keeps of a process's memory."""
    for line in Path(f"/proc/{process}/status").read_text().splitlines():
        if line.startswith(figure):
            return int(line.split()[1]) * 1024
    raise AssertionError(f"the system gives no {figure}")


def percentile(figures: Sequence[float], part: int) -> float:
    """The percentile of at least two figures."""
    return statistics.quantiles(figures, n=100)[part - 1]


def dropped_datagrams(ports: Sequence[int]) -> int:
    """How many datagrams the system has dropped at these UDP ports."""
    dropped = 0
    for line in Path("/proc/net/udp").read_text().splitlines()[1:]:
        words = line.split()
        if int(words[1].split(":")[1], 16) in ports:
            dropped += int(words[-1])
    return dropped


def load_of_machine() -> str:
    """The system's average load over one and five minutes."""
    one, five = Path("/proc/loadavg").read_text().split()[:2]
    return f"{one} over one minute, {five} over five"
