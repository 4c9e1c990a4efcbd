"""What idle connections cost: memory each, and processor time at rest.

    python3 -m bench.connections PROGRAM [--connections C] [--seconds S] [--dir D]

One node serves C connections (1,000), each of which has asked once for its state. It prints:

- the memory that each takes, and how long the last one waited for its answer;
- the share of one processor that the daemon takes for S seconds while nobody asks, with all these
  connections and with one;
- how long a stop with half as many takes.

Redis, if it is installed, gets the same. The files are made below D.
"""
from __future__ import annotations

import argparse
import resource
import shutil
import socket
import tempfile
import time
from collections.abc import Callable, Sequence
from contextlib import ExitStack
from pathlib import Path

from bench.beside import load_of_machine, resident, running_redis, share_of_processor
from bench.groups import at_least, duration, program_at, run
from trials.lib.program import LOCALHOST, Options, Program, free_base_port

DESCRIPTORS = 8_192
PING, PONG = b"PING\r\n", b"+PONG\r\n"


def allow_descriptors() -> None:
    """Raises this process's limit on descriptors, and that of the programs that it starts."""
    most = resource.getrlimit(resource.RLIMIT_NOFILE)[1]
    wanted = DESCRIPTORS if most == resource.RLIM_INFINITY else min(DESCRIPTORS, most)
    resource.setrlimit(resource.RLIMIT_NOFILE, (wanted, most))


def measure(process: int, count: int, seconds: float, ask: Callable[[ExitStack], None]) -> None:
    """Opens connections by calls of `ask`, and prints what they cost."""
    with ExitStack() as opened:
        ask(opened)
        alone = share_of_processor(process, seconds)
        before, last = resident(process), 0.0
        for _ in range(count - 1):
            begin = time.monotonic()
            ask(opened)
            last = time.monotonic() - begin
        each = (resident(process) - before) / (count - 1)
        share = share_of_processor(process, seconds)
        print(
            f"  {count} connections: {each / 1000:.1f} kB each; at rest {100 * share:.2f} % of one"
            f" processor, with one connection {100 * alone:.2f} %; the last one was answered after"
            f" {1000 * last:.1f} ms",
            flush=True,
        )


def measure_urbd(program: Program, folder: Path, count: int, seconds: float) -> None:
    options = Options(folder, free_base_port(), tick_ms=20)
    with program.serve(options) as daemon, ExitStack() as held:

        def ask(opened: ExitStack) -> None:
            opened.enter_context(daemon.connect(1)).status()

        measure(daemon.process.pid, count, seconds, ask)
        for _ in range(count // 2):
            ask(held)
        begin = time.monotonic()
        daemon.stop()
        print(f"  a stop with {count // 2} connections takes {time.monotonic() - begin:.2f} s")


def measure_redis(folder: Path, count: int, seconds: float) -> None:
    with running_redis(folder) as (process, port):

        def ask(opened: ExitStack) -> None:
            stream = opened.enter_context(socket.create_connection((LOCALHOST, port)))
            stream.sendall(PING)
            if stream.recv(len(PONG)) != PONG:
                raise AssertionError("redis gave another answer")

        measure(process, count, seconds, ask)


def main(words: Sequence[str]) -> int:
    parser = argparse.ArgumentParser(
        prog="python3 -m bench.connections",
        description=__doc__,
        formatter_class=argparse.RawDescriptionHelpFormatter,
    )
    parser.add_argument("program", type=program_at, help="the built urbd")
    parser.add_argument("--connections", type=at_least(2), default=1_000)
    parser.add_argument("--seconds", type=duration, default=20.0)
    parser.add_argument("--dir", default=tempfile.gettempdir(), help="where files are made")
    options = parser.parse_args(words)
    allow_descriptors()
    with tempfile.TemporaryDirectory(prefix="urbd-connections-", dir=options.dir) as room:
        print("urbd:", flush=True)
        folder = Path(room, "urbd")
        folder.mkdir()
        measure_urbd(options.program, folder, options.connections, options.seconds)
        if shutil.which("redis-server"):
            print("redis:", flush=True)
            folder = Path(room, "redis")
            folder.mkdir()
            measure_redis(folder, options.connections, options.seconds)
    print(f"load: {load_of_machine()}")
    return 0


if __name__ == "__main__":
    run(main)
