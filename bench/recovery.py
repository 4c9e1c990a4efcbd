"""How soon after a start all logs are whole again, whatever the ticks.

    python3 -m bench.recovery PROGRAM [--nodes N] [--messages M] [--tick-ms T] [--patience S]
                                      [--empty] [--dir D]

Twelve clients submit messages of 100 bytes at a group of N nodes (3) until it has accepted M
(100,000), and the group is killed under this load. Then it is started again, with ticks each T
milliseconds (60,000, so that no tick helps). It prints:

- how long it takes until `open`, and how many messages each log lacks then;
- how many seconds after `open` all logs have all that the nodes have stored, or that they don't
  after S seconds (60) and what they lack;
- how many datagrams the system dropped meanwhile.

With --empty the clients submit at nodes 1 and 2 alone, the group is stopped, and the journal of the
last node is removed before the start. The files are made below D.
"""
from __future__ import annotations

import argparse
import tempfile
import threading
import time
from collections.abc import Sequence
from concurrent.futures import ThreadPoolExecutor
from dataclasses import replace
from pathlib import Path

from bench.beside import dropped_datagrams, load_of_machine
from bench.groups import at_least, duration, program_at, run
from trials.lib.messages import AT_ONCE
from trials.lib.program import Daemon, Options, Program, free_base_port, ports_of
from urbd.frames import Accepted, Submit

CLIENTS = 12
PAYLOAD = bytes(100)
LOAD_TICK = 20  # milliseconds, while the messages come
LOOK = 0.02  # seconds between two looks at the logs
LIMIT = 600.0  # seconds for a step


class Load:
    """Clients that submit until they are told to stop, or until the group ends."""

    def __init__(self, daemon: Daemon, nodes: Sequence[int]) -> None:
        self.daemon, self.nodes = daemon, nodes
        self.accepted = [0] * CLIENTS
        self.is_over = threading.Event()
        self.may_break = False  # whether the group may end under the load
        self.pool = ThreadPoolExecutor(CLIENTS)
        self.running = [self.pool.submit(self.submit, client) for client in range(CLIENTS)]

    def submit(self, client: int) -> None:
        """Submits one client's messages, many in one write."""
        try:
            with self.daemon.connect(self.nodes[client % len(self.nodes)], LIMIT) as connection:
                while not self.is_over.is_set():
                    first = self.accepted[client] + 1
                    asks = [Submit(client + 1, first + at, PAYLOAD) for at in range(AT_ONCE)]
                    for response in connection.ask(*asks):
                        if not isinstance(response, Accepted):
                            raise AssertionError(f"expected ACCEPTED, and got {response}")
                        self.accepted[client] += 1
        except OSError:
            if not self.may_break:
                raise

    def wait_for(self, messages: int) -> None:
        """Waits until so many messages were accepted."""
        while sum(self.accepted) < messages:
            for it in self.running:
                if it.done():
                    it.result()
            time.sleep(LOOK)

    def end(self) -> None:
        self.is_over.set()
        for it in self.running:
            it.result(LIMIT)
        self.pool.shutdown()


def lacks_of(daemon: Daemon) -> list[int]:
    """How many of the messages that the nodes have stored each log lacks."""
    found = [daemon.node(node, LIMIT).status() for node in daemon.nodes]
    stored = sum(it.accepted for it in found)
    return [stored - it.shown for it in found]


def wait_until_whole(daemon: Daemon, begin: float, patience: float) -> str:
    """Waits until the logs lack nothing. Says when that was, or what is lacking."""
    while True:
        lacks = lacks_of(daemon)
        passed = time.monotonic() - begin
        if not any(lacks):
            return f"all logs are whole {passed:.2f} s after `open`"
        if passed > patience:
            return f"{passed:.0f} s after `open` the logs still lack {lacks}"
        time.sleep(LOOK)


def prepare(program: Program, options: Options, messages: int, is_empty: bool) -> None:
    """Leaves the folder of a group that was killed, or of one that lost its last journal."""
    nodes = range(1, 3) if is_empty else range(1, options.nodes + 1)
    with program.serve(replace(options, tick_ms=LOAD_TICK)) as daemon:
        begin = time.monotonic()
        load = Load(daemon, nodes)
        load.wait_for(messages)
        print(f"{sum(load.accepted)} messages were accepted in {time.monotonic() - begin:.1f} s")
        if is_empty:
            load.end()
            print(wait_until_whole(daemon, time.monotonic(), LIMIT).replace("`open`", "the load"))
            daemon.stop(LIMIT)
        else:
            load.may_break = True
            daemon.kill()
            load.end()
    if is_empty:
        (options.folder / f"node-{options.nodes}.db").unlink()


def measure(program: Program, options: Options, patience: float) -> None:
    begin = time.monotonic()
    with program.serve(options) as daemon:
        opened = time.monotonic()
        print(f"open after {opened - begin:.2f} s; the logs lack {lacks_of(daemon)}")
        print(wait_until_whole(daemon, opened, patience))
        ports = [packets for packets, _ in ports_of(options.base_port, options.nodes)]
        print(f"datagrams dropped: {dropped_datagrams(ports)}")
        begin = time.monotonic()
        daemon.stop(LIMIT)
        print(f"the stop takes {time.monotonic() - begin:.2f} s")


def main(words: Sequence[str]) -> int:
    parser = argparse.ArgumentParser(
        prog="python3 -m bench.recovery",
        description=__doc__,
        formatter_class=argparse.RawDescriptionHelpFormatter,
    )
    parser.add_argument("program", type=program_at, help="the built urbd")
    parser.add_argument("--nodes", type=at_least(1), default=3)
    parser.add_argument("--messages", type=at_least(1), default=100_000)
    parser.add_argument("--tick-ms", type=at_least(1), default=60_000)
    parser.add_argument("--patience", type=duration, default=60.0)
    parser.add_argument("--empty", action="store_true", help="empty the last node, without a kill")
    parser.add_argument("--dir", default=tempfile.gettempdir(), help="where files are made")
    given = parser.parse_args(words)
    if given.empty and given.nodes < 3:
        parser.error("--empty needs three nodes or more")
    with tempfile.TemporaryDirectory(prefix="urbd-recovery-", dir=given.dir) as room:
        options = Options(Path(room), free_base_port(), given.nodes, tick_ms=given.tick_ms)
        prepare(given.program, options, given.messages, given.empty)
        measure(given.program, options, given.patience)
    print(f"load: {load_of_machine()}")
    return 0


if __name__ == "__main__":
    run(main)
