"""Copies a log by `urbdctl bridge` into redis and etcd, with kills of all three at random.

In the end the target has each entry once, under its place, with its bytes. A folder that was begun
anew stops the bridge. What isn't installed of redis-server and etcd is left out.
"""
from __future__ import annotations

import argparse
import os
import random
import shutil
import subprocess
import sys
import threading
import time
from collections.abc import Callable
from pathlib import Path
from typing import Union

from urbd import Node, repeat
from urbd.constants import MAX_PAYLOAD

from trials.lib.command import parser_of, run_trial
from trials.lib.messages import log_of
from trials.lib.program import Daemon, Options, Program, free_base_port, wait_until
from trials.lib.targets import EtcdServer, RedisServer, Server
from trials.lib.tools import URBDCTL

NODES = 3
CLIENT = 7
SHORT = (0, 1, 10, 30, 300, 300, 3000)  # bytes of most payloads
LONG_ONE_IN = 40  # one payload of these has the greatest length
TARGET_PORT = 60  # above the base port: the target's
PATIENCE = 90.0  # seconds for the copy to come to its end


class Source:
    """A group, its load, and how often it was killed."""

    def __init__(self, program: Program, room: Path) -> None:
        self.program, self.group = program, Options(room / "group", free_base_port(), NODES)
        self.group.folder.mkdir()
        self.daemon: Daemon = program.serve(self.group)

    @property
    def node(self) -> Node:
        return self.group.node(1, 10.0)

    def kill_and_start(self) -> None:
        self.daemon.kill()
        self.daemon = self.program.serve(self.group)

    def begin_anew(self) -> None:
        self.daemon.kill()
        shutil.rmtree(self.group.folder)
        self.group.folder.mkdir()
        self.daemon = self.program.serve(self.group)


class Load(threading.Thread):
    """Publishes messages of many lengths, with all bytes, until it is stopped."""

    def __init__(self, node: Node) -> None:
        super().__init__(daemon=True)
        self.node, self.is_over, self.count = node, threading.Event(), 0
        self.start()

    def run(self) -> None:
        while not self.is_over.is_set():
            self.count += 1
            number = self.count
            is_long = number % LONG_ONE_IN == 0
            payload = os.urandom(MAX_PAYLOAD if is_long else random.choice(SHORT))
            repeat(lambda: self.node.submit(CLIENT, number, payload))
            time.sleep(0.002)

    def end(self) -> None:
        self.is_over.set()
        self.join(PATIENCE)


class Bridges:
    """The bridges that run; in the end there is one."""

    def __init__(self, server: Server, group: Options) -> None:
        self.server, self.group = server, group
        self.running: list[subprocess.Popen[bytes]] = []
        self.start()

    def start(self) -> subprocess.Popen[bytes]:
        words = ["bridge", "--base-port", self.group.base_port, self.server.name]
        words += [self.server.address, "log"]
        bridge = subprocess.Popen(
            [str(URBDCTL), *map(str, words)], stdout=subprocess.DEVNULL, stderr=subprocess.PIPE
        )
        self.running.append(bridge)
        return bridge

    def kill_first(self) -> None:
        """Kills the oldest one, sometimes once a second one runs beside it."""
        if random.random() < 0.5:
            self.start()
            time.sleep(random.uniform(0, 0.5))
        bridge = self.running.pop(0)
        bridge.kill()
        bridge.communicate()
        if not self.running:
            self.start()

    def end(self, keep: int = 0) -> None:
        """Kills all but the first ones."""
        for bridge in self.running[keep:]:
            bridge.kill()
            bridge.communicate()
        del self.running[keep:]

    def all_run(self) -> None:
        for bridge in self.running:
            if bridge.poll() is not None:
                raise AssertionError(f"a bridge ended: {bridge.communicate()[1]!r}")

    def stop_says(self, text: bytes) -> None:
        """The first bridge ends by itself, with status 1, and says this."""
        bridge = self.running.pop(0)
        error = bridge.communicate(timeout=PATIENCE)[1]
        is_so = bridge.returncode == 1 and text in error
        assert is_so, f"expected status 1 and {text!r}, and got {bridge.returncode}, {error!r}"


def disturb(bridges: Bridges, source: Source, seconds: float) -> dict[str, int]:
    """Kills one of the three at a time, at random. Gives how often each was killed."""
    server, end = bridges.server, time.monotonic() + seconds
    kills = {"bridge": 0, server.name: 0, "source": 0}
    while time.monotonic() < end:
        time.sleep(random.uniform(0.05, 0.8))
        what = random.choice(list(kills))
        kills[what] += 1
        if what == "bridge":
            bridges.kill_first()
        elif what == "source":
            source.kill_and_start()
        else:
            server.kill()
            server.start()
        bridges.all_run()
    bridges.end(keep=1)
    return kills


def has_all(server: Server, source: Source, count: int) -> None:
    """In the end the target holds what the log shows: each entry once, under its place."""
    wait_until(lambda: source.node.status().shown >= count, f"a log of {count} entries", PATIENCE)
    wait_until(lambda: server.count() >= count, f"{count} entries in {server.name}", PATIENCE)
    log = dict(enumerate(log_of(source.daemon, 1), 1))
    held = server.held()
    assert list(held) == list(range(1, count + 1)), "a place is missing, or there twice"
    wrong = [place for place in log if held[place] != log[place]]
    assert not wrong, f"the entries at {wrong[:3]} aren't those of the log"


def goes_on_behind_a_trim(server: RedisServer, source: Source, place: int) -> None:
    """A stream that was trimmed to nothing gets the next entry at its place."""
    server.trim()
    repeat(lambda: source.node.submit(CLIENT, place, b"behind a trimmed stream"))
    wait_until(lambda: server.count() == 1, f"entry {place} alone", PATIENCE)
    assert list(server.held()) == [place], server.held()


def stops_at_another_folder(bridges: Bridges, source: Source) -> None:
    source.begin_anew()
    repeat(lambda: source.node.submit(CLIENT, 1, b"another beginning"))
    bridges.stop_says(b"the log's")
    bridges.start()
    bridges.stop_says(b"begun anew")


def try_target(
    make: Callable[[Path, int], Server], program: Program, room: Path, seconds: float
) -> None:
    room.mkdir()
    source = Source(program, room)
    server = make(room, source.group.base_port + TARGET_PORT)
    bridges = Bridges(server, source.group)
    try:
        load = Load(source.node)
        kills = disturb(bridges, source, seconds)
        load.end()
        has_all(server, source, load.count)
        if isinstance(server, RedisServer):
            goes_on_behind_a_trim(server, source, load.count + 1)
        stops_at_another_folder(bridges, source)
        print(
            f"{server.name}: {load.count} entries, each once and in order; killed: {kills};"
            " a folder begun anew stops the bridge",
            flush=True,
        )
    finally:
        bridges.end()
        source.daemon.kill()
        server.kill()


def bridge(program: Program, room: Path, options: argparse.Namespace) -> None:
    kinds: tuple[Union[type[RedisServer], type[EtcdServer]], ...] = (RedisServer, EtcdServer)
    for kind in kinds:
        if shutil.which(kind.command):
            try_target(kind, program, room / kind.name, options.seconds)
        else:
            print(f"{kind.name}: left out, since {kind.command} isn't installed")


def main(words: list[str]) -> int:
    parser = parser_of(__doc__ or "")
    parser.add_argument("--seconds", type=float, default=20.0, help="of kills, for each target")
    return run_trial(parser, words, bridge)


if __name__ == "__main__":
    sys.exit(main(sys.argv[1:]))
