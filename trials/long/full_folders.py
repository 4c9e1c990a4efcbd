"""Takes a folder that is full to its end, as docs/OPERATIONS.md says ("When a folder is full").

Nothing is lost, and nothing comes twice. Clients that skip the steps are stopped.
"""
from __future__ import annotations

import argparse
import shutil
import sys
import time
from collections.abc import Iterable
from dataclasses import replace
from pathlib import Path

from urbd import Follower, Publisher, RefusedError, Stopped, kept
from urbd.constants import Refusal

from trials.lib.command import parser_of, run_trial
from trials.lib.messages import log_of
from trials.lib.program import Daemon, Options, Program, all_ports, free_base_port
from trials.lib.tools import urbdctl

CAP = 20
LESS = 5  # how much smaller the first cap is
NODES = 3
CLIENT, OTHER_CLIENT = 7, 9
PATIENCE = 5.0  # seconds that a publisher repeats a message
LIMIT = 30.0  # seconds until followers have read all
FINE = 0  # the status of a check


class Sources:
    """A publisher at each node, with files that outlive it, and what was published."""

    def __init__(self, folder: Path) -> None:
        folder.mkdir()
        self.files = {node: folder / f"publisher-{node}" for node in range(1, NODES + 1)}
        self.sent: dict[int, list[bytes]] = {node: [] for node in self.files}
        self.publishers: dict[int, Publisher] = {}

    def open(self, options: Options) -> None:
        for (node, path), port in zip(self.files.items(), all_ports(options)):
            self.publishers[node] = Publisher(port, CLIENT, str(path), patience=PATIENCE)

    def close(self) -> None:
        for publisher in self.publishers.values():
            publisher.close()

    def publish(self, node: int) -> int:
        """Publishes the next message at a node. Gives its number there."""
        payload = b"%d of %d" % (len(self.sent[node]) + 1, node)
        seq = self.publishers[node].publish(payload)
        self.sent[node].append(payload)
        return seq

    def fill(self, count: int) -> None:
        """Publishes until each node has so many messages. It takes no more."""
        for node, publisher in self.publishers.items():
            while len(self.sent[node]) < count:
                expected = len(self.sent[node]) + 1
                seq = self.publish(node)
                assert seq == expected, f"expected name {node}.{expected}, and got {seq}"
            refusal = refusal_of(publisher, b"no room")
            assert refusal == Refusal.FULL, f"expected that node {node} is full, got {refusal}"

    def payloads(self) -> Iterable[bytes]:
        return (payload for all_sent in self.sent.values() for payload in all_sent)


def refusal_of(publisher: Publisher, payload: bytes) -> int:
    """The number of the refusal of a message; 0 if it is accepted."""
    try:
        publisher.publish(payload)
    except RefusedError as refused:
        return refused.number
    return 0


def all_read(daemon: Daemon, follower: Follower, count: int) -> list[bytes]:
    """Reads so many messages; then no log is behind."""
    read: list[bytes] = []
    end = time.monotonic() + LIMIT
    while len(read) < count:
        assert time.monotonic() < end, f"expected {count} messages, and read {len(read)}"
        read += [entry.payload for entry in follower.wait(1)]
    words = ["--behind", "20", "--skip", "cap"]  # since the nodes are full
    check = urbdctl("check", "--base-port", daemon.options.base_port, *words)
    assert check.returncode == FINE, check.stdout
    return read


def follower_of(options: Options) -> Follower:
    return Follower(all_ports(options)[:2])


def take_to_its_end(program: Program, room: Path, sources: Sources) -> list[bytes]:
    """Fills a folder, with a greater cap at the second start, and keeps it. Gives what was read."""
    group = Options(room / "old", free_base_port(), NODES, CAP - LESS)
    group.folder.mkdir()
    with program.serve(group) as daemon:
        sources.open(group)
        sources.fill(CAP - LESS)
        daemon.stop()
    with program.serve(replace(group, cap=CAP)) as daemon:  # the folder goes on
        sources.fill(CAP)
        sources.close()  # 1. the publishers finish, and say so
        with follower_of(group) as follower:  # 2. readers are at the end, and no log is behind
            read = all_read(daemon, follower, NODES * CAP)
        events = daemon.stop()  # 3. the program stops; the folder is kept
        assert events > 0, events
    shutil.copytree(group.folder, room / "archive")
    return read


def begin_anew(program: Program, room: Path, sources: Sources, read: list[bytes]) -> None:
    """4. A new folder, at another base port. Then clients skip the steps."""
    group = Options(room / "new", free_base_port(), NODES, CAP)
    group.folder.mkdir()
    with program.serve(group) as daemon:
        sources.open(group)
        for node in sources.publishers:
            seq = sources.publish(node)
            assert seq == 1, f"expected name {node}.1, and got {seq}"
        with follower_of(group) as follower:
            again = all_read(daemon, follower, NODES)
        assert sorted(read + again) == sorted(sources.payloads()), "each message once"
        print(f"{len(read)} messages in the old folder, {len(again)} in the new one", flush=True)
        skip_steps(program, room, daemon)


def skip_steps(program: Program, room: Path, daemon: Daemon) -> None:
    """A message in progress isn't sent to another port. At the same port, publishers and followers
    notice a folder that was begun anew."""
    file = str(room / "forgetful")
    first, second = all_ports(daemon.options)[:2]
    publisher = Publisher(first, OTHER_CLIENT, file, patience=PATIENCE)
    for number in (1, 2):
        publisher.publish(b"%d" % number)
    follower = Follower([first])
    follower.poll()
    publisher.abandon()  # it ends without `close`
    assert kept(file)["done"] is False, "the file says that a message is in progress"
    try:
        Publisher(second, OTHER_CLIENT, file)
        raise AssertionError("a message in progress went to another port")
    except Stopped:
        pass
    daemon.kill()
    group = replace(daemon.options, folder=room / "anew")
    group.folder.mkdir()
    with program.serve(group) as anew:
        try:
            Publisher(first, OTHER_CLIENT, file, patience=PATIENCE).publish(b"3")
            raise AssertionError("a publisher went on in a folder that was begun anew")
        except Stopped:
            pass
        anew.node(1).submit(CLIENT, 1, b"another")
        stops(follower)
        found = [entry.payload for entry in log_of(anew, 1)]
        assert set(found) == {b"another"}, f"expected one message alone, and found {found}"
    print("whoever skips the steps is stopped before anything comes twice", flush=True)


def stops(follower: Follower) -> None:
    """A follower notices that its log is gone, within some looks."""
    end = time.monotonic() + LIMIT
    try:
        while time.monotonic() < end:
            follower.poll()
    except Stopped:
        return
    raise AssertionError("a follower went on in a folder that was begun anew")


def take_and_begin(program: Program, room: Path, options: argparse.Namespace) -> None:
    sources = Sources(room / "files")
    read = take_to_its_end(program, room, sources)
    begin_anew(program, room, sources, read)


def main(words: list[str]) -> int:
    return run_trial(parser_of(__doc__ or ""), words, take_and_begin)


if __name__ == "__main__":
    sys.exit(main(sys.argv[1:]))
