"""What one sync for many records brings: urbd, and the floor with several records a sync.

    python3 -m bench.ceiling PROGRAM [--rounds N] [--seconds S] [--dir D]

The floor (floor.c) stores and sends what a group does for a message, and nothing else. Here it
takes up to 1, 4, 16 and 64 records together. Beside it stand urbd itself, which keeps up to 16
records a sync, redis, which syncs what came together once, and three members of etcd, whose clients
put one value after the other. Each figure is the messages that clients submit a second, the median
of N rounds (3) of S seconds (2). What isn't installed has no figures. The files are made below D.
`bench.crowds` measures how long a submit takes, and how soon a message is shown.
"""
from __future__ import annotations

import argparse
import shutil
import statistics
import tempfile
from collections import defaultdict
from collections.abc import Sequence
from dataclasses import dataclass
from pathlib import Path
from typing import Optional

from bench.beside import load_of_machine, running_etcd, running_redis
from bench.daemon import built_etcd_load
from bench.groups import at_least, duration, new_folder, new_group, program_at, run
from bench.load import Answer, Floor, Load, Run, answers, begin
from trials.lib.program import Program, all_ports

TICK = 1_000  # milliseconds
TOGETHER = (1, 4, 16, 64)  # records a sync


@dataclass(frozen=True)
class Crowd:
    """Who submits: so many clients, each with so many requests under way, at so many nodes."""

    nodes: int
    clients: int
    under_way: int = 1

    def __str__(self) -> str:
        more = f", {self.under_way} each" if self.under_way > 1 else ""
        return f"{self.clients} clients{more}, {self.nodes} node{'s' if self.nodes > 1 else ''}"

    def shares(self) -> list[int]:
        """How many of the clients are at each node."""
        return [(self.clients + node) // self.nodes for node in range(self.nodes)]


CROWDS = (
    Crowd(1, 1),
    Crowd(1, 4),
    Crowd(1, 12),
    Crowd(1, 64),
    Crowd(1, 4, 16),
    Crowd(3, 12),
    Crowd(3, 64),
    Crowd(3, 12, 16),
)


@dataclass(frozen=True)
class Tools:
    """What a measurement takes: the programs, a folder for files, and the seconds of a run."""

    program: Program
    load: Load
    floor: Floor
    etcd_load: Optional[Path]  # None if etcd or Go isn't installed
    room: Path
    seconds: float

    def of_urbd(self, crowd: Crowd) -> float:
        """Messages a second that a group accepts."""
        with new_group(self.program, self.room, crowd.nodes, TICK) as daemon:
            runs = begin_submits(self.load, all_ports(daemon.options), crowd, self.seconds)
            return sum(it.rate for it in answers(runs))

    def of_floor(self, crowd: Crowd, together: int) -> float:
        """Messages a second that the floor takes, with so many records a sync."""
        words = ("together", together, crowd.under_way)
        return self.floor.run(self.room, crowd.nodes, crowd.clients, self.seconds, *words).rate

    def of_redis(self, crowd: Crowd) -> float:
        """Entries a second that redis adds."""
        with new_folder(self.room) as folder, running_redis(folder) as (_, port):
            begun = self.load.begin(
                "xadd", port, crowd.clients, self.seconds, under_way=crowd.under_way
            )
            return begun.answer().rate

    def of_etcd(self, crowd: Crowd) -> Optional[Answer]:
        """What clients of etcd put, one value after the other. None if it can't be measured."""
        if self.etcd_load is None or crowd.nodes < 3 or crowd.under_way > 1:
            return None
        return put_into_etcd(self.etcd_load, self.room, crowd.clients, self.seconds)


def begin_submits(load: Load, ports: Sequence[int], crowd: Crowd, seconds: float) -> list[Run]:
    """A crowd begins to submit at the nodes with these ports."""
    return [
        load.begin("submit", port, share, seconds, under_way=crowd.under_way)
        for port, share in zip(ports, crowd.shares())
        if share
    ]


def put_into_etcd(etcd_load: Path, room: Path, clients: int, seconds: float) -> Answer:
    """What so many clients put into three members of etcd."""
    with new_folder(room) as folder, running_etcd(folder) as ports:
        members = ",".join(f"http://127.0.0.1:{port}" for port in ports)
        return begin([etcd_load, clients, seconds, members]).answer()


def measure(tools: Tools, rounds: int) -> None:
    """All take turns, and the table is printed."""
    figures: defaultdict[tuple[Crowd, str], list[float]] = defaultdict(list)
    for _ in range(rounds):
        for crowd in CROWDS:
            figures[crowd, "urbd"].append(tools.of_urbd(crowd))
            for together in TOGETHER:
                figures[crowd, str(together)].append(tools.of_floor(crowd, together))
            if shutil.which("redis-server"):
                figures[crowd, "redis"].append(tools.of_redis(crowd))
            if put := tools.of_etcd(crowd):
                figures[crowd, "etcd"].append(put.rate)
    columns = ("urbd", *map(str, TOGETHER), "redis", "etcd")
    print(f"{'submits a second':32}" + "".join(f"{name:>9}" for name in columns))
    for crowd in CROWDS:
        cells = (figures.get((crowd, name)) for name in columns)
        shown = (f"{statistics.median(it):9.0f}" if it else f"{'':9}" for it in cells)
        print(f"{str(crowd):32}" + "".join(shown))


def main(words: Sequence[str]) -> int:
    parser = argparse.ArgumentParser(
        prog="python3 -m bench.ceiling",
        description=__doc__,
        formatter_class=argparse.RawDescriptionHelpFormatter,
    )
    parser.add_argument("program", type=program_at, help="the built urbd")
    parser.add_argument("--rounds", type=at_least(1), default=3)
    parser.add_argument("--seconds", type=duration, default=2.0)
    parser.add_argument("--dir", default=tempfile.gettempdir(), help="where files are made")
    given = parser.parse_args(words)
    with tempfile.TemporaryDirectory(prefix="urbd-ceiling-", dir=given.dir) as text:
        room = Path(text)
        etcd_load = built_etcd_load(room)
        load, floor = Load.built(room), Floor.built(room)
        tools = Tools(given.program, load, floor, etcd_load, room, given.seconds)
        measure(tools, given.rounds)
    print(f"load: {load_of_machine()}")
    return 0


if __name__ == "__main__":
    run(main)
