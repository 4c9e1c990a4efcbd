"""A group beside redis, etcd and a floor, on one disk.

    python3 -m bench.daemon PROGRAM [--rounds R] [--seconds S] [--messages M] [--bursts] [--dir D]

The floor (floor.c) is a program that stores and sends what a group does for a message, and nothing
else. Redis runs with appendonly yes and appendfsync always (Debian's redis-server), and etcd as a
group of three on loopback (etcd-server, golang-go, golang-etcd-server-dev). One that isn't
installed is left out. It needs a C compiler.

Each figure is the median of R rounds (5; there may be 0), in which all servers take turns, S
seconds (2) a measurement. Then come M messages at three nodes (100,000; there may be 0), and with
--bursts a burst, a kill, pauses and ticks (bursts.py). The files are made below D.
"""
from __future__ import annotations

import argparse
import os
import shutil
import sqlite3
import statistics
import subprocess
import tempfile
import time
from collections import defaultdict
from collections.abc import Sequence
from contextlib import ExitStack, closing
from dataclasses import dataclass
from pathlib import Path
from typing import Optional

from bench import bursts
from bench.beside import load_of_machine, running_etcd, running_redis, share_of_processor
from bench.groups import (
    at_least,
    await_logs,
    duration,
    megabytes,
    new_folder,
    new_group,
    program_at,
    run,
    running,
    submit_all,
)
from bench.load import HERE, PAYLOAD, Floor, Load, answers, begin
from trials.lib.program import LOCALHOST, Daemon, Options, Program, all_ports, free_base_port

JOURNALS = 3
# What a message is stored as at three nodes: at each one, and once more at its sender when a
# majority has it.
RECORDS = 4
TICK = 200  # milliseconds
LENGTH = 100  # bytes of a message of the long history
SETTLE = 2.0  # seconds after which a group is at rest
REST = 30.0  # seconds over which a group at rest is looked at
CREATE = (
    "CREATE TABLE journal"
    "(pos INTEGER PRIMARY KEY, kind INTEGER NOT NULL, payload BLOB NOT NULL) STRICT"
)
INSERT = "INSERT INTO journal(kind, payload) VALUES(1, ?)"
PRAGMAS = ("journal_mode=WAL", "synchronous=FULL", "locking_mode=EXCLUSIVE")


@dataclass(frozen=True)
class Row:
    """A line of the table: two figures, and what the first has to be of the second."""

    text: str
    own: str
    beside: str
    unit: str
    goal: float
    is_least: bool = False  # otherwise the goal is the most

    def line(self, own: Optional[float], beside: Optional[float]) -> str:
        """The line for these figures, which are medians."""
        if own is None or not beside:
            return f"{self.text:58} {'not measured':>12}"
        ratio = own / beside
        is_met = ratio >= self.goal if self.is_least else ratio <= self.goal
        told = f"{'at least' if self.is_least else 'at most'} {self.goal:.1f}"
        figures = f"{own:10.1f} {beside:10.1f} {self.unit:4} {ratio:6.2f}"
        return f"{self.text:58} {figures}  {told}: {'yes' if is_met else 'no'}"


ROWS = (
    Row("accepted, one client, one node; redis XADD", "submit 1", "xadd", "us", 1.0),
    Row("accepted, one client, three nodes; redis XADD", "submit 3", "xadd", "us", 1.0),
    Row("accepted, one client, one node; one fdatasync", "submit 1", "fdatasync", "us", 2.0),
    Row("accepted, one client, three nodes; one fdatasync", "submit 3", "fdatasync", "us", 2.0),
    Row("shown at three nodes; etcd's put, median", "visible", "put", "us", 0.5),
    Row("shown at three nodes; etcd's put, 99th percentile", "visible late", "put late", "us", 0.5),
    Row("reads of 8 entries, four clients; redis XRANGE", "read", "xrange", "/s", 1.0, True),
    Row("a reader's 99th percentile beside writers; without", "beside", "alone", "us", 1.3),
    Row("accepted, twelve clients; what three journals store", "twelve", "whole", "/s", 0.8, True),
    Row("records stored meanwhile; records of three journals", "records", "plain", "/s", 0.8, True),
    Row("accepted, one client, one node; the floor", "submit 1", "floor 1", "us", 1.0),
    Row("accepted, one client, three nodes; the floor", "submit 3", "floor 3", "us", 1.0),
    Row("shown at three nodes; the floor, median", "visible", "floor visible", "us", 1.0),
    Row(
        "shown at three nodes; the floor, 99th percentile", "visible late", "floor late", "us", 1.0
    ),
    Row("accepted, twelve clients; the floor", "twelve", "floor twelve", "/s", 1.0, True),
    Row("the floor, one node; redis XADD", "floor 1", "xadd", "us", 1.0),
    Row("the floor, three nodes; redis XADD", "floor 3", "xadd", "us", 1.0),
    Row("the floor, shown at three nodes; etcd's put, median", "floor visible", "put", "us", 0.5),
    Row("the floor, twelve; what three journals store", "floor twelve", "whole", "/s", 0.8, True),
    Row("the floor, a reader beside writers; without", "floor beside", "floor alone", "us", 1.3),
)


class Figures:
    """The figures of all rounds, by their names."""

    def __init__(self) -> None:
        self.values: defaultdict[str, list[float]] = defaultdict(list)

    def add(self, name: str, value: float) -> None:
        self.values[name].append(value)

    def median(self, name: str) -> Optional[float]:
        """The median of a figure; None if it wasn't measured."""
        values = self.values.get(name)
        return statistics.median(values) if values else None

    def show(self, rounds: int) -> None:
        """Prints the table."""
        title = f"medians of {rounds} rounds"
        print(f"{title:58} {'urbd':>10} {'beside':>10} {'':4} {'ratio':>6}")
        for row in ROWS:
            print(row.line(self.median(row.own), self.median(row.beside)))
        print(f"{'at rest: of one processor':58} {self.median('at rest'):10.2f} %")


@dataclass(frozen=True)
class Tools:
    """What a measurement takes: the programs, a folder for files, and the seconds of a run."""

    program: Program
    load: Load
    floor: Floor
    etcd_load: Optional[Path]  # None if etcd or Go isn't installed
    room: Path
    seconds: float


def built_etcd_load(room: Path) -> Optional[Path]:
    """The program that puts into etcd; None if etcd, Go or the package isn't installed."""
    if not shutil.which("etcd") or not shutil.which("go"):
        return None
    path = room / "etcd-load"
    surroundings = {**os.environ, "GOPATH": "/usr/share/gocode", "GO111MODULE": "off"}
    made = subprocess.run(
        ["go", "build", "-o", path, "."], cwd=HERE / "etcd", env=surroundings, capture_output=True
    )
    return None if made.returncode else path


def time_of_sync(folder: Path, seconds: float) -> float:
    """Microseconds of one append of 100 bytes with its fdatasync: the median."""
    file = os.open(folder / "append", os.O_CREAT | os.O_WRONLY | os.O_APPEND)
    times, end = [], time.perf_counter() + seconds
    while (start := time.perf_counter()) < end:
        os.write(file, b"x" * 100)
        os.fdatasync(file)
        times.append((time.perf_counter() - start) * 1e6)
    os.close(file)
    return statistics.median(times)


def records_of_journals(folder: Path, seconds: float) -> float:
    """How many records a second three journals take one after another, by SQLite's own library."""
    with ExitStack() as opened:
        journals = []
        for number in range(JOURNALS):
            path = folder / f"plain-{number}.db"
            journal = opened.enter_context(closing(sqlite3.connect(path, isolation_level=None)))
            for pragma in PRAGMAS:
                journal.execute(f"PRAGMA {pragma}")
            journal.execute(CREATE)
            journals.append(journal)
        done, start = 0, time.perf_counter()
        while time.perf_counter() - start < seconds:
            for journal in journals:
                journal.execute(INSERT, (b"x" * PAYLOAD,))
                done += 1
        rate = done / (time.perf_counter() - start)
    return rate


def measure_disk(figures: Figures, tools: Tools) -> None:
    with new_folder(tools.room) as folder:
        figures.add("fdatasync", time_of_sync(folder, tools.seconds / 2))
        records = records_of_journals(folder, tools.seconds / 2)
    figures.add("plain", records)
    figures.add("whole", records / JOURNALS)


def measure_group(figures: Figures, tools: Tools, nodes: int) -> None:
    with new_group(tools.program, tools.room, nodes, TICK) as daemon:
        port = all_ports(daemon.options)[0]
        figures.add(f"submit {nodes}", tools.load.run("submit", port, 1, tools.seconds).median)
        if nodes == JOURNALS:
            measure_three(figures, tools, daemon)


def measure_three(figures: Figures, tools: Tools, daemon: Daemon) -> None:
    """What is measured at three nodes alone."""
    load, seconds, ports = tools.load, tools.seconds, all_ports(daemon.options)
    shown = load.run("visible", ports[0], len(ports), seconds, client=1500)
    figures.add("visible", shown.median)
    figures.add("visible late", shown.late)
    twelve = answers([load.begin("submit", port, 4, seconds, client=2000) for port in ports])
    accepted = sum(it.rate for it in twelve)
    figures.add("twelve", accepted)
    figures.add("records", RECORDS * accepted)
    figures.add("read", load.run("read", ports[0], 4, seconds).rate)
    figures.add("alone", load.run("read", ports[0], 1, seconds).late)
    counts = zip(ports, (3, 4, 4))
    writers = [load.begin("submit", port, count, seconds, client=3000) for port, count in counts]
    figures.add("beside", load.run("read", ports[0], 1, seconds).late)
    answers(writers)
    time.sleep(SETTLE)
    figures.add("at rest", 100 * share_of_processor(daemon.process.pid, seconds))


def measure_floor(figures: Figures, tools: Tools) -> None:
    floor, room, seconds = tools.floor, tools.room, tools.seconds
    for nodes in (1, JOURNALS):
        figures.add(f"floor {nodes}", floor.run(room, nodes, 1, seconds).median)
    shown = floor.run(room, JOURNALS, 1, seconds, "visible")
    figures.add("floor visible", shown.median)
    figures.add("floor late", shown.late)
    figures.add("floor twelve", floor.run(room, JOURNALS, 12, seconds).rate)
    figures.add("floor alone", floor.run(room, JOURNALS, 0, seconds, "read").late)
    figures.add("floor beside", floor.run(room, JOURNALS, 11, seconds, "read").late)


def measure_redis(figures: Figures, tools: Tools) -> None:
    if not shutil.which("redis-server"):
        return
    with new_folder(tools.room) as folder, running_redis(folder) as (_, port):
        figures.add("xadd", tools.load.run("xadd", port, 1, tools.seconds).median)
        figures.add("xrange", tools.load.run("xrange", port, 4, tools.seconds).rate)


def measure_etcd(figures: Figures, tools: Tools) -> None:
    if not tools.etcd_load:
        return
    with new_folder(tools.room) as folder, running_etcd(folder) as ports:
        ends = ",".join(f"{LOCALHOST}:{port}" for port in ports)
        put = begin([tools.etcd_load, 1, tools.seconds, ends]).answer()
        figures.add("put", put.median)
        figures.add("put late", put.late)


def measure_rounds(tools: Tools, rounds: int) -> None:
    """All servers take turns, and the table is printed."""
    figures = Figures()
    for _ in range(rounds):
        measure_disk(figures, tools)
        for nodes in (1, JOURNALS):
            measure_group(figures, tools, nodes)
        measure_floor(figures, tools)
        measure_redis(figures, tools)
        measure_etcd(figures, tools)
    figures.show(rounds)


def measure_history(program: Program, room: Path, messages: int) -> None:
    """Many messages at three nodes: times, memory, files, and the next start after a kill."""
    with new_folder(room) as folder:
        options = Options(folder, free_base_port(), JOURNALS, tick_ms=TICK)
        with program.serve(options) as daemon:
            start = time.perf_counter()
            submit_all(daemon, messages, LENGTH)
            accepted = time.perf_counter() - start
            await_logs(daemon, messages)
            shown, memory = time.perf_counter() - start, megabytes(daemon)
            time.sleep(SETTLE)
            rest = 100 * share_of_processor(daemon.process.pid, REST)
            daemon.kill()
        size = sum(it.stat().st_size for it in folder.iterdir()) / 1e6
        start = time.perf_counter()
        with running(program, options):
            opening = time.perf_counter() - start
    print(
        f"{messages} messages of {LENGTH} bytes on three nodes: {accepted:.1f} s until they are"
        f" accepted, {shown:.1f} s until all logs have them, {memory:.0f} MB of memory, at rest"
        f" {rest:.2f} % of one processor, {size:.0f} MB of files; killed, and open again after"
        f" {opening:.2f} s"
    )


def main(words: Sequence[str]) -> int:
    parser = argparse.ArgumentParser(
        prog="python3 -m bench.daemon",
        description=__doc__,
        formatter_class=argparse.RawDescriptionHelpFormatter,
    )
    parser.add_argument("program", type=program_at, help="the built urbd")
    parser.add_argument("--rounds", type=at_least(0), default=5)
    parser.add_argument("--seconds", type=duration, default=2.0)
    parser.add_argument("--messages", type=at_least(0), default=100_000)
    parser.add_argument(
        "--bursts", action="store_true", help="bursts, a kill, pauses and ticks too"
    )
    parser.add_argument("--dir", default=tempfile.gettempdir(), help="where files are made")
    given = parser.parse_args(words)
    with tempfile.TemporaryDirectory(prefix="urbd-daemon-", dir=given.dir) as folder:
        room = Path(folder)
        load = Load.built(room)
        if given.rounds:
            floor, etcd_load = Floor.built(room), built_etcd_load(room)
            tools = Tools(given.program, load, floor, etcd_load, room, given.seconds)
            measure_rounds(tools, given.rounds)
        if given.messages:
            measure_history(given.program, room, given.messages)
        if given.bursts:
            bursts.measure(bursts.Tools(given.program, load, room, given.seconds))
    print(f"load: {load_of_machine()}")
    return 0


if __name__ == "__main__":
    run(main)
