"""Bursts, kills, pauses and ticks of a group of three: what is lost on sockets, how far logs lag.

    python3 -m bench.daemon PROGRAM --rounds 0 --messages 0 --bursts
"""
from __future__ import annotations

import signal
import subprocess
import sys
import time
from collections.abc import Iterator, Sequence
from contextlib import ExitStack, contextmanager
from dataclasses import dataclass
from enum import Enum
from pathlib import Path

from bench.beside import dropped_datagrams, processor_time, share_of_processor
from bench.groups import LIMIT, megabytes, new_folder, new_group, running
from bench.load import Load, Run, answers
from trials.lib.program import Daemon, Options, Program, all_ports, free_base_port, ports_of
from urbd.constants import MAX_PAYLOAD
from urbd.frames import Status
from urbd.node import Connection

NODES = 3
CLIENTS = 4  # at each node
BURSTS = ((20_000, 100), (2_000, MAX_PAYLOAD))  # messages and their bytes
LENGTH = 100  # bytes of other messages
LONGEST = 120.0  # seconds that a burst, or what follows it, may take
KILLED = 3.0  # seconds under load before a kill
QUIET = 2.0  # seconds in which no log may grow, for all to be there
LOADED = 8  # seconds of load in a try
AFTER = 30  # seconds more in which logs may become whole
BUSY = 6  # busy loops beside one of the tries
STOPPED = 0.03  # seconds for which the group is stopped in the other one
MOMENT_OF_STOP = 3  # the second in which it is stopped
LOOK = 0.005  # seconds between two looks at the logs
RESTING = 6_000  # messages of a group whose ticks are measured
BURST_TICK, KILL_TICK = 1_000, 20  # milliseconds
LAG_TICKS = (20, 200)
TICKS = (5, 20, 200, 1_000)


@dataclass(frozen=True)
class Tools:
    """What a measurement takes: the programs, a folder for files, and the seconds of a run."""

    program: Program
    load: Load
    room: Path
    seconds: float


class Disturbance(Enum):
    """What disturbs a group under load."""

    BUSY = f"beside {BUSY} busy loops"
    STOPPED = f"stopped for {1000 * STOPPED:.0f} ms in the third second"


def dropped(daemon: Daemon) -> int:
    """How many datagrams the sockets of a group's nodes had no room for."""
    ports = ports_of(daemon.options.base_port, daemon.options.nodes)
    return dropped_datagrams([packets for packets, _ in ports])


@contextmanager
def askers(daemon: Daemon) -> Iterator[list[Connection]]:
    """A connection to each node."""
    with ExitStack() as opened:
        yield [opened.enter_context(daemon.connect(node, LIMIT)) for node in daemon.nodes]


def lengths_of(asking: Sequence[Connection]) -> list[int]:
    """How many entries each log has."""
    return [it.status().shown for it in asking]


def begin_loads(
    load: Load,
    daemon: Daemon,
    kind: str,
    seconds: float,
    client: int,
    payload: int = LENGTH,
    messages: int = 0,
) -> list[Run]:
    """Begins four clients at each node, with numbers of their own.

    With `messages` they end once these are accepted.
    """
    share = messages // NODES + 1 if messages else 0
    return [
        load.begin(kind, port, CLIENTS, seconds, payload, client + 100 * node, share)
        for node, port in enumerate(all_ports(daemon.options), 1)
    ]


def accepted_of(messages: int) -> int:
    """How many messages twelve clients submit if they are to submit so many."""
    return NODES * CLIENTS * -(-(messages // NODES + 1) // CLIENTS)


@dataclass(frozen=True)
class Shown:
    """How long the logs took until all had what was accepted, and what the shortest one has."""

    seconds: float
    least: int


def await_all(daemon: Daemon, count: int) -> Shown:
    """Waits until all logs have so many entries, or for two minutes."""
    begin = time.monotonic()
    with askers(daemon) as asking:
        while (least := min(lengths_of(asking))) < count and time.monotonic() < begin + LONGEST:
            time.sleep(LOOK)
    return Shown(time.monotonic() - begin, least)


def measure_bursts(tools: Tools) -> None:
    """Twelve clients: a burst of short messages and one of long ones, on one group."""
    with new_group(tools.program, tools.room, NODES, BURST_TICK) as daemon:
        expected = 0
        for turn, (messages, payload) in enumerate(BURSTS, 1):
            before, begin = dropped(daemon), time.monotonic()
            client = 10_000 * turn
            answers(begin_loads(tools.load, daemon, "submit", LONGEST, client, payload, messages))
            took = time.monotonic() - begin
            expected += accepted_of(messages)
            shown = await_all(daemon, expected)
            lack = "" if shown.least >= expected else f" (NO: {shown.least} of {expected})"
            print(
                f"burst of {accepted_of(messages)} messages of {payload} bytes, twelve clients,"
                f" ticks of {BURST_TICK} ms: accepted in {took:.1f} s,"
                f" {dropped(daemon) - before} datagrams dropped, all logs show all"
                f" {shown.seconds:.2f} s after the last ACCEPTED{lack}",
                flush=True,
            )
        print(f"  memory then {megabytes(daemon):.0f} MB", flush=True)


@dataclass(frozen=True)
class Recovery:
    """The logs' lengths at a start and at the end, and the seconds until they last changed."""

    first: Sequence[int]
    last: Sequence[int]
    seconds: float

    def is_whole(self, count: int) -> bool:
        """Whether all logs have the same length, and at least so many entries."""
        return min(self.last) >= count and min(self.last) == max(self.last)


def await_rest(daemon: Daemon, count: int) -> Recovery:
    """Waits until all logs have so many entries and none grows, or for two minutes."""
    begin = changed = time.monotonic()
    with askers(daemon) as asking:
        first = last = lengths_of(asking)
        while time.monotonic() < begin + LONGEST:
            now = lengths_of(asking)
            if now != last:
                last, changed = now, time.monotonic()
            if Recovery(first, now, 0).is_whole(count) and time.monotonic() > changed + QUIET:
                break
            time.sleep(LOOK)
    return Recovery(first, last, changed - begin)


def measure_kill(tools: Tools) -> None:
    """A kill under twelve clients: how long until all logs show all that was accepted."""
    with new_folder(tools.room) as folder:
        options = Options(folder, free_base_port(), NODES, tick_ms=KILL_TICK)
        with tools.program.serve(options) as daemon:
            runs = begin_loads(tools.load, daemon, "killed", LONGEST, 1000)
            time.sleep(KILLED)
            daemon.kill()
            accepted = sum(it.done for it in answers(runs))
        begin = time.perf_counter()
        with running(tools.program, options) as again:
            opening = time.perf_counter() - begin
            found = await_rest(again, accepted)
    lack = "" if found.is_whole(accepted) else f" (NO: {list(found.last)})"
    print(
        f"killed under twelve clients after {KILLED:.0f} s, {accepted} messages accepted, ticks of"
        f" {KILL_TICK} ms: open again after {opening:.2f} s with logs of {min(found.first)} to"
        f" {max(found.first)}; all logs show all {found.seconds:.2f} s after that{lack}",
        flush=True,
    )


@contextmanager
def busy_loops(count: int) -> Iterator[None]:
    """Processes that take all the processor time that they get."""
    words = [sys.executable, "-c", "while True: pass"]
    loops = [subprocess.Popen(words) for _ in range(count)]
    try:
        yield
    finally:
        for it in loops:
            it.kill()
            it.wait()


def stop_for_a_moment(daemon: Daemon) -> None:
    daemon.process.send_signal(signal.SIGSTOP)
    time.sleep(STOPPED)
    daemon.process.send_signal(signal.SIGCONT)


def lags_of(told: Sequence[Status]) -> list[int]:
    """How many of the messages that the nodes have accepted each log lacks."""
    accepted = sum(it.accepted for it in told)
    return [max(0, accepted - it.shown) for it in told]


@dataclass(frozen=True)
class Lags:
    """How many messages there are, and how many each log lacked, second by second."""

    messages: int
    rows: Sequence[Sequence[int]]

    def __str__(self) -> str:
        seconds = " ".join("/".join(map(str, row)) for row in self.rows)
        worst = max(max(row) for row in self.rows)
        return f"worst lag of a log {worst}; lag of each log, second by second: {seconds}"


def watch_lags(daemon: Daemon, disturbance: Disturbance) -> Lags:
    """Looks at the logs each second, until the load is over and they are whole."""
    rows, messages, begin = [], 0, time.monotonic()
    with askers(daemon) as asking, ExitStack() as loops:
        if disturbance is Disturbance.BUSY:
            loops.enter_context(busy_loops(BUSY))
        for second in range(1, LOADED + AFTER + 1):
            if disturbance is Disturbance.STOPPED and second == MOMENT_OF_STOP:
                stop_for_a_moment(daemon)
            time.sleep(max(0.0, begin + second - time.monotonic()))
            told = [it.status() for it in asking]
            messages = sum(it.accepted for it in told)
            rows.append(lags_of(told))
            if second == LOADED:
                loops.close()
            if second > LOADED and max(rows[-1]) == 0:
                break
    return Lags(messages, rows)


def measure_lag(tools: Tools, tick: int, disturbance: Disturbance) -> None:
    """Three clients, one a node, and something that disturbs: how far each log lags behind."""
    with new_group(tools.program, tools.room, NODES, tick) as daemon:
        before = dropped(daemon)
        runs = [
            tools.load.begin("submit", port, 1, LOADED, LENGTH, 1000 * node)
            for node, port in enumerate(all_ports(daemon.options), 1)
        ]
        lags = watch_lags(daemon, disturbance)
        answers(runs)
        print(
            f"three clients of {LENGTH} bytes for {LOADED} s, {disturbance.value}, ticks of {tick}"
            f" ms: {lags.messages} messages, {dropped(daemon) - before} datagrams dropped; {lags}",
            flush=True,
        )


def measure_ticks(tools: Tools, tick: int) -> None:
    """What ticks cost: a group at rest that has messages, and one under twelve clients."""
    load, seconds = tools.load, tools.seconds
    with new_group(tools.program, tools.room, NODES, tick) as daemon:
        process = daemon.process.pid
        answers(begin_loads(load, daemon, "submit", LONGEST, 1000, messages=RESTING))
        await_all(daemon, accepted_of(RESTING))
        time.sleep(1)
        rest = 100 * share_of_processor(process, 2 * seconds)
        spent, lost = processor_time(process), dropped(daemon)
        found = answers(begin_loads(load, daemon, "submit", seconds, 2000))
        accepted = sum(it.rate for it in found)
        each = 1e6 * (processor_time(process) - spent) / (accepted * seconds)
        print(
            f"ticks of {tick} ms: at rest {rest:.2f} % of one processor; under twelve clients"
            f" {accepted:.0f} accepted a second, 99th percentile"
            f" {max(it.late for it in found):.0f} us, {each:.0f} us of a processor each,"
            f" {dropped(daemon) - lost} datagrams dropped",
            flush=True,
        )


def measure(tools: Tools) -> None:
    """Prints a line for each try."""
    measure_bursts(tools)
    measure_kill(tools)
    for tick in LAG_TICKS:
        for disturbance in Disturbance:
            measure_lag(tools, tick, disturbance)
    for tick in TICKS:
        measure_ticks(tools, tick)
