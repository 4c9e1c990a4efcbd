"""What a message costs in memory, and what a start takes.

    python3 -m bench.memory PROGRAM.. [--scale S] [--starts] [--count N] [--length L] [--dir D]

Each PROGRAM is a built urbd. They take turns, so that two of them are compared in one run on one
machine. It prints, for groups of 1, 3 and 7 nodes and payloads of several lengths, how many bytes
of resident memory a message takes. It counts what is resident twice, when all logs show all
messages and all caches are full, and divides the growth by the messages between.

Then it starts three nodes again on N messages (20,000) of L bytes (4,096), once after a kill and
once after a stop. It prints how long a start takes, and what is resident before it, after it and at
most meanwhile (VmHWM); in the end what is resident once as many messages more have come.

S (1) scales the numbers of messages. With --starts the starts alone are measured. The files are
made below D.
"""
from __future__ import annotations

import argparse
import tempfile
import time
from collections.abc import Sequence
from pathlib import Path

from bench.beside import load_of_machine, peak
from bench.groups import (
    MEGABYTE,
    at_least,
    await_logs,
    duration,
    megabytes,
    new_folder,
    new_group,
    program_at,
    run,
    running,
    submit_all,
)
from trials.lib.program import Daemon, Options, Program, free_base_port
from urbd.constants import MAX_NODES, MAX_PAYLOAD

NODES = (1, 3, MAX_NODES)
# How many messages of each length are measured. Half as many come before them.
MESSAGES = {16: 20_000, 100: 20_000, 1_024: 8_000, MAX_PAYLOAD: 2_000}
STARTED = 3  # nodes that are started again
UNDER_WAY = 16  # requests at a time: few, so that no socket's room overflows
TICK = 50  # milliseconds
SETTLED = 1.0  # seconds after which what was freed is counted


def fill(daemon: Daemon, first: int, count: int, length: int) -> float:
    """Megabytes resident once all logs show these messages too."""
    submit_all(daemon, count, length, first, UNDER_WAY)
    await_logs(daemon, first + count - 1)
    time.sleep(SETTLED)
    return megabytes(daemon)


def bytes_of_message(program: Program, room: Path, nodes: int, length: int, count: int) -> float:
    """Bytes of resident memory that a message takes."""
    before_it = max(count // 2, 1)
    with new_group(program, room, nodes, TICK) as daemon:
        before = fill(daemon, 1, before_it, length)
        after = fill(daemon, before_it + 1, count, length)
    return (after - before) * MEGABYTE / count


def measure_starts(program: Program, room: Path, count: int, length: int) -> None:
    """Starts three nodes again, after a kill and after a stop, and says what that took."""
    with new_folder(room) as folder:
        options = Options(folder, free_base_port(), STARTED, tick_ms=TICK)
        with program.serve(options) as daemon:
            came = fill(daemon, 1, count, length)
            daemon.kill()
        print(f"{program.path}: {count} messages of {length} bytes at three nodes", flush=True)
        for how in ("kill", "stop"):
            begin = time.perf_counter()
            with running(program, options) as daemon:
                print(f"  after a {how}: {start_of(daemon, time.perf_counter() - begin, came)}")
                if how == "stop":
                    more = fill(daemon, count + 1, count, length)
                    print(f"  as many messages more: {more:.0f} MB", flush=True)


def start_of(daemon: Daemon, seconds: float, came: float) -> str:
    """What a start took that has just ended, beside the megabytes that the messages took."""
    ended, most = megabytes(daemon), peak(daemon.process.pid) / MEGABYTE
    return (
        f"open after {seconds:.2f} s; {came:.0f} MB before, {ended:.0f} MB after"
        f" ({ended / came:.2f} of it), {most:.0f} MB at most ({most / ended:.2f} of that)"
    )


def measure_messages(programs: Sequence[Program], room: Path, scale: float) -> None:
    """Prints the bytes of a message, a column for each program."""
    print("bytes of resident memory a message; a program a column")
    for nodes in NODES:
        for length, unscaled in MESSAGES.items():
            count = max(int(unscaled * scale), 1)
            figures = [bytes_of_message(it, room, nodes, length, count) for it in programs]
            columns = "".join(f"{figure:12.0f}" for figure in figures)
            print(f"{nodes} nodes, {length:6} bytes, {count:6} messages{columns}", flush=True)


def main(words: Sequence[str]) -> int:
    parser = argparse.ArgumentParser(
        prog="python3 -m bench.memory",
        description=__doc__,
        formatter_class=argparse.RawDescriptionHelpFormatter,
    )
    parser.add_argument(
        "programs", nargs="+", type=program_at, metavar="PROGRAM", help="a built urbd"
    )
    parser.add_argument("--scale", type=duration, default=1.0)
    parser.add_argument("--starts", action="store_true", help="measure the starts alone")
    parser.add_argument("--count", type=at_least(1), default=20_000)
    parser.add_argument("--length", type=at_least(0), default=4_096)
    parser.add_argument("--dir", default=tempfile.gettempdir(), help="where files are made")
    given = parser.parse_args(words)
    with tempfile.TemporaryDirectory(prefix="urbd-memory-", dir=given.dir) as folder:
        if not given.starts:
            measure_messages(given.programs, Path(folder), given.scale)
        for tried in given.programs:
            count = max(int(given.count * given.scale), 1)
            measure_starts(tried, Path(folder), count, given.length)
    print(f"load: {load_of_machine()}")
    return 0


if __name__ == "__main__":
    run(main)
