"""How fast programs read, in turns.

    python3 -m bench.reads PROGRAM.. [--turns T] [--seconds S] [--dir D]

Each PROGRAM is a built urbd, for instance an old one and a new one. Each serves a group of three,
with entries of twelve clients of 16 bytes. Then four clients read the first 8 entries of a log at
one program after the other, S seconds (0.4) each, in T turns (45). A turn begins with the next
program each time, and turns go round the nodes. Short turns matter: on a virtual machine, two long
runs of one program differ more than two programs do.

It prints for each program its reads a second (the median and the quartiles), and its median as a
part of the first program's. It needs a C compiler. The files are made below D.
"""
from __future__ import annotations

import argparse
import statistics
import tempfile
import time
from collections.abc import Sequence
from contextlib import ExitStack
from pathlib import Path

from bench.beside import load_of_machine
from bench.groups import at_least, duration, new_group, program_at, run
from bench.load import Load, answers
from trials.lib.program import Daemon, all_ports

NODES = 3
CLIENTS = 4  # at each node
WRITING = 0.5  # seconds in which the entries come
TICK = 1_000  # milliseconds
REST = 3.0  # seconds until all logs show what was submitted
LEAST_TURNS = 2  # that have quartiles


def fill(load: Load, daemon: Daemon) -> None:
    """Gives a group entries of twelve clients."""
    ports = enumerate(all_ports(daemon.options), 1)
    writers = [
        load.begin("submit", port, CLIENTS, WRITING, client=1000 * node) for node, port in ports
    ]
    answers(writers)


def measure(load: Load, daemons: Sequence[Daemon], turns: int, seconds: float) -> list[list[float]]:
    """The reads a second of each group, turn by turn."""
    found: list[list[float]] = [[] for _ in daemons]
    for turn in range(turns):
        for step in range(len(daemons)):
            place = (turn + step) % len(daemons)
            port = all_ports(daemons[place].options)[turn % NODES]
            found[place].append(load.run("read", port, CLIENTS, seconds).rate)
    return found


def show(names: Sequence[Path], found: Sequence[Sequence[float]]) -> None:
    """Prints a line for each program."""
    first = statistics.median(found[0])
    for name, rates in zip(names, found):
        low, middle, high = statistics.quantiles(rates, n=4)
        print(
            f"{name}: {middle:,.0f} reads a second ({low:,.0f} to {high:,.0f}),"
            f" {middle / first:.3f} of the first"
        )


def main(words: Sequence[str]) -> int:
    parser = argparse.ArgumentParser(
        prog="python3 -m bench.reads",
        description=__doc__,
        formatter_class=argparse.RawDescriptionHelpFormatter,
    )
    parser.add_argument(
        "programs", nargs="+", type=program_at, metavar="PROGRAM", help="a built urbd"
    )
    parser.add_argument("--turns", type=at_least(LEAST_TURNS), default=45)
    parser.add_argument("--seconds", type=duration, default=0.4)
    parser.add_argument("--dir", default=tempfile.gettempdir(), help="where files are made")
    given = parser.parse_args(words)
    with tempfile.TemporaryDirectory(prefix="urbd-reads-", dir=given.dir) as folder:
        room, load = Path(folder), Load.built(Path(folder))
        with ExitStack() as opened:
            daemons = [
                opened.enter_context(new_group(it, room, NODES, TICK)) for it in given.programs
            ]
            for daemon in daemons:
                fill(load, daemon)
            time.sleep(REST)
            found = measure(load, daemons, given.turns, given.seconds)
    show([it.path for it in given.programs], found)
    print(f"load: {load_of_machine()}")
    return 0


if __name__ == "__main__":
    run(main)
