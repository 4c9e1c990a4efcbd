"""What clients get while a crowd submits at three nodes, beside as many clients of etcd.

    python3 -m bench.crowds PROGRAM.. [--rounds N] [--seconds S] [--dir D]

Several programs take turns, so that a change is seen. The table has the medians of N rounds (3) of
S seconds (2). Its columns:

    a second       the submits of all nodes
    late           how long a submit takes, at the 99th percentile of the node with the longest
    shown          how soon all nodes show another client's message, at the median
    shown, late    the same at the 99th percentile
    evenly         the submits of the slowest node divided by those of the fastest

For etcd it has the puts. The files are made below D.
"""
from __future__ import annotations

import argparse
import math
import statistics
import tempfile
from collections.abc import Iterator, Sequence
from dataclasses import astuple, dataclass
from pathlib import Path

from bench.beside import load_of_machine
from bench.ceiling import Crowd, begin_submits, put_into_etcd
from bench.daemon import built_etcd_load
from bench.groups import at_least, duration, new_group, program_at, run
from bench.load import Load, answers
from trials.lib.program import Program, all_ports

TICK = 1_000  # milliseconds
SHOWN = 60_000  # the number of the client whose messages are shown
CROWDS = (Crowd(3, 12), Crowd(3, 64), Crowd(3, 12, 16))
# The figures of a row, and how many digits follow the point.
COLUMNS = {"a second": 0, "late": 0, "shown": 0, "shown, late": 0, "evenly": 2}
WIDTH = 13


@dataclass(frozen=True)
class Got:
    """What a crowd got in one round. Times are in microseconds. A put of etcd shows nothing."""

    rate: float
    late: float
    shown: float = math.nan
    shown_late: float = math.nan
    evenly: float = math.nan

    def cells(self) -> Iterator[str]:
        for value, digits in zip(astuple(self), COLUMNS.values()):
            yield f"{'':{WIDTH}}" if math.isnan(value) else f"{value:{WIDTH}.{digits}f}"


def middle(rounds: Sequence[Got]) -> Got:
    """The median of each figure."""
    return Got(*[float(statistics.median(it)) for it in zip(*map(astuple, rounds))])


def measure_program(program: Program, load: Load, room: Path, crowd: Crowd, seconds: float) -> Got:
    """A crowd submits, and another client looks when all nodes show what it submits."""
    with new_group(program, room, crowd.nodes, TICK) as daemon:
        ports = all_ports(daemon.options)
        runs = begin_submits(load, ports, crowd, seconds)
        shown = load.run("visible", ports[0], len(ports), seconds, client=SHOWN)
        submits = answers(runs)
    rates = [it.rate for it in submits]
    return Got(
        rate=sum(rates),
        late=max(it.late for it in submits),
        shown=shown.median,
        shown_late=shown.late,
        evenly=min(rates) / max(rates),
    )


def measure(programs: Sequence[Program], given: argparse.Namespace, room: Path) -> None:
    """All take turns, and the table is printed."""
    load, etcd_load = Load.built(room), built_etcd_load(room)
    print(f"{'microseconds':44}" + "".join(f"{it:>{WIDTH}}" for it in COLUMNS))
    for crowd in CROWDS:
        rounds: dict[str, list[Got]] = {}
        for _ in range(given.rounds):
            for program in programs:
                got = measure_program(program, load, room, crowd, given.seconds)
                rounds.setdefault(program.path.name, []).append(got)
            if etcd_load and crowd.under_way == 1:
                put = put_into_etcd(etcd_load, room, crowd.clients, given.seconds)
                rounds.setdefault("etcd", []).append(Got(put.rate, put.late))
        for name, of in rounds.items():
            print(f"{str(crowd):32}{name:12}" + "".join(middle(of).cells()))


def main(words: Sequence[str]) -> int:
    parser = argparse.ArgumentParser(
        prog="python3 -m bench.crowds",
        description=__doc__,
        formatter_class=argparse.RawDescriptionHelpFormatter,
    )
    parser.add_argument("programs", nargs="+", type=program_at, help="a built urbd")
    parser.add_argument("--rounds", type=at_least(1), default=3)
    parser.add_argument("--seconds", type=duration, default=2.0)
    parser.add_argument("--dir", default=tempfile.gettempdir(), help="where files are made")
    given = parser.parse_args(words)
    with tempfile.TemporaryDirectory(prefix="urbd-crowds-", dir=given.dir) as text:
        measure(given.programs, given, Path(text))
    print(f"load: {load_of_machine()}")
    return 0


if __name__ == "__main__":
    run(main)
