"""Two versions of the program in turns, beside the floor: what a change costs a submit.

    python3 -m bench.versions BEFORE AFTER
"""
from __future__ import annotations

import argparse
import statistics
import tempfile
from collections.abc import Mapping, Sequence
from dataclasses import dataclass
from pathlib import Path

from bench.beside import load_of_machine
from bench.groups import at_least, duration, new_group, program_at, run
from bench.load import Floor, Load, answers
from trials.lib.program import Program, all_ports

TICK = 20  # milliseconds
EACH = 4  # clients at each node of three
SMALL, LARGE = 1, 3  # nodes of a group
BEFORE, AFTER, FLOOR = "before", "after", "floor"

ONE = "one client, one node"
THREE = "one client, three nodes"
TWELVE = "twelve clients, three nodes"

# The microseconds of one submit, by who submits and then by who takes it.
Times = dict[str, dict[str, list[float]]]


@dataclass(frozen=True)
class Tools:
    """What a measurement takes: both programs, the floor, a folder, and the seconds of a run."""

    programs: Mapping[str, Program]
    load: Load
    floor: Floor
    room: Path
    seconds: float


def measure_program(tools: Tools, program: Program) -> dict[str, float]:
    """The microseconds of a submit of one client, and of twelve: each has a twelfth of the rate."""
    with new_group(program, tools.room, SMALL, TICK) as daemon:
        port = all_ports(daemon.options)[0]
        times = {ONE: tools.load.run("submit", port, 1, tools.seconds).median}
    with new_group(program, tools.room, LARGE, TICK) as daemon:
        ports = all_ports(daemon.options)
        times[THREE] = tools.load.run("submit", ports[0], 1, tools.seconds).median
        runs = [
            tools.load.begin("submit", port, EACH, tools.seconds, client=2000) for port in ports
        ]
        times[TWELVE] = 1e6 / sum(it.rate for it in answers(runs))
    return times


def measure_floor(tools: Tools) -> dict[str, float]:
    """The same of the floor."""
    floor, room, seconds = tools.floor, tools.room, tools.seconds
    return {
        ONE: floor.run(room, SMALL, 1, seconds).median,
        THREE: floor.run(room, LARGE, 1, seconds).median,
        TWELVE: 1e6 / floor.run(room, LARGE, EACH * LARGE, seconds).rate,
    }


def measure_round(tools: Tools, times: Times, turned: bool) -> None:
    """Both programs and the floor once. Every other round begins with the other program."""
    programs = list(tools.programs.items())
    for name, program in reversed(programs) if turned else programs:
        for who, time in measure_program(tools, program).items():
            times.setdefault(who, {}).setdefault(name, []).append(time)
    for who, time in measure_floor(tools).items():
        times.setdefault(who, {}).setdefault(FLOOR, []).append(time)


def table(times: Times) -> str:
    """The medians, and the median of each round's ratio, which a slow minute hardly moves."""
    lines = ["| who submits | before | after | floor | after / before | after / floor |"]
    lines.append("|---|---|---|---|---|---|")
    for who, of in times.items():
        middle = {name: statistics.median(all_of) for name, all_of in of.items()}
        ratios = [
            statistics.median(a / b for a, b in zip(of[AFTER], of[other]))
            for other in (BEFORE, FLOOR)
        ]
        cells = [f"{middle[name]:.1f} µs" for name in (BEFORE, AFTER, FLOOR)]
        cells += [f"{it:.3f}" for it in ratios]
        lines.append(f"| {who} | {' | '.join(cells)} |")
    return "\n".join(lines)


def main(words: Sequence[str]) -> int:
    parser = argparse.ArgumentParser(prog="python3 -m bench.versions", description=__doc__)
    parser.add_argument("before", type=program_at, help="the built urbd before a change")
    parser.add_argument("after", type=program_at, help="the built urbd after it")
    parser.add_argument("--rounds", type=at_least(1), default=9)
    parser.add_argument("--seconds", type=duration, default=1.0)
    parser.add_argument("--dir", default=tempfile.gettempdir(), help="where files are made")
    given = parser.parse_args(words)
    times: Times = {}
    with tempfile.TemporaryDirectory(prefix="urbd-versions-", dir=given.dir) as folder:
        room = Path(folder)
        programs = {BEFORE: given.before, AFTER: given.after}
        tools = Tools(programs, Load.built(room), Floor.built(room), room, given.seconds)
        for number in range(given.rounds):
            measure_round(tools, times, turned=number % 2 == 1)
    print(table(times))
    print(f"load: {load_of_machine()}")
    return 0


if __name__ == "__main__":
    run(main)
