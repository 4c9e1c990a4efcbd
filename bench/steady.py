"""What a group accepts under the heaviest load, every two seconds, and how soon its logs are whole.

    python3 -m bench.steady PROGRAM [--nodes N] [--seconds S] [--tick-ms T] [--dir D]

Twelve clients submit messages of 100 bytes at a group of N nodes (3) for S seconds (20), each with
many requests under way. It prints how many messages the group accepted in each two seconds, how
long it takes afterwards until all logs are whole, and how many datagrams the system dropped. The
files are made below D.
"""
from __future__ import annotations

import argparse
import tempfile
import time
from collections.abc import Sequence
from pathlib import Path

from bench.beside import dropped_datagrams, load_of_machine
from bench.groups import at_least, duration, program_at, run
from bench.recovery import LIMIT, Load, lacks_of, wait_until_whole
from trials.lib.program import Options, Program, free_base_port, ports_of

SPAN = 2.0  # seconds


def measure(program: Program, options: Options, seconds: float) -> None:
    with program.serve(options) as daemon:
        load, counts, before = Load(daemon, daemon.nodes), [], 0
        for _ in range(max(1, round(seconds / SPAN))):
            time.sleep(SPAN)
            now = sum(load.accepted)
            counts.append(now - before)
            before = now
        print(f"accepted in each {SPAN:.0f} s: {' '.join(map(str, counts))}")
        load.end()
        print(f"the logs lack {lacks_of(daemon)} then")
        print(wait_until_whole(daemon, time.monotonic(), LIMIT).replace("`open`", "the load"))
        ports = [packets for packets, _ in ports_of(options.base_port, options.nodes)]
        print(f"datagrams dropped: {dropped_datagrams(ports)}")
        daemon.stop(LIMIT)


def main(words: Sequence[str]) -> int:
    parser = argparse.ArgumentParser(
        prog="python3 -m bench.steady",
        description=__doc__,
        formatter_class=argparse.RawDescriptionHelpFormatter,
    )
    parser.add_argument("program", type=program_at, help="the built urbd")
    parser.add_argument("--nodes", type=at_least(1), default=3)
    parser.add_argument("--seconds", type=duration, default=20.0)
    parser.add_argument("--tick-ms", type=at_least(1), default=20)
    parser.add_argument("--dir", default=tempfile.gettempdir(), help="where files are made")
    given = parser.parse_args(words)
    with tempfile.TemporaryDirectory(prefix="urbd-steady-", dir=given.dir) as room:
        options = Options(Path(room), free_base_port(), given.nodes, tick_ms=given.tick_ms)
        measure(given.program, options, given.seconds)
    print(f"load: {load_of_machine()}")
    return 0


if __name__ == "__main__":
    run(main)
