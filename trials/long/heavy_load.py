"""Twelve clients submit as much as they can, and a group of five or of most nodes keeps its speed.

Each client has many requests under way. In the last two seconds the group has to accept at least a
fifth as many messages as in the first two. All logs have to become whole soon after the load.
"""
from __future__ import annotations

import argparse
import sys
import time
from pathlib import Path

from urbd.constants import MAX_NODES

from bench.recovery import Load, lacks_of
from trials.lib.command import parser_of, run_trial
from trials.lib.program import Options, Program, free_base_port, wait_until

SPAN = 2.0  # seconds
SPANS = 5
SHARE = 0.2  # of the first span's messages, at least, in the last span
LIMIT = 60.0  # seconds until all logs are whole
SIZES = (5, MAX_NODES)


def counts_under_load(program: Program, options: Options) -> list[int]:
    """How many messages a group accepted in each span. Its logs have become whole since then."""
    with program.serve(options) as daemon:
        load, counts, before = Load(daemon, daemon.nodes), [], 0
        for _ in range(SPANS):
            time.sleep(SPAN)
            now = sum(load.accepted)
            counts.append(now - before)
            before = now
        load.end()
        wait_until(lambda: not any(lacks_of(daemon)), "all logs are whole", LIMIT)
        daemon.stop(LIMIT)
    return counts


def keep_speed(program: Program, room: Path, options: argparse.Namespace) -> None:
    for nodes in SIZES:
        folder = room / f"group-of-{nodes}"
        folder.mkdir()
        counts = counts_under_load(program, Options(folder, free_base_port(), nodes))
        print(f"{nodes} nodes accepted {counts} messages, in {SPAN:.0f} s each", flush=True)
        assert counts[-1] >= SHARE * counts[0], f"expected {SHARE} of {counts[0]} at the end"


def main(words: list[str]) -> int:
    return run_trial(parser_of(__doc__ or ""), words, keep_speed)


if __name__ == "__main__":
    sys.exit(main(sys.argv[1:]))
