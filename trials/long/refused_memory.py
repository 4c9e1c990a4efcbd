"""A running group that is refused one growth of memory: the first, second, third and so on.

Each start on an empty folder is refused another growth (refuse.c, preloaded), and clients use what
runs. Then the group starts again on the same folder with all its memory. Each accepted message is
accepted again under its name, and each log begins with what was read before. A start that fails
says so, and ends at once. Needs a C compiler.
"""
from __future__ import annotations

import argparse
import subprocess
import sys
from dataclasses import dataclass
from pathlib import Path

from urbd.constants import Refusal
from urbd.errors import RefusedError
from urbd.frames import Entry

from trials.lib.command import parser_of, run_trial
from trials.lib.messages import log_of
from trials.lib.program import Daemon, NotOpen, Options, Program, free_base_port

NODES = 3
CLIENT = 7
MESSAGES = (1, 2)
TRIES = 20
NO_MEMORY = b"urbd: no memory"
SOURCE = Path(__file__).resolve().parent / "refuse.c"


@dataclass(frozen=True)
class Outcome:
    """Whether the growth was met, whether the group opened, and how much was accepted."""

    was_met: bool
    is_open: bool
    accepted: int


def build_library(room: Path) -> Path:
    library = room / "refuse.so"
    words = ["cc", "-O2", "-shared", "-fPIC", "-o", str(library), str(SOURCE), "-ldl"]
    subprocess.run(words, check=True)
    return library


def payload_of(node: int, number: int) -> bytes:
    return b"%d of %d" % (number, node)


def submit_at(daemon: Daemon, node: int) -> dict[int, int]:
    """Submits some messages at a node. Gives the names' numbers of those that were accepted."""
    seqs = {}
    try:
        for number in MESSAGES:
            for _ in range(TRIES):
                try:
                    it = daemon.node(node)
                    seqs[number] = it.submit(CLIENT, number, payload_of(node, number))
                    break
                except RefusedError as refused:
                    if refused.number in (Refusal.DOWN, Refusal.DEVICE):
                        try:
                            it.restart()
                        except RefusedError:
                            pass
    except OSError:  # the program has ended, or refuses the connection
        pass
    return seqs


def seen_at(daemon: Daemon, node: int) -> list[Entry]:
    """What a node's log shows; nothing if it can't be read."""
    try:
        return log_of(daemon, node)
    except (OSError, RefusedError):
        return []


def try_growth(program: Program, room: Path, library: Path, growth: int) -> Outcome:
    """Refuses one growth, and starts again on what that left."""
    folder, met = room / f"growth-{growth}", room / "met"
    folder.mkdir()
    group = Options(folder, free_base_port(), NODES)
    environment = {"LD_PRELOAD": str(library), "REFUSED": str(growth), "MET": str(met)}
    accepted: dict[int, dict[int, int]] = {}
    seen: dict[int, list[Entry]] = {}
    try:
        with program.serve(group, environment=environment) as daemon:
            accepted = {node: submit_at(daemon, node) for node in daemon.nodes}
            seen = {node: seen_at(daemon, node) for node in daemon.nodes}
    except NotOpen as fault:
        is_told = fault.status == 1 and fault.error.startswith(NO_MEMORY)
        assert is_told, f"growth {growth}: expected status 1 and {NO_MEMORY!r}, got {fault}"
    was_met = met.exists()
    if was_met:
        met.unlink()
    with program.serve(group) as daemon:
        for node, seqs in accepted.items():
            for number, seq in seqs.items():
                now = daemon.node(node).submit(CLIENT, number, payload_of(node, number))
                assert now == seq, f"growth {growth}: {node}.{seq} is now {node}.{now}"
        for node, entries in seen.items():
            log = log_of(daemon, node)
            assert log[: len(entries)] == entries, f"growth {growth}: the log of node {node}"
        daemon.stop()
    return Outcome(was_met, bool(accepted), sum(map(len, accepted.values())))


def refuse_growths(program: Program, room: Path, options: argparse.Namespace) -> None:
    library = build_library(room)
    growths = range(options.first, options.last + 1, options.step)
    outcomes = [try_growth(program, room, library, growth) for growth in growths]
    met, opened = sum(it.was_met for it in outcomes), sum(it.is_open for it in outcomes)
    accepted = sum(it.accepted for it in outcomes)
    assert met, "expected that a growth was refused"
    print(f"{met} growths were refused; {opened} groups opened, {accepted} submits were accepted")


def main(words: list[str]) -> int:
    parser = parser_of(__doc__ or "")
    parser.add_argument("--first", type=int, default=1, help="the first growth that is refused")
    parser.add_argument("--last", type=int, default=500, help="the last one")
    parser.add_argument("--step", type=int, default=1, help="how many are between two of them")
    return run_trial(parser, words, refuse_growths)


if __name__ == "__main__":
    sys.exit(main(sys.argv[1:]))
