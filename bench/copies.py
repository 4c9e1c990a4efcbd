"""How often a message takes memory of its payload's size.

    python3 -m bench.copies PROGRAM [--messages N] [--dir D]

A preloaded library (copies.c, built with cc) counts each call of malloc and realloc by its size. N
messages (200) of 10,000 bytes come to node 1 of three. Then a client at each node reads its node's
whole log. For both steps it prints how many buffers a message took that can hold its payload: of
10,000 to 12,047 bytes, so also encoded packets, frames and statements around the payload. A buffer
that is used again isn't counted twice. The files are made below D.
"""
from __future__ import annotations

import argparse
import mmap
import struct
import tempfile
import time
from collections.abc import Mapping, Sequence
from pathlib import Path

from bench.groups import at_least, await_logs, program_at, run, submit_all
from bench.load import compiled
from trials.lib.messages import log_of
from trials.lib.program import Options, Program, free_base_port

SIZES = 65_536
COUNTER = 8  # bytes
LENGTH = 10_000  # bytes of a payload
SLACK = 2_048  # what a frame, a packet or a statement may add
NODES = 3
TICK = 1_000  # milliseconds
UNDER_WAY = 16  # requests at a time
SETTLED = 1.0  # seconds after which nothing more is sent
RARE = 20  # a size that fewer than every twentieth message takes is left out


class Counts:
    """The counters that the library keeps, and how they rose."""

    def __init__(self, path: Path) -> None:
        path.write_bytes(bytes(COUNTER * SIZES))
        with path.open("r+b") as file:
            self.bytes = mmap.mmap(file.fileno(), 0)
        self.before = self.now()

    def now(self) -> Sequence[int]:
        """The counters of the sizes that can hold a payload, from the payload's own size on."""
        counts: Sequence[int] = struct.unpack_from(f"={SLACK}Q", self.bytes, COUNTER * LENGTH)
        return counts

    def rise(self) -> dict[int, int]:
        """How much each counter has risen since the last call, by what it has room for beside the
        payload."""
        before, self.before = self.before, self.now()
        pairs = enumerate(zip(before, self.before))
        return {more: now - was for more, (was, now) in pairs if was < now}


def tell(step: str, messages: int, rise: Mapping[int, int]) -> None:
    """Prints how many buffers a message took in a step, and of which sizes."""
    print(f"{step}: {sum(rise.values()) / messages:.2f} buffers a message")
    for more, count in sorted(rise.items()):
        if messages <= RARE * count:
            print(f"  payload and {more:4} bytes: {count / messages:.2f}")


def measure(program: Program, room: Path, messages: int) -> None:
    library = compiled("copies.c", room, "-shared", "-fPIC")
    counts, folder = Counts(room / "counts"), room / "group"
    folder.mkdir()
    options = Options(folder, free_base_port(), NODES, tick_ms=TICK)
    preloaded = {"LD_PRELOAD": str(library), "COPIES": str(room / "counts")}
    with program.serve(options, environment=preloaded) as daemon:
        submit_all(daemon, messages, LENGTH, under_way=UNDER_WAY)
        await_logs(daemon, messages)
        time.sleep(SETTLED)
        tell("a submit, until three logs show it", messages, counts.rise())
        for node in daemon.nodes:
            log_of(daemon, node)
        tell("reads at three nodes", messages, counts.rise())
        daemon.stop()


def main(words: Sequence[str]) -> int:
    parser = argparse.ArgumentParser(
        prog="python3 -m bench.copies",
        description=__doc__,
        formatter_class=argparse.RawDescriptionHelpFormatter,
    )
    parser.add_argument("program", type=program_at, help="the built urbd")
    parser.add_argument("--messages", type=at_least(1), default=200)
    parser.add_argument("--dir", default=tempfile.gettempdir(), help="where files are made")
    given = parser.parse_args(words)
    with tempfile.TemporaryDirectory(prefix="urbd-copies-", dir=given.dir) as room:
        measure(given.program, Path(room), given.messages)
    return 0


if __name__ == "__main__":
    run(main)
