"""A group whose standard error is a full pipe that nobody reads: it answers requests, and ends.

Once the pipe is read, the lines that were written come, and then how many were lost.
"""
from __future__ import annotations

import argparse
import fcntl
import os
import re
import sys
import time
from pathlib import Path

from trials.lib.command import parser_of, run_trial
from trials.lib.program import Daemon, Options, Program, free_base_port

PATIENCE = 20.0  # seconds for an answer and a stop
PAIRS = 300  # crashes, each with a restart
SET_PIPE_SIZE = 1031  # F_SETPIPE_SZ, which Python names from 3.10 on
PAGE = 4096  # bytes of the pipe
PART = 65536  # bytes of a read
LINES = (b"urbd: node 1 is down: asked to crash", b"urbd: node 1 is back")
LOST = re.compile(rb"urbd: lines lost: (\d+)")


def make_full_pipe() -> tuple[int, int]:
    """A pipe of one page that takes no more bytes: its end to read, and its end to write."""
    reads, writes = os.pipe()
    fcntl.fcntl(writes, SET_PIPE_SIZE, PAGE)
    os.set_blocking(writes, False)
    try:
        while True:
            os.write(writes, b"\n")
    except BlockingIOError:
        os.set_blocking(writes, True)
    return reads, writes


def serve(program: Program, folder: Path, writes: int) -> Daemon:
    """Starts a group whose standard error is this end of a pipe, which is closed here."""
    folder.mkdir()
    try:
        return program.serve(Options(folder, free_base_port()), errors=writes)
    finally:
        os.close(writes)


def crash_and_restart(daemon: Daemon) -> None:
    """Crashes and restarts node 1 many times. Each request is done, and it then accepts."""
    with daemon.connect(1, PATIENCE) as connection:
        for _ in range(PAIRS):
            connection.crash()
            connection.restart()
        seq = connection.submit(7, 1, b"hi")
        assert seq == 1, f"expected name 1.1, and got 1.{seq}"


def read_all(reads: int) -> bytes:
    """What is left in a pipe that nobody writes to any more."""
    parts = []
    while part := os.read(reads, PART):
        parts.append(part)
    os.close(reads)
    return b"".join(parts)


def ends_over_a_full_pipe(program: Program, room: Path) -> None:
    reads, writes = make_full_pipe()
    with serve(program, room / "ends", writes) as daemon:
        crash_and_restart(daemon)
        begin = time.monotonic()
        daemon.stop(PATIENCE)
    took = time.monotonic() - begin
    print(f"a full pipe: {2 * PAIRS} requests were done, and the stop took {took:.1f} s")
    left = read_all(reads).strip(b"\n")
    assert left == b"", f"expected nothing behind what the pipe had, and got {left[:200]!r}"


def counts_what_is_lost(program: Program, room: Path) -> None:
    reads, writes = make_full_pipe()
    with serve(program, room / "counts", writes) as daemon:
        crash_and_restart(daemon)
        seen = b""
        while b"lines lost" not in seen:
            seen += os.read(reads, PART)
        daemon.stop(PATIENCE)
    lines = (seen + read_all(reads)).strip(b"\n").split(b"\n")
    lost = sum(int(found[1]) for found in map(LOST.fullmatch, lines) if found)
    written = sum(line in LINES for line in lines)
    assert lost > 0 and written + lost == 2 * PAIRS, (
        f"expected {2 * PAIRS} lines, and {written} came and {lost} were counted as lost,"
        f" at the end {lines[-3:]}"
    )
    print(f"a full pipe that is read at last: {written} lines came, {lost} were lost and counted")


def refuses_over_a_full_pipe(program: Program, room: Path) -> None:
    """A start that is refused ends too, with its status."""
    reads, writes = make_full_pipe()
    process = program.start(Options(room / "missing", free_base_port()), errors=writes)
    os.close(writes)
    told, _ = process.communicate(timeout=PATIENCE)
    os.close(reads)
    assert (process.returncode, told) == (1, b""), (process.returncode, told)


def fill_pipes(program: Program, room: Path, options: argparse.Namespace) -> None:
    ends_over_a_full_pipe(program, room)
    counts_what_is_lost(program, room)
    refuses_over_a_full_pipe(program, room)


def main(words: list[str]) -> int:
    return run_trial(parser_of(__doc__ or ""), words, fill_pipes)


if __name__ == "__main__":
    sys.exit(main(sys.argv[1:]))
