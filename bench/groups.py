"""What the benchmarks of groups share: running groups, messages for them, and how they end."""
from __future__ import annotations

import argparse
import os
import sys
from collections.abc import Callable, Iterator, Sequence
from contextlib import contextmanager
from pathlib import Path
from tempfile import TemporaryDirectory
from typing import NoReturn

from trials.lib.messages import accepted
from trials.lib.program import Daemon, NotOpen, Options, Program, free_base_port, wait_until
from urbd import RefusedError
from urbd.frames import Submit

CLIENT = 9000  # the client whose messages fill a group
LIMIT = 600.0  # seconds for a step
LOOK = 0.2  # seconds between two looks at the logs
MEGABYTE = 1 << 20


@contextmanager
def new_folder(room: Path) -> Iterator[Path]:
    """An empty folder below this one, which is removed at the end."""
    with TemporaryDirectory(dir=room) as folder:
        yield Path(folder)


@contextmanager
def running(program: Program, options: Options) -> Iterator[Daemon]:
    """A group that is stopped at the end, unless something fails."""
    with program.serve(options) as daemon:
        yield daemon
        daemon.stop(LIMIT)


@contextmanager
def new_group(program: Program, room: Path, nodes: int, tick_ms: int) -> Iterator[Daemon]:
    """A group over an empty folder. It is stopped at the end, and its folder is removed."""
    with new_folder(room) as folder:
        options = Options(folder, free_base_port(), nodes, tick_ms=tick_ms)
        with running(program, options) as daemon:
            yield daemon


def submit_all(
    daemon: Daemon, count: int, length: int, first: int = 1, under_way: int = 64
) -> None:
    """Submits messages of one client at node 1, with so many requests under way.

    `first` is the client's number of the first one. Each has to be accepted.
    """
    payload, sent, got = b"x" * length, 0, 0
    with daemon.connect(1, LIMIT) as connection:
        while got < count:
            more = min(count - sent, under_way - (sent - got))
            if more:
                numbers = range(first + sent, first + sent + more)
                connection.send(*(Submit(CLIENT, number, payload) for number in numbers))
                sent += more
            for response in connection.receive(min(max(under_way // 4, 1), sent - got)):
                accepted(response)
                got += 1


def shown_of(daemon: Daemon) -> list[int]:
    """How many entries each node's log has."""
    return [daemon.node(node, LIMIT).status().shown for node in daemon.nodes]


def await_logs(daemon: Daemon, count: int) -> None:
    """Waits until all logs have so many entries."""

    def are_whole() -> bool:
        return min(shown_of(daemon)) >= count

    wait_until(are_whole, f"all logs have {count} entries", LIMIT, LOOK)


def megabytes(daemon: Daemon) -> float:
    """The resident memory of a group."""
    return daemon.memory() / MEGABYTE


def program_at(text: str) -> Program:
    """The built program at a path, in a command line."""
    path = Path(text).resolve()
    if not path.is_file() or not os.access(path, os.X_OK):
        raise argparse.ArgumentTypeError(f"{text} is no program")
    return Program(path)


def at_least(least: int) -> Callable[[str], int]:
    """A whole number in a command line, which is at least this."""

    def read(text: str) -> int:
        if not text.isdecimal() or int(text) < least:
            raise argparse.ArgumentTypeError(f"{text!r} isn't a number from {least} on")
        return int(text)

    return read


def duration(text: str) -> float:
    """A time in a command line, which is more than nothing."""
    try:
        value = float(text)
    except ValueError:
        value = 0.0
    if not 0 < value < 1e6:
        raise argparse.ArgumentTypeError(f"{text!r} is no number of seconds")
    return value


def run(main: Callable[[Sequence[str]], int]) -> NoReturn:
    """Ends with the status of a benchmark. If something fails, one line says what."""
    try:
        sys.exit(main(sys.argv[1:]))
    except (AssertionError, NotOpen, OSError, RefusedError) as fault:
        sys.exit(f"{Path(sys.argv[0]).name}: {fault}")
    except KeyboardInterrupt:
        sys.exit(130)
