"""A running group whose folder is moved away while another group takes its place.

Nothing that either group accepted is lost, whichever stops first, and in whatever way.
"""
from __future__ import annotations

import argparse
import os
import sys
from collections.abc import Callable
from pathlib import Path

from trials.lib.command import parser_of, run_trial
from trials.lib.messages import Sent, log_of
from trials.lib.program import Daemon, Options, Program, files_of, free_base_port, journals_of

CLIENT = 7


def accept(daemon: Daemon, sent: Sent, payload: bytes) -> None:
    with daemon.connect(1) as connection:
        sent.submit_all(connection, [payload])


def has_all(program: Program, folder: Path, sent: Sent) -> None:
    """A group on this folder accepts each message again under its name, shows all, and stops."""
    with program.serve(Options(folder, free_base_port())) as daemon:
        with daemon.connect(1) as connection:
            sent.repeat(connection, range(1, len(sent.seqs) + 1))
        shown = [entry.payload for entry in log_of(daemon, 1)]
        assert shown == sent.payloads, f"expected {sent.payloads}, and {folder} has {shown}"
        daemon.stop()
    assert files_of(folder) == journals_of(1), files_of(folder)


def move_folder(folder: Path, away: Path) -> None:
    folder.rename(away)
    folder.mkdir()


def move_files(folder: Path, away: Path) -> None:
    away.mkdir()
    for name in os.listdir(folder):
        (folder / name).rename(away / name)


def move(program: Program, room: Path, replace: Callable[[Path, Path], None]) -> None:
    """Moves a running group's folder, and starts another group in its place. One stops in order."""
    room.mkdir()
    folder, away = room / "group", room / "away"
    folder.mkdir()
    first, second = Sent(CLIENT, 1), Sent(CLIENT, 1)
    with program.serve(Options(folder, free_base_port())) as moved:
        accept(moved, first, b"first")
        replace(folder, away)
        with program.serve(Options(folder, free_base_port())) as other:
            accept(other, second, b"second")
            accept(moved, first, b"more of the first")
            moved.stop()
            accept(other, second, b"more of the second")
            other.kill()
    has_all(program, folder, second)
    has_all(program, away, first)


def move_both(program: Program, room: Path, options: argparse.Namespace) -> None:
    move(program, room / "folder", move_folder)
    move(program, room / "files", move_files)
    print("what was moved away and what came in its place: nothing lost")


def main(words: list[str]) -> int:
    return run_trial(parser_of(__doc__ or ""), words, move_both)


if __name__ == "__main__":
    sys.exit(main(sys.argv[1:]))
