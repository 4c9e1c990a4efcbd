"""Copies the journals of a running group under load by `urbdctl backup`, and starts on each copy.

Each copy opens. What was accepted before it began is accepted again under its name, and its logs
begin with what was read before. The group goes on meanwhile. Run it as the program's user or root.
"""
from __future__ import annotations

import argparse
import sys
import threading
import time
from pathlib import Path

from urbd.frames import Entry

from trials.lib.command import parser_of, run_trial
from trials.lib.messages import Sent, log_of, logs_of
from trials.lib.program import Daemon, Options, Program, free_base_port
from trials.lib.tools import urbdctl

NODES = 3
LAST = 200  # messages of a node that are repeated at each copy
PAUSE = 1.0  # seconds before each copy
AFTER = 0.2  # seconds after which each client has sent more


def payload_of(node: int, number: int) -> bytes:
    return b"%d of %d " % (number, node) * (1 + number % 200)


class Load(threading.Thread):
    """One client of a node submits its messages, each until it is accepted."""

    def __init__(self, daemon: Daemon, node: int) -> None:
        super().__init__(daemon=True)
        self.connection, self.sent = daemon.connect(node), Sent(node, node)
        self.is_over = threading.Event()
        self.start()

    def run(self) -> None:
        with self.connection:
            while not self.is_over.is_set():
                payload = payload_of(self.sent.node, len(self.sent.payloads) + 1)
                self.sent.submit_all(self.connection, [payload])

    def end(self) -> None:
        self.is_over.set()
        self.join()


def opens(
    program: Program, copy: Path, loads: list[Load], counts: list[int], logs: list[list[Entry]]
) -> None:
    """A start on the copy has everything that was there before the copy began."""
    with program.serve(Options(copy, free_base_port(), NODES)) as daemon:
        for load, count, log in zip(loads, counts, logs):
            node = load.sent.node
            with daemon.connect(node) as connection:
                load.sent.repeat(connection, range(max(1, count - LAST), count + 1))
            is_same = log_of(daemon, node)[: len(log)] == log
            assert is_same, f"the copy's log of node {node} doesn't begin as it was read"


def copy_once(program: Program, daemon: Daemon, loads: list[Load], copy: Path) -> None:
    time.sleep(PAUSE)
    logs, counts = logs_of(daemon), [len(load.sent.payloads) for load in loads]
    run = urbdctl("backup", "--base-port", daemon.options.base_port, "--to", copy)
    assert run.returncode == 0 and run.stdout.endswith("the copy opens\n"), run.stdout
    print(f"{run.stdout.splitlines()[0]}; {sum(counts)} accepted before it", flush=True)
    opens(program, copy, loads, counts, logs)
    time.sleep(AFTER)
    for load, count in zip(loads, counts):
        assert len(load.sent.payloads) > count, f"node {load.sent.node} accepts no more"


def copy_under_load(program: Program, room: Path, options: argparse.Namespace) -> None:
    group = Options(room / "group", free_base_port(), NODES)
    group.folder.mkdir()
    with program.serve(group) as daemon:
        loads = [Load(daemon, node) for node in daemon.nodes]
        for turn in range(options.copies):
            copy_once(program, daemon, loads, room / f"copy-{turn}")
        for load in loads:
            load.end()
        daemon.stop()


def main(words: list[str]) -> int:
    parser = parser_of(__doc__ or "")
    parser.add_argument("--copies", type=int, default=5, help="how many copies are made")
    return run_trial(parser, words, copy_under_load)


if __name__ == "__main__":
    sys.exit(main(sys.argv[1:]))
