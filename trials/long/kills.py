"""Three nodes and twelve clients, killed under load and started again.

Every message that was accepted is accepted again under its name after each start, and every log
begins with what was read of it before. At the end the program is stopped in order, and one file is
left of each journal. An opening that is killed at any moment leaves a folder that opens.
"""
from __future__ import annotations

import argparse
import random
import sys
import threading
import time
from pathlib import Path

from urbd.constants import Refusal
from urbd.frames import Accepted, Entry, Refused, Submit

from trials.lib.command import parser_of, run_trial
from trials.lib.messages import Sent, differences, logs_of, payload_of, some_of, wait_for_logs
from trials.lib.program import Daemon, Options, Program, files_of, free_base_port, journals_of

NODES = 3
CLIENTS = 12
TURN = 0.2  # seconds that a client keeps a connection: a node serves few at a time


class Client(threading.Thread):
    """Submits its messages 1, 2, 3, .. at one node, each until it is accepted."""

    def __init__(self, daemon: Daemon, sent: Sent) -> None:
        super().__init__(daemon=True)
        self.group, self.sent = daemon, sent

    def run(self) -> None:
        try:
            while True:
                with self.group.connect(self.sent.node) as connection:
                    end = time.monotonic() + TURN
                    while time.monotonic() < end:
                        number = len(self.sent.seqs) + 1
                        payload = payload_of(self.sent.client, number)
                        response = connection.ask(Submit(self.sent.client, number, payload))[0]
                        if isinstance(response, Accepted):
                            self.sent.seqs.append(response.seq)
                            self.sent.payloads.append(payload)
                        elif not isinstance(response, Refused) or response.number != Refusal.BUSY:
                            return
        except OSError:  # the program was killed
            pass


def repeat_all(daemon: Daemon, all_sent: list[Sent]) -> None:
    """Every accepted message is accepted again under its name (of many, some)."""
    for sent in all_sent:
        with daemon.connect(sent.node) as connection:
            sent.repeat(connection, some_of(len(sent.seqs)))


def compare(before: list[list[Entry]], logs: list[list[Entry]]) -> None:
    """Each log begins with what was read before, and the logs agree."""
    for node, (old, new) in enumerate(zip(before, logs), 1):
        assert new[: len(old)] == old, f"the log of node {node} doesn't begin as it was read before"
    wrong = differences(logs, range(1, NODES + 1))
    assert not wrong, wrong


def kill_while_opening(program: Program, folder: Path) -> None:
    """If an opening is killed at any moment, the folder still opens."""
    folder.mkdir()
    options = Options(folder, free_base_port(), NODES)
    for turn in range(30):
        process = program.start(options)
        time.sleep(0.002 * turn)
        process.kill()
        process.communicate()
    with program.serve(options) as daemon:
        daemon.stop()
    print("killed 30 times while it opened: it opens", flush=True)


def kill_under_load(program: Program, room: Path, options: argparse.Namespace) -> None:
    kill_while_opening(program, room / "opening")
    group = Options(room / "group", free_base_port(), NODES)
    group.folder.mkdir()
    all_sent = [Sent(client, 1 + client % NODES) for client in range(1, CLIENTS + 1)]
    before: list[list[Entry]] = [[] for _ in range(NODES)]
    for turn in range(1, options.kills + 1):
        with program.serve(group) as daemon:
            repeat_all(daemon, all_sent)
            clients = [Client(daemon, sent) for sent in all_sent]
            for client in clients:
                client.start()
            time.sleep(options.seconds * random.uniform(0.5, 1))
            logs = logs_of(daemon)
            compare(before, logs)
            before = logs
            time.sleep(options.seconds * random.uniform(0, 0.5))
            daemon.kill()
            for client in clients:
                client.join()
        count = sum(len(sent.seqs) for sent in all_sent)
        print(f"start {turn}: {count} accepted, logs of {list(map(len, logs))}", flush=True)
    with program.serve(group) as daemon:
        repeat_all(daemon, all_sent)
        compare(before, wait_for_logs(daemon, sum(len(sent.seqs) for sent in all_sent)))
        events = daemon.stop()
    left = files_of(group.folder)
    assert left == journals_of(NODES), f"a stop leaves one file a node, and not {left}"
    print(f"closed after {events} events; files: {' '.join(left)}")


def main(words: list[str]) -> int:
    parser = parser_of(__doc__ or "")
    parser.add_argument("--kills", type=int, default=5, help="how often it is killed")
    parser.add_argument("--seconds", type=float, default=2.0, help="how long it runs each time")
    return run_trial(parser, words, kill_under_load)


if __name__ == "__main__":
    sys.exit(main(sys.argv[1:]))
