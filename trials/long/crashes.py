"""Nodes that clients crash and restart while other clients submit and read.

At the end the program is killed and started again: each accepted message is accepted again under
its name, and each log begins with what was read of it.
"""
from __future__ import annotations

import argparse
import random
import sys
import threading
import time
from pathlib import Path

from urbd.constants import MAX_PAYLOAD, Refusal
from urbd.frames import Accepted, Entry, Refused, Submit

from trials.lib.command import parser_of, run_trial
from trials.lib.messages import Sent, log_of
from trials.lib.program import Daemon, Options, Program, free_base_port

NODES = 3
# What a node may answer to a submit around a crash.
AROUND_A_CRASH = (Refusal.DOWN, Refusal.BUSY, Refusal.STALE)


def payload_of(node: int, number: int) -> bytes:
    """Mostly some hundred bytes; each fiftieth payload has the greatest length."""
    text = b"%d of %d " % (number, node)
    return (text * MAX_PAYLOAD)[:MAX_PAYLOAD] if number % 50 == 0 else text * (1 + number % 50)


class Traffic:
    """What is done at each node until the time is over, and what came of it."""

    def __init__(self, daemon: Daemon, seconds: float) -> None:
        self.daemon, self.end = daemon, time.monotonic() + seconds
        self.sent = {node: Sent(node, node) for node in daemon.nodes}
        self.seen: dict[int, list[Entry]] = {node: [] for node in daemon.nodes}
        self.crashes = 0
        self.faults: list[str] = []

    def is_over(self) -> bool:
        return time.monotonic() > self.end

    def submit(self, node: int) -> None:
        """One client submits its messages, each until it is accepted."""
        sent = self.sent[node]
        with self.daemon.connect(node) as connection:
            while not self.is_over():
                number = len(sent.seqs) + 1
                payload = payload_of(node, number)
                response = connection.ask(Submit(node, number, payload))[0]
                if isinstance(response, Accepted):
                    sent.seqs.append(response.seq)
                    sent.payloads.append(payload)
                elif not isinstance(response, Refused) or response.number not in AROUND_A_CRASH:
                    self.faults.append(f"message {number} of node {node}: {response}")
                    return

    def follow(self, node: int) -> None:
        """One reader, which continues from where it stopped."""
        with self.daemon.connect(node) as connection:
            while not self.is_over():
                self.seen[node] += connection.read(len(self.seen[node]) + 1)

    def disturb(self) -> None:
        """One node after the other is crashed, and restarted a moment later."""
        while not self.is_over():
            node = self.daemon.node(random.choice(self.daemon.nodes))
            node.crash()
            time.sleep(random.uniform(0, 0.1))
            node.restart()
            time.sleep(random.uniform(0, 0.1))
            self.crashes += 1

    def run(self) -> None:
        threads = [threading.Thread(target=self.disturb)]
        for node in self.daemon.nodes:
            threads.append(threading.Thread(target=self.submit, args=(node,)))
            threads.append(threading.Thread(target=self.follow, args=(node,)))
        for thread in threads:
            thread.start()
        for thread in threads:
            thread.join()


def crash_under_load(program: Program, room: Path, options: argparse.Namespace) -> None:
    group = Options(room / "group", free_base_port(), NODES)
    group.folder.mkdir()
    with program.serve(group) as daemon:
        traffic = Traffic(daemon, options.seconds)
        traffic.run()
        counts = [len(it.seqs) for it in traffic.sent.values()]
        seen = list(map(len, traffic.seen.values()))
        print(f"{traffic.crashes} crashes and restarts; accepted {counts}, read {seen}", flush=True)
        assert not traffic.faults, traffic.faults
        assert traffic.crashes and all(counts), "expected that something was tried at each node"
        daemon.kill()
    with program.serve(group) as daemon:
        for node, sent in traffic.sent.items():
            with daemon.connect(node) as connection:
                sent.repeat(connection, range(1, len(sent.seqs) + 1))
            log = log_of(daemon, node)
            was = traffic.seen[node]
            assert log[: len(was)] == was, f"the log of node {node} doesn't begin as it was read"
        daemon.stop()


def main(words: list[str]) -> int:
    parser = parser_of(__doc__ or "")
    parser.add_argument("--seconds", type=float, default=20.0, help="how long nodes are crashed")
    return run_trial(parser, words, crash_under_load)


if __name__ == "__main__":
    sys.exit(main(sys.argv[1:]))
