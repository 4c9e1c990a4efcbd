"""Messages that trials submit, and what a group has to show of them."""
from __future__ import annotations

import random
from collections.abc import Iterable, Sequence
from dataclasses import dataclass, field

from urbd.constants import MAX_PAYLOAD
from urbd.frames import Accepted, Entry, Response, Submit
from urbd.node import Connection

from trials.lib.program import PATIENCE, Daemon, wait_until

AT_ONCE = 64  # submits in one write


def payload_of(client: int, number: int) -> bytes:
    """Mostly a few bytes; each hundredth payload has the greatest length."""
    text = b"%d:%d " % (client, number)
    whole = MAX_PAYLOAD if number % 100 == 0 else len(text) * (1 + number % 5)
    return (text * MAX_PAYLOAD)[:whole]


@dataclass
class Sent:
    """What one client has sent to one node: payloads by number, from 1, and the names' numbers."""

    client: int
    node: int
    payloads: list[bytes] = field(default_factory=list)
    seqs: list[int] = field(default_factory=list)

    def requests(self, payloads: Iterable[bytes]) -> list[Submit]:
        """The submits of further messages."""
        first = len(self.payloads) + 1
        return [Submit(self.client, first + at, it) for at, it in enumerate(payloads)]

    def submit_all(self, connection: Connection, payloads: Sequence[bytes]) -> None:
        """Submits further messages, many in one write. Each has to be accepted."""
        for begin in range(0, len(payloads), AT_ONCE):
            part = payloads[begin : begin + AT_ONCE]
            for payload, response in zip(part, connection.ask(*self.requests(part))):
                self.seqs.append(accepted(response))
                self.payloads.append(payload)

    def repeat(self, connection: Connection, numbers: Iterable[int]) -> None:
        """Submits these messages again: each has to be accepted under the name that it has."""
        wanted = list(numbers)
        for begin in range(0, len(wanted), AT_ONCE):
            part = wanted[begin : begin + AT_ONCE]
            asks = [Submit(self.client, it, self.payloads[it - 1]) for it in part]
            for number, response in zip(part, connection.ask(*asks)):
                seq = accepted(response)
                if seq != self.seqs[number - 1]:
                    raise AssertionError(
                        f"message {number} of client {self.client} was accepted under"
                        f" {self.seqs[number - 1]}, and is now under {seq}"
                    )

    def entry(self, number: int) -> Entry:
        """The entry of a message in a log."""
        seq, payload = self.seqs[number - 1], self.payloads[number - 1]
        return Entry(self.node, seq, self.client, number, payload)


def accepted(response: Response) -> int:
    """The number of the name under which a message was accepted."""
    if not isinstance(response, Accepted):
        raise AssertionError(f"expected that the message is accepted, and got {response}")
    return response.seq


def some_of(count: int, most: int = 300) -> Sequence[int]:
    """The numbers 1 to count, or some of them at random with the last ones."""
    if count <= most:
        return range(1, count + 1)
    last = most // 3
    chosen = random.sample(range(1, count + 1), most - last)
    return sorted({*chosen, *range(count - last + 1, count + 1)})


def log_of(daemon: Daemon, node: int) -> list[Entry]:
    """The whole log of a node."""
    with daemon.connect(node) as connection:
        return list(connection.log())


def logs_of(daemon: Daemon) -> list[list[Entry]]:
    """The logs of all nodes."""
    return [log_of(daemon, node) for node in daemon.nodes]


def wait_for_logs(daemon: Daemon, count: int, limit: float = PATIENCE) -> list[list[Entry]]:
    """Waits until each node shows this many entries, and gives the logs."""

    def are_whole() -> bool:
        return all(daemon.node(node).status().shown >= count for node in daemon.nodes)

    wait_until(are_whole, f"each of {len(daemon.nodes)} logs shows {count} entries", limit)
    return logs_of(daemon)


def differences(logs: Sequence[Sequence[Entry]], senders: Iterable[int]) -> list[str]:
    """Where logs break the promise: names in order, and of two logs one begins the other."""
    wrong = []
    for sender in senders:
        parts = [[it for it in log if it.sender == sender] for log in logs]
        longest = max(parts, key=len)
        for node, part in enumerate(parts, 1):
            numbers = [it.seq for it in part]
            if numbers != list(range(1, len(part) + 1)):
                wrong.append(f"node {node}: the names of {sender} aren't 1 to {len(part)}")
            if part != longest[: len(part)]:
                wrong.append(f"node {node}: its messages of {sender} aren't those of the others")
    return wrong
