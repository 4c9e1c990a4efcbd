"""A look at a group: what each node says now, and for how long each log has lacked messages."""
from __future__ import annotations

import time
from collections.abc import Sequence
from concurrent.futures import ThreadPoolExecutor
from dataclasses import dataclass
from typing import Any, Optional

from urbd import Node, RefusedError, Status
from urbdctl.group import Group, Machine, machine_of

LIMIT = 1.0  # seconds that a node has for its answer
KEPT = 1000  # polls that are kept; if there are more, every second one is dropped
NO_ANSWER = "no answer"

Statuses = Sequence[Optional[Status]]


def ask(group: Group) -> list[Optional[Status]]:
    """Each node's status; None for one that doesn't answer in time. No connection stays open."""

    def one(node: int) -> Optional[Status]:
        try:
            return Node(group.at(node), LIMIT).status()
        except (OSError, RefusedError):
            return None

    with ThreadPoolExecutor(group.nodes) as pool:
        return list(pool.map(one, group.numbers))


class Lag:
    """For how long each log has lacked what was accepted. It keeps, for each poll, the count of
    messages that all nodes had accepted."""

    def __init__(self, nodes: int) -> None:
        self.accepted = [0] * nodes
        self.polls: list[tuple[float, int]] = []
        self.count = 0

    def add(self, moment: float, statuses: Statuses) -> None:
        """Adds a poll. A node without an answer has accepted what it had before."""
        self.count += 1
        both = zip(statuses, self.accepted)
        self.accepted = [status.accepted if status else before for status, before in both]
        least = min((status.shown for status in statuses if status), default=0)
        polls = [poll for poll in self.polls if poll[1] > least]
        kept = polls[::2] if len(polls) > KEPT else polls
        self.polls = kept + [(moment, sum(self.accepted))]

    def behind(self, status: Status) -> int:
        """How many of the messages that had been accepted at the last poll a log lacks."""
        return max(sum(self.accepted) - status.shown, 0)

    def seconds(self, status: Status) -> Optional[float]:
        """For how long it has lacked some message: from the first poll whose messages it lacks to
        the last poll. None after one poll, which says nothing about a time."""
        if self.count < 2:
            return None
        last = self.polls[-1][0]
        lacking = (moment for moment, accepted in self.polls if accepted > status.shown)
        return last - next(lacking, last)


@dataclass(frozen=True)
class NodeLook:
    """One node at one look. What is None isn't known."""

    node: int
    state: str
    accepted: Optional[int] = None
    shown: Optional[int] = None
    behind: Optional[int] = None
    behind_seconds: Optional[float] = None
    cap_share: Optional[float] = None


@dataclass(frozen=True)
class Look:
    """A group at one moment, in seconds since 1970."""

    group: Group
    moment: float
    nodes: list[NodeLook]
    machine: Machine

    def to_json(self) -> dict[str, Any]:
        """The look as a value; what isn't known is left out."""
        machine = {
            "memory_bytes": self.machine.memory,
            "memory_limit_bytes": self.machine.memory_limit,
            "journal_bytes": self.machine.journals,
            "disk_free_bytes": self.machine.disk_free,
            "disk_size_bytes": self.machine.disk_size,
        }
        return {
            "base_port": self.group.base_port,
            **known({"process": self.group.pid, "cap": self.group.cap, "dir": self.group.dir}),
            "nodes": [known(vars(node)) for node in self.nodes],
            **known(machine),
        }


def known(values: dict[str, Any]) -> dict[str, Any]:
    """The values that are known."""
    return {name: value for name, value in values.items() if value is not None}


def look(group: Group, lag: Lag, statuses: Optional[Statuses] = None) -> Look:
    """Looks at the group now, and adds the poll to `lag`. `statuses` are given by tests."""
    answers = ask(group) if statuses is None else statuses
    lag.add(time.monotonic(), answers)
    nodes = [node_look(group, lag, node, answers[node - 1]) for node in group.numbers]
    return Look(group, time.time(), nodes, machine_of(group))


def node_look(group: Group, lag: Lag, node: int, status: Optional[Status]) -> NodeLook:
    """What a look shows of one node."""
    if status is None:
        return NodeLook(node, NO_ANSWER)
    return NodeLook(
        node,
        status.state,
        status.accepted,
        status.shown,
        lag.behind(status),
        lag.seconds(status),
        status.accepted / group.cap if group.cap else None,
    )
