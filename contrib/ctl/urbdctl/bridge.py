"""Copies one node's log into another system, entry by entry: nothing lost, nothing twice, in order.

The target itself holds how far the copy goes, in the same write as the entries. So the bridge, the
node and the target may each stop at any moment. docs/BRIDGE.md says what is promised."""
from __future__ import annotations

import time
from collections.abc import Callable, Sequence
from dataclasses import dataclass
from typing import Optional, Protocol

from urbd import Entry, Node, RefusedError
from urbd.constants import MOST_ENTRIES
from urbd.frames import Entries, Read, expect
from urbdctl.errors import MISUSE, Trouble

PAGES = 4  # READs in one write: so many entries stand in one write of the target
LIMIT = 10.0  # seconds that the target has for an answer
LEAST_PAUSE, MOST_PAUSE = 0.01, 1.0  # seconds between looks that bring nothing


class Changed(Trouble):
    """The node's log isn't the one that was copied before."""


@dataclass(frozen=True)
class Checkpoint:
    """How far a copy goes: the next place, and a digest of the entry before it, if it is known."""

    next: int = 1
    last: Optional[str] = None


class Target(Protocol):
    """What a log is copied to. A fault that may pass is an `OSError`, which names the address."""

    def checkpoint(self, first: str) -> Checkpoint:
        """How far the copy goes. `first` is the digest of the log's first entry; `Changed` if the
        copy began with another one."""

    def append(self, place: int, entries: Sequence[Entry]) -> Checkpoint:
        """Appends entries from this place on, if the copy still goes up to that place."""


def host_and_port(address: str) -> tuple[str, int]:
    """The parts of an address, which is HOST:PORT."""
    host, colon, port = address.rpartition(":")
    if not (colon and host and port.isdecimal() and 0 < int(port) < 65536):
        raise Trouble(f"{address!r} is no address: write HOST:PORT", MISUSE)
    return host, int(port)


def require_same_first(first: str, was: str) -> None:
    """`Changed` if the first entry isn't the one that was copied."""
    if first != was:
        raise Changed(
            "the log's first entry isn't the one that was copied: its folder was begun anew"
        )


def following(node: Node, at: Checkpoint) -> list[Entry]:
    """The entries from the checkpoint on, a few pages at most. The entry before it must be the one
    that was copied last."""
    begin = max(at.next - 1, 1)
    entries: list[Entry] = []
    for response in node.ask(*(Read(begin + MOST_ENTRIES * page) for page in range(PAGES))):
        page = expect(Entries, response).entries
        entries += page
        if len(page) < MOST_ENTRIES:
            break
    if begin == at.next:
        return entries
    if not entries or at.last is not None and entries[0].digest() != at.last:
        raise Changed(f"the log's entry at place {at.next - 1} isn't the one that was copied")
    return entries[1:]


def checkpoint_of(node: Node, target: Target) -> Optional[Checkpoint]:
    """The place where the copy continues; None while the log is empty and nothing was copied."""
    first = node.read(1, 1)
    return target.checkpoint(first[0].digest()) if first else None


class Bridge:
    """Copies step by step. After a fault of either side, and about once a second while nothing
    comes, it asks the target again how far the copy goes: a target may lose what it had."""

    def __init__(self, node: Node, target: Target, note: Callable[[str], None]) -> None:
        self.node, self.target, self.note = node, target, note
        self.at: Optional[Checkpoint] = None
        self.furthest = 1
        self.fault: Optional[str] = None
        self.pause = LEAST_PAUSE

    def run(self) -> None:
        """Copies forever."""
        while True:
            if not self.step():
                time.sleep(self.pause)
                if self.pause == MOST_PAUSE:
                    self.at = None
                self.pause = min(2 * self.pause, MOST_PAUSE)

    def step(self) -> bool:
        """Copies a few entries, and returns whether there were some."""
        try:
            at = self.at = self.at or checkpoint_of(self.node, self.target)
            entries = following(self.node, at) if at else []
            if at and at.next < self.furthest:
                self.note(f"the target lost entries: goes on at place {at.next}")
                self.furthest = at.next
            if at and entries:
                self.at = self.target.append(at.next, entries)
                self.furthest = self.at.next
                self.pause = LEAST_PAUSE
        except (OSError, RefusedError) as fault:
            self.at = None
            if str(fault) != self.fault:
                self.fault = str(fault)
                self.note(f"waits: {fault}")
            return False
        if self.fault:
            self.fault = None
            self.note("goes on")
        return bool(entries)
