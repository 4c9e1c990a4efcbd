"""What a follower asks next, and what it makes of the answers. No input or output is done here.

A follower reads one node's log while that node answers and is up, and then goes on at the next
node. It takes each message once, though two nodes may interleave two senders differently."""
from __future__ import annotations

from collections.abc import Sequence
from dataclasses import dataclass, field
from typing import Any, Optional

from urbd.addresses import Address, address_in, place_of
from urbd.constants import MOST_ENTRIES
from urbd.errors import Stopped
from urbd.frames import (
    MOST_MILLIS,
    Entries,
    Entry,
    GetStatus,
    Read,
    Request,
    Response,
    Status,
    Wait,
    expect,
)

MOST_PAGES = 16  # READs in one write


@dataclass(frozen=True)
class Place:
    """How far one node's log was read: the next place, and a digest of the entry before it."""

    next: int = 1
    digest: Optional[str] = None


@dataclass
class Position:
    """What a follower has read: the last number of each sender, and a place for each node's port or
    socket.

    Save it together with the results of the entries, as the JSON value of `to_json`."""

    seen: dict[int, int] = field(default_factory=dict)
    places: dict[Address, Place] = field(default_factory=dict)

    def to_json(self) -> dict[str, Any]:
        """The position as a value for a file."""
        return {
            "seen": {str(sender): seq for sender, seq in self.seen.items()},
            "places": {str(port): [at.next, at.digest] for port, at in self.places.items()},
        }

    @classmethod
    def from_json(cls, value: Optional[dict[str, Any]]) -> Position:
        """The position with this value; the beginning if there is none."""
        if value is None:
            return cls()
        try:
            return cls(
                {int(sender): int(seq) for sender, seq in value["seen"].items()},
                {address_in(at): Place(int(to[0]), to[1]) for at, to in value["places"].items()},
            )
        except (AttributeError, IndexError, KeyError, TypeError, ValueError):
            raise Stopped("the file isn't one that a follower has kept") from None


class Reading:
    """Which node is read, and from where. Each `take` function takes the answers to the requests
    of the function with the same ending."""

    def __init__(self, ports: Sequence[Address], position: Optional[Position] = None) -> None:
        if not ports:
            raise ValueError("a follower needs the port or the socket of at least one node")
        self.ports = list(ports)
        self.position = position or Position()
        self.at = 0
        self.pages = 1

    @property
    def port(self) -> Address:
        """The port of the node that is read, or the path of its socket."""
        return self.ports[self.at]

    @property
    def has_full_pages(self) -> bool:
        """Whether the last pages were full, so that more entries are there already."""
        return self.pages > 1

    def turn(self) -> None:
        """Goes on at the next node."""
        self.at, self.pages = (self.at + 1) % len(self.ports), 1

    def ask_pages(self) -> list[Request]:
        """READs from the entry before the place on, and STATUS. That entry shows whether the log is
        still the same."""
        place = self._place()
        first = place.next if place.digest is None else place.next - 1
        reads: list[Request] = [Read(first + MOST_ENTRIES * page) for page in range(self.pages)]
        return [*reads, GetStatus()]

    def take_pages(self, responses: Sequence[Response]) -> list[Entry]:
        """The entries that are new. If the node is down and has none, it is the next one's turn."""
        pages = [expect(Entries, response).entries for response in responses[:-1]]
        status = expect(Status, responses[-1])
        entries = self._joined(pages)
        place = self._place()
        if place.digest is not None:
            if not entries or entries[0].digest() != place.digest:
                raise Stopped(
                    f"the log at {place_of(self.port)} isn't the one that was read "
                    f"up to place {place.next - 1}"
                )
            entries = entries[1:]
        return self._take(entries, status)

    def ask_wait(self, seconds: float) -> list[Request]:
        """WAIT at the place, and STATUS. Only on a connection that has answered `ask_pages`: while
        a connection lasts, the log behind it stays the same."""
        millis = max(0, min(round(1000 * seconds), MOST_MILLIS))
        return [Wait(self._place().next, MOST_ENTRIES, millis), GetStatus()]

    def take_wait(self, responses: Sequence[Response]) -> list[Entry]:
        """The entries that came."""
        entries = list(expect(Entries, responses[0]).entries)
        if len(entries) == MOST_ENTRIES:
            self.pages = 2
        return self._take(entries, expect(Status, responses[1]))

    def _place(self) -> Place:
        return self.position.places.get(self.port, Place())

    def _take(self, entries: list[Entry], status: Status) -> list[Entry]:
        new = self._unseen(entries)
        if entries:
            after = Place(self._place().next + len(entries), entries[-1].digest())
            self.position.places[self.port] = after
        elif status.is_down:
            self.turn()
        return new

    def _joined(self, pages: Sequence[Sequence[Entry]]) -> list[Entry]:
        """The entries up to the first page that isn't full: a gap may be behind it."""
        entries: list[Entry] = []
        for page in pages:
            entries += page
            if len(page) < MOST_ENTRIES:
                self.pages = 1
                return entries
        self.pages = min(2 * self.pages, MOST_PAGES)
        return entries

    def _unseen(self, entries: Sequence[Entry]) -> list[Entry]:
        """The entries that were not read at another node before."""
        new, seen = [], dict(self.position.seen)
        for entry in entries:
            last = seen.get(entry.sender, 0)
            if entry.seq > last + 1:
                raise Stopped(
                    f"the log has {entry.name} after {entry.sender}.{last}: it is another group's"
                )
            if entry.seq == last + 1:
                seen[entry.sender] = entry.seq
                new.append(entry)
        self.position.seen = seen
        return new
