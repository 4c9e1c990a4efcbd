"""Whether the journals of a group fit together, by docs/FORMATS.md (Images that fit together)."""
from __future__ import annotations

from typing import Optional

from urbd.constants import Refusal
from urbdctl.journals import CERT, PEND, Fault, Message, Name, Record, path_of

Images = dict[int, list[Record]]
Pairs = dict[int, dict[Name, Message]]


class Reader:
    """Reads one node's records in order, and keeps what the rules ask about the earlier ones."""

    def __init__(self, pairs: Pairs, node: int, nodes: int, cap: int) -> None:
        self.pairs, self.node, self.nodes, self.cap = pairs, node, nodes, cap
        self.had: dict[Name, Message] = {}
        self.certified: set[Name] = set()
        self.own = 0
        self.of_client: dict[int, int] = {}

    def broken_by(self, record: Record) -> Optional[tuple[str, str]]:
        """The rule that the next record breaks, and why; None if it breaks none."""
        return (
            self._rule_a(record)
            or self._rule_b(record)
            or self._rule_c(record)
            or self._rule_d(record)
        )

    def _rule_a(self, record: Record) -> Optional[tuple[str, str]]:
        sender, seq = record.name
        if sender > self.nodes:
            return "a", f"the sender is no node of a group of {self.nodes}"
        if seq > self.cap:
            return "a", f"the number is over the cap of {self.cap}"
        if record.kind != CERT and record.name in self.had:
            return "a", "an earlier record has this name"
        if record.kind == CERT and record.name not in self.had:
            return "a", "no earlier record has the message of this certificate"
        if record.kind == CERT and record.name in self.certified:
            return "a", "an earlier record has certified this name"
        return None

    def _rule_b(self, record: Record) -> Optional[tuple[str, str]]:
        sender, seq = record.name
        message = record.message
        if message is None or sender != self.node:
            return None
        if seq != self.own + 1:
            return "b", f"the node's next message is number {self.own + 1}"
        wanted = self.of_client.get(message.client, 0) + 1
        if message.number != wanted:
            text = f"client {message.client}'s next number is {wanted}, not {message.number}"
            return "b", text
        self.own, self.of_client[message.client] = seq, message.number
        return None

    def _rule_c(self, record: Record) -> Optional[tuple[str, str]]:
        sender, name, message = record.name[0], record.name, record.message
        if message is None or sender == self.node:
            return None
        if self.pairs[sender].get(name) == message:
            return None
        is_other = name in self.pairs[sender]
        what = "another message under this name" if is_other else "no such message"
        file = path_of("", sender)
        return "c", f"{file} has {what}: it is lost, older, or of another group"

    def _rule_d(self, record: Record) -> Optional[tuple[str, str]]:
        if record.message is not None:
            self.had[record.name] = record.message
        if record.kind == PEND:
            return None
        self.certified.add(record.name)
        message = self.had[record.name]
        holders = [node for node, has in self.pairs.items() if has.get(record.name) == message]
        if 2 * len(holders) > self.nodes:
            return None
        files = ", ".join(path_of("", node) for node in holders)
        return "d", f"it is certified, and only {files} of {self.nodes} journals have it"


def first_misfit(images: Images, nodes: int, cap: int) -> Optional[Fault]:
    """The first record that breaks a rule, as a fault; None if no record does."""
    pairs: Pairs = {
        node: {record.name: record.message for record in records if record.message is not None}
        for node, records in images.items()
    }
    for node, records in images.items():
        reader = Reader(pairs, node, nodes, cap)
        for place, record in enumerate(records, 1):
            broken = reader.broken_by(record)
            if broken:
                rule, why = broken
                name = f"{record.name[0]}.{record.name[1]}"
                where = f"rule {rule}, node {node}, name {name}"
                file = path_of("", node)
                text = f"{where}, record {place} of {file}: {why}"
                return Fault(Refusal.INCONSISTENT, 0, text)
    return None
