"""Checks a group for a monitoring system: a line, and a status as monitoring plugins have it."""
from __future__ import annotations

import time
from collections.abc import Sequence
from dataclasses import dataclass, field
from enum import IntEnum
from typing import Optional

from urbd import Status
from urbdctl import group as groups
from urbdctl.group import Group, Machine
from urbdctl.looks import LIMIT, ask
from urbdctl.show import listed, size

BETWEEN = 0.2  # seconds between the polls of a check
HOUR = 3600.0
PARTS = ("cap", "memory", "disk")


class Level(IntEnum):
    """The statuses of monitoring plugins."""

    OK = 0
    WARNING = 1
    CRITICAL = 2
    UNKNOWN = 3


@dataclass(frozen=True)
class Thresholds:
    """When a check warns, and when it is critical. Shares are in percent."""

    behind: float = 10.0
    cap: tuple[float, float] = (80.0, 95.0)
    memory: tuple[float, float] = (70.0, 90.0)
    disk: tuple[float, float] = (10.0, 3.0)
    backup_hours: tuple[float, float] = (26.0, 72.0)
    skipped: frozenset[str] = frozenset()


@dataclass
class Verdict:
    """What a check found. The worst finding decides its level, and unknown is no excuse: it counts
    unless something is known to be wrong."""

    findings: list[tuple[Level, str]] = field(default_factory=list)

    def add(self, level: Level, text: str) -> None:
        """Adds a finding."""
        self.findings.append((level, text))

    @property
    def level(self) -> Level:
        """The worst of its findings: critical, then warning, then unknown."""
        found = {level for level, _ in self.findings}
        order = (Level.CRITICAL, Level.WARNING, Level.UNKNOWN)
        return next((level for level in order if level in found), Level.OK)

    @property
    def line(self) -> str:
        """The findings, the worst first. What is fine is told only if nothing else is."""
        order = [Level.CRITICAL, Level.WARNING, Level.UNKNOWN, Level.OK]
        findings = sorted(self.findings, key=lambda finding: order.index(finding[0]))
        wrong = [text for level, text in findings if level != Level.OK]
        return f"{self.level.name}: " + "; ".join(wrong or [text for _, text in findings])


def check(group: Group, limits: Thresholds, backups: Optional[str] = None) -> Verdict:
    """Checks the nodes, their logs, the cap, memory, the disk, and the age of the last backup."""
    verdict = Verdict()
    statuses = check_nodes(group, limits.behind, verdict)
    check_cap(group, statuses, limits, verdict)
    check_machine(groups.machine_of(group), limits, verdict)
    if backups is not None:
        check_backup(groups.newest_backup(backups), limits, verdict)
    return verdict


def check_nodes(group: Group, seconds: float, verdict: Verdict) -> list[Optional[Status]]:
    """Waits until no log lacks what had been accepted at the first poll, for a limited time."""
    begin, due = time.monotonic(), None
    while True:
        statuses = ask(group)
        silent = [node for node in group.numbers if statuses[node - 1] is None]
        up = [status for status in statuses if status is not None]
        down = [node for node in group.numbers if is_down(statuses[node - 1])]
        if silent:
            verdict.add(Level.CRITICAL, f"no answer from {listed(silent)} within {LIMIT:.0f} s")
        if down:
            verdict.add(Level.CRITICAL, f"{listed(down)} down: find the cause, then restart")
        if silent or down:
            return statuses
        due = sum(status.accepted for status in up) if due is None else due
        lacking = [node for node, status in enumerate(up, 1) if status.shown < due]
        if not lacking:
            logs = ", ".join(str(status.shown) for status in up)
            count = "1 node" if group.nodes == 1 else f"{group.nodes} nodes"
            verdict.add(Level.OK, f"{count} up, logs of {logs}")
            return statuses
        if time.monotonic() - begin > seconds:
            lacks = ", ".join(str(due - up[node - 1].shown) for node in lacking)
            text = f"{listed(lacking)} behind for more than {seconds:g} s: {lacks} messages"
            verdict.add(Level.WARNING, text)
            return statuses
        time.sleep(min(BETWEEN, seconds))


def is_down(status: Optional[Status]) -> bool:
    """Whether a node has said that it is down."""
    return status is not None and status.is_down


def check_cap(
    group: Group, statuses: Sequence[Optional[Status]], limits: Thresholds, verdict: Verdict
) -> None:
    """A node at its cap refuses each new message."""
    if "cap" in limits.skipped:
        return
    if group.cap is None:
        verdict.add(Level.UNKNOWN, "the cap isn't known: give --cap, or --skip cap")
        return
    for node, status in enumerate(statuses, 1):
        if status is not None:
            share = 100 * status.accepted / group.cap
            if status.accepted >= group.cap:
                verdict.add(Level.CRITICAL, f"node {node} is full: it has {group.cap} messages")
            else:
                compare(share, limits.cap, f"node {node} is at {share:.1f} % of its cap", verdict)


def check_machine(machine: Machine, limits: Thresholds, verdict: Verdict) -> None:
    """Memory that runs out kills the program, and a full disk takes nodes down."""
    if "memory" not in limits.skipped:
        if machine.memory is None or machine.memory_limit is None:
            verdict.add(Level.UNKNOWN, "the memory isn't known: see --skip memory")
        else:
            share = 100 * machine.memory / machine.memory_limit
            text = f"the program has {size(machine.memory)}, {share:.0f} % of the memory"
            compare(share, limits.memory, text, verdict)
    if "disk" not in limits.skipped:
        if machine.disk_free is None or not machine.disk_size:
            verdict.add(Level.UNKNOWN, "the disk isn't known: give --dir, or --skip disk")
        else:
            share = 100 * machine.disk_free / machine.disk_size
            text = f"the disk has {size(machine.disk_free)} free, {share:.1f} %"
            below = (-limits.disk[0], -limits.disk[1])
            compare(-share, below, text, verdict)


def check_backup(moment: Optional[float], limits: Thresholds, verdict: Verdict) -> None:
    """A lost disk takes what was accepted since the last backup."""
    if moment is None:
        verdict.add(Level.CRITICAL, "there is no backup")
        return
    hours = (time.time() - moment) / HOUR
    compare(hours, limits.backup_hours, f"the last backup is {hours:.0f} hours old", verdict)


def compare(value: float, limits: tuple[float, float], text: str, verdict: Verdict) -> None:
    """Adds a finding if the value has reached a limit."""
    if value >= limits[1]:
        verdict.add(Level.CRITICAL, text)
    elif value >= limits[0]:
        verdict.add(Level.WARNING, text)
