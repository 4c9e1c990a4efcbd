"""Alerts and the dashboard: each row that should alert somebody has an alert, over real figures."""
from __future__ import annotations

import json
import re
from collections.abc import Iterator
from dataclasses import dataclass, field
from typing import Any

from tools.tree import Misfit, Tree

OPERATIONS = "docs/OPERATIONS.md"
MONITORING = "docs/MONITORING.md"
FIGURES = "contrib/ctl/urbdctl/metrics.py"
RULES = "contrib/monitoring/urbd.rules.yml"
DASHBOARD = "contrib/monitoring/dashboard.json"
PICTURE = "docs/pictures/dashboard.svg"
HEAD = "| alert on |"  # of the table in OPERATIONS

NAME = re.compile(r"\burbd_[a-z_]+\b")
PRINTED = re.compile(r'Metric\(\s*"(urbd_[a-z_]+)"')
KEY = re.compile(r"( +)(?:- )?([a-z]+):(?: (.*))?$")
PERCENT = re.compile(r"(\d+) %")


@dataclass
class Alert:
    """An alert of the rules: its line, its name, and its other keys with those of annotations."""

    line: int
    name: str
    fields: dict[str, str] = field(default_factory=dict)

    @property
    def expr(self) -> str:
        return self.fields.get("expr", "")

    @property
    def row(self) -> str:
        return self.fields.get("row", "").strip('"')


@dataclass(frozen=True)
class Row:
    """A row of the table of alerts: its line, and its first two cells."""

    line: int
    name: str
    when: str


def alerts_of(text: str) -> list[Alert]:
    """The alerts of a file of rules. A value may go on in the lines below its key."""
    alerts: list[Alert] = []
    key = ""
    for number, line in enumerate(text.splitlines(), 1):
        found = KEY.match(line)
        if found and found.group(2) == "alert":
            alerts.append(Alert(number, found.group(3)))
            key = ""
        elif found and alerts:
            key, value = found.group(2), found.group(3) or ""
            alerts[-1].fields[key] = "" if value == ">-" else value
        elif key:
            told = f"{alerts[-1].fields[key]} {line.strip()}"
            alerts[-1].fields[key] = told.strip()
    return alerts


def rows_of(text: str) -> list[Row]:
    """The rows of the table of alerts."""
    rows: list[Row] = []
    is_inside = False
    for number, line in enumerate(text.splitlines(), 1):
        if line.startswith(HEAD):
            is_inside = True
        elif is_inside and not line.startswith("|"):
            return rows
        elif is_inside and not line.startswith("|---"):
            name, when = line.replace("`", "").strip("| ").split(" | ")[:2]
            rows.append(Row(number, name, when))
    return rows


def alerts(tree: Tree) -> Iterator[Misfit]:
    """Each row of the table of alerts has an alert, and each alert one row and the row's limit."""
    rows = {row.name: row for row in rows_of(tree.text_of(OPERATIONS))}
    found = alerts_of(tree.text_of(RULES))
    if not rows:
        yield Misfit(OPERATIONS, "has no table of alerts")
    for row in rows.values():
        if row.name not in [alert.row for alert in found]:
            yield Misfit(f"{OPERATIONS}:{row.line}", f"no alert stands for `{row.name}`")
    for alert in found:
        place = f"{RULES}:{alert.line}"
        if alert.row not in rows:
            yield Misfit(place, f"{alert.name} stands for no row of {OPERATIONS}")
            continue
        limit = PERCENT.match(rows[alert.row].when)
        if limit and f"{int(limit.group(1)) / 100:g}" not in alert.expr:
            yield Misfit(place, f"{alert.name} doesn't alert at {limit.group(0)}")


def figures(tree: Tree) -> Iterator[Misfit]:
    """Alerts, dashboard and page name figures that are printed, and the page names each."""
    printed = set(PRINTED.findall(tree.text_of(FIGURES)))
    for alert in alerts_of(tree.text_of(RULES)):
        yield from unknown(f"{RULES}:{alert.line}", alert.expr, printed)
    for panel in panels_of(tree):
        for target in panel["targets"]:
            yield from unknown(f"{DASHBOARD}: {panel['title']}", target["expr"], printed)
    told = set(re.findall(r"`(urbd_[a-z_]+)`", tree.text_of(MONITORING)))
    for name in sorted(told ^ printed):
        yield Misfit(MONITORING, f"`{name}` is printed or told, and not both")


def unknown(place: str, expr: str, printed: set[str]) -> Iterator[Misfit]:
    """What an expression names and nobody prints. It names at least one figure."""
    names = NAME.findall(expr)
    if not names:
        yield Misfit(place, "names no figure")
    for name in names:
        if name not in printed:
            yield Misfit(place, f"urbdctl metrics prints no {name}")


def panels_of(tree: Tree) -> list[dict[str, Any]]:
    """The panels of the dashboard."""
    text = tree.text_of(DASHBOARD)
    panels: list[dict[str, Any]] = json.loads(text)["panels"] if text else []
    return panels


def picture(tree: Tree) -> Iterator[Misfit]:
    """The picture of the dashboard has each panel."""
    drawn = tree.text_of(PICTURE)
    for panel in panels_of(tree):
        if f">{panel['title']}</text>" not in drawn:
            yield Misfit(PICTURE, f"has no panel '{panel['title']}'")
