"""Shows a group as a table or as JSON: once (`status`), or again and again (`watch`)."""
from __future__ import annotations

import json
import sys
import time
from collections.abc import Sequence
from typing import Optional

from urbdctl.group import Group
from urbdctl.looks import Lag, Look, NodeLook, look

CLEAR = "\x1b[H\x1b[J"  # what begins a new picture on a terminal


def size(count: Optional[int]) -> str:
    """Bytes in words."""
    if count is None:
        return "unknown"
    for unit, bytes_of in (("GB", 1e9), ("MB", 1e6)):
        if count >= 10 * bytes_of:
            return f"{count / bytes_of:,.0f} {unit}"
    return f"{count / 1e3:,.0f} kB"


def row(node: NodeLook) -> str:
    """A node's row of the table."""
    begin = f"{node.node:<5}{node.state:10}"
    if node.accepted is None:
        return begin.rstrip()
    share = "unknown" if node.cap_share is None else f"{100 * node.cap_share:.1f} %"
    since = ""
    if node.behind and node.behind_seconds is not None:
        since = f"{node.behind_seconds:.0f} s"
    cells = f"{node.accepted:>10,}{share:>12}{node.shown:>10,}{node.behind:>10,}{since:>9}"
    return (begin + cells).rstrip()


def table(seen: Look) -> str:
    """A look as a table."""
    at = time.strftime("%H:%M:%S", time.localtime(seen.moment))
    machine = seen.machine
    lines = [
        f"urbd at {seen.group.base_port}, process {seen.group.pid or 'unknown'}, {at}",
        f"{'node':5}{'state':10}{'accepted':>10}{'of the cap':>12}{'shown':>10}{'behind':>10}"
        f"{'for':>9}",
        *map(row, seen.nodes),
        f"memory {size(machine.memory)}, journals {size(machine.journals)}, "
        f"free on their disk {size(machine.disk_free)}",
    ]
    return "\n".join(lines)


def show_once(group: Group, as_json: bool) -> bool:
    """Prints one look. Returns whether all nodes are up."""
    seen = look(group, Lag(group.nodes))
    print(json.dumps(seen.to_json()) if as_json else table(seen))
    return all(is_up(node) for node in seen.nodes)


def is_up(node: NodeLook) -> bool:
    """Whether a node answers and isn't down."""
    return node.accepted is not None and node.state != "down"


def watch(group: Group, every: float, as_json: bool) -> None:
    """Prints a look every few seconds, until it is interrupted."""
    lag = Lag(group.nodes)
    while True:
        seen = look(group, lag)
        text = json.dumps(seen.to_json()) if as_json else table(seen)
        begin = CLEAR if sys.stdout.isatty() and not as_json else ""
        print(begin + text, flush=True)
        time.sleep(every)


def listed(nodes: Sequence[int]) -> str:
    """The numbers of nodes in words."""
    return ("node " if len(nodes) == 1 else "nodes ") + ", ".join(map(str, nodes))
