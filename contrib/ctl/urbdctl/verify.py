"""Verifies the journals of a stopped group: what a start would answer, what is wrong, and where."""
from __future__ import annotations

import os
import sqlite3
from typing import Optional

from urbd.constants import MAX_NODES, Refusal
from urbdctl.errors import MISUSE, Trouble
from urbdctl.fitting import Images, first_misfit
from urbdctl.journals import (
    CERT,
    KINDS,
    PEND,
    Fault,
    Record,
    device,
    log_length,
    path_of,
    records_of,
    rows_of,
)

OLDEST_SQLITE = (3, 37)  # the first version with STRICT tables


def require_sqlite() -> None:
    """`Trouble` if Python's SQLite can't read the tables."""
    if sqlite3.sqlite_version_info < OLDEST_SQLITE:
        raise Trouble(
            f"SQLite {sqlite3.sqlite_version} can't read these tables: 3.37 or later is needed",
            MISUSE,
        )


def first_stranger(folder: str, nodes: int) -> Optional[Fault]:
    """The first journal of a node above N that a start refuses: it has rows, or can't be read."""
    for node in range(nodes + 1, MAX_NODES + 1):
        path = path_of(folder, node)
        try:
            has_rows = bool(records_of(path, to_use=False))
        except Fault as fault:
            if fault.number == Refusal.DEVICE:
                return fault
            has_rows = True
        if has_rows:
            cause = (
                f"{path} has records, of a group of more than {nodes} nodes: "
                "start with as many nodes as before"
            )
            return Fault(Refusal.INCONSISTENT, 0, cause)
    return None


def told(folder: str, node: int, records: list[Record]) -> str:
    """One line about a journal that can be read."""
    path = path_of(folder, node)
    held = {record.name for record in records if record.kind != CERT}
    own = sum(name[0] == node for name in held)
    has_wal = os.path.exists(path + "-wal") and os.path.getsize(path + "-wal") > 0
    files = f"{path}{' and its -wal' if has_wal else ''}"
    where = files if os.path.exists(path) else "no file: a start makes it"
    uncertified = len(held) - sum(record.kind != PEND for record in records)
    counts = f"{len(records)} records, {own} messages of its own, {uncertified} not certified here"
    return f"node {node}: {counts}, a log of {log_length(records)} ({where})"


def judge(folder: str, nodes: int, cap: int) -> Optional[Fault]:
    """Why a start would be refused; None if it opens the group. Prints a line for each node."""
    if not os.path.isdir(folder):
        print(f"node 1: {folder} is no folder")
        return device(f"{folder} can't be used")
    stranger = first_stranger(folder, nodes)
    if not os.access(folder, os.R_OK | os.W_OK | os.X_OK):
        print(f"node 1: {folder} is no folder that this user can write to")
        return stranger or device(f"{folder} can't be used")
    images: Images = {}
    faults = []
    for node in range(1, nodes + 1):
        try:
            images[node] = records_of(path_of(folder, node))
            print(told(folder, node, images[node]))
        except Fault as fault:
            faults.append(fault)
            print(f"node {node}: {fault}")
    if stranger or faults:
        return stranger or faults[0]
    return first_misfit(images, nodes, cap)


def verify(folder: str, nodes: int, cap: int) -> bool:
    """Prints what a start with these options would answer. Returns whether it opens the group."""
    require_sqlite()
    fault = judge(folder, nodes, cap)
    if fault is None:
        print(f"open {nodes}")
        return True
    print(f"urbd: refused {fault.number} {fault.detail}")
    print(fault.cause)
    return False


def list_records(folder: str, node: int) -> None:
    """Prints the records of a node's journal."""
    require_sqlite()
    try:
        for found in rows_of(path_of(folder, node)):
            _, kind, sender, seq, client, number, payload = found.row
            remark = f"  no record: {found.wrong}" if found.wrong else ""
            message = f"{client} {number} {payload.hex() or '-'}"
            name = f"{KINDS.get(kind, str(kind))} {sender}.{seq}"
            print(f"{found.place} {found.table} {name} {message}{remark}")
    except Fault as fault:
        raise Trouble(str(fault)) from None
