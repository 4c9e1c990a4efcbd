"""Journals that are made by docs/FORMATS.md with Python's sqlite3. Needs SQLite 3.37 or later."""
from __future__ import annotations

import os
import sqlite3
from collections.abc import Sequence
from typing import Any, Optional, Union

from urbdctl.journals import CERT, CREATE, LONGEST, path_of

Fields = tuple[int, int, int, int, int, bytes]
Statement = Union[str, tuple[str, Sequence[Any]]]


def record(
    kind: int,
    name: str,
    client: int = 7,
    number: Optional[int] = None,
    payload: Optional[bytes] = None,
) -> Fields:
    """A record of a name "S.N". By default its message is number N of client 7."""
    sender, seq = map(int, name.split("."))
    if kind == CERT:
        return kind, sender, seq, 0, 0, b""
    text = name.encode() if payload is None else payload
    return kind, sender, seq, client, seq if number is None else number, text


def change(path: str, *statements: Statement) -> None:
    """Runs statements on a file that nobody else holds."""
    connection = sqlite3.connect(path, isolation_level=None)
    connection.execute("PRAGMA synchronous=OFF")
    for statement in statements:
        if isinstance(statement, str):
            connection.execute(statement)
        else:
            connection.execute(*statement)
    connection.close()


def insert(table: str, pos: int, fields: Fields) -> Statement:
    """The statement that adds a record to a table."""
    return f"INSERT INTO {table} VALUES(?, ?, ?, ?, ?, ?, ?)", (pos, *fields)


def write(
    folder: str, node: int, records: Sequence[Fields] = (), old: Sequence[Fields] = ()
) -> None:
    """A node's journal: old records in `journal`, the others after them in `journal2`."""
    rows = [insert("journal", pos, fields) for pos, fields in enumerate(old, 1)]
    rows += [insert("journal2", pos, fields) for pos, fields in enumerate(records, len(old) + 1)]
    tables = [CREATE.format(table) for table in LONGEST]
    head = ("PRAGMA page_size=1024", "PRAGMA journal_mode=WAL")
    change(path_of(folder, node), *head, *tables, *rows)


def contents(folder: str) -> dict[str, bytes]:
    """Each file of a folder with its bytes."""
    found = {}
    for name in sorted(os.listdir(folder)):
        path = os.path.join(folder, name)
        if os.path.isfile(path):
            with open(path, "rb") as file:
                found[name] = file.read()
    return found
