"""Makes folders of journals, right and wrong, for the cases of `folder_cases` and `file_cases`."""
from __future__ import annotations

import os
import shutil
import sqlite3
from collections.abc import Callable, Sequence
from dataclasses import dataclass
from typing import Any, Union, cast

from urbdctl.journals import CERT, PEND, PEND_CERT, path_of
from urbdctl_tests.journal_files import Fields, Statement, change, insert, record, write

Make = Callable[[str], Any]
Short = tuple[int, str]
OfNode = Sequence[Union[Short, Fields]]


@dataclass(frozen=True)
class Case:
    """A folder that `make` makes, the options of a start on it, the start's answer, and a part of
    what the command says."""

    what: str
    make: Make
    nodes: int
    cap: int
    answer: str
    says: str


def whole(fields: Union[Short, Fields]) -> Fields:
    """A record, by its kind and name alone or whole."""
    if isinstance(fields[1], str):
        return record(fields[0], fields[1])
    return cast(Fields, fields)


def images(*of_nodes: OfNode) -> Make:
    """Makes the journals of nodes 1, 2, .. from lists of records."""

    def make(folder: str) -> None:
        for node, records in enumerate(of_nodes, 1):
            write(folder, node, [whole(fields) for fields in records])

    return make


def then(make: Make, *statements: Statement, node: int = 1) -> Make:
    """The same, and then statements on one node's journal."""

    def make_and_change(folder: str) -> None:
        make(folder)
        change(path_of(folder, node), *statements)

    return make_and_change


def after(make: Make, act: Make) -> Make:
    """The same, and then an act on the folder."""

    def make_and_act(folder: str) -> None:
        make(folder)
        act(folder)

    return make_and_act


def unmerged(folder: str) -> None:
    """As a kill leaves it: the records of node 1 are in the log beside its file."""
    path, copy = path_of(folder, 1), path_of(folder, 1) + "-copy"
    connection = sqlite3.connect(path, isolation_level=None)
    connection.execute("PRAGMA wal_autocheckpoint=0")
    for pos, fields in enumerate(DELIVERED[0], 1):
        connection.execute(*insert("journal2", pos, record(*fields)))
    shutil.copyfile(path, copy)
    shutil.copyfile(path + "-wal", copy + "-wal")
    connection.close()
    os.replace(copy, path)
    os.replace(copy + "-wal", path + "-wal")


def in_place_of(act: Callable[[str, str], Any]) -> Make:
    """Moves node 1's file aside, and puts something else there."""

    def put(folder: str) -> None:
        path = path_of(folder, 1)
        os.rename(path, path + "-aside")
        act(path, path + "-aside")

    return put


def exchange(folder: str, one: int, other: int) -> None:
    """Exchanges the files of two nodes."""
    for end in ("", "-wal"):
        paths = [path_of(folder, node) + end for node in (one, other)]
        there = [os.path.exists(path) for path in paths]
        for path in paths:
            if os.path.exists(path):
                os.rename(path, path + "-aside")
        for path, source, is_there in zip(paths, reversed(paths), reversed(there)):
            if is_there:
                os.rename(source + "-aside", path)


def spoil(path: str, aside: str) -> None:
    """Writes a file that is no database."""
    with open(path, "wb") as file:
        file.write(b"x" * 4096)


def added(table: str, pos: int, kind: int, name: str, payload: bytes = b"a") -> Statement:
    """The statement that adds a record to a table."""
    return insert(table, pos, record(kind, name, payload=payload))


def kill_and_exchange(folder: str) -> None:
    """The records of node 1, in the log beside its file, become node 3's."""
    unmerged(folder)
    exchange(folder, 1, 3)


ONE = images([(PEND_CERT, "1.1")])
DELIVERED: tuple[Sequence[Short], ...] = (
    [(PEND, "1.1"), (CERT, "1.1")],
    [(PEND_CERT, "1.1")],
    [(PEND_CERT, "1.1")],
)
THREE = images(*DELIVERED)
OLD = images([], [], [])
