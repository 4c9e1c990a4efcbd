"""Reads the journals of a stopped group by docs/FORMATS.md (Journals), and changes no file."""
from __future__ import annotations

import fcntl
import hashlib
import os
import re
import shutil
import sqlite3
import stat
import struct
import tempfile
from collections.abc import Iterator
from contextlib import contextmanager
from dataclasses import dataclass
from pathlib import Path
from typing import Optional

from urbd.constants import MAX_NODES, Refusal
from urbdctl.holders import holder_of
from urbdctl.limits import LONGEST_IN_FIRST, LONGEST_IN_SECOND

PEND, PEND_CERT, CERT = 1, 2, 3
KINDS = {PEND: "Pend", PEND_CERT: "PendCert", CERT: "Cert"}
LONGEST = {"journal": LONGEST_IN_FIRST, "journal2": LONGEST_IN_SECOND}  # bytes of a payload
MOST_CLIENT, MOST_NUMBER = (1 << 16) - 1, (1 << 32) - 1
CREATE = (
    "CREATE TABLE {}(pos INTEGER PRIMARY KEY, kind INTEGER NOT NULL, sender INTEGER NOT NULL, "
    "seq INTEGER NOT NULL, client INTEGER NOT NULL, number INTEGER NOT NULL, "
    "payload BLOB NOT NULL) STRICT"
)
SELECT = "SELECT pos, kind, sender, seq, client, number, payload FROM {} ORDER BY pos"
LOCKS, LOCKS_LENGTH = 1 << 30, 512  # the bytes of a database file that SQLite locks
LOCK = struct.Struct("hhqqi")

Name = tuple[int, int]
Row = tuple[int, int, int, int, int, int, bytes]


class Fault(Exception):
    """What a start would be refused for: number and detail of the refusal, and the cause."""

    def __init__(self, number: int, detail: int, cause: str) -> None:
        super().__init__(cause)
        self.number, self.detail, self.cause = number, detail, cause

    def __str__(self) -> str:
        return f"refused {self.number} {self.detail}: {self.cause}"


@dataclass(frozen=True)
class Message:
    """A message as records compare it: client, number, and a digest of the payload."""

    client: int
    number: int
    digest: bytes


@dataclass(frozen=True)
class Record:
    """A record of a journal. A certificate has no message."""

    kind: int
    name: Name
    message: Optional[Message]


@dataclass(frozen=True)
class FoundRow:
    """A row of a journal, and why it is no record, if so."""

    table: str
    place: int
    row: Row
    wrong: Optional[str]


def device(cause: str) -> Fault:
    """The fault of a file that can't be used."""
    return Fault(Refusal.DEVICE, 0, cause)


def path_of(folder: str, node: int) -> str:
    """The journal of a node."""
    return os.path.join(folder, f"node-{node}.db")


def look_at_file(path: str, to_use: bool = True) -> bool:
    """Whether there is a file of this name with bytes in it. A fault if the program can't use the
    file, or if it can't be read."""
    try:
        found = os.lstat(path)
    except FileNotFoundError:
        return False
    except OSError as error:
        raise device(f"{path}: {error.strerror}") from None
    if not stat.S_ISREG(found.st_mode):
        raise device(f"{path} is no regular file")
    if not os.access(path, os.R_OK):
        raise device(f"{path} can't be read by this user")
    if not to_use:
        return found.st_size > 0
    if found.st_nlink != 1:
        raise device(f"{path} has a second name (a hard link)")
    if not os.access(path, os.R_OK | os.W_OK):
        raise device(f"{path} can't be read and written by this user")
    refuse_held(path)
    return found.st_size > 0


def refuse_held(path: str) -> None:
    """A fault if another process holds the locks of this database."""
    with open(path, "rb") as file:
        wanted = LOCK.pack(fcntl.F_WRLCK, os.SEEK_SET, LOCKS, LOCKS_LENGTH, 0)
        kind, *_, pid = LOCK.unpack(fcntl.fcntl(file, fcntl.F_GETLK, wanted))
    if kind != fcntl.F_UNLCK:
        raise device(f"{path} is held by {holder_of(path, pid)}")


@contextmanager
def opened(path: str, to_use: bool = True) -> Iterator[Optional[sqlite3.Connection]]:
    """A connection to the database of these files, which it leaves as they are; None if there is
    none yet. Files that a start is to use have to be its own; of others it only reads the bytes."""
    if to_use and os.path.islink(path) and not os.path.exists(path):
        raise device(f"{path} is a link that leads nowhere")
    path = os.path.realpath(path)
    if not look_at_file(path, to_use):
        yield None
        return
    if to_use and look_at_file(path + "-journal"):
        raise device(
            f"{path}-journal: another program has stopped amid a transaction: "
            "open the file with sqlite3 once"
        )
    with tempfile.TemporaryDirectory() as folder:
        if look_at_file(path + "-wal", to_use):
            copy = os.path.join(folder, "journal.db")
            shutil.copyfile(path, copy)
            shutil.copyfile(path + "-wal", copy + "-wal")
            connection = sqlite3.connect(copy)
        else:
            uri = Path(path).absolute().as_uri() + "?immutable=1"
            connection = sqlite3.connect(uri, uri=True)
        try:
            connection.text_factory = bytes
            yield connection
        except sqlite3.Error as error:
            raise device(f"{path}: {error}") from None
        finally:
            connection.close()


def spelling(sql: str) -> str:
    """A CREATE statement without what may differ."""
    return re.sub(r"\s|if not exists", "", sql, flags=re.IGNORECASE).lower()


def has_table(connection: sqlite3.Connection, path: str, table: str) -> bool:
    """Whether the database has this table of records; a fault if something else has its name."""
    query = "SELECT type, sql FROM sqlite_master WHERE lower(name) = ?"
    found = connection.execute(query, (table,)).fetchall()
    spelt = [(kind.decode(), spelling(sql.decode(errors="replace"))) for kind, sql in found]
    if found and spelt != [("table", spelling(CREATE.format(table)))]:
        raise device(f"{path}: what is called {table} there is no table of records")
    return bool(found)


def wrong_in(row: Row, place: int, longest: int) -> Optional[str]:
    """Why a row is no record at its place; None if it is one."""
    pos, kind, sender, seq, client, number, payload = row
    if pos != place:
        return f"its pos is {pos}, and its place {place}"
    if kind not in KINDS:
        return f"kind {kind} is none"
    if not (1 <= sender <= MAX_NODES and 1 <= seq <= MOST_NUMBER):
        return f"{sender}.{seq} is no name"
    if kind == CERT:
        if (client, number, payload) == (0, 0, b""):
            return None
        return f"a certificate has client {client}, number {number}, {len(payload)} bytes"
    if not (1 <= client <= MOST_CLIENT and 1 <= number <= MOST_NUMBER):
        return f"client {client} with number {number} is none"
    if len(payload) > longest:
        return f"a payload of {len(payload)} bytes is over {longest}"
    return None


def rows_of(path: str, to_use: bool = True) -> Iterator[FoundRow]:
    """Each row of a journal, in the order in which a start reads them."""
    with opened(path, to_use) as connection:
        place = 0
        for table in LONGEST if connection else ():
            assert connection is not None
            if has_table(connection, path, table):
                for row in connection.execute(SELECT.format(table)):
                    place += 1
                    yield FoundRow(table, place, row, wrong_in(row, place, LONGEST[table]))


def records_of(path: str, to_use: bool = True) -> list[Record]:
    """The records of a journal; a fault at the first row that is no record."""
    with opened(path, to_use) as connection:
        if connection:
            lines = connection.execute("PRAGMA integrity_check(3)")
            damage = [line.decode() for line, in lines if line != b"ok"]
            if damage:
                raise device(f"{path} is damaged: {'; '.join(damage)}")
    records = []
    for found in rows_of(path, to_use):
        if found.wrong:
            where = f"row {found.place} of {path} (table {found.table})"
            raise Fault(Refusal.BAD_ROW, found.place, f"{where} is no record: {found.wrong}")
        records.append(record_of(found.row))
    return records


def record_of(row: Row) -> Record:
    """The record of a row that is one."""
    _, kind, sender, seq, client, number, payload = row
    if kind == CERT:
        return Record(kind, (sender, seq), None)
    digest = hashlib.blake2b(payload, digest_size=16).digest()
    return Record(kind, (sender, seq), Message(client, number, digest))


def log_length(records: list[Record]) -> int:
    """How many entries the log of these records has: for each sender, its certified names up to the
    first missing one."""
    certified = {record.name for record in records if record.kind != PEND}
    count = 0
    for sender in range(1, MAX_NODES + 1):
        seq = 1
        while (sender, seq) in certified:
            count, seq = count + 1, seq + 1
    return count
