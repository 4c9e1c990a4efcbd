"""Journals of an older program, which had the table `journal` alone, opened by this one.

The files are made by Python's sqlite3 from docs/FORMATS.md alone. The program opens them. Each log
is the log of the records, and each old message is accepted again under its name. New messages of
any length go into `journal2` after the old ones, whose rows don't change. The same holds after a
stop and after a kill. An old file with a bad row is refused, and stays as it is, byte for byte. It
doesn't keep other journals from being opened later. If there are two such files, the fault is that
of the lower node. Files whose two tables don't fit together are refused.
"""
from __future__ import annotations

import argparse
import shutil
import sqlite3
import sys
from collections.abc import Iterable, Mapping, Sequence
from dataclasses import replace
from pathlib import Path

from urbd.constants import MAX_PAYLOAD, Refusal
from urbd.frames import Accepted, Entry, Refused, Submit
from urbdctl.journals import CERT, CREATE, PEND, PEND_CERT, Name, Row
from urbdctl.limits import LONGEST_IN_FIRST, LONGEST_IN_SECOND
from urbdctl_tests.journal_files import Statement

from trials.lib.command import parser_of, run_trial
from trials.lib.messages import logs_of, wait_for_logs
from trials.lib.program import Daemon, NotOpen, Options, Program, free_base_port

NODES = (1, 2, 3)
COLUMNS = "pos, kind, sender, seq, client, number, payload"
TABLES = {"journal", "journal2"}


def old_messages() -> dict[Name, Entry]:
    """The old messages. Node 1's have the shortest and the longest payload of that time."""
    of_one = [Entry(1, seq, 7, seq, b"%d of node 1 " % seq * seq) for seq in range(1, 21)]
    of_one += [Entry(1, 21, 7, 21, b""), Entry(1, 22, 7, 22, b"x" * LONGEST_IN_FIRST)]
    of_two = [Entry(2, seq, 8, seq, b"%d of node 2" % seq) for seq in range(1, 4)]
    return {(it.sender, it.seq): it for it in of_one + of_two}


MESSAGES = old_messages()
# The lengths of the payloads of new messages.
LENGTHS = (0, 1, LONGEST_IN_FIRST, LONGEST_IN_FIRST + 1, *[MAX_PAYLOAD] * 4)
# How many entries each read has from the last five on: three of the longest fit a response.
PAGES = [3, 1, 0]
Record = tuple[int, Name]  # a kind, and the name of a message


def row_of(pos: int, record: Record) -> Row:
    """The row of a record at a place."""
    kind, (sender, seq) = record
    it = MESSAGES[sender, seq]
    if kind == CERT:
        return pos, kind, sender, seq, 0, 0, b""
    return pos, kind, sender, seq, it.client, it.number, it.payload


def old_records(node: int) -> list[Record]:
    """What an older program had stored: nodes 1 and 2 have all, node 3 was down after five."""
    if node == 3:
        return [(PEND_CERT, (1, seq)) for seq in range(1, 6)]
    own: list[Record] = []
    for name in MESSAGES:
        if name[0] == node:
            own += [(PEND, name), (CERT, name)]
    others = [(PEND_CERT, name) for name in MESSAGES if name[0] != node]
    return own + others if node == 1 else others + own


def log_of_records(records: Iterable[Record]) -> list[Entry]:
    """The log of some records: after each certificate, the certified names that are next."""
    certified: set[Name] = set()
    counts: dict[int, int] = {}
    log = []
    for kind, (sender, seq) in records:
        if kind == PEND:
            continue
        certified.add((sender, seq))
        while (sender, counts.get(sender, 0) + 1) in certified:
            counts[sender] = counts.get(sender, 0) + 1
            log.append(MESSAGES[sender, counts[sender]])
    return log


def path_of(folder: Path, node: int) -> Path:
    return folder / f"node-{node}.db"


def change(path: Path, *statements: Statement) -> None:
    """Statements on a file that nobody else holds; its log is copied into it at the end."""
    connection = sqlite3.connect(path, isolation_level=None)
    connection.execute("PRAGMA journal_mode=WAL")
    for statement in statements:
        if isinstance(statement, str):
            connection.execute(statement)
        else:
            connection.execute(*statement)
    connection.close()


def make(folder: Path) -> None:
    """The files of an older program. Node 2's file has another table before the journal, which
    makes no difference."""
    folder.mkdir()
    for node in NODES:
        rows: list[Statement] = [
            ("INSERT INTO journal VALUES(?, ?, ?, ?, ?, ?, ?)", row_of(pos, record))
            for pos, record in enumerate(old_records(node), 1)
        ]
        notes = ["CREATE TABLE notes(text TEXT)", "INSERT INTO notes VALUES('of somebody else')"]
        more = notes if node == 2 else []
        change(path_of(folder, node), *more, CREATE.format("journal"), *rows)


def rows_of(folder: Path, node: int, table: str) -> list[Row]:
    connection = sqlite3.connect(path_of(folder, node))
    rows = connection.execute(f"SELECT {COLUMNS} FROM {table} ORDER BY pos").fetchall()
    connection.close()
    return rows


def tables_of(folder: Path, node: int) -> set[str]:
    connection = sqlite3.connect(path_of(folder, node))
    rows = connection.execute("SELECT name FROM sqlite_schema WHERE type = 'table'").fetchall()
    connection.close()
    return {name for name, in rows}


def all_shown(daemon: Daemon, count: int, before: Sequence[Sequence[Entry]]) -> list[list[Entry]]:
    """Waits until each log has this many entries. Each begins with the log from before."""
    logs = wait_for_logs(daemon, count)
    for node, (log, old) in enumerate(zip(logs, before), 1):
        assert len(log) == count, f"node {node}: expected {count} entries, and it has {len(log)}"
        assert log[: len(old)] == old, f"the log of node {node} doesn't begin as before"
    return logs


def answers(daemon: Daemon, node: int, request: Submit, expected: object) -> None:
    """A node answers a submit so."""
    with daemon.connect(node) as connection:
        said = connection.ask(request)[0]
    head = (request.client, request.number)
    assert said == expected, f"node {node}, message {head}: expected {expected}, and got {said}"


def same_again(daemon: Daemon, messages: Iterable[Entry]) -> None:
    """Each message is accepted under its name, and no other under its number."""
    for it in messages:
        submit = Submit(it.client, it.number, it.payload)
        answers(daemon, it.sender, submit, Accepted(it.seq))
        other = replace(submit, payload=b"another")
        answers(daemon, it.sender, other, Refused(Refusal.CONFLICT))


def pages(daemon: Daemon, node: int, place: int) -> list[int]:
    """How many entries each read has, if it continues after the last entry."""
    counts: list[int] = []
    with daemon.connect(node) as connection:
        while not counts or counts[-1]:
            counts.append(len(connection.read(place)))
            place += counts[-1]
    return counts


def rows_go_on(
    folder: Path, old: Mapping[int, Sequence[Row]], messages: Mapping[Name, Entry]
) -> None:
    """No old row has changed. The new ones are in the second table, whose places follow."""
    for node in NODES:
        assert tables_of(folder, node) - {"notes"} == TABLES, tables_of(folder, node)
        assert rows_of(folder, node, "journal") == old[node], f"node {node}: an old row changed"
        rows = rows_of(folder, node, "journal2")
        first = len(old[node]) + 1
        places = [row[0] for row in rows]
        assert places == list(range(first, first + len(rows))), f"node {node}: places {places}"
        stored = {(it[2], it[3]): Entry(*it[2:]) for it in (*old[node], *rows) if it[1] != CERT}
        assert stored == messages, f"node {node} has stored other messages"
    counts = [len(rows_of(folder, node, "journal2")) for node in NODES]
    print(f"new rows: {counts}, old ones as they were", flush=True)


def group_of(folder: Path) -> Options:
    return Options(folder, free_base_port(), len(NODES))


def opens_old_files(program: Program, folder: Path) -> None:
    make(folder)
    old = {node: rows_of(folder, node, "journal") for node in NODES}
    said = [log_of_records(old_records(node)) for node in NODES]
    new = {(1, seq): Entry(1, seq, 7, seq, b"n" * length) for seq, length in enumerate(LENGTHS, 23)}
    messages = {**MESSAGES, **new}
    group = group_of(folder)
    with program.serve(group) as daemon:
        logs = all_shown(daemon, len(MESSAGES), said)
        same_again(daemon, MESSAGES.values())
        assert logs_of(daemon) == logs, "a repeat is no new message"
        print(f"old files open with logs of {list(map(len, said))}", flush=True)
        too_long = Submit(7, 23, bytes(MAX_PAYLOAD + 1))
        answers(daemon, 1, too_long, Refused(Refusal.TOO_LONG))
        same_again(daemon, new.values())
        logs = all_shown(daemon, len(messages), logs)
        found = pages(daemon, 3, len(messages) - 3)
        assert found == PAGES, f"expected pages of {PAGES} entries, and got {found}"
        daemon.stop()
    rows_go_on(folder, old, messages)
    seq = len(LENGTHS) + 23
    messages[1, seq] = Entry(1, seq, 7, seq, b"before a kill")
    with program.serve(group) as daemon:
        assert logs_of(daemon) == logs, "after a stop the logs are other ones"
        same_again(daemon, messages.values())
        logs = all_shown(daemon, len(messages), logs)
        daemon.kill()
    with program.serve(group) as daemon:
        assert logs_of(daemon) == logs, "after a kill the logs are other ones"
        same_again(daemon, messages.values())
        daemon.stop()
    rows_go_on(folder, old, messages)


def refused(program: Program, folder: Path, number_and_detail: str) -> None:
    """A start on a folder is refused with this number and detail."""
    try:
        with program.serve(group_of(folder)):
            raise AssertionError(f"{folder.name}: expected refusal {number_and_detail}")
    except NotOpen as fault:
        expected = f"urbd: refused {number_and_detail}: ".encode()
        is_so = fault.status == 1 and fault.error.startswith(expected)
        assert is_so, f"{folder.name}: expected {expected!r}, and got {fault}"
        print(f"{folder.name}: {fault.error.decode().strip()}", flush=True)


def are_closed(folder: Path, rows: Mapping[int, Sequence[Row]]) -> None:
    """The other journals were opened beside the bad one. Each is one file again, with its rows."""
    for node, was in rows.items():
        left = Path(f"{path_of(folder, node)}-wal")
        assert not left.exists(), f"expected that {left.name} is gone"
        assert rows_of(folder, node, "journal") == was, f"node {node}: other rows"


def tells_the_first_node(program: Program, folder: Path) -> None:
    """If two journals have a bad row, the fault is that of the lower node."""
    make(folder)
    for node, place in ((3, 1), (2, 4)):
        change(path_of(folder, node), f"UPDATE journal SET kind = 4 WHERE pos = {place}")
    refused(program, folder, "17 4")


def refuses_bad_rows(program: Program, room: Path) -> None:
    """For a bad row of an old file, the fault names its place, and the file stays. With the good
    file the group opens."""
    longer = f"UPDATE journal SET payload = zeroblob({LONGEST_IN_FIRST + 1}) WHERE pos = 22"
    for name, node, statement, place in (
        ("kind", 1, "UPDATE journal SET kind = 4 WHERE pos = 2", 2),
        ("payload", 2, longer, 22),
        ("place", 3, "UPDATE journal SET pos = 6 WHERE pos = 5", 5),
    ):
        folder = room / name
        make(folder)
        path = path_of(folder, node)
        good = path.read_bytes()
        change(path, statement)
        bad = path.read_bytes()
        rows = {it: rows_of(folder, it, "journal") for it in NODES if it != node}
        for _ in range(2):
            refused(program, folder, f"17 {place}")
            assert path.read_bytes() == bad, f"{name}: the bad file has changed"
            assert "journal2" not in tables_of(folder, node), f"{name}: it has a new table"
            are_closed(folder, rows)
        path.write_bytes(good)
        with program.serve(group_of(folder)) as daemon:
            said = [log_of_records(old_records(it)) for it in NODES]
            all_shown(daemon, len(MESSAGES), said)
            daemon.stop()


def refuses_what_does_not_fit(program: Program, whole: Path) -> None:
    """Changes node 1's journal in a folder that has new messages. The refused journal keeps its
    rows. Unchanged, it still opens."""
    end = len(old_records(1))
    longer = "UPDATE {} SET payload = zeroblob({}) WHERE pos = {}".format
    older = f"INSERT INTO journal VALUES({end + 1}, 1, 1, 23, 7, 23, x'')"
    cases = {
        "too-long-1": ([longer("journal", LONGEST_IN_FIRST + 1, 1)], "17 1"),
        "too-long-2": ([longer("journal2", LONGEST_IN_SECOND + 1, end + 1)], f"17 {end + 1}"),
        "gap": (["UPDATE journal2 SET pos = pos + 1000"], f"17 {end + 1}"),
        "an-older-program-went-on": ([older], f"17 {end + 2}"),
        "another-table": (["DROP TABLE journal2", "CREATE TABLE journal2(x INTEGER)"], "15 0"),
        "no-second-table": (["DROP TABLE journal2"], "14 0"),
    }
    for name, (statements, text) in cases.items():
        folder = whole.parent / name
        shutil.copytree(whole, folder)
        change(path_of(folder, 1), *statements)
        first = rows_of(folder, 1, "journal")
        refused(program, folder, text)
        assert rows_of(folder, 1, "journal") == first, f"{name}: other rows"
    with program.serve(group_of(whole)) as daemon:
        count = len(MESSAGES) + len(LENGTHS) + 1
        all_shown(daemon, count, [])
        daemon.stop()


def opens_what_a_stop_leaves(program: Program, folder: Path) -> None:
    """A stop between the two CREATE statements of a first opening leaves `journal` alone."""
    folder.mkdir()
    change(path_of(folder, 1), CREATE.format("journal"))
    with program.serve(group_of(folder)) as daemon:
        assert logs_of(daemon) == [[] for _ in NODES], "expected empty logs"
        daemon.stop()
    assert tables_of(folder, 1) == TABLES, tables_of(folder, 1)


def upgrade(program: Program, room: Path, options: argparse.Namespace) -> None:
    opens_old_files(program, room / "old")
    refuses_bad_rows(program, room)
    tells_the_first_node(program, room / "two")
    refuses_what_does_not_fit(program, room / "old")
    opens_what_a_stop_leaves(program, room / "half")


def main(words: list[str]) -> int:
    return run_trial(parser_of(__doc__ or ""), words, upgrade)


if __name__ == "__main__":
    sys.exit(main(sys.argv[1:]))
