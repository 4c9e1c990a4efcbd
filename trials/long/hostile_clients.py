"""Ill-behaved clients and packets at a running group, and openings that must be refused.

Whatever they send, others are served, memory stays bounded, nothing is delivered that no client
submitted, and the program listens only on 127.0.0.1. A refused opening prints its text at once and
changes no file.
"""
from __future__ import annotations

import argparse
import hashlib
import os
import random
import shutil
import socket
import sqlite3
import struct
import sys
import time
from pathlib import Path

from urbd.constants import (
    BAD_LENGTH,
    BAD_VALUE,
    CUT,
    LONGEST_REQUEST,
    MAX_PAYLOAD,
    UNKNOWN_OPCODE,
    WRONG_LENGTH,
    Refusal,
)
from urbd.frames import Refused, Submit, encode_request, encode_response, frame
from urbdctl.limits import LONGEST_IN_SECOND

from trials.lib.command import parser_of, run_trial
from trials.lib.messages import log_of
from trials.lib.program import (
    LOCALHOST,
    PATIENCE,
    Daemon,
    Options,
    Program,
    elsewhere,
    free_base_port,
    ports_of,
)

NODES = 3
PAYLOAD = b"served"
CLIENTS = range(901, 906)  # those that behave well
SUBMIT = frame(encode_request(Submit(7, 1, b"hi")))
PACKET = bytes.fromhex("55420101020100000001000700000001000161")
LONG_PACKET = bytes.fromhex("5542020102000100000001000700000001") + struct.pack(">H", MAX_PAYLOAD)
# Each length up to twice version 1's limit, lengths near that of the longest packet and near what a
# node reads, and a datagram's greatest.
LENGTHS = (*range(2101), *range(MAX_PAYLOAD - 4, LONGEST_REQUEST + 60), 65_507)
MOST_GROWTH = 20_000_000  # bytes that a second round of everything may take


def refusal(code: int) -> bytes:
    """The body of the response to bytes that are no request."""
    return encode_response(Refused(Refusal.FRAME, code))


def connect(daemon: Daemon, node: int) -> socket.socket:
    """A plain connection to a node."""
    port = daemon.options.port(node)
    return socket.create_connection((LOCALHOST, port), timeout=PATIENCE)


def until_closed(connection: socket.socket) -> bytes:
    """Everything that comes until the node ends the connection."""
    got = b""
    while more := connection.recv(65536):
        got += more
    return got


def ask(connection: socket.socket, body: bytes) -> bytes:
    """The body of the response to a request's body."""
    connection.sendall(frame(body))
    head = connection.recv(2, socket.MSG_WAITALL)
    return connection.recv(int.from_bytes(head, "big"), socket.MSG_WAITALL)


def serves(daemon: Daemon, client: int, number: int, node: int = 1) -> None:
    """A client is accepted."""
    daemon.node(node).submit(client, number, PAYLOAD)


def cut_frames(daemon: Daemon) -> None:
    for length in range(len(SUBMIT)):
        with connect(daemon, 1) as connection:
            connection.sendall(SUBMIT[:length])
            connection.shutdown(socket.SHUT_WR)
            got, expected = until_closed(connection), frame(refusal(CUT)) if length else b""
            assert got == expected, f"{length} bytes: expected {expected!r}, got {got!r}"


def bad_frames(daemon: Daemon) -> None:
    bodies = {
        b"\x09": UNKNOWN_OPCODE,
        b"\x00": UNKNOWN_OPCODE,
        b"\xff" * LONGEST_REQUEST: UNKNOWN_OPCODE,
        b"\x01\x00\x07": WRONG_LENGTH,
        b"\x02": WRONG_LENGTH,
        b"\x03x": WRONG_LENGTH,
        b"\x02" + bytes(5): BAD_VALUE,
    }
    with connect(daemon, 1) as connection:
        for body, code in bodies.items():
            got = ask(connection, body)
            assert got == refusal(code), f"{body[:8]!r}: expected code {code}, got {got!r}"
        for length in (MAX_PAYLOAD + 1, LONGEST_REQUEST - 7):
            got = ask(connection, encode_request(Submit(900, 1, b"x" * length)))
            assert got == encode_response(Refused(Refusal.TOO_LONG)), f"{length} bytes: {got!r}"
    for length in (0, LONGEST_REQUEST + 1, 65535):
        with connect(daemon, 1) as connection:
            connection.sendall(struct.pack(">H", length))
            got = until_closed(connection)
            assert got == frame(refusal(BAD_LENGTH)), f"a length of {length}: {got!r}"


def silent_and_deaf(daemon: Daemon) -> None:
    """Occupies three connections of a node: two send nothing, one never reads what it is sent."""
    held = [connect(daemon, 1) for _ in range(3)]
    held[2].setblocking(False)
    reads = frame(b"\x02" + struct.pack(">IB", 1, 8)) * 1000
    end = time.monotonic() + 2
    while time.monotonic() < end:
        try:
            held[2].send(reads)
        except BlockingIOError:
            time.sleep(0.05)
    for number in range(1, 51):
        serves(daemon, 901, number)
    for connection in held:
        connection.close()


def many_at_once(daemon: Daemon) -> None:
    held = []
    for _ in range(200):
        connection = socket.socket()
        connection.setblocking(False)
        try:
            connection.connect((LOCALHOST, daemon.options.port(2)))
        except BlockingIOError:
            pass
        held.append(connection)
    time.sleep(0.5)
    serves(daemon, 902, 1, node=1)
    for connection in held:
        connection.close()
    serves(daemon, 902, 1, node=2)


def resets(daemon: Daemon) -> None:
    for _ in range(50):
        connection = connect(daemon, 3)
        connection.sendall(b"\x00\x01\x03" * 50 + SUBMIT[: random.randrange(len(SUBMIT))])
        connection.setsockopt(socket.SOL_SOCKET, socket.SO_LINGER, struct.pack("ii", 1, 0))
        connection.close()
    serves(daemon, 903, 1, node=3)


def datagrams(daemon: Daemon) -> None:
    """Datagrams of many lengths, random ones and ones that begin as packets of either version."""
    ports = [packets for packets, _ in ports_of(daemon.options.base_port, NODES)]
    with socket.socket(socket.AF_INET, socket.SOCK_DGRAM) as sender:
        for length in LENGTHS:
            noise = os.urandom(length)
            for port in ports:
                for it in (noise, (PACKET + noise)[:length], (LONG_PACKET + noise)[:length]):
                    sender.sendto(it, (LOCALHOST, port))
            if length % 50 == 0 or length > 16_000:
                time.sleep(0.01)
    for node in daemon.nodes:
        serves(daemon, 904, 1, node)


def listens_here_alone(daemon: Daemon) -> None:
    """All sockets of the process are at 127.0.0.1, and one of each node listens."""
    own = set()
    descriptors = Path(f"/proc/{daemon.process.pid}/fd")
    for entry in descriptors.iterdir():
        try:
            target = os.readlink(entry)
        except OSError:
            continue
        if target.startswith("socket:["):
            own.add(target[8:-1])
    places = []
    for table in ("tcp", "tcp6", "udp", "udp6"):
        for line in Path(f"/proc/net/{table}").read_text().splitlines()[1:]:
            words = line.split()
            if words[9] in own:
                places.append((table, words[1].split(":")[0], words[3]))
    listening = [it for it in places if it[0] == "tcp" and it[2] == "0A"]
    assert len(listening) == NODES, f"expected {NODES} listening sockets: {places}"
    strange = [it for it in places if it[0] not in ("tcp", "udp") or it[1] != "0100007F"]
    assert not strange, f"expected sockets of 127.0.0.1 alone: {strange}"


def hold_what_was_submitted(daemon: Daemon) -> None:
    for node in daemon.nodes:
        for entry in log_of(daemon, node):
            is_ours = entry.client in CLIENTS and entry.payload == PAYLOAD
            assert is_ours, f"node {node} delivers what nobody submitted: {entry}"


def try_a_running_group(program: Program, options: Options) -> None:
    trials = (cut_frames, bad_frames, silent_and_deaf, many_at_once, resets, datagrams)
    with program.serve(options) as daemon:
        listens_here_alone(daemon)
        serves(daemon, 905, 1)
        memory = []
        for _ in range(2):
            for trial in trials:
                trial(daemon)
                serves(daemon, 905, 1)
                print(f"{trial.__name__}: others are served", flush=True)
            memory.append(daemon.memory())
        # what the first round took is there for the second
        assert memory[1] < memory[0] + MOST_GROWTH, f"memory after each round: {memory}"
        hold_what_was_submitted(daemon)
        listens_here_alone(daemon)
        print(f"closed after {daemon.stop()} events; memory after each round: {memory}")


def contents(folder: Path) -> dict[Path, str]:
    """A digest of each file of a folder."""
    files = [path for path in folder.rglob("*") if path.is_file()]
    return {path: hashlib.sha256(path.read_bytes()).hexdigest() for path in files}


def is_refused(program: Program, options: Options, text: bytes, what: str) -> None:
    """The opening ends at once with this text and status 1, and changes no file."""
    before = contents(options.folder) if options.folder.is_dir() else {}
    run = program.run(*options.words())
    is_told = run.stderr.startswith(b"urbd: " + text)
    told = f"{what}: status {run.returncode}, {run.stdout!r}, {run.stderr!r}"
    assert (run.returncode, run.stdout, is_told) == (1, b"", True), f"expected {text!r}: {told}"
    after = contents(options.folder) if options.folder.is_dir() else {}
    changed = [path for path, digest in before.items() if after.get(path) != digest]
    assert not changed, f"{what}: a refused start changed {changed}"
    # the database leaves its log, without a record, beside a journal that was refused
    new = [path for path in set(after) - set(before) if not path.name.endswith("-wal")]
    assert not new, f"{what}: a refused start made {new}"
    print(f"{what}: {run.stderr.decode().strip()}", flush=True)


DAMAGES = (
    ("UPDATE journal2 SET kind = 4 WHERE pos = 1", b"refused 17 1", "a row that is no record"),
    (
        f"UPDATE journal2 SET payload = zeroblob({LONGEST_IN_SECOND + 1}) WHERE pos = 1",
        b"refused 17 1",
        "a payload that is too long",
    ),
    (
        "INSERT INTO journal SELECT * FROM journal2 WHERE pos = 1",
        b"refused 17 2",
        "a place that stands in both tables",
    ),
    (
        "DROP TABLE journal2; CREATE TABLE journal2(x INTEGER)",
        b"refused 15 0",
        "another table of that name",
    ),
    ("DELETE FROM journal2", b"refused 14 0", "a journal without its records"),
    ("", b"refused 15 0", "a file that is no database"),
)


def damage(path: Path, statement: str) -> None:
    """Runs a statement on a journal; without one, spoils its first page."""
    if statement:
        connection = sqlite3.connect(path)
        connection.executescript(statement)
        connection.close()
    else:
        with open(path, "r+b") as file:
            file.write(b"x" * 4096)


def refuse_openings(program: Program, room: Path) -> None:
    options = Options(room / "missing", free_base_port(), NODES)
    is_refused(program, options, b"refused 15 0", "a folder that is not there")
    file = room / "file"
    file.write_text("")
    not_a_folder = Options(file, options.base_port, NODES)
    is_refused(program, not_a_folder, b"refused 15 0", "a file in the place of the folder")
    whole = Options(room / "whole", options.base_port, NODES)
    whole.folder.mkdir()
    with program.serve(whole) as daemon:
        serves(daemon, 901, 1)
        time.sleep(1)
        daemon.stop()
    ports = ports_of(whole.base_port, NODES)
    for kind, port in ((socket.SOCK_DGRAM, ports[1][0]), (socket.SOCK_STREAM, ports[2][1])):
        with socket.socket(socket.AF_INET, kind) as taken:
            taken.setsockopt(socket.SOL_SOCKET, socket.SO_REUSEADDR, 1)
            taken.bind((LOCALHOST, port))
            if kind == socket.SOCK_STREAM:
                taken.listen(1)
            is_refused(program, whole, b"network failed", "a port in use")
    with program.serve(whole) as daemon:
        other = program.run(*elsewhere(whole, free_base_port()).words())
        assert other.returncode == 1 and other.stderr.startswith(b"urbd: refused 15 0"), other
        serves(daemon, 901, 1)
        daemon.stop()
    for statement, text, what in DAMAGES:
        damaged = Options(room / "damaged", whole.base_port, NODES)
        shutil.copytree(whole.folder, damaged.folder)
        damage(damaged.folder / "node-1.db", statement)
        is_refused(program, damaged, text, what)
        shutil.rmtree(damaged.folder)


def try_hostile_clients(program: Program, room: Path, options: argparse.Namespace) -> None:
    group = Options(room / "group", free_base_port(), NODES)
    group.folder.mkdir()
    try_a_running_group(program, group)
    refuse_openings(program, room)


def main(words: list[str]) -> int:
    return run_trial(parser_of(__doc__ or ""), words, try_hostile_clients)


if __name__ == "__main__":
    sys.exit(main(sys.argv[1:]))
