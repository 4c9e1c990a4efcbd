"""A group as this machine shows it: the program's process, its options, its files, its memory."""
from __future__ import annotations

import os
import shutil
from collections.abc import Iterator, Sequence
from dataclasses import dataclass
from glob import glob
from typing import Optional

from urbd import Address, client_port
from urbd.constants import MAX_NODES
from urbdctl.errors import Trouble


@dataclass(frozen=True)
class Process:
    """A program that serves a group, by its command line."""

    pid: int
    base_port: int
    nodes: int
    cap: int
    dir: str
    socket_dir: Optional[str] = None  # if it takes no clients over TCP


@dataclass(frozen=True)
class Group:
    """A group to look at. What neither the user nor the program's command line says is None."""

    base_port: int
    nodes: int
    cap: Optional[int] = None
    dir: Optional[str] = None
    pid: Optional[int] = None
    socket_dir: Optional[str] = None  # if its nodes are asked at their sockets

    def at(self, node: int) -> Address:
        """The port at which this node serves clients, or the path of its socket."""
        if self.socket_dir is not None:
            return os.path.join(self.socket_dir, f"node-{node}.sock")
        return client_port(self.base_port, node)

    @property
    def numbers(self) -> range:
        """The numbers of the nodes."""
        return range(1, self.nodes + 1)


@dataclass(frozen=True)
class Machine:
    """What the group takes of its machine, in bytes. What this user can't see is None."""

    memory: Optional[int] = None
    memory_limit: Optional[int] = None
    journals: Optional[int] = None
    disk_free: Optional[int] = None
    disk_size: Optional[int] = None
    started: Optional[float] = None


def options_of(words: Sequence[str]) -> dict[str, str]:
    """The options of a command line: `--name value`, `--name=value`, or `--name` alone.

    A value that begins with two hyphens is written after `=`.
    """
    options, left = {}, list(words)
    while left:
        name, is_joined, value = left.pop(0).partition("=")
        if name.startswith("--"):
            has_value = bool(left) and not left[0].startswith("--")
            options[name] = value if is_joined else (left.pop(0) if has_value else "")
    return options


def processes() -> Iterator[Process]:
    """The programs that serve groups, as far as this user may read command lines."""
    for path in glob("/proc/[0-9]*/cmdline"):
        try:
            with open(path, "rb") as file:
                words = os.fsdecode(file.read()).split("\0")[:-1]
            if words[1:2] != ["serve"]:
                continue
            options, pid = options_of(words[2:]), int(path.split("/")[2])
            inside = os.readlink(f"/proc/{pid}/cwd")
            folder = os.path.join(inside, options["--dir"])
            sockets = None
            if "--no-tcp" in options:
                sockets = os.path.join(inside, options["--socket-dir"])
            base_port, nodes, cap = (
                int(options[name]) for name in ("--base-port", "--nodes", "--cap")
            )
            yield Process(pid, base_port, nodes, cap, folder, sockets)
        except (OSError, KeyError, ValueError):
            continue


def process_at(base_port: int) -> Optional[Process]:
    """The program that serves a group at this base port; None if this user sees none."""
    return next((found for found in processes() if found.base_port == base_port), None)


def find(
    base_port: int,
    nodes: Optional[int] = None,
    cap: Optional[int] = None,
    folder: Optional[str] = None,
    socket_dir: Optional[str] = None,
) -> Group:
    """The group at a base port. What isn't given is taken from the program's command line."""
    found = process_at(base_port)
    if found is None and nodes is None:
        raise Trouble(
            f"this user sees no program that serves a group at base port {base_port}: "
            "give --nodes if there is one"
        )
    if found is None:
        assert nodes is not None
        return Group(base_port, nodes, cap, folder, None, socket_dir)
    return Group(
        base_port,
        nodes or found.nodes,
        cap or found.cap,
        folder or found.dir,
        found.pid,
        socket_dir or found.socket_dir,
    )


def journals_in(folder: str) -> list[str]:
    """The files of a group's journals, with the logs beside them."""
    names = [f"node-{node}.db{end}" for node in range(1, MAX_NODES + 1) for end in ("", "-wal")]
    paths = (os.path.join(folder, name) for name in names)
    return [path for path in paths if os.path.exists(path)]


def machine_of(group: Group) -> Machine:
    """What the group takes of its machine now."""
    disk = None
    sizes: Optional[list[int]] = None
    if group.dir is not None:
        try:
            disk = shutil.disk_usage(group.dir)
            sizes = [size_of(path) for path in journals_in(group.dir)]
        except OSError:
            pass
    return Machine(
        memory_of(group.pid) if group.pid else None,
        memory_limit_of(group.pid) if group.pid else None,
        sum(sizes) if sizes is not None else None,
        disk.free if disk else None,
        disk.total if disk else None,
        start_of(group.pid) if group.pid else None,
    )


def size_of(path: str) -> int:
    """The bytes of a file; 0 if it is gone."""
    try:
        return os.path.getsize(path)
    except OSError:
        return 0


def memory_of(pid: int) -> Optional[int]:
    """The resident memory of a process in bytes; None if it is gone."""
    return kilobytes_in(f"/proc/{pid}/status", "VmRSS:")


def kilobytes_in(path: str, name: str) -> Optional[int]:
    """The value of a line `name N kB` of a file of /proc, in bytes."""
    try:
        with open(path, encoding="ascii", errors="replace") as file:
            return next(int(line.split()[1]) * 1024 for line in file if line.startswith(name))
    except (OSError, StopIteration):
        return None


def memory_limit_of(pid: int) -> Optional[int]:
    """How much memory the process may take: the least limit of its control groups, or the
    machine's memory."""
    limits = [kilobytes_in("/proc/meminfo", "MemTotal:")]
    try:
        with open(f"/proc/{pid}/cgroup", encoding="utf-8") as file:
            inside = next(line[3:].strip() for line in file if line.startswith("0::"))
    except (OSError, StopIteration):
        inside = ""
    while inside.strip("/"):
        try:
            with open(f"/sys/fs/cgroup{inside}/memory.max", encoding="ascii") as file:
                limits.append(int(file.read()))
        except (OSError, ValueError):  # no such file here, or "max"
            pass
        inside = os.path.dirname(inside)
    return min((limit for limit in limits if limit is not None), default=None)


def start_of(pid: int) -> Optional[float]:
    """When a process was started, in seconds since 1970."""
    try:
        with open(f"/proc/{pid}/stat", encoding="utf-8", errors="replace") as file:
            ticks = int(file.read().rpartition(")")[2].split()[19])
        with open("/proc/stat", encoding="ascii") as file:
            boot = next(int(line.split()[1]) for line in file if line.startswith("btime"))
    except (OSError, StopIteration, ValueError):
        return None
    return boot + ticks / os.sysconf("SC_CLK_TCK")


def newest_backup(folder: str) -> Optional[float]:
    """When the newest backup below a folder was made, in seconds since 1970; None if there is none.

    A backup is a folder with the journal of node 1."""
    try:
        paths = [entry.path for entry in os.scandir(folder) if entry.is_dir()]
    except OSError as error:
        raise Trouble(f"{folder}: {error.strerror}") from None
    times = [
        os.stat(path).st_mtime for path in paths if os.path.exists(os.path.join(path, "node-1.db"))
    ]
    return max(times, default=None)
