"""Which process holds a lock on a file.

The locks of urbd belong to an open file, not to a process, so the system's table of locks names no
process. `/proc/PID/fdinfo` shows the locks of each open file."""
from __future__ import annotations

import os
from collections.abc import Iterator
from glob import glob


def openers(path: str) -> Iterator[tuple[int, bool]]:
    """The processes that have this file open, and whether they hold a lock on it, as far as this
    user may see."""
    wanted = os.stat(path)
    for link in glob("/proc/[0-9]*/fd/*"):
        try:
            found = os.stat(link)
            if (found.st_dev, found.st_ino) != (wanted.st_dev, wanted.st_ino):
                continue
            with open(link.replace("/fd/", "/fdinfo/"), encoding="ascii") as file:
                has_lock = any(line.startswith("lock:") for line in file)
        except OSError:
            continue
        yield int(link.split("/")[2]), has_lock


def name_of(pid: int) -> str:
    """The name of a process."""
    try:
        with open(f"/proc/{pid}/comm", encoding="utf-8", errors="replace") as file:
            return file.read().strip()
    except OSError:
        return "gone"


def holder_of(path: str, pid_of_table: int) -> str:
    """Who holds a lock on the file, in words. `pid_of_table` is what the system's table says: -1 if
    the lock belongs to an open file."""
    if pid_of_table > 0:
        return f"process {pid_of_table} ({name_of(pid_of_table)})"
    found = {pid: has_lock for pid, has_lock in openers(path) if has_lock and pid != os.getpid()}
    if found:
        pids = sorted(found)
        return ", ".join(f"process {pid} ({name_of(pid)})" for pid in pids)
    return "a process that this user can't see"
