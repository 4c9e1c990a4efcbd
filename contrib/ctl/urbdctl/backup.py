"""Copies the journals of a running group, all at one moment.

The program is suspended by SIGSTOP while the files are copied, and then continues. Clients wait
meanwhile, and nothing else happens to them."""
from __future__ import annotations

import fcntl
import os
import shutil
import signal
import subprocess
import time
from collections.abc import Iterator
from contextlib import contextmanager
from glob import glob

from urbdctl.errors import Trouble
from urbdctl.group import Group, journals_in
from urbdctl.verify import judge, require_sqlite

CLONE = 0x40049409  # FICLONE: the copy shares the blocks of the file
PATIENCE = 10.0  # seconds until all threads have to stand


def stands(pid: int) -> bool:
    """Whether each thread of the process is suspended, so that none is amid a write."""
    for path in glob(f"/proc/{pid}/task/*/stat"):
        with open(path, encoding="utf-8", errors="replace") as file:
            if file.read().rpartition(")")[2].split()[0] not in "Tt":
                return False
    return True


@contextmanager
def stopped(pid: int) -> Iterator[None]:
    """Suspends the process. It continues at the end, even if this process is killed: a guard
    process sees to that."""
    guard = subprocess.Popen(
        ["sh", "-c", f"cat > /dev/null; kill -CONT {pid}"],
        stdin=subprocess.PIPE,
        start_new_session=True,
    )
    assert guard.stdin is not None
    try:
        os.kill(pid, signal.SIGSTOP)
        end = time.monotonic() + PATIENCE
        while not stands(pid):
            if time.monotonic() > end:
                raise Trouble(f"process {pid} doesn't stop: a disk may hang")
            time.sleep(0.001)
        yield
    finally:
        guard.stdin.close()
        guard.wait()


def copy(path: str, target: str) -> None:
    """Copies a file, by sharing its blocks if the file system can."""
    with open(path, "rb") as source, open(target, "xb") as file:
        try:
            fcntl.ioctl(file.fileno(), CLONE, source.fileno())
        except OSError:
            shutil.copyfileobj(source, file, 1 << 20)


def sync(path: str) -> None:
    """Brings a file or folder to the disk."""
    descriptor = os.open(path, os.O_RDONLY)
    try:
        os.fsync(descriptor)
    finally:
        os.close(descriptor)


def back_up(pid: int, folder: str, target: str) -> float:
    """Copies the journals of this folder while the process is suspended. Returns for how many
    seconds it was."""
    os.mkdir(target, 0o700)
    begin = time.monotonic()
    with stopped(pid):
        for path in journals_in(folder):
            copy(path, os.path.join(target, os.path.basename(path)))
    stood = time.monotonic() - begin
    for name in os.listdir(target):
        sync(os.path.join(target, name))
    sync(target)
    return stood


def backup(group: Group, target: str) -> bool:
    """Copies the group's journals into a new folder, and returns whether a start opens the copy."""
    require_sqlite()
    if group.pid is None or group.dir is None or group.cap is None:
        raise Trouble(
            f"this user sees no program that serves a group at base port {group.base_port}; "
            "if it is stopped, copy the folder"
        )
    try:
        stood = back_up(group.pid, group.dir, target)
    except FileExistsError:
        raise Trouble(f"{target} exists: give the name of a new folder") from None
    except OSError as error:
        raise Trouble(f"{error.filename or target}: {error.strerror}") from None
    size = sum(os.path.getsize(os.path.join(target, name)) for name in os.listdir(target))
    print(f"copied {size / 1e6:,.1f} MB to {target}; the group stood for {1000 * stood:.0f} ms")
    fault = judge(target, group.nodes, group.cap)
    print(f"the copy is refused: {fault}" if fault else "the copy opens")
    return fault is None
