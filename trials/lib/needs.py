"""What a trial may need that isn't installed everywhere."""
from __future__ import annotations

import os
import shutil
import sqlite3
from collections.abc import Callable, Iterable

HAS: dict[str, Callable[[], bool]] = {
    "go": lambda: shutil.which("go") is not None,
    "SQLite 3.37": lambda: sqlite3.sqlite_version_info >= (3, 37),
    "redis-server or etcd": lambda: bool(shutil.which("redis-server") or shutil.which("etcd")),
    "strace": lambda: shutil.which("strace") is not None,
    "root": lambda: os.geteuid() == 0,
    "a C compiler": lambda: shutil.which("cc") is not None,
}


def missing_of(needs: Iterable[str]) -> list[str]:
    """Those of these needs that aren't met here."""
    return [need for need in needs if not HAS[need]()]
