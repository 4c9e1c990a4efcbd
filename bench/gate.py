#!/usr/bin/env python3
"""gate.py [PROCESSORS]     what `rt ci` costs, in processor minutes

Runs the gate at the top of a clean clone, on PROCESSORS alone if they are given (as taskset takes
them: 0,1). It looks at the checks every two seconds, so a figure may lack two seconds a check.
Prints what the gate prints. Then a table has each crate's minutes alone, with its tests and with
its edits, and a line the minutes by the clock. If it is interrupted, it prints what it has seen.
Nothing else of the toolchain may run meanwhile. Linux.
"""
from __future__ import annotations

import argparse
import os
import signal
import subprocess
import sys
import time
from collections.abc import Mapping, Sequence
from dataclasses import dataclass
from pathlib import Path
from typing import Optional

TICK = os.sysconf("SC_CLK_TCK")
PAUSE = 2  # seconds between two looks
KINDS = ("alone", "tests", "edits")


@dataclass(frozen=True)
class Check:
    """A process of the gate that checks a crate, and which of KINDS it is."""

    process: int
    crate: str
    kind: str


def check_of(gate: int, process: Path, top: Path) -> Optional[tuple[Check, float]]:
    """What a process of the gate checks, and its processor seconds; None if it is no check."""
    try:
        if (
            os.getsid(int(process.name)) != gate
            or os.readlink(process / "exe").rsplit("/", 1)[-1] != "rattle"
        ):
            return None
        words = (process / "cmdline").read_bytes().decode(errors="replace").split("\0")
        folder = os.readlink(process / "cwd")
        fields = (process / "stat").read_text().rsplit(")", 1)[1].split()
    except OSError:
        return None
    if "--crate-name" not in words:
        return None
    crate = words[words.index("--crate-name") + 1]
    kind = "tests" if "--test" in words else "alone" if folder.startswith(str(top)) else "edits"
    check = Check(int(process.name), crate, kind)
    return check, (int(fields[11]) + int(fields[12])) / TICK


def watch(gate: subprocess.Popen[bytes], top: Path) -> dict[Check, float]:
    """The processor seconds of each check, until the gate ends or the watch is broken off."""
    seen: dict[Check, float] = {}
    try:
        while gate.poll() is None:
            for process in Path("/proc").iterdir():
                if process.name.isdigit() and (found := check_of(gate.pid, process, top)):
                    check, seconds = found
                    seen[check] = seconds
            time.sleep(PAUSE)
    except KeyboardInterrupt:
        os.killpg(gate.pid, signal.SIGINT)
        gate.wait()
    return seen


def show(seen: Mapping[Check, float]) -> None:
    """Prints the table."""
    table: dict[str, dict[str, float]] = {}
    for check, seconds in seen.items():
        row = table.setdefault(check.crate, dict.fromkeys(KINDS, 0.0))
        row[check.kind] += seconds / 60
    print(f"{'processor minutes':22}" + "".join(f"{kind:>8}" for kind in KINDS))
    for crate, row in sorted(table.items()):
        cells = (f"{row[kind]:8.1f}" if row[kind] else f"{'':8}" for kind in KINDS)
        print(f"{crate:22}" + "".join(cells))
    sums = [sum(row[kind] for row in table.values()) for kind in KINDS]
    print(f"{'together':22}" + "".join(f"{it:8.1f}" for it in [*sums, sum(sums)]))


def main(words: Sequence[str]) -> int:
    parser = argparse.ArgumentParser(
        description=__doc__, formatter_class=argparse.RawDescriptionHelpFormatter
    )
    parser.add_argument("processors", nargs="?", help="such as 0,1")
    processors = parser.parse_args(words).processors
    top = Path(__file__).resolve().parent.parent
    command = [*(["taskset", "-c", processors] if processors else []), "rt", "ci"]
    begin = time.monotonic()
    gate = subprocess.Popen(command, cwd=top, start_new_session=True)
    seen = watch(gate, top)
    minutes = (time.monotonic() - begin) / 60
    show(seen)
    print(f"{minutes:.0f} minutes by the clock")
    return gate.returncode


if __name__ == "__main__":
    sys.exit(main(sys.argv[1:]))
