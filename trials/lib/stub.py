#!/usr/bin/env python3
"""Stands for the program in trials that are tried without it: `serve` and `submit`, and no proof.

`stub.py serve ..` takes the options of `urbd serve`, opens a simulated group, and ends with its
input. Its folder keeps the messages, so they outlive a kill. `stub.py submit ..` submits one.
"""
from __future__ import annotations

import argparse
import json
import sys
from collections.abc import Sequence
from pathlib import Path
from typing import Any, NoReturn, TextIO

if __name__ == "__main__":  # it is run by its path, without the package around it
    sys.path.insert(0, str(Path(__file__).resolve().parent.parent.parent))

from trials import TOP  # noqa: E402
from urbd import Node, client_port  # noqa: E402
from urbd.frames import Entry  # noqa: E402
from urbd.simulation import SimulatedGroup  # noqa: E402

PATH = TOP / "trials" / "lib" / "stub.py"
KEPT = "node-1.db"  # one file for all nodes


class Kept(list[Entry]):
    """Entries, each of which is a line of a file before it is in the list."""

    def __init__(self, path: Path) -> None:
        lines = path.read_text().splitlines() if path.exists() else []
        super().__init__(map(entry_of, lines))
        self.file: TextIO = path.open("a")

    def append(self, entry: Entry) -> None:
        self.file.write(json.dumps({**vars(entry), "payload": entry.payload.hex()}) + "\n")
        self.file.flush()
        super().append(entry)


def entry_of(line: str) -> Entry:
    """The entry of a line of the file."""
    fields: dict[str, Any] = json.loads(line)
    fields["payload"] = bytes.fromhex(fields["payload"])
    return Entry(**fields)


def serve(options: argparse.Namespace) -> None:
    """Runs a group until the input ends."""
    ports = [client_port(options.base_port, node) for node in range(1, options.nodes + 1)]
    if not options.dir.is_dir():
        sys.exit(f"urbd: refused 15 0: {options.dir} is no folder")
    kept = Kept(options.dir / KEPT)
    group = SimulatedGroup(options.nodes, options.cap, ports, knows_wait=True, entries=kept)
    print(f"open {options.nodes}", flush=True)
    sys.stdin.read()
    group.close()
    print(f"closed {len(group.entries)}", flush=True)


def submit(options: argparse.Namespace) -> None:
    """Submits one message."""
    seq = Node(options.port).submit(options.client, options.number, options.payload)
    print(f"accepted {seq}")


class Parser(argparse.ArgumentParser):
    """A parser that ends with status 3 if the command line is wrong, as `urbd` does."""

    def error(self, message: str) -> NoReturn:
        self.exit(3, f"{message}\n")


def main(words: Sequence[str]) -> None:
    parser = Parser(description=__doc__, formatter_class=argparse.RawDescriptionHelpFormatter)
    under = parser.add_subparsers(required=True)
    serving = under.add_parser("serve")
    for name in ("--nodes", "--cap", "--base-port", "--tick-ms"):
        serving.add_argument(name, type=int, required=True)
    serving.add_argument("--dir", type=Path, required=True)
    serving.set_defaults(run=serve)
    submitting = under.add_parser("submit")
    for name in ("--port", "--client", "--number"):
        submitting.add_argument(name, type=int, required=True)
    submitting.add_argument("payload")
    submitting.set_defaults(run=submit)
    options = parser.parse_args(words)
    options.run(options)


if __name__ == "__main__":
    main(sys.argv[1:])
