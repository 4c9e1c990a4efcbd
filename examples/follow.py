#!/usr/bin/env python3
"""Prints each entry of a group's log, forever, as `urbd read` does.

    follow.py --port 7411
    follow.py --port 7411,7412,7413 --file follower.json
    follow.py --socket /run/urbd/node-1.sock

A line is a name, the client, its number, and the payload in hexadecimal; with --text, the name and
the payload as text. With several ports, a node that fails is replaced by the next. FILE keeps what
was printed: the next start continues after it."""
from __future__ import annotations

import argparse
import sys
from pathlib import Path

sys.path.insert(0, str(Path(__file__).resolve().parent.parent / "clients" / "python" / "src"))

from urbd import Address, Entry, Follower, Position, Stopped, keep, kept  # noqa: E402


class Faults:
    """Tells each fault once, until another one comes."""

    def __init__(self) -> None:
        self.last = ""

    def tell(self, port: Address, fault: Exception) -> None:
        """Tells a fault of the node at this port, and that the next node is asked."""
        if str(fault) != self.last:
            self.last = str(fault)
            print(f"follow.py: waits: {fault}", file=sys.stderr, flush=True)


def paths(text: str) -> list[str]:
    """The paths of a list such as `a/node-1.sock,a/node-2.sock`."""
    words = text.split(",")
    if not all(words):
        raise argparse.ArgumentTypeError("a path is empty")
    return words


def ports(text: str) -> list[int]:
    """The ports of a list such as `7411,7412`."""
    words = text.split(",")
    for word in words:
        if not (word.isdecimal() and 1 <= int(word) <= 65_535):
            raise argparse.ArgumentTypeError(f"{word!r} isn't a port from 1 to 65535")
    return [int(word) for word in words]


def shown(entry: Entry, is_text: bool) -> str:
    """The line of an entry."""
    return f"{entry.name} {entry.text}" if is_text else entry.line


def parsed() -> argparse.Namespace:
    """The options of the command line."""
    parser = argparse.ArgumentParser(
        description=__doc__, formatter_class=argparse.RawDescriptionHelpFormatter
    )
    at = parser.add_mutually_exclusive_group(required=True)
    at.add_argument("--port", type=ports, metavar="PORT,..", help="the nodes' ports for clients")
    at.add_argument("--socket", type=paths, metavar="PATH,..", help="the nodes' sockets instead")
    parser.add_argument("--file", help="keeps what was printed")
    parser.add_argument("--text", action="store_true", help="print payloads as text")
    return parser.parse_args()


def main() -> int:
    options = parsed()
    try:
        position = Position.from_json(kept(options.file) if options.file else None)
        with Follower(options.port or options.socket, position, on_fault=Faults().tell) as follower:
            for entries in follower:
                lines = [shown(entry, options.text) for entry in entries]
                print("\n".join(lines), flush=True)
                if options.file:
                    keep(options.file, follower.position.to_json())
    except BrokenPipeError:
        sys.stderr.close()  # nobody reads what is printed, so nothing is left to say
        return 1
    except (OSError, Stopped) as fault:
        print(f"follow.py: {fault}", file=sys.stderr)
        return 1
    except KeyboardInterrupt:
        return 130
    return 0


if __name__ == "__main__":
    sys.exit(main())
