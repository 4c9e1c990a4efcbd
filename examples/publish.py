#!/usr/bin/env python3
"""Publishes each line of standard input once, as one client of one node.

    publish.py --port 7411 --client 7 --file publisher.json < lines.txt
    produce-lines | publish.py --port 7411 --client 7 --file publisher.json

FILE keeps the line in progress, and how many lines are done. If the program stops, start it again
in the same way: it continues with the first line that isn't done. An input that is a file is known
again by its beginning, so its lines are never published twice. The lines of a pipe are new, unless
you give --resume."""
from __future__ import annotations

import argparse
import os
import stat
import sys
from pathlib import Path

sys.path.insert(0, str(Path(__file__).resolve().parent.parent / "clients" / "python" / "src"))

from urbd import Publisher, RefusedError, Stopped  # noqa: E402
from urbd.lines import publish_lines  # noqa: E402


class Faults:
    """Tells each fault once, until another one comes."""

    def __init__(self) -> None:
        self.last = ""

    def tell(self, fault: Exception) -> None:
        """Tells a fault of the node, which is asked again."""
        if str(fault) != self.last:
            self.last = str(fault)
            print(f"publish.py: waits: {fault}", file=sys.stderr, flush=True)


def number(text: str) -> int:
    """A port or a client's number: both have two bytes, and begin with 1."""
    if not (text.isdecimal() and 1 <= int(text) <= 65_535):
        raise argparse.ArgumentTypeError(f"{text!r} isn't a number from 1 to 65535")
    return int(text)


def is_file(descriptor: int) -> bool:
    """Whether this input is a file, which begins with the same lines if it is given again."""
    return stat.S_ISREG(os.fstat(descriptor).st_mode)


def parsed() -> argparse.Namespace:
    """The options of the command line."""
    parser = argparse.ArgumentParser(
        description=__doc__, formatter_class=argparse.RawDescriptionHelpFormatter
    )
    at = parser.add_mutually_exclusive_group(required=True)
    at.add_argument("--port", type=number, help="the node's port for clients")
    at.add_argument("--socket", metavar="PATH", help="the node's socket instead")
    parser.add_argument(
        "--client", type=number, required=True, help="your client number, 1 to 65535, yours alone"
    )
    parser.add_argument("--file", required=True, help="keeps what is in progress and what is done")
    which = parser.add_mutually_exclusive_group()
    which.add_argument(
        "--resume", action="store_true", help="the input is that of an earlier run, from its start"
    )
    which.add_argument("--new-input", action="store_true", help="the input is a new one")
    return parser.parse_args()


def main() -> int:
    options = parsed()
    try:
        if sys.stdin is None:
            raise OSError("standard input is closed")
        is_same = options.resume or is_file(0) and not options.new_input
        told = Faults()
        at = options.port or options.socket
        with Publisher(at, options.client, options.file, on_fault=told.tell) as publisher:
            for seq in publish_lines(publisher, sys.stdin.buffer, is_same):
                print("accepted", seq, flush=True)
    except BrokenPipeError:
        sys.stderr.close()  # nobody reads what is printed, so nothing is left to say
        return 1
    except (OSError, RefusedError, Stopped) as fault:
        print(f"publish.py: {fault}", file=sys.stderr)
        return 1
    except KeyboardInterrupt:
        return 130
    return 0


if __name__ == "__main__":
    sys.exit(main())
