"""The command line of `urbdctl`: its words, their options, and its help."""
from __future__ import annotations

import argparse
import os
import sys
from collections.abc import Callable, Sequence
from typing import NoReturn, Optional

from urbd import RefusedError
from urbd.constants import MAX_BASE_PORT, MAX_CAP, MAX_NODES, MIN_BASE_PORT
from urbdctl import words
from urbdctl.check import PARTS
from urbdctl.errors import FAULT, MISUSE, Trouble

BASE_PORT = 7400  # the base port of the service unit
ABOUT = "Shows, checks, copies and restarts groups of urbd on this machine."
EPILOG = """\
A group is named by its base port. The number of nodes, the cap and the folder are those of the
running program's command line; give --nodes, --cap and --dir if this user can't read that. Nodes
are asked at their ports, or at their sockets if the program has --no-tcp or --socket-dir is given
here.

status: 0 if all is well, 1 if not, 3 if the command line is wrong. `check` ends with those of
monitoring plugins: 0 fine, 1 warning, 2 critical, 3 unknown.

examples:
  urbdctl status
  urbdctl check --base-port 7400 --behind 10 --backups /var/backups/urbd
  urbdctl backup --to /var/backups/urbd/monday
  urbdctl verify --dir /var/lib/urbd --nodes 1 --cap 1000000
  urbdctl bridge --node 1 redis 127.0.0.1:6379 feed
  urbdctl metrics --listen 9420
"""


class Parser(argparse.ArgumentParser):
    """A parser that ends with status 3 if the command line is wrong, as `urbd` does: 2 would be
    "critical" to a monitoring system."""

    def error(self, message: str) -> NoReturn:
        self.print_usage(sys.stderr)
        self.exit(MISUSE, f"{self.prog}: {message}\n")


def whole(least: int, most: int) -> Callable[[str], int]:
    """A whole number of this range."""

    def read(text: str) -> int:
        if not (text.isdecimal() and least <= int(text) <= most):
            raise argparse.ArgumentTypeError(f"{text!r} isn't a number from {least} to {most}")
        return int(text)

    return read


def seconds(text: str) -> float:
    """A time, which is not negative."""
    try:
        value = float(text)
    except ValueError:
        value = -1
    if not 0 <= value <= 1e6:
        raise argparse.ArgumentTypeError(f"{text!r} is no number of seconds")
    return value


def limits(text: str) -> tuple[float, float]:
    """A warning limit and a critical one, as `80,95`."""
    try:
        warning, critical = (float(part) for part in text.split(","))
    except ValueError:
        raise argparse.ArgumentTypeError(
            f"{text!r} is no pair of limits: write WARNING,CRITICAL"
        ) from None
    return warning, critical


def port_options() -> Parser:
    """The options that name a group, and say where its nodes are asked."""
    parser = Parser(add_help=False)
    parser.add_argument(
        "--base-port",
        type=whole(MIN_BASE_PORT, MAX_BASE_PORT),
        default=BASE_PORT,
        metavar="B",
        help=f"the group's base port, {MIN_BASE_PORT} to {MAX_BASE_PORT} (default {BASE_PORT})",
    )
    parser.add_argument(
        "--socket-dir", metavar="S", help="ask the nodes at their sockets in this folder"
    )
    return parser


def group_options() -> Parser:
    """The options that name a group, and say what its command line would."""
    parser = Parser(add_help=False, parents=[port_options()])
    parser.add_argument(
        "--nodes",
        type=whole(1, MAX_NODES),
        metavar="N",
        help=f"the number of nodes, 1 to {MAX_NODES}",
    )
    parser.add_argument(
        "--cap", type=whole(1, MAX_CAP), metavar="C", help=f"the cap of each node, 1 to {MAX_CAP}"
    )
    parser.add_argument("--dir", metavar="D", help="the folder of the journals")
    return parser


def node_options() -> Parser:
    """The options that name one node of a group."""
    parser = Parser(add_help=False, parents=[port_options()])
    parser.add_argument(
        "--node", type=whole(1, MAX_NODES), default=1, metavar="P", help="the node (default 1)"
    )
    return parser


def parser() -> Parser:
    """The parser of the whole command line."""
    whole_line = Parser(
        prog="urbdctl",
        allow_abbrev=False,
        description=ABOUT,
        epilog=EPILOG,
        formatter_class=argparse.RawDescriptionHelpFormatter,
    )
    under = whole_line.add_subparsers(metavar="WORD", required=True, parser_class=Parser)

    def word(
        name: str,
        run: Callable[[argparse.Namespace], int],
        parents: Sequence[Parser],
        about: str,
    ) -> Parser:
        made = under.add_parser(
            name, help=about, description=about, parents=[*parents], allow_abbrev=False
        )
        made.set_defaults(run=run)
        return made

    group = group_options()
    add_shows(word, group)
    add_check(word("check", words.run_check, [group], "One line and a status for monitoring."))
    copy = word("backup", words.run_backup, [group], "Copies a running group's journals.")
    copy.add_argument("--to", required=True, metavar="FOLDER", help="a folder that isn't there yet")
    add_verify(word("verify", words.run_verify, [], "Says what a start on a folder would answer."))
    node = node_options()
    word("restart", words.run_restart, [node], "Brings a node back that is down.")
    add_bridge(word("bridge", words.run_bridge, [node], "Copies a log into redis or etcd."))
    add_metrics(word("metrics", words.run_metrics, [group], "Figures for Prometheus."))
    return whole_line


def add_shows(word: Callable[..., Parser], group: Parser) -> None:
    """The words `status` and `watch`."""
    status = word("status", words.run_status, [group], "Shows a group once.")
    watch = word("watch", words.run_watch, [group], "Shows a group until Ctrl-C.")
    for each in (status, watch):
        each.add_argument("--json", action="store_true", help="as JSON, a line for each look")
    watch.add_argument(
        "--every", type=seconds, default=1.0, metavar="S", help="seconds between looks (1)"
    )


def add_check(made: Parser) -> None:
    """The options of `check`."""
    made.add_argument(
        "--behind",
        type=seconds,
        default=10.0,
        metavar="S",
        help="warn if a log lacks messages for longer than these seconds (10)",
    )
    for name, default, what in (
        ("cap", (80.0, 95.0), "percent of the cap that a node has accepted"),
        ("memory", (70.0, 90.0), "percent of the memory that the program takes"),
        ("disk", (10.0, 3.0), "percent of the disk that is free"),
        ("backup", (26.0, 72.0), "hours since the newest backup"),
    ):
        made.add_argument(
            f"--{name}-limits",
            type=limits,
            default=default,
            metavar="WARNING,CRITICAL",
            help=f"{what} ({default[0]:g},{default[1]:g})",
        )
    made.add_argument("--backups", metavar="FOLDER", help="the folder in which backups are made")
    made.add_argument(
        "--skip", action="append", choices=PARTS, help="leave this out; may be given again"
    )


def add_verify(made: Parser) -> None:
    """The options of `verify`."""
    made.add_argument("--dir", required=True, metavar="D", help="the folder of the journals")
    made.add_argument(
        "--nodes", type=whole(1, MAX_NODES), metavar="N", help="as a start would have them"
    )
    made.add_argument("--cap", type=whole(1, MAX_CAP), metavar="C", help="as a start would have it")
    made.add_argument(
        "--list",
        type=whole(1, MAX_NODES),
        metavar="P",
        help="print the records of node P's journal instead",
    )


def add_bridge(made: Parser) -> None:
    """The options of `bridge`."""
    made.add_argument("kind", choices=("redis", "etcd"), help="the kind of the target")
    made.add_argument("address", metavar="HOST:PORT", help="its address; of etcd also several")
    made.add_argument("name", metavar="KEY", help="the stream's key in redis, a prefix in etcd")


def add_metrics(made: Parser) -> None:
    """The options of `metrics`."""
    made.add_argument(
        "--listen",
        type=whole(0, 65535),
        metavar="PORT",
        help="serve them at http://127.0.0.1:PORT/metrics until Ctrl-C",
    )
    made.add_argument(
        "--every",
        type=seconds,
        default=1.0,
        metavar="S",
        help="with --listen: seconds between looks (1)",
    )
    made.add_argument("--backups", metavar="FOLDER", help="the folder in which backups are made")


def main(arguments: Optional[Sequence[str]] = None) -> int:
    """Runs the command line, and returns its status."""
    open_streams()
    options = parser().parse_args(arguments)
    try:
        status: int = options.run(options)
        sys.stdout.flush()
        return status
    except Trouble as trouble:
        return failed(options, str(trouble), trouble.status)
    except BrokenPipeError:
        give_up_output()  # nobody reads what is printed
        return FAULT
    except (OSError, RefusedError) as fault:
        return failed(options, str(fault), FAULT)
    except KeyboardInterrupt:
        return 130
    except Exception as fault:
        return failed(options, f"an error of this command: {fault!r}", FAULT)


def open_streams() -> None:
    """Replaces standard output and standard error if they are closed: their status is left."""
    if sys.stdout is None:
        sys.stdout = open(os.devnull, "w")
    if sys.stderr is None:
        sys.stderr = open(os.devnull, "w")


def failed(options: argparse.Namespace, text: str, status: int) -> int:
    """Tells why a command ends, and returns its status. A check that fails knows nothing."""
    if options.run is words.run_check:
        try:
            print(f"UNKNOWN: {text}", flush=True)
        except OSError:  # the line goes nowhere, so the status alone tells it
            give_up_output()
        return MISUSE
    print(f"urbdctl: {text}", file=sys.stderr)
    return status


def give_up_output() -> None:
    """Leaves what can't be written. Python's own flush at the end would fail again."""
    os.dup2(os.open(os.devnull, os.O_WRONLY), 1)


if __name__ == "__main__":
    sys.exit(main())
