"""What each word of the command does, over the modules beside this one. Each returns a status."""
from __future__ import annotations

import argparse
import sys
from collections.abc import Callable

from urbd import Node, RefusedError
from urbd.constants import MAX_NODES
from urbdctl import bridge, metrics
from urbdctl import check as checks
from urbdctl.backup import backup
from urbdctl.errors import FAULT, MISUSE, OK, Trouble
from urbdctl.group import Group, find, newest_backup
from urbdctl.looks import Lag, look
from urbdctl.show import show_once, watch
from urbdctl.to_etcd import Etcd
from urbdctl.to_redis import Redis
from urbdctl.verify import list_records, verify

Options = argparse.Namespace


def group_of(options: Options) -> Group:
    """The group that the options name."""
    return find(options.base_port, options.nodes, options.cap, options.dir, options.socket_dir)


def node_of(options: Options) -> Node:
    """The node that the options name."""
    group = find(options.base_port, MAX_NODES, socket_dir=options.socket_dir)
    return Node(group.at(options.node))


def run_status(options: Options) -> int:
    """One look. Status 1 if a node is down or doesn't answer."""
    return OK if show_once(group_of(options), options.json) else FAULT


def run_watch(options: Options) -> int:
    """A look every few seconds."""
    watch(group_of(options), options.every, options.json)
    return OK


def run_check(options: Options) -> int:
    """A line and a status for a monitoring system."""
    try:
        group = group_of(options)
    except Trouble as trouble:
        unseen = Group(options.base_port, 1, socket_dir=options.socket_dir)
        return told(*without_program(unseen, trouble))
    limits = checks.Thresholds(
        options.behind,
        options.cap_limits,
        options.memory_limits,
        options.disk_limits,
        options.backup_limits,
        frozenset(options.skip or ()),
    )
    verdict = checks.check(group, limits, options.backups)
    return told(verdict.level, verdict.line)


def without_program(group: Group, trouble: Trouble) -> tuple[checks.Level, str]:
    """What a check says if this user sees no program: whether node 1 answers decides it."""
    try:
        Node(group.at(1), 1.0).status()
    except ConnectionRefusedError as fault:
        return checks.Level.CRITICAL, f"CRITICAL: {fault}"
    except Exception as fault:
        return checks.Level.UNKNOWN, f"UNKNOWN: {trouble} ({fault})"
    return checks.Level.UNKNOWN, f"UNKNOWN: {trouble}"


def told(level: checks.Level, line: str) -> int:
    """Prints the line of a check, and returns its status."""
    print(line)
    return int(level)


def run_backup(options: Options) -> int:
    """A copy of all journals at one moment."""
    return OK if backup(group_of(options), options.to) else FAULT


def run_verify(options: Options) -> int:
    """What a start on a stopped group's folder would answer, or the records of one journal."""
    if options.list is not None:
        list_records(options.dir, options.list)
        return OK
    if options.nodes is None or options.cap is None:
        raise Trouble("verify needs --nodes and --cap, or --list", MISUSE)
    return OK if verify(options.dir, options.nodes, options.cap) else FAULT


def run_restart(options: Options) -> int:
    """Brings a node back that is down."""
    try:
        node_of(options).restart()
    except RefusedError as refused:
        if refused.is_unknown_request:
            text = "the program was started with --no-crash: it takes no RESTART, so start it again"
            raise Trouble(text) from None
        raise
    print(f"node {options.node} is up")
    return OK


def run_bridge(options: Options) -> int:
    """Copies a node's log into another system, forever."""
    kinds: dict[str, Callable[[str, str], bridge.Target]] = {"redis": Redis, "etcd": Etcd}
    target = kinds[options.kind](options.address, options.name)

    def note(text: str) -> None:
        print(text, flush=True)

    bridge.Bridge(node_of(options), target, note).run()
    return OK


def run_metrics(options: Options) -> int:
    """Figures for Prometheus: once, or from a server."""
    group = group_of(options)
    if options.listen is None:
        lag = Lag(group.nodes)
        made = newest_backup(options.backups) if options.backups else None
        sys.stdout.write(metrics.text(look(group, lag), made))
        return OK
    sampler = metrics.Sampler(group, options.every, options.backups)
    serving = metrics.server(sampler, options.listen)
    sampler.start()
    print(f"metrics at http://127.0.0.1:{serving.server_port}/metrics", flush=True)
    try:
        serving.serve_forever()
    finally:
        serving.server_close()
    return OK
