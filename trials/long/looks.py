"""Watches a group by `urbdctl check` and `urbdctl status`.

The group is well, has a node down, has connections that stay, is suspended, and is stopped.
"""
from __future__ import annotations

import argparse
import json
import os
import signal
import sys
from pathlib import Path
from typing import Any

from urbd.constants import MAX_CAP

from trials.lib.command import parser_of, run_trial
from trials.lib.messages import Sent
from trials.lib.program import Daemon, Options, Program, free_base_port
from trials.lib.tools import urbdctl

NODES = 3
MESSAGES = 100
HELD = 4  # connections that stay: as many as an older node served
LOOKS = 30  # more than a node would serve at a time if a look stayed
FINE, CRITICAL = 0, 2  # the statuses of a check


def check(daemon: Daemon, *words: object) -> tuple[int, str]:
    """The status of a check, and its line."""
    done = urbdctl("check", "--base-port", daemon.options.base_port, *words)
    return done.returncode, done.stdout


def is_fine(daemon: Daemon) -> None:
    """A check finds nothing."""
    status, line = check(daemon, "--behind", 5)
    assert status == FINE, line


def facts_of(daemon: Daemon) -> dict[str, Any]:
    """What `urbdctl status --json` says."""
    done = urbdctl("status", "--json", "--base-port", daemon.options.base_port)
    facts = json.loads(done.stdout)
    assert isinstance(facts, dict), facts
    return facts


def tells_facts(daemon: Daemon) -> None:
    facts = facts_of(daemon)
    found = (facts["process"], facts["cap"], facts["nodes"][0]["accepted"])
    assert found == (daemon.process.pid, MAX_CAP, MESSAGES), facts
    for node in facts["nodes"]:
        assert (node["shown"], node["state"]) == (MESSAGES, "ready"), facts
    assert facts["memory_bytes"] > 1e6, facts
    assert facts["journal_bytes"] > 1e4, facts
    assert facts["disk_free_bytes"] > 0, facts


def watch(program: Program, room: Path, options: argparse.Namespace) -> None:
    group = Options(room / "group", free_base_port(), NODES)
    group.folder.mkdir()
    with program.serve(group) as daemon:
        with daemon.connect(1) as connection:
            Sent(7, 1).submit_all(connection, [b"x" * 100] * MESSAGES)
        expected = FINE, f"OK: {NODES} nodes up, logs of 100, 100, 100\n"
        found = check(daemon, "--behind", 10)
        assert found == expected, f"expected {expected}, and got {found}"
        tells_facts(daemon)
        daemon.node(2).crash()
        status, line = check(daemon, "--behind", 1)
        assert status == CRITICAL and line.startswith("CRITICAL: node 2 down"), line
        daemon.node(2).restart()
        is_fine(daemon)
        held = [daemon.connect(3) for _ in range(HELD)]
        for connection in held:
            connection.status()
        is_fine(daemon)
        for connection in held:
            connection.close()
        os.kill(daemon.process.pid, signal.SIGSTOP)
        expected = CRITICAL, "CRITICAL: no answer from nodes 1, 2, 3 within 1 s\n"
        found = check(daemon)
        os.kill(daemon.process.pid, signal.SIGCONT)
        assert found == expected, f"expected {expected}, and got {found}"
        for _ in range(LOOKS):
            state = daemon.node(1).status().state
            assert state == "ready", state
        daemon.stop()
        status, line = check(daemon)
        assert status == CRITICAL, line


def main(words: list[str]) -> int:
    return run_trial(parser_of(__doc__ or ""), words, watch)


if __name__ == "__main__":
    sys.exit(main(sys.argv[1:]))
