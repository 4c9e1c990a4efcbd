"""A running group whose system calls fail: syncs, writes, datagrams, connections, reads at a start.

`strace` makes the calls fail, once or always, while clients submit at three nodes and restart nodes
that are down. Then the program is stopped or killed, and started again without failing calls. What
was accepted is accepted again under its name, each log begins with what was read before, and the
group continues. In one case a write reports success but does nothing, like a disk that lies: then
the next start has to refuse the folder. Needs strace.
"""
from __future__ import annotations

import argparse
import os
import re
import shutil
import signal
import subprocess
import sys
import threading
import time
from collections import Counter
from collections.abc import Sequence
from dataclasses import dataclass
from pathlib import Path
from typing import Optional

from urbd.constants import Refusal
from urbd.errors import RefusedError
from urbd.frames import Accepted, Entry, Refused, Submit
from urbd.node import Connection

from trials.lib.command import parser_of, run_trial
from trials.lib.messages import Sent, log_of, wait_for_logs
from trials.lib.program import PATIENCE, Daemon, NotOpen, Options, Program, free_base_port

NODES = 3
MESSAGES = 60  # that each node's client submits
TRIES = 25  # submits of one message, at most
TIMEOUT = 5.0  # seconds for an answer of a group whose calls fail
# Refusals after which a client restarts its node.
FALLEN = (Refusal.NO_MEMORY, Refusal.DOWN, Refusal.DEVICE)
REFUSED_START = re.compile(rb"urbd: (refused (14|15|17) \d+|no memory|network failed)")


@dataclass(frozen=True)
class Case:
    """A kind of failure: in words, and as strace's option `inject` takes it."""

    what: str
    inject: str


# Counts are of each thread's own calls.
WHILE_IT_RUNS = (
    Case("a sync fails once (EIO)", "fdatasync:error=EIO:when=15"),
    Case("a sync fails once (ENOSPC)", "fdatasync:error=ENOSPC:when=15"),
    Case("each sync fails from one on (EIO)", "fdatasync:error=EIO:when=15+"),
    Case("each sync fails from one on (ENOSPC)", "fdatasync:error=ENOSPC:when=15+"),
    Case("each twentieth sync fails", "fdatasync:error=EIO:when=20+20"),
    Case("a write fails once (EIO)", "pwrite64:error=EIO:when=40"),
    Case("a write fails once (ENOSPC)", "pwrite64:error=ENOSPC:when=41"),
    Case("each write fails from one on (EIO)", "pwrite64:error=EIO:when=42+"),
    Case("each write fails from one on (ENOSPC)", "pwrite64:error=ENOSPC:when=43+"),
    Case("each thirtieth write fails", "pwrite64:error=ENOSPC:when=30+30"),
    Case("a write is interrupted", "pwrite64:error=EINTR:when=44"),
    Case("each second send fails (ENOBUFS)", "sendto:error=ENOBUFS:when=10+2"),
    Case("each third send fails (EPERM)", "sendto:error=EPERM:when=5+3"),
    Case("each third receipt fails (EIO)", "recvfrom:error=EIO:when=5+3"),
    Case("each fifth receipt is interrupted", "recvfrom:error=EINTR:when=5+5"),
    Case("each seventh receipt claims no byte", "recvfrom:retval=0:when=7+7"),
    Case("some connections can't be accepted (EMFILE)", "accept4:error=EMFILE:when=2..6"),
    Case("each second connection is gone at once", "accept4:error=ECONNABORTED:when=1+2"),
)
AT_A_START = (
    Case("a read fails", "pread64:error=EIO:when={}"),
    Case("a read is short: it claims no byte", "pread64:retval=0:when={}"),
    Case("a read is short: it claims ten bytes", "pread64:retval=10:when={}"),
    Case("a sync fails", "fdatasync:error=EIO:when={}"),
    Case("a write fails", "pwrite64:error=ENOSPC:when={}"),
    Case("a file can't be opened", "openat:error=EMFILE:when={}"),
)
STARTS = (1, 2, 3, 5, 8, 13, 21)  # which call fails at a start
LIE = Case("a disk that lies", "pwrite64:retval=1048:when=60+")


def strace(case: Case, paths: Sequence[Path] = ()) -> list[str]:
    """The words that run a program with these failures; with paths, only on these files."""
    call = case.inject.partition(":")[0]
    words = ["strace", "-f", "-qq", "--seccomp-bpf", "-o", os.devnull]
    words += ["-e", f"trace={call}", "-e", f"inject={case.inject}"]
    return words + [word for path in paths for word in ("-P", str(path))]


class Failing(Daemon):
    """A group under strace."""

    def kill(self) -> None:
        """Kills the program; strace ends with it."""
        words = ["ps", "-o", "pid=", "--ppid", str(self.process.pid)]
        for pid in subprocess.run(words, capture_output=True, text=True).stdout.split():
            os.kill(int(pid), signal.SIGKILL)
        self.process.wait(PATIENCE)
        super().kill()

    def end(self, is_killed: bool) -> None:
        """Kills it, or stops it; a stop under failures may end in any way."""
        if is_killed:
            self.kill()
        else:
            self.process.communicate(timeout=PATIENCE)


def payload_of(node: int, number: int) -> bytes:
    return b"%d of %d " % (number, node) * (1 + number % 9)


class Load(threading.Thread):
    """One client of a node. It connects again if its connection ends, and restarts its node."""

    def __init__(self, options: Options, sent: Sent) -> None:
        super().__init__(daemon=True)
        self.options, self.sent = options, sent
        self.refusals: set[int] = set()
        self.connection: Optional[Connection] = None
        self.start()

    def run(self) -> None:
        for _ in range(MESSAGES):
            number = len(self.sent.seqs) + 1
            if not any(self.submit(number) for _ in range(TRIES)):
                return

    def submit(self, number: int) -> bool:
        """Whether the message is accepted."""
        try:
            node = self.options.node(self.sent.node, TIMEOUT)
            self.connection = self.connection or node.connect()
            payload = payload_of(self.sent.node, number)
            response = self.connection.ask(Submit(self.sent.client, number, payload))[0]
            if isinstance(response, Accepted):
                self.sent.seqs.append(response.seq)
                self.sent.payloads.append(payload)
                return True
            if isinstance(response, Refused):
                self.refusals.add(response.number)
                if response.number in FALLEN:
                    self.connection.restart()
        except RefusedError:  # it can't restart yet
            pass
        except OSError:
            if self.connection:
                self.connection.close()
            self.connection = None
        time.sleep(0.01)
        return False


@dataclass
class Group:
    """A group, what its clients sent, and what its logs showed."""

    program: Program
    options: Options
    sent: list[Sent]
    before: list[list[Entry]]

    @property
    def counts(self) -> list[int]:
        return [len(it.seqs) for it in self.sent]

    def load(self) -> list[int]:
        """Submits at each node. Gives the refusals that came."""
        loads = [Load(self.options, it) for it in self.sent]
        for load in loads:
            load.join(PATIENCE * 2)
            assert not load.is_alive(), "expected that no client hangs"
        return sorted(set().union(*(load.refusals for load in loads)))

    def look(self, daemon: Daemon) -> None:
        """Reads each log; a log that can't be read counts as empty."""
        self.before = [self.log_at(daemon, node) for node in daemon.nodes]

    def log_at(self, daemon: Daemon, node: int) -> list[Entry]:
        for _ in range(TRIES):
            try:
                return log_of(daemon, node)
            except (OSError, RefusedError):
                time.sleep(0.01)
        return []

    def has_all(self, what: str) -> None:
        """A start without failing calls has what was accepted and read, and continues."""
        with self.program.serve(self.options) as daemon:
            for it in self.sent:
                with daemon.connect(it.node) as connection:
                    it.repeat(connection, range(1, len(it.seqs) + 1))
                    it.submit_all(connection, [payload_of(it.node, len(it.seqs) + 1)])
            logs = wait_for_logs(daemon, sum(self.counts))
            for node, (old, new) in enumerate(zip(self.before, logs), 1):
                assert new[: len(old)] == old, f"{what}: the log of node {node} has changed"
            self.before = logs
            daemon.stop()


def new_group(program: Program, folder: Path) -> Group:
    """A group whose journals are made, by calls that don't fail."""
    folder.mkdir()
    options = Options(folder, free_base_port(), NODES)
    with program.serve(options) as daemon:
        daemon.stop()
    sent = [Sent(node, node) for node in range(1, NODES + 1)]
    return Group(program, options, sent, [[] for _ in range(NODES)])


def fail_while_it_runs(program: Program, folder: Path, case: Case, is_killed: bool) -> None:
    group = new_group(program, folder)
    with Failing(program.start(group.options, strace(case)), group.options) as daemon:
        refusals = group.load()
        group.look(daemon)
        said = group.counts
        daemon.end(is_killed)
    group.has_all(case.what)
    shutil.rmtree(folder)
    end = "killed" if is_killed else "stopped"
    print(f"{case.what}: {said} accepted, refusals {refusals}; {end}, nothing lost", flush=True)


def fail_at_a_start(program: Program, folder: Path, cases: Sequence[Case]) -> None:
    """Starts a folder with calls that fail. Each start opens, or says why it can't."""
    group = new_group(program, folder)
    with program.serve(group.options) as daemon:
        group.load()
        daemon.kill()
    group.has_all("a first start")
    nodes = range(1, NODES + 1)
    files = [folder / f"node-{node}.db{end}" for node in nodes for end in ("", "-wal")]
    for case in cases:
        opened, refused = 0, Counter[str]()
        for when in STARTS:
            one = Case(case.what, case.inject.format(when))
            try:
                process = program.start(group.options, strace(one, files))
                with Failing(process, group.options) as failing:
                    opened += 1
                    failing.end(when % 2 == 1)
            except NotOpen as fault:
                is_told = fault.status == 1 and REFUSED_START.match(fault.error)
                assert is_told, f"{case.what}, call {when}: {fault}"
                refused[fault.error.decode().strip()] += 1
        group.has_all(case.what)
        print(f"at a start, {case.what}: {opened} opened, {dict(refused)} refused", flush=True)
    shutil.rmtree(folder)


def lie(program: Program, folder: Path) -> None:
    """Writes to node 1's log do nothing. A start has everything, or refuses the folder."""
    group = new_group(program, folder)
    words = strace(LIE, [folder / "node-1.db-wal"])
    with Failing(program.start(group.options, words), group.options) as daemon:
        refusals = group.load()
        group.look(daemon)
        said = group.counts
        daemon.kill()
    run = program.run(*group.options.words())
    if run.returncode == 0:  # no lie was believed: then all is there
        group.has_all(LIE.what)
        came = "it was noticed at once, and nothing was lost"
    else:
        assert REFUSED_START.match(run.stderr), run.stderr
        came = run.stderr.decode().strip()
    print(f"{LIE.what}: {said} accepted, refusals {refusals}; the next start: {came}", flush=True)
    shutil.rmtree(folder)


def fail_calls(program: Program, room: Path, options: argparse.Namespace) -> None:
    folder, tried = room / "group", 0
    for at, case in enumerate(WHILE_IT_RUNS):
        if options.only in case.what:
            fail_while_it_runs(program, folder, case, at % 2 == 0)
            tried += 1
    cases = [case for case in AT_A_START if options.only in case.what]
    if cases:
        fail_at_a_start(program, folder, cases)
    if options.only in LIE.what:
        lie(program, folder)
        tried += 1
    print(f"{tried + len(cases)} kinds of failures")


def main(words: list[str]) -> int:
    parser = parser_of(__doc__ or "")
    parser.add_argument("--only", default="", help="cases whose description has this text")
    return run_trial(parser, words, fail_calls)


if __name__ == "__main__":
    sys.exit(main(sys.argv[1:]))
