"""Runs the trials of the built program, and counts them: the last line is `N passed, M failed`.

    python3 -m trials PROGRAM                 all of them; PROGRAM is the built urbd
    python3 -m trials PROGRAM --gate          those that each run of the gate tries
    python3 -m trials PROGRAM --only NAME..   those of these names
    python3 -m trials --list                  the names

A trial of trials/gate is a file of test cases, and each case counts. One of trials/long puts load
and faults on running groups, or tries a tool of contrib/ or a client. It counts as one, and can be
run alone, for longer (`python3 -m trials.long.NAME --help`). If a trial needs something that isn't
installed, it is left out, with a line. What fails says what was expected. Two trials run at a time,
each at ports of its own. Python 3.9 or later, on Linux.
"""
from __future__ import annotations

import argparse
import os
import signal
import subprocess
import sys
import time
from collections.abc import Sequence
from concurrent.futures import ThreadPoolExecutor
from dataclasses import dataclass
from pathlib import Path

from tools.gate import Count, count_of
from trials import TOP
from trials.gate.cases import PROGRAM
from trials.lib.needs import missing_of
from trials.lib.program import FIRST_PORT

AT_ONCE = 2
LIMIT = 600  # seconds that a trial may take
PORTS = range(20_000, 32_000, 600)  # the first of the ports that each trial may use


@dataclass(frozen=True)
class Trial:
    """A trial: what it tries, the words that run it, and what it needs."""

    name: str
    what: str
    words: Sequence[str]
    needs: Sequence[str] = ()
    is_of_gate: bool = False

    def command(self, program: Path) -> list[str]:
        return [sys.executable, *(str(program) if it == "PROGRAM" else it for it in self.words)]


def case(name: str, what: str, is_of_gate: bool = False) -> Trial:
    """A file of cases of trials/gate."""
    return Trial(name, what, ["-m", "unittest", f"trials.gate.test_{name}"], is_of_gate=is_of_gate)


def long(name: str, what: str, *words: str, needs: Sequence[str] = ()) -> Trial:
    """A trial of trials/long."""
    return Trial(name, what, ["-m", f"trials.long.{name}", "PROGRAM", *words], needs)


TRIALS = (
    case("sizes", "many messages, long logs and long journals", is_of_gate=True),
    case("groups", "every number of nodes; kills, crashes, ports", is_of_gate=True),
    case("commands", "each option at its ends, each status", is_of_gate=True),
    case("payloads", "payloads of every length", is_of_gate=True),
    case("faults", "full disks, closed streams, few descriptors, signals", is_of_gate=True),
    case("connections", "many connections, half frames, one client too many", is_of_gate=True),
    case("waits", "what ends a WAIT, and what it answers", is_of_gate=True),
    case("streams", "publish and follow: what they print, kills amid them", is_of_gate=True),
    case("usage", "the help lists what the man page and completions list", is_of_gate=True),
    case("sockets", "Unix sockets, for each command and client", is_of_gate=True),
    long("kills", "kills under the load of twelve clients", "--kills", "3"),
    long("crashes", "nodes are crashed and restarted under load", "--seconds", "10"),
    long("failing_calls", "system calls that fail", needs=["strace"]),
    long(
        "refused_memory",
        "growths of memory that are refused",
        *("--last", "500", "--step", "20"),
        needs=["a C compiler"],
    ),
    long("hostile_clients", "ill-behaved clients and packets, refused starts"),
    long("moved_folders", "a folder that is moved away"),
    long("old_files", "the journals of an older program", needs=["SQLite 3.37"]),
    long("verdicts", "a check of journals and a start answer the same", needs=["SQLite 3.37"]),
    long("service", "the service unit and urbd-run"),
    long("full_pipe", "a standard error that nobody reads"),
    long("heavy_load", "five nodes, and the most, under as much load as twelve clients make"),
    long("looks", "what is told of a running group"),
    long("backups", "copies of a running group under load", needs=["SQLite 3.37"]),
    long("clients", "publishers and followers that are killed", "--seconds", "12"),
    long("full_folders", "a full folder is taken to its end"),
    long(
        "bridging",
        "a log into redis and etcd, with kills",
        *("--seconds", "12"),
        needs=["redis-server or etcd"],
    ),
)


@dataclass(frozen=True)
class Outcome:
    """What came of a trial: what it counted, its seconds, and what it said."""

    count: Count
    seconds: float
    said: str


def run(trial: Trial, program: Path, first_port: int) -> Outcome:
    """Runs a trial in a process of its own."""
    environment = {**os.environ, PROGRAM: str(program), FIRST_PORT: str(first_port)}
    begin = time.monotonic()
    try:
        done = subprocess.run(
            trial.command(program),
            cwd=TOP,
            env=environment,
            stdout=subprocess.PIPE,
            stderr=subprocess.STDOUT,
            text=True,
            errors="replace",
            timeout=LIMIT,
        )
        count, said = count_of(done.stdout, done.returncode), done.stdout
    except subprocess.TimeoutExpired as late:
        told = late.stdout or b""
        said = told.decode(errors="replace") if isinstance(told, bytes) else told
        count, said = Count(0, 1), f"{said}\nexpected an end within {LIMIT} s\n"
    return Outcome(count, time.monotonic() - begin, said)


def run_all(trials: Sequence[Trial], program: Path, is_verbose: bool) -> Count:
    """Runs these trials, prints a line for each, and what those say that fail."""
    total, ready = Count(), []
    for trial in trials:
        missing = missing_of(trial.needs)
        if missing:
            print(f"{trial.name:16} left out: {', '.join(missing)} isn't here", flush=True)
        else:
            ready.append(trial)
    with ThreadPoolExecutor(AT_ONCE) as pool:
        outcomes = [pool.submit(run, it, program, port) for it, port in zip(ready, PORTS)]
        for trial, pending in zip(ready, outcomes):
            outcome = pending.result()
            total.add(outcome.count)
            print(f"{trial.name:16} {outcome.seconds:5.0f} s  {outcome.count}: {trial.what}")
            if outcome.count.failed or is_verbose:
                print("".join(f"    {line}\n" for line in outcome.said.splitlines()[-200:]))
            sys.stdout.flush()
    return total


def heed_signals() -> None:
    """Has the trials' programs heed signals. A shell may start a background job without them."""
    signal.signal(signal.SIGINT, signal.default_int_handler)
    for number in (signal.SIGHUP, signal.SIGQUIT):
        signal.signal(number, signal.SIG_DFL)


def main(words: Sequence[str]) -> int:
    parser = argparse.ArgumentParser(
        prog="python3 -m trials",
        description=__doc__,
        formatter_class=argparse.RawDescriptionHelpFormatter,
    )
    names = [trial.name for trial in TRIALS]
    parser.add_argument("program", nargs="?", type=Path, help="the built urbd")
    parser.add_argument("--only", nargs="+", metavar="NAME", choices=names, help="these trials")
    parser.add_argument("--gate", action="store_true", help="those of the gate")
    parser.add_argument("--list", action="store_true", help="print the names, and run nothing")
    parser.add_argument("--verbose", action="store_true", help="print all that the trials say")
    options = parser.parse_args(words)
    if options.list:
        for trial in TRIALS:
            print(f"{trial.name:16} {trial.what}{' (gate)' if trial.is_of_gate else ''}")
        return 0
    if options.program is None or not options.program.is_file():
        parser.error("PROGRAM is the built urbd, such as crates/urbd/out/urbd")
    chosen = [it for it in TRIALS if it.is_of_gate or not options.gate]
    if options.only:
        chosen = [it for it in TRIALS if it.name in options.only]
    heed_signals()
    total = run_all(chosen, options.program.resolve(), options.verbose)
    print(total)
    return 1 if total.failed else 0


if __name__ == "__main__":
    sys.exit(main(sys.argv[1:]))
