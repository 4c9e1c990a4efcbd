#!/usr/bin/env python3
"""replay.py PROGRAM [MESSAGES ..]     what scripts cost as they grow

PROGRAM is the built urbd, and the sizes are 1000 2000 4000 8000 messages if none are given. Each
script is one run of `urbd replay` on three nodes, eight or nine lines a message. The message is
submitted and stored at its sender, arrives and is stored at both others, and comes back to the
sender. The table has, for each size, the seconds of the whole run, the microseconds a line and the
greatest memory. It also says how many seconds more these take at the end: a crash and a restart of
one node, a reopening of the group, a hundred ticks, and a log shown. Beside it stands what three
nodes of etcd's raft in memory take for as many proposals of 16 bytes. That needs Debian's packages
golang-go and golang-etcd-server-dev.
"""
from __future__ import annotations

import argparse
import itertools
import os
import shutil
import subprocess
import sys
import tempfile
import time
from collections.abc import Iterable, Iterator, Sequence
from pathlib import Path
from typing import Optional

HERE = Path(__file__).resolve().parent

NODES = 3
ROOM = 10  # how much higher the cap is than the messages
SIZES = [1000, 2000, 4000, 8000]  # messages
ENDS = (["crash 1", "restart 1"], ["reopen"], ["tick 1"] * 100, ["log 1"])


def script(messages: int, end: Sequence[str] = ()) -> Iterator[str]:
    """The lines of a script in which the nodes broadcast by turns, one by one.

    So this process stays small. The memory of one that starts another counts as the other's.
    """
    yield f"group {NODES} {messages + ROOM}"
    for turn in range(messages):
        sender, number = turn % NODES + 1, turn // NODES + 1
        others = [node for node in range(1, NODES + 1) if node != sender]
        yield f"submit {sender} 7 {number} {'x' * 16}"
        yield f"stored {sender}"
        for node in others:
            yield f"arrive {sender} {node} {sender} {number}"
            yield f"stored {node}"
        yield f"arrive {others[0]} {sender} {sender} {number}"
        yield f"stored {sender}"
    yield from end


def run(program: Path, messages: int, end: Sequence[str] = ()) -> tuple[int, float, int]:
    """The lines, the seconds and the greatest memory in kilobytes of a run."""
    with tempfile.TemporaryFile("w+") as file, tempfile.TemporaryFile("w+") as answers:
        file.writelines(line + "\n" for line in script(messages, end))
        file.seek(0)
        begin = time.perf_counter()
        process = subprocess.Popen([program, "replay"], stdin=file, stdout=answers)
        _, status, usage = os.wait4(process.pid, 0)
        seconds = time.perf_counter() - begin
        answers.seek(0)
        lines = answered(script(messages, end), answers)
    if status:
        sys.exit(f"the run ended with {status} after {lines} lines")
    return lines, seconds, usage.ru_maxrss


def answered(lines: Iterable[str], answers: Iterable[str]) -> int:
    """How many lines there are, each of which has an answer that doesn't refuse it."""
    count = 0
    for count, (line, answer) in enumerate(itertools.zip_longest(lines, answers), 1):
        if line is None or answer is None:
            sys.exit(f"line {count}: {line} was answered by {answer}")
        if answer.split()[0] in ("refused", "bad") or (
            answer.startswith("down") and not line.startswith("crash")
        ):
            sys.exit(f"{line} was answered by {answer}")
    return count


def built_raft(room: str) -> Optional[Path]:
    """The program that drives etcd's raft; None if Go or the package isn't installed."""
    if not shutil.which("go"):
        return None
    path = Path(room, "raft")
    surroundings = {**os.environ, "GOPATH": "/usr/share/gocode", "GO111MODULE": "off"}
    made = subprocess.run(
        ["go", "build", "-o", path, "."], cwd=HERE / "raft", env=surroundings, capture_output=True
    )
    return None if made.returncode else path


def raft_seconds(raft: Path, messages: int) -> float:
    """The seconds for this number of proposals, each applied at all nodes before the next."""
    done = subprocess.run([raft, str(messages)], check=True, capture_output=True, text=True)
    return float(done.stdout.split()[0])


def measure(program: Path, raft: Optional[Path], sizes: Iterable[int]) -> None:
    """Prints the table."""
    run_head = f"{'messages':>9} {'lines':>9} {'seconds':>9} {'us/line':>9} {'MB':>7}"
    end_head = f"{'restart':>8} {'reopen':>8} {'100 ticks':>9} {'log':>6}"
    print(f"{run_head} {end_head} {'us/message':>11} {'raft':>7}")
    for messages in sizes:
        lines, seconds, memory = run(program, messages)
        more = [run(program, messages, end)[1] - seconds for end in ENDS]
        beside = f"{1e6 * raft_seconds(raft, messages) / messages:.2f}" if raft else "none"
        print(
            f"{messages:9} {lines:9} {seconds:9.2f} {1e6 * seconds / lines:9.2f}"
            f" {memory / 1024:7.1f} {more[0]:8.2f} {more[1]:8.2f} {more[2]:9.2f} {more[3]:6.2f}"
            f" {1e6 * seconds / messages:11.2f} {beside:>7}",
            flush=True,
        )


def main(words: Sequence[str]) -> int:
    parser = argparse.ArgumentParser(
        description=__doc__, formatter_class=argparse.RawDescriptionHelpFormatter
    )
    parser.add_argument("program", type=Path, help="the built urbd")
    parser.add_argument("sizes", nargs="*", type=int, default=SIZES, help="numbers of messages")
    options = parser.parse_args(words)
    if min(options.sizes) < 1:
        parser.error("a script has at least one message")
    try:
        with tempfile.TemporaryDirectory() as room:
            measure(options.program, built_raft(room), options.sizes)
    except OSError as fault:
        sys.exit(f"replay.py: {fault}")
    except KeyboardInterrupt:
        return 130
    return 0


if __name__ == "__main__":
    sys.exit(main(sys.argv[1:]))
