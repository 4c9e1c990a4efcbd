"""The program under contrib/urbd.service as systemd runs it, and under contrib/urbd-run.

It is started, stopped and killed as a service, and as containers and shells do. `systemd-analyze`
and `unshare` (as root) are used if they are there.
"""
from __future__ import annotations

import argparse
import os
import re
import shlex
import shutil
import signal
import subprocess
import sys
import time
from collections.abc import Sequence
from pathlib import Path

from urbd import Node, client_port, repeat

from trials import TOP
from trials.lib.command import parser_of, run_trial
from trials.lib.program import Program, free_base_port

UNIT, RUN = TOP / "contrib" / "urbd.service", TOP / "contrib" / "urbd-run"
LINE = re.compile(r"([A-Za-z]+)=(.*)")
CLOSED = re.compile(rb"closed \d+\n")
PATIENCE = 60.0  # seconds for a step
CLIENT = 7
STARTS = 30  # that are signalled at different moments


def settings() -> dict[str, str]:
    """The unit's lines by their names. A name that stood twice would lose a line."""
    lines = [it for it in UNIT.read_text().splitlines() if it and it[0] not in "#["]
    found = [match for match in map(LINE.fullmatch, lines) if match]
    named = {match[1]: match[2] for match in found}
    assert len(named) == len(found) == len(lines), f"expected NAME=VALUE, each once: {lines}"
    return named


class Service:
    """The unit's process as systemd starts it: in a session of its own, its input at its end."""

    def __init__(self, words: Sequence[str]) -> None:
        self.process = subprocess.Popen(
            words,
            stdin=subprocess.DEVNULL,
            stdout=subprocess.PIPE,
            stderr=subprocess.STDOUT,
            start_new_session=True,
        )
        assert self.process.stdout
        self.output = self.process.stdout
        line = self.output.readline()
        assert line.startswith(b"open "), f"expected that it opens, and it said {line!r}"

    def program(self) -> int:
        """The number of the process that urbd-run has started."""
        words = ["ps", "-o", "pid=", "--ppid", str(self.process.pid)]
        found = subprocess.run(words, stdout=subprocess.PIPE).stdout.split()
        assert len(found) == 1, f"expected one child, and found {found}"
        return int(found[0])

    def end(self) -> tuple[bytes, int]:
        """What it says until it ends, and its status."""
        said = self.output.read()
        self.output.close()
        return said, self.process.wait(PATIENCE)

    def ends_in_order(self) -> None:
        said, status = self.end()
        assert CLOSED.fullmatch(said) and status == 0, f"expected a stop: {said!r}, {status}"

    def stop(self, sent: signal.Signals = signal.SIGTERM) -> None:
        """KillMode=mixed: the signal goes to the main process alone. The stop is orderly."""
        self.process.send_signal(sent)
        self.ends_in_order()


class Sender:
    """One client of node 1."""

    def __init__(self, port: int) -> None:
        self.node, self.count = Node(port), 0

    def accept(self) -> None:
        """The last message is accepted again under its name, and then one more."""
        for number in (self.count, self.count + 1):
            if number:
                seq = repeat(lambda: self.node.submit(CLIENT, number, b"%d" % number), PATIENCE)
                assert seq == number, f"expected name 1.{number}, and got 1.{seq}"
        self.count += 1


def judge(unit: Path) -> str:
    """What systemd says of the unit, which has to be valid."""
    if shutil.which("systemd-analyze") is None:
        return "systemd-analyze isn't there"
    words = ["systemd-analyze", "verify", "--man=no", str(unit)]
    run = subprocess.run(words, stdout=subprocess.PIPE, stderr=subprocess.STDOUT, text=True)
    told = [line for line in run.stdout.splitlines() if unit.name in line]  # not of other units
    assert run.returncode == 0 and not told, run.stdout
    words = ["systemd-analyze", "security", "--offline=yes", "--no-pager", str(unit)]
    said = subprocess.run(words, capture_output=True, text=True).stdout.strip()
    return said.splitlines()[-1].strip("→ ") if said else "its security isn't judged here"


def place(program: Program, room: Path, base: int) -> list[str]:
    """Puts the program and the unit in a folder. Gives the words that the unit starts."""
    (room / "lib").mkdir()
    (room / "urbd-run").symlink_to(RUN)
    (room / "urbd").symlink_to(program.path)
    copied = room / "urbd.service"
    copied.write_text(UNIT.read_text().replace("/opt/urbd", str(room)))
    print(f"the unit is valid; {judge(copied)}", flush=True)
    unit = settings()
    for name, value in (
        ("KillMode", "mixed"),
        ("Restart", "on-failure"),
        ("RestartPreventExitStatus", "3"),
    ):
        assert unit[name] == value, f"{name}: expected {value}, and the unit has {unit[name]}"
    start = unit["ExecStart"].replace("/opt/urbd", str(room))
    (room / "run").mkdir()
    for path, name in (("/var/lib/urbd", "lib"), ("/run/urbd", "run")):
        start = start.replace(path, str(room / name))
    start = start.replace("7400", str(base))
    return shlex.split(start)


def is_killed(words: Sequence[str], sender: Sender) -> None:
    """The program is killed, and then urbd-run. Nothing that was accepted is lost."""
    service = Service(words)
    sender.accept()
    os.kill(service.program(), signal.SIGKILL)
    _, status = service.end()
    expected = 128 + signal.SIGKILL  # a failure: systemd starts it again
    assert status == expected, f"expected status {expected}, and got {status}"
    service = Service(words)
    sender.accept()
    service.process.kill()
    said, _ = service.end()  # the program has it open until it ends
    assert CLOSED.fullmatch(said), said
    print("killed: the program's is a failure, and urbd-run's is an orderly stop", flush=True)


def has_a_client(words: Sequence[str], sender: Sender) -> None:
    """A client that keeps its connection doesn't hold up a stop."""
    service = Service(words)
    sender.accept()
    with sender.node.connect() as connection:
        connection.status()
        service.stop()
    service = Service(words)
    sender.accept()
    service.stop()
    print("a connection that stays doesn't hold up a stop", flush=True)


def is_refused(words: Sequence[str], folder: Path) -> None:
    """A start that is refused ends with the program's status and text."""
    missing = [f"{folder}-no" if word == str(folder) else word for word in words]
    run = subprocess.run(missing, stdin=subprocess.DEVNULL, capture_output=True)
    assert (run.returncode, run.stdout) == (1, b""), run
    assert run.stderr.startswith(b"urbd: refused 15"), run
    wrong = [*words[:2], "serve", "--nodes", "9"]
    run = subprocess.run(wrong, stdin=subprocess.DEVNULL, capture_output=True)
    assert run.returncode == 3, run
    print("a start that is refused ends with its status", flush=True)


def stops_from_a_terminal(words: Sequence[str]) -> None:
    """Ctrl-C goes to all processes of a terminal's foreground, and urbd-run handles it."""
    service = Service(words)
    os.killpg(service.process.pid, signal.SIGINT)
    service.ends_in_order()
    print("Ctrl-C is an orderly stop", flush=True)


def stops_at_any_moment(words: Sequence[str]) -> None:
    """A signal at any moment of a start ends everything, and leaves no program running."""
    for turn in range(STARTS):
        process = subprocess.Popen(
            words, stdin=subprocess.DEVNULL, stdout=subprocess.PIPE, start_new_session=True
        )
        assert process.stdout
        time.sleep(0.001 * turn)
        process.terminate()
        said = process.stdout.read()  # it comes to its end when the program has ended too
        process.stdout.close()
        status = process.wait(PATIENCE)
        # some ticks may come before the stop, so the number of events may be above 0
        is_whole = re.fullmatch(rb"(open 1\nclosed \d+\n)?", said)
        assert status in (0, -signal.SIGTERM) and is_whole, (turn, status, said)
    print("a signal at any moment of a start leaves nothing behind", flush=True)


def stops_as_first_process(words: Sequence[str]) -> None:
    """As the first process of a container, where signals that aren't handled do nothing."""
    if os.geteuid() or shutil.which("unshare") is None:
        print("as the first process: not tried (unshare, as root)")
        return
    service = Service(["unshare", "--pid", "--fork", "--kill-child", *words])
    os.kill(service.program(), signal.SIGTERM)
    service.ends_in_order()
    print("as the first process of a container a stop is orderly", flush=True)


def attend(program: Program, room: Path, options: argparse.Namespace) -> None:
    base, folder = free_base_port(), room / "lib"
    words = place(program, room, base)
    sender = Sender(client_port(base, 1))
    service = Service(words)
    sender.accept()
    service.stop()
    assert os.listdir(folder) == ["node-1.db"], os.listdir(folder)
    print("a stop is orderly", flush=True)
    is_killed(words, sender)
    has_a_client(words, sender)
    is_refused(words, folder)
    for sent in (signal.SIGINT, signal.SIGHUP):
        Service(words).stop(sent)
    stops_from_a_terminal(words)
    stops_at_any_moment(words)
    stops_as_first_process(words)
    for words, expected in (([str(RUN)], 3), ([str(RUN), "false"], 1)):
        status = subprocess.run(words, stderr=subprocess.PIPE).returncode
        assert status == expected, f"{words}: expected {expected}, and got {status}"


def main(words: list[str]) -> int:
    return run_trial(parser_of(__doc__ or ""), words, attend)


if __name__ == "__main__":
    sys.exit(main(sys.argv[1:]))
