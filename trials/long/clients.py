"""Publishers and followers in Python and Go, killed at random with the program and its nodes.

No line is given to a publisher twice; the lines that it took are accepted once, in order. Each
follower reads each message, in the order of its sender. What it had printed but not saved when it
was killed comes again at its next start, and nothing else does. Twelve more followers read one node
meanwhile, and `urbd submit` is answered. Without `go` the clients in Go are left out.
"""
from __future__ import annotations

import argparse
import random
import shutil
import signal
import subprocess
import sys
import threading
import time
from collections.abc import Callable, Sequence
from pathlib import Path

from urbd import Follower
from urbd.frames import Entry

from trials import TOP
from trials.lib.command import parser_of, run_trial
from trials.lib.messages import wait_for_logs
from trials.lib.program import Daemon, Options, Program, all_ports, free_base_port, wait_until

NODES = 3
FIRST_CLIENT = 100  # the client of node P is this and P
SUBMITTER = 9  # the client of `urbd submit`
PATIENCE = 60.0  # seconds for a client to end
AHEAD = 5  # lines that a publisher has before they are accepted
BESIDE = 12  # further followers
Words = Callable[[str], Sequence[object]]  # those that run a client, by what it does


class Client:
    """A client's process, which may be killed and started again with the same file."""

    def __init__(self, group: Options, file: Path) -> None:
        self.ports, self.file = list(all_ports(group)), file
        self.start()

    def words(self) -> Sequence[object]:
        """The words that start it."""
        raise NotImplementedError

    def run(self, process: subprocess.Popen[bytes]) -> None:
        """Gives and takes its lines until it ends."""
        raise NotImplementedError

    def start(self) -> None:
        self.process = subprocess.Popen(
            [str(word) for word in self.words()],
            stdin=subprocess.PIPE,
            stdout=subprocess.PIPE,
            stderr=subprocess.PIPE,
        )
        self.thread = threading.Thread(target=self.run, args=(self.process,), daemon=True)
        self.thread.start()

    def kill(self) -> None:
        self.process.kill()
        self.end()

    def end(self) -> None:
        """Waits for its end. It ends well, or was killed."""
        status = self.process.wait(PATIENCE)
        self.thread.join(PATIENCE)
        process = self.process
        assert process.stdin and process.stdout and process.stderr
        said = process.stderr.read()
        for stream in (process.stdin, process.stdout, process.stderr):
            try:
                stream.close()
            except OSError:
                pass
        assert status in (0, -signal.SIGKILL), f"{process.args!r} ended with {status}: {said!r}"


class Publishing(Client):
    """A publisher of one node. `given` counts its lines, and `told` those that it printed."""

    def __init__(self, command: Words, group: Options, node: int, room: Path) -> None:
        self.command, self.node = command, node
        self.is_over, self.given, self.told = threading.Event(), 0, 0
        super().__init__(group, room / f"publisher-{node}")

    def words(self) -> Sequence[object]:
        port, client = self.ports[self.node - 1], FIRST_CLIENT + self.node
        options = ["--port", port, "--client", client, "--file", self.file]
        return [*self.command("publish"), *options]

    def run(self, process: subprocess.Popen[bytes]) -> None:
        """Gives it one new line after the other, a few more than have been accepted."""
        assert process.stdin
        ahead = threading.Semaphore(AHEAD)
        threading.Thread(target=self.count, args=(process, ahead), daemon=True).start()
        try:
            while not self.is_over.is_set():
                if ahead.acquire(timeout=0.1):
                    self.given += 1
                    process.stdin.write(b"%d of %d\n" % (self.given, self.node))
                    process.stdin.flush()
                elif process.poll() is not None:
                    break
            process.stdin.close()
        except (OSError, ValueError):  # it was killed
            pass

    def count(self, process: subprocess.Popen[bytes], ahead: threading.Semaphore) -> None:
        """Counts what it prints: a line for each that is accepted."""
        assert process.stdout
        for _ in process.stdout:
            self.told += 1
            ahead.release()

    def check(self, log: Sequence[Entry]) -> None:
        """Its lines are in the log once, in order; no line that it told is missing."""
        client = FIRST_CLIENT + self.node
        own = [it.payload for it in log if (it.sender, it.client) == (self.node, client)]
        numbers = [int(payload.split()[0]) for payload in own]
        assert own == [b"%d of %d" % (number, self.node) for number in numbers], "a line is changed"
        assert numbers == sorted(set(numbers)), "a line was accepted twice, or late"
        assert self.told <= len(own), "a line that was accepted is missing"


class Following(Client):
    """A follower. `found` has what it printed, by the messages' names."""

    def __init__(self, command: Words, group: Options, number: int, room: Path) -> None:
        self.command, self.found, self.repeated = command, dict[str, list[str]](), 0
        self.is_wrong = False
        super().__init__(group, room / f"follower-{number}")

    def words(self) -> Sequence[object]:
        random.shuffle(self.ports)
        ports = ",".join(map(str, self.ports))
        return [*self.command("follow"), "--port", ports, "--file", self.file]

    def run(self, process: subprocess.Popen[bytes]) -> None:
        """Takes what it prints. Only at its start may it print again what it printed before."""
        assert process.stdout
        at_start = True
        for line in process.stdout:
            if not line.endswith(b"\n"):
                return
            name, *message = line.decode().split()
            if name in self.found:
                self.repeated += 1
                self.is_wrong |= not at_start or self.found[name] != message
            else:
                at_start = False
                self.found[name] = message
            time.sleep(0.002)

    def check(self, shown: dict[str, list[str]]) -> None:
        """It has each message, the names of each sender in order."""
        assert self.found == shown, "a follower has other messages than the log"
        assert not self.is_wrong, "a follower printed again what it had printed, or another message"
        for sender in range(1, NODES + 1):
            names = [name.split(".") for name in self.found]
            numbers = [int(number) for by, number in names if by == str(sender)]
            assert numbers == list(range(1, len(numbers) + 1)), f"the names of {sender}: {numbers}"


class Beside(threading.Thread):
    """Twelve followers of node 1 that read all the time."""

    def __init__(self, group: Options) -> None:
        super().__init__(daemon=True)
        self.followers = [Follower(all_ports(group)[:1]) for _ in range(BESIDE)]
        self.is_over = threading.Event()
        self.start()

    def run(self) -> None:
        while not self.is_over.wait(0.05):
            for follower in self.followers:
                follower.poll()

    def end(self) -> None:
        self.is_over.set()
        self.join()
        for follower in self.followers:
            follower.close()


class Disturbance:
    """Kills clients, nodes and the program at random, and counts what it did."""

    def __init__(self, program: Program, group: Options) -> None:
        self.program, self.group, self.daemon = program, group, program.serve(group)
        self.done = dict.fromkeys(("publisher", "follower", "program", "node", "submit"), 0)

    def disturb(self, publishers: list[Publishing], followers: list[Following]) -> None:
        """Does one thing."""
        what = random.choice(list(self.done))
        self.done[what] += 1
        if what == "program":
            self.daemon.kill()
            self.daemon = self.program.serve(self.group)
        elif what == "node":
            node = self.daemon.node(random.choice(self.daemon.nodes))
            node.crash()
            time.sleep(random.uniform(0, 0.2))
            node.restart()
        elif what == "submit":
            self.submit(self.done[what])
        else:
            chosen: list[Client] = [*publishers] if what == "publisher" else [*followers]
            client = random.choice(chosen)
            client.kill()
            client.start()

    def submit(self, number: int) -> None:
        """`urbd submit` is answered beside all followers."""
        port = all_ports(self.group)[0]
        options = ["--port", port, "--client", SUBMITTER, "--number", number]
        run = self.program.run("submit", *options, "beside followers", limit=PATIENCE)
        assert run.returncode == 0 and run.stdout.startswith(b"accepted"), run


def end_all(daemon: Daemon, publishers: list[Publishing], followers: list[Following]) -> None:
    """Lets the publishers end, and waits until each log and each follower has all messages."""
    for number in daemon.nodes:
        if daemon.node(number).status().is_down:
            daemon.node(number).restart()
    for publisher in publishers:
        publisher.is_over.set()
        publisher.end()
    count = sum(daemon.node(number).status().accepted for number in daemon.nodes)
    logs = wait_for_logs(daemon, count)
    wait_until(
        lambda: all(len(it.found) >= count for it in followers),
        f"each follower has {count} messages",
    )
    for publisher, log in zip(publishers, logs):
        publisher.check(log)
    shown = {it.name: [str(it.client), str(it.number), it.payload.hex() or "-"] for it in logs[0]}
    for follower in followers:
        follower.check(shown)


def try_clients(
    language: str, command: Words, program: Program, room: Path, seconds: float
) -> None:
    """Tries the clients of one language."""
    group = Options(room / "group", free_base_port(), NODES)
    group.folder.mkdir(parents=True)
    disturbance = Disturbance(program, group)
    publishers = [Publishing(command, group, node, room) for node in range(1, NODES + 1)]
    followers = [Following(command, group, number, room) for number in (1, 2)]
    try:
        beside, end = Beside(group), time.monotonic() + seconds
        while time.monotonic() < end:
            time.sleep(random.uniform(0.05, 0.5))
            disturbance.disturb(publishers, followers)
        end_all(disturbance.daemon, publishers, followers)
        beside.end()
        repeated = sum(it.repeated for it in followers)
        print(
            f"{language}: {len(followers[0].found)} messages, each once and in order,"
            f" {repeated} lines printed again; what was disturbed: {disturbance.done}",
            flush=True,
        )
    finally:
        for client in (*publishers, *followers):
            client.process.kill()
        disturbance.daemon.kill()


def python_client(word: str) -> Sequence[object]:
    return [sys.executable, TOP / "examples" / f"{word}.py"]


def try_all(program: Program, room: Path, options: argparse.Namespace) -> None:
    try_clients("Python", python_client, program, room / "python", options.seconds)
    if not shutil.which("go"):
        print("Go: left out, since go isn't installed")
        return
    words = ["go", "build", "-o", str(room), "./cmd/urbclient"]
    subprocess.run(words, cwd=TOP / "clients" / "go", check=True)
    client = room / "urbclient"
    try_clients("Go", lambda word: [client, word], program, room / "go", options.seconds)


def main(words: list[str]) -> int:
    parser = parser_of(__doc__ or "")
    parser.add_argument("--seconds", type=float, default=20.0, help="for each language")
    return run_trial(parser, words, try_all)


if __name__ == "__main__":
    sys.exit(main(sys.argv[1:]))
