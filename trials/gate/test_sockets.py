"""Unix sockets: each command and client over them, who may connect, and what is left of them."""
from __future__ import annotations

import os
import resource
import socket
import stat
import subprocess
from collections.abc import Callable
from contextlib import suppress
from dataclasses import replace
from pathlib import Path

from urbd import Follower, Publisher
from urbd.constants import ASK_STATUS

from trials.gate.cases import Case
from trials.lib.needs import missing_of
from trials.lib.program import PATIENCE, Daemon, NotOpen, Options, files_of, wait_until

MODE = 0o660  # of a socket if nothing else is said
STATUS = bytes((0, 1, ASK_STATUS))


def give_up(process: subprocess.Popen[bytes]) -> None:
    """Ends a process whose end nobody has seen. Its input ends, and so does what it traces."""
    for stream in (process.stdin, process.stdout, process.stderr):
        if stream and not stream.closed:
            stream.close()
    process.kill()
    process.wait(PATIENCE)


class Sockets(Case):
    def at_sockets(self, nodes: int = 1, takes_tcp: bool = False) -> Options:
        """A group whose nodes have sockets in a folder of their own."""
        folder = self.room / "sockets"
        folder.mkdir(exist_ok=True)
        name = f"group-{len(files_of(self.room))}"
        return replace(self.options(name, nodes), socket_dir=folder, takes_tcp=takes_tcp)

    def refuses(self, options: Options, cause: str, number: int = 1) -> None:
        """A start at these options ends with status 1, and names the socket and the cause."""
        line = f"urbd: network failed: socket node-{number}.sock: {cause}\n"
        self.ends(self.program.run(*options.words()), 1, error=line.encode())

    def test_each_command_takes_a_socket(self) -> None:
        options = self.at_sockets()
        with self.program.serve(options) as daemon:
            at = ("--socket", options.socket(1))
            run = self.program.run
            sent = run("submit", *at, "--client=7", "--number=1", "hi")
            self.ends(sent, 0, b"accepted 1\n")
            self.ends(run("publish", *at, "--client=7", given=b"ho\n"), 0, b"accepted 2\n")
            shown = b"1.1 7 1 6869\n1.2 7 2 686f\n"
            self.ends(run("read", *at, "--from=1", "--max=8"), 0, shown)
            line = f"{options.socket(1)} ready accepted 2 shown 2\n"
            self.ends(run("status", *at), 0, line.encode())
            both = run("status", *at, "--port", options.port(1))
            self.ends(both, 3, error=b"error: ")
            daemon.stop()
            line = f"urbd: network failed: nobody listens at {options.socket(1)}\n"
            self.ends(run("status", *at), 1, error=line.encode())

    def test_clients_take_a_socket(self) -> None:
        options = self.at_sockets(3)
        with self.program.serve(options) as daemon:
            path = str(self.room / "publisher")
            with Publisher(str(options.socket(1)), 7, path) as publisher:
                self.assertEqual(publisher.publish("hi"), 1)
            follower = Follower([str(options.socket(node)) for node in daemon.nodes])
            self.assertEqual([entry.text for entry in follower.wait(60)], ["hi"])
            follower.close()
            daemon.stop()

    def test_without_tcp_nobody_listens_at_the_ports(self) -> None:
        for takes_tcp in (False, True):
            options = self.at_sockets(2, takes_tcp)
            with self.program.serve(options) as daemon:
                for node in daemon.nodes:
                    with socket.socket() as end:
                        found = end.connect_ex(("127.0.0.1", options.port(node))) == 0
                    self.assertEqual(found, takes_tcp)
                    with socket.socket(socket.AF_UNIX) as end:
                        end.connect(str(options.socket(node)))
                daemon.stop()

    def test_a_socket_has_its_mode_and_goes_with_the_group(self) -> None:
        for mode in (None, 0o600, 0o666):
            options = self.at_sockets(2)
            assert options.socket_dir
            words = options.words() + ([] if mode is None else [f"--socket-mode={mode:o}"])
            process = self.program.start_words(words)
            with process:
                assert process.stdin and process.stdout
                self.assertEqual(process.stdout.readline(), b"open 2\n")
                for node in (1, 2):
                    found = os.stat(options.socket(node)).st_mode
                    self.assertTrue(stat.S_ISSOCK(found))
                    self.assertEqual(found & 0o777, MODE if mode is None else mode)
                process.stdin.close()
                self.assertEqual(process.wait(60), 0)
            self.assertEqual(files_of(options.socket_dir), [])

    def test_the_socket_of_a_killed_program_is_replaced(self) -> None:
        options = self.at_sockets()
        with self.program.serve(options) as daemon:
            daemon.kill()
        self.assertTrue(options.socket(1).is_socket())
        with self.program.serve(options) as daemon:
            self.assertEqual(daemon.node(1).status().state, "ready")
            other = replace(self.at_sockets(), nodes=1)
            self.refuses(other, "a program that runs uses it")
            self.assertEqual(daemon.node(1).status().state, "ready")
            daemon.stop()

    def test_what_is_no_socket_stays(self) -> None:
        options = self.at_sockets(2)
        path = options.socket(2)
        target = self.room / "target"
        target.write_text("a letter")
        ended = self.room / "ended.sock"  # a socket whose program has ended
        with socket.socket(socket.AF_UNIX) as end:
            end.bind(str(ended))
        makers: tuple[Callable[[], object], ...] = (
            lambda: path.write_text("a letter"),
            path.mkdir,
            lambda: path.symlink_to(target),
            lambda: path.symlink_to(ended),
            lambda: os.mkfifo(path),
        )
        for make in makers:
            make()
            before = os.lstat(path)
            self.refuses(options, "a file with this name is no socket, and stays", 2)
            after = os.lstat(path)
            self.assertEqual((before.st_ino, before.st_mode), (after.st_ino, after.st_mode))
            self.assertFalse(options.socket(1).exists(), "the socket of node 1 is removed")
            path.rmdir() if path.is_dir() and not path.is_symlink() else path.unlink()
        self.assertEqual(target.read_text(), "a letter")
        self.assertTrue(ended.is_socket())

    def test_a_refused_start_leaves_no_socket(self) -> None:
        options = self.at_sockets(2, takes_tcp=True)
        assert options.socket_dir
        refused = 0
        for limit in range(4, 64):

            def set_limit(limit: int = limit) -> None:
                resource.setrlimit(resource.RLIMIT_NOFILE, (limit, limit))

            try:
                daemon = self.program.serve(options, before=set_limit)
            except NotOpen as fault:
                self.assertEqual(fault.status, 1, fault)
                refused += 1
            else:
                with daemon:
                    daemon.stop()
            self.assertEqual(files_of(options.socket_dir), [], f"{limit} descriptors")
        self.assertTrue(0 < refused < 60, f"{refused} of 60 starts were refused")

    def test_a_socket_that_cannot_be_made_has_its_cause(self) -> None:
        options = self.at_sockets()
        missing = replace(options, socket_dir=self.room / "missing")
        self.refuses(missing, "its folder isn't there")
        target = self.room / "target"
        target.write_text("a letter")
        self.refuses(replace(options, socket_dir=target), "its folder isn't there")
        long = self.room / ("x" * 100)
        long.mkdir()
        self.refuses(replace(options, socket_dir=long), "its path has more than 107 bytes")
        if os.geteuid() != 0:  # root may do everything
            closed = self.room / "closed"
            closed.mkdir(mode=0o500)
            cause = "the program has no rights to make it"
            self.refuses(replace(options, socket_dir=closed), cause)

    def test_who_connects_before_a_socket_has_its_mode_is_turned_away(self) -> None:
        if missing_of(["strace"]):
            self.skipTest("strace isn't here")
        options = self.at_sockets()
        path = options.socket(1)
        quietly = ["strace", "-f", "-qq", "-o", "/dev/null", "-e", "trace=/chmod"]
        late = [*quietly, "-e", "inject=/chmod:delay_enter=3000000"]
        process = self.program.start(options, late)
        self.addCleanup(give_up, process)
        with socket.socket(socket.AF_UNIX) as early:
            wait_until(lambda: early.connect_ex(str(path)) == 0, "the socket takes a client")
            early.settimeout(PATIENCE)
            with Daemon(process, options) as daemon:
                self.assertEqual(stat.S_IMODE(os.stat(path).st_mode), MODE)
                # Its connection was closed, so it gets no session.
                with suppress(ConnectionError):
                    early.sendall(STATUS)
                    self.assertEqual(early.recv(1), b"")
                self.assertEqual(daemon.node(1).status().state, "ready")
                daemon.stop()

    def test_answers_over_tcp_are_sent_at_once(self) -> None:
        if missing_of(["strace"]):
            self.skipTest("strace isn't here")
        told = self.room / "calls"
        watching = ["strace", "-f", "-qq", "-o", str(told), "-e", "trace=setsockopt"]
        with self.program.serve(self.options(), watching) as daemon:
            self.assertEqual(daemon.node(1).status().state, "ready")
            daemon.stop()
        self.assertIn("TCP_NODELAY, [1]", told.read_text())

    def test_options_that_do_not_fit_are_a_mistake(self) -> None:
        options = self.options()
        folder = Path("sockets")
        for more in (
            ["--no-tcp"],
            ["--socket-mode=660"],
            [f"--socket-dir={folder}", "--socket-mode=888"],
        ):
            run = self.program.run(*options.words(), *more)
            self.ends(run, 3, error=b"error: ")
