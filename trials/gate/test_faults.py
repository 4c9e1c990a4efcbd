"""What the system refuses: room on the disk, standard streams, descriptors."""
from __future__ import annotations

import fcntl
import os
import resource
import signal
import subprocess
import time
import unittest
from collections.abc import Iterator
from contextlib import contextmanager, suppress
from dataclasses import replace
from pathlib import Path

from urbd.constants import MAX_NODES, Refusal
from urbd.errors import RefusedError
from urbd.frames import Refused

from trials.gate.cases import Case
from trials.lib.messages import Sent, accepted, log_of, wait_for_logs
from trials.lib.program import (
    PATIENCE,
    Daemon,
    NotOpen,
    Options,
    files_of,
    journals_of,
    wait_until,
)

CLIENT = 7
PAGE = 4_096  # bytes, the least that a pipe has
SET_PIPE_SIZE = 1031  # F_SETPIPE_SZ, which Python names from 3.10 on
DOWNS = 300  # how often a node goes down and comes back: more lines than wait for a place
PAYLOAD = b"0123456789" * 100
# The connections that a node serves at once, at least.
SESSIONS = 4
# A start or a stop that takes long is told after two seconds. A run isn't.
QUIET_SECONDS = 4
TOGETHER = 16  # submits in one write: a worker takes them as one batch
# What a node may answer while its disk is full.
FULL_DISK = {Refusal.NO_MEMORY, Refusal.DOWN, Refusal.DEVICE}


@contextmanager
def small_disk(folder: Path, size: str) -> Iterator[bool]:
    """Mounts a disk of this size at a folder. Gives whether it could."""
    words = ["mount", "-t", "tmpfs", "-o", f"size={size}", "tmpfs", str(folder)]
    try:
        is_mounted = subprocess.run(words, capture_output=True).returncode == 0
    except OSError:
        is_mounted = False
    try:
        yield is_mounted
    finally:
        if is_mounted:
            subprocess.run(["umount", str(folder)], check=True)


class FullDisks(Case):
    def fill(self, daemon: Daemon, sent: Sent) -> int:
        """Submits until the node refuses. Gives the refusal."""
        node = daemon.node(sent.node)
        while True:
            number = len(sent.seqs) + 1
            try:
                sent.seqs.append(node.submit(sent.client, number, PAYLOAD))
                sent.payloads.append(PAYLOAD)
            except RefusedError as refused:
                return refused.number

    def has_all(self, daemon: Daemon, sent: Sent) -> None:
        """The log of node 1 has what it accepted, in that order, and nothing else."""
        entries = [sent.entry(number) for number in range(1, len(sent.seqs) + 1)]
        self.assertEqual(log_of(daemon, 1), entries)

    def continues(self, daemon: Daemon, sent: Sent) -> None:
        """The node is restarted, has what it accepted, and accepts what it refused."""
        node = daemon.node(sent.node)
        if node.status().is_down:
            node.restart()
        with daemon.connect(sent.node) as connection:
            sent.repeat(connection, range(1, len(sent.seqs) + 1))
            sent.submit_all(connection, [PAYLOAD])

    def test_a_disk_that_is_full_and_has_room_again(self) -> None:
        options = self.options(nodes=3)
        with small_disk(options.folder, "1500k") as is_mounted:
            if not is_mounted:
                self.skipTest("no disk can be mounted here")
            sent = [Sent(CLIENT, node) for node in (1, 2, 3)]
            with self.program.serve(options) as daemon:
                refusals = {self.fill(daemon, it) for it in sent}
                self.assertLessEqual(refusals, FULL_DISK)
                before = [log_of(daemon, node) for node in daemon.nodes]
                remount = ["mount", "-o", "remount,size=64m", str(options.folder)]
                subprocess.run(remount, check=True)
                for it in sent:
                    self.continues(daemon, it)
                logs = wait_for_logs(daemon, sum(len(it.seqs) for it in sent))
                for old, new in zip(before, logs):
                    self.assertEqual(new[: len(old)], old)
                daemon.kill()
            with self.program.serve(options) as daemon:
                for it in sent:
                    self.continues(daemon, it)
                daemon.stop()

    def fill_together(self, daemon: Daemon, sent: Sent) -> set[int]:
        """Submits messages, many in one write, until the node refuses some. Gives the refusals."""
        refusals: set[int] = set()
        with daemon.connect(sent.node) as connection:
            while not refusals:
                for response in connection.ask(*sent.requests([PAYLOAD] * TOGETHER)):
                    if isinstance(response, Refused):
                        refusals.add(response.number)
                    else:
                        sent.seqs.append(accepted(response))
                        sent.payloads.append(PAYLOAD)
        return refusals

    def test_a_disk_that_is_full_amid_a_batch(self) -> None:
        options, sent = self.options(), Sent(CLIENT, 1)
        with small_disk(options.folder, "1500k") as is_mounted:
            if not is_mounted:
                self.skipTest("no disk can be mounted here")
            with self.program.serve(options) as daemon:
                self.assertLessEqual(self.fill_together(daemon, sent), FULL_DISK)
                remount = ["mount", "-o", "remount,size=64m", str(options.folder)]
                subprocess.run(remount, check=True)
                self.continues(daemon, sent)
                with daemon.connect(1) as connection:
                    sent.submit_all(connection, [PAYLOAD] * TOGETHER)
                self.has_all(daemon, sent)
                daemon.kill()
            with self.program.serve(options) as daemon:
                self.continues(daemon, sent)
                daemon.stop()

    def test_a_limit_on_the_size_of_files(self) -> None:
        def limit_files() -> None:
            signal.signal(signal.SIGXFSZ, signal.SIG_IGN)
            resource.setrlimit(resource.RLIMIT_FSIZE, (300_000, 300_000))

        options, sent = self.options(), Sent(CLIENT, 1)
        with self.program.serve(options, before=limit_files) as daemon:
            self.assertIn(self.fill(daemon, sent), FULL_DISK)
            self.assertGreater(len(sent.seqs), 0, "something was accepted before")
            self.has_all(daemon, sent)
            daemon.kill()
        with self.program.serve(options) as daemon:
            self.continues(daemon, sent)
            daemon.stop()


class Streams(Case):
    def ends_without(self, *closed: int) -> subprocess.CompletedProcess[bytes]:
        """Runs a group without these of its standard streams. Its input has ended otherwise."""

        def close() -> None:
            for descriptor in closed:
                os.close(descriptor)

        words = [str(self.program.path), *self.group.words()]
        how = {"input": b"", "capture_output": True, "timeout": PATIENCE, "preexec_fn": close}
        return subprocess.run(words, **how)  # type: ignore[call-overload, no-any-return]

    def test_a_stream_that_is_closed_leaves_its_place_empty(self) -> None:
        self.group = self.options()
        told = b"open 1\nclosed "
        cases: tuple[tuple[tuple[int, ...], int, bytes, bytes], ...] = (
            ((), 0, told, b""),
            ((0,), 0, told, b""),
            ((2,), 0, told, b""),
            ((0, 2), 0, told, b""),
            ((1,), 1, b"", b"urbd: write failed"),
            ((0, 1), 1, b"", b"urbd: write failed"),
            ((0, 1, 2), 1, b"", b""),
        )
        for closed, status, output, error in cases:
            with self.subTest(closed=closed):
                run = self.ends_without(*closed)
                self.ends(run, status, output, error)
                # a journal in the place of a stream would have got what the program prints
                for path in self.group.folder.iterdir():
                    self.assertTrue(path.read_bytes().startswith((b"SQLite format 3\0", b"")), path)
                    self.assertNotIn(b"open 1", path.read_bytes())

    def test_an_output_that_nobody_reads(self) -> None:
        reads, writes = os.pipe()
        os.close(reads)
        words = [str(self.program.path), *self.options().words()]
        process = subprocess.Popen(
            words, stdin=subprocess.PIPE, stdout=writes, stderr=subprocess.PIPE
        )
        os.close(writes)
        _, error = process.communicate(b"", PATIENCE)
        self.assertEqual((process.returncode, error), (1, b"urbd: write failed\n"))


class UnreadErrors(Case):
    """A standard error that nobody reads, and that takes no more: a full pipe of one page."""

    @contextmanager
    def full_pipe(self) -> Iterator[int]:
        """The end to write of a pipe that is full."""
        reads, writes = os.pipe()
        try:
            fcntl.fcntl(writes, SET_PIPE_SIZE, PAGE)
            os.set_blocking(writes, False)
            with suppress(BlockingIOError):
                while True:
                    os.write(writes, b"\n")
            os.set_blocking(writes, True)
            yield writes
        finally:
            os.close(reads)
            os.close(writes)

    def test_a_group_serves_and_stops(self) -> None:
        with self.full_pipe() as writes:
            with self.program.serve(self.options(), errors=writes) as daemon:
                with daemon.connect(1) as connection:
                    for _ in range(DOWNS):
                        connection.crash()
                        connection.restart()
                    self.assertEqual(connection.submit(CLIENT, 1, b"served"), 1)
                daemon.stop()

    def test_a_start_that_is_refused_ends(self) -> None:
        options = replace(self.options(), folder=self.room / "missing")
        with self.full_pipe() as writes:
            process = self.program.start(options, errors=writes)
            said, _ = process.communicate(b"", PATIENCE)
            self.assertEqual((process.returncode, said), (1, b""))


class Descriptors(Case):
    def opens_with(self, options: Options, limit: int) -> bool:
        """Whether a group opens under this limit. If so it serves and stops, else it says why."""

        def set_limit() -> None:
            resource.setrlimit(resource.RLIMIT_NOFILE, (limit, limit))

        try:
            daemon = self.program.serve(options, before=set_limit)
        except NotOpen as fault:
            self.assertEqual(fault.status, 1, fault)
            self.assertTrue(fault.error.startswith(b"urbd: "), fault)
            return False
        with daemon:
            for node in daemon.nodes:
                held = [daemon.connect(node) for _ in range(SESSIONS)]
                for connection in held:
                    self.assertEqual(connection.status().state, "ready")
                for connection in held:
                    connection.close()
            daemon.stop()
        return True

    def test_a_group_opens_and_serves_or_says_why_not(self) -> None:
        for nodes, few, enough in ((1, 6, 64), (3, 16, 128), (MAX_NODES, 40, 256)):
            with self.subTest(nodes=nodes):
                options = self.options(f"group-{nodes}", nodes)
                self.assertFalse(self.opens_with(options, few), f"{few} descriptors are too few")
                self.assertTrue(self.opens_with(options, enough), f"{enough} are enough")
                while enough - few > 1:
                    middle = (few + enough) // 2
                    if self.opens_with(options, middle):
                        enough = middle
                    else:
                        few = middle
                for more in (1, 2, 3):
                    self.assertTrue(self.opens_with(options, enough + more))


class Inputs(Case):
    def test_a_group_stops_when_its_input_ends(self) -> None:
        options = self.options(nodes=3)
        with self.program.serve(options) as daemon:
            held = daemon.connect(1)
            assert daemon.process.stdin
            daemon.process.stdin.close()
            held.close()
            wait_until(lambda: daemon.process.poll() is not None, "the program ends")
            self.assertEqual(daemon.process.returncode, 0)

    def test_lines_on_its_input_do_not_stop_a_group(self) -> None:
        with self.program.serve(self.options()) as daemon:
            assert daemon.process.stdin
            for given in (b"\n", b"x", b"stop\n", b"y" * 10_000):
                daemon.process.stdin.write(given)
                daemon.process.stdin.flush()
                time.sleep(0.2)
                self.assertEqual(daemon.node(1).status().state, "ready")
            daemon.stop()

    def test_nothing_is_told_of_a_group_that_runs_well(self) -> None:
        with self.program.serve(self.options()) as daemon:
            daemon.node(1).submit(CLIENT, 1, b"served")
            time.sleep(QUIET_SECONDS)
            assert daemon.process.stdin and daemon.process.stderr
            daemon.process.stdin.close()
            self.assertEqual(daemon.process.stderr.read(), b"")
            self.assertEqual(daemon.process.wait(PATIENCE), 0)

    def test_its_files_are_closed_before_it_says_so(self) -> None:
        options = self.options(nodes=MAX_NODES)
        with self.program.serve(options) as daemon:
            for node in daemon.nodes:
                with daemon.connect(node) as connection:
                    Sent(CLIENT, node).submit_all(connection, [PAYLOAD] * 64)
            assert daemon.process.stdin and daemon.process.stdout
            daemon.process.stdin.close()
            self.assertTrue(daemon.process.stdout.readline().startswith(b"closed "))
            self.assertEqual(files_of(options.folder), journals_of(MAX_NODES))
            self.assertEqual(daemon.process.wait(PATIENCE), 0)

    def test_signals_end_it_and_nothing_is_lost(self) -> None:
        options, sent = self.options(), Sent(CLIENT, 1)
        for number in (
            signal.SIGTERM,
            signal.SIGINT,
            signal.SIGHUP,
            signal.SIGQUIT,
            signal.SIGKILL,
        ):
            with self.subTest(signal=number.name):
                with self.program.serve(replace(options, tick_ms=5)) as daemon:
                    with daemon.connect(1) as connection:
                        sent.repeat(connection, range(1, len(sent.seqs) + 1))
                        sent.submit_all(connection, [PAYLOAD] * 3)
                    daemon.process.send_signal(number)
                    self.assertEqual(daemon.process.wait(PATIENCE), -number)


if __name__ == "__main__":
    unittest.main()
