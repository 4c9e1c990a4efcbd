"""Sizes at which a program could give up: many messages, a long log file, long journals."""
from __future__ import annotations

import unittest
from collections.abc import Sequence
from pathlib import Path

from urbd.constants import MAX_PAYLOAD
from urbd.frames import Status

from trials.gate.cases import Case
from trials.lib.messages import Sent, some_of
from trials.lib.program import Daemon, Options, files_of, journals_of

CLIENT = 7
MANY = 70_000  # messages: over 65,536, the numbers that two bytes have
LOG_BYTES = 16_384_000  # what the log beside a journal has before it is copied (OPERATIONS)
LONG_JOURNAL = 64_000_000  # journals over this are opened one after the other (OPERATIONS)
ROUNDS = 2_000  # of 64 messages, until a log is long: 16 of them may share the pages of a commit
LIMIT = 300.0  # seconds for a long step


def wal_of(folder: Path, node: int) -> int:
    """The bytes of the log beside a journal."""
    path = folder / f"node-{node}.db-wal"
    return path.stat().st_size if path.exists() else 0


class Sizes(Case):
    def submit(self, daemon: Daemon, sent: Sent, payloads: Sequence[bytes]) -> None:
        with daemon.connect(sent.node, LIMIT) as connection:
            sent.submit_all(connection, payloads)

    def opens_with_all(self, options: Options, sent: Sent) -> None:
        """A start has every message, takes some of them again under their names, and a new one."""
        count = len(sent.seqs)
        with self.program.serve(options) as daemon:
            node = daemon.node(sent.node, LIMIT)
            self.assertEqual(node.status(), Status("ready", count, count))
            with daemon.connect(sent.node, LIMIT) as connection:
                sent.repeat(connection, some_of(count))
                for number in some_of(count):
                    self.assertEqual(connection.read(number, 1), [sent.entry(number)])
                sent.submit_all(connection, [b"after the start"])
                self.assertEqual(connection.read(count + 1), [sent.entry(count + 1)])
            daemon.stop(LIMIT)
        self.assertEqual(files_of(options.folder), journals_of(options.nodes))

    def test_seventy_thousand_messages_and_their_start(self) -> None:
        options, sent = self.options(), Sent(CLIENT, 1)
        with self.program.serve(options) as daemon:
            self.submit(daemon, sent, [b"%d" % number for number in range(1, MANY + 1)])
            with daemon.connect(1, LIMIT) as connection:
                log = list(connection.log())
            self.assertEqual(len(log), MANY)
            self.assertEqual([it.payload for it in log], sent.payloads)
            daemon.stop(LIMIT)
        self.opens_with_all(options, sent)

    def test_a_long_log_that_a_kill_leaves(self) -> None:
        options, sent = self.options(), Sent(CLIENT, 1)
        with self.program.serve(options) as daemon:
            # all of it is in the log: the journal has nothing before the log is copied into it
            for _ in range(ROUNDS):
                self.submit(daemon, sent, [b"%d" % len(sent.seqs)] * 64)
                if wal_of(options.folder, 1) >= LOG_BYTES + 250_000:
                    break
            daemon.kill()
        self.assertGreater(wal_of(options.folder, 1), LOG_BYTES)
        self.opens_with_all(options, sent)

    def test_a_log_that_is_copied_and_begun_again(self) -> None:
        options, sent = self.options(), Sent(CLIENT, 1)
        payloads = [bytes([number % 256]) * MAX_PAYLOAD for number in range(1_500)]
        with self.program.serve(options) as daemon:
            self.submit(daemon, sent, payloads)
            daemon.kill()
        journal = options.folder / "node-1.db"
        self.assertGreater(journal.stat().st_size, LOG_BYTES // 2, "the log was copied")
        self.opens_with_all(options, sent)

    def test_a_journal_over_64_megabytes(self) -> None:
        options, sent = self.options(), Sent(CLIENT, 1)
        count = LONG_JOURNAL // MAX_PAYLOAD + 200
        with self.program.serve(options) as daemon:
            self.submit(daemon, sent, [b"%05d" % it * (MAX_PAYLOAD // 5) for it in range(count)])
            daemon.stop(LIMIT)
        self.assertGreater((options.folder / "node-1.db").stat().st_size, LONG_JOURNAL)
        self.opens_with_all(options, sent)


if __name__ == "__main__":
    unittest.main()
