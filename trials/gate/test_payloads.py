"""Payloads of every length, as they are submitted, stored and read."""
from __future__ import annotations

import unittest

from urbd.constants import LONGEST_REQUEST, MAX_PAYLOAD, SUBMIT_HEAD, Refusal
from urbd.frames import Entries, Read, Refused, Submit

from trials.gate.cases import Case
from trials.lib.messages import Sent, logs_of, wait_for_logs
from trials.lib.program import all_ports

LENGTHS = (0, 1, 100, 1_000, 1_024, 1_025, 4_000, MAX_PAYLOAD)
CLIENT = 7


def bytes_of(length: int) -> bytes:
    """A payload of this length, in which every byte has its place."""
    return bytes((at * 7 + length) % 256 for at in range(length))


class Payloads(Case):
    def test_each_length_comes_back_byte_for_byte(self) -> None:
        payloads = [bytes_of(length) for length in LENGTHS]
        for nodes in (1, 3):
            with self.subTest(nodes=nodes):
                options = self.options(f"group-{nodes}", nodes)
                sent = [Sent(CLIENT, node) for node in range(1, nodes + 1)]
                with self.program.serve(options) as daemon:
                    for it in sent:
                        with daemon.connect(it.node) as connection:
                            it.submit_all(connection, payloads)
                    before = wait_for_logs(daemon, nodes * len(LENGTHS))
                    daemon.kill()
                with self.program.serve(options) as daemon:
                    self.assertEqual(logs_of(daemon), before)
                    for it in sent:
                        with daemon.connect(it.node) as connection:
                            it.repeat(connection, range(1, len(LENGTHS) + 1))
                    daemon.stop()
                for log in before:
                    for node in range(1, nodes + 1):
                        found = [entry.payload for entry in log if entry.sender == node]
                        self.assertEqual(list(map(len, found)), list(LENGTHS))
                        self.assertEqual(found, payloads)

    def test_a_payload_that_is_too_long_is_refused(self) -> None:
        with self.program.serve(self.options()) as daemon:
            with daemon.connect(1) as connection:
                for length in (MAX_PAYLOAD + 1, LONGEST_REQUEST - 1 - SUBMIT_HEAD):
                    response = connection.ask(Submit(CLIENT, 1, bytes(length)))
                    self.assertEqual(response, [Refused(Refusal.TOO_LONG, 0)])
            self.assertEqual(daemon.node(1).status().accepted, 0)
            daemon.stop()

    def test_pages_hold_as_many_long_entries_as_a_frame_does(self) -> None:
        with self.program.serve(self.options(nodes=3)) as daemon:
            sent = Sent(CLIENT, 1)
            with daemon.connect(1) as connection:
                sent.submit_all(connection, [bytes_of(MAX_PAYLOAD - at) for at in range(10)])
            wait_for_logs(daemon, 10)
            for node in daemon.nodes:
                with daemon.connect(node) as connection:
                    counts: list[int] = []
                    place = 1
                    while not counts or counts[-1]:
                        page = connection.ask(Read(place))[0]
                        assert isinstance(page, Entries), page
                        counts.append(len(page.entries))
                        place += counts[-1]
                self.assertEqual(counts, [3, 3, 3, 1, 0])
            daemon.stop()

    def test_commands_carry_each_length(self) -> None:
        options = self.options()
        texts = ["-", "x", "x" * 100, "x" * 4_000, "x" * MAX_PAYLOAD]
        with self.program.serve(options) as daemon:
            ask = ("--port", all_ports(options)[0])
            submit = ("submit", *ask, "--client", CLIENT, "--number")
            for number, text in enumerate(texts, 1):
                run = self.program.run(*submit, number, text)
                self.ends(run, 0, b"accepted %d\n" % number)
            long = self.program.run(*submit, len(texts) + 1, "x" * (MAX_PAYLOAD + 1))
            self.ends(long, 4, b"refused 5 0\n")
            run = self.program.run("read", *ask, "--from", 1, "--max", 8)
            lines = [
                b"1.%d %d %d %s\n" % (number, CLIENT, number, text.encode().hex().encode())
                for number, text in enumerate(texts, 1)
            ]
            self.assertEqual(run.stdout, b"".join(lines))
            daemon.stop()


if __name__ == "__main__":
    unittest.main()
