"""Groups of every size: start, submit, read, kill, start, stop."""
from __future__ import annotations

import unittest
from dataclasses import replace

from urbd.constants import MAX_NODES
from urbd.frames import Status

from trials.gate.cases import Case
from trials.lib.messages import Sent, differences, payload_of, wait_for_logs
from trials.lib.program import Daemon, files_of, is_free, journals_of

MESSAGES = 20  # of each node


class Groups(Case):
    def submit_at_each_node(self, daemon: Daemon, sent: dict[int, Sent]) -> None:
        """A client of each node submits further messages, and the earlier ones once more."""
        for node in daemon.nodes:
            it = sent.setdefault(node, Sent(100 + node, node))
            first = len(it.payloads) + 1
            payloads = [payload_of(it.client, first + at) for at in range(MESSAGES)]
            with daemon.connect(node) as connection:
                it.repeat(connection, range(1, first))
                it.submit_all(connection, payloads)

    def test_every_number_of_nodes_serves_and_survives_a_kill(self) -> None:
        for nodes in range(1, MAX_NODES + 1):
            with self.subTest(nodes=nodes):
                options = self.options(f"group-{nodes}", nodes)
                sent: dict[int, Sent] = {}
                with self.program.serve(options) as daemon:
                    self.submit_at_each_node(daemon, sent)
                    before = wait_for_logs(daemon, nodes * MESSAGES)
                    self.assertEqual(differences(before, daemon.nodes), [])
                    daemon.kill()
                with self.program.serve(options) as daemon:
                    self.submit_at_each_node(daemon, sent)
                    logs = wait_for_logs(daemon, 2 * nodes * MESSAGES)
                    self.assertEqual(differences(logs, daemon.nodes), [])
                    for old, new in zip(before, logs):
                        self.assertEqual(new[: len(old)], old, "a log begins as it was read before")
                    for node, it in sent.items():
                        expected = [it.entry(number) for number in range(1, len(it.seqs) + 1)]
                        shown = [entry for entry in logs[0] if entry.sender == node]
                        self.assertEqual(shown, expected)
                    status = Status("ready", 2 * MESSAGES, 2 * nodes * MESSAGES)
                    self.assertEqual(
                        [daemon.node(it).status() for it in daemon.nodes], [status] * nodes
                    )
                    self.assertGreater(daemon.stop(), 2 * nodes * MESSAGES)
                self.assertEqual(files_of(options.folder), journals_of(nodes))

    def test_a_node_that_is_crashed_comes_back_with_everything(self) -> None:
        for nodes in (1, 3):
            with self.subTest(nodes=nodes):
                options = self.options(f"group-{nodes}", nodes)
                sent: dict[int, Sent] = {}
                with self.program.serve(options) as daemon:
                    self.submit_at_each_node(daemon, sent)
                    before = wait_for_logs(daemon, nodes * MESSAGES)
                    last = daemon.nodes[-1]
                    daemon.node(last).crash()
                    self.assertEqual(daemon.node(last).status().state, "down")
                    daemon.node(last).restart()
                    self.submit_at_each_node(daemon, sent)
                    after = wait_for_logs(daemon, 2 * nodes * MESSAGES)
                    for old, new in zip(before, after):
                        self.assertEqual(new[: len(old)], old)
                    daemon.stop()

    def test_base_ports_of_the_whole_range(self) -> None:
        # in the middle, others may have a port: the system gives them to outgoing connections
        wanted = (range(1_024, 1_025), range(32_767, 33_000), range(65_000, 65_001))
        for bases in wanted:
            base = next((it for it in bases if is_free(it, MAX_NODES)), bases[0])
            with self.subTest(base_port=base):
                options = self.options(f"at-{base}", MAX_NODES, base)
                with self.program.serve(options) as daemon:
                    sent: dict[int, Sent] = {}
                    self.submit_at_each_node(daemon, sent)
                    logs = wait_for_logs(daemon, MAX_NODES * MESSAGES)
                    self.assertEqual(differences(logs, daemon.nodes), [])
                    daemon.stop()

    def test_a_folder_opens_at_another_base_port_and_with_another_tick(self) -> None:
        options = self.options(nodes=3)
        sent: dict[int, Sent] = {}
        for at, tick in enumerate((20, 1, 60_000)):
            other = self.options(f"unused-{at}", 3)
            again = replace(options, base_port=other.base_port, tick_ms=tick)
            with self.program.serve(again) as daemon:
                self.submit_at_each_node(daemon, sent)
                daemon.stop()
        with self.program.serve(options) as daemon:
            logs = wait_for_logs(daemon, 3 * 3 * MESSAGES)
            self.assertEqual(differences(logs, daemon.nodes), [])
            daemon.stop()


if __name__ == "__main__":
    unittest.main()
