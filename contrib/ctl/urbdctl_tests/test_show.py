"""`urbdctl status`, `watch`, `restart` and `metrics` over a simulated group."""
from __future__ import annotations

import json
import os
import re
import subprocess
import sys
import tempfile
import unittest
import urllib.error
import urllib.request

from urbd import Refusal, Status
from urbd.constants import UNKNOWN_OPCODE
from urbd.frames import Refused, encode_response, frame
from urbdctl import show
from urbdctl.group import Group, Machine
from urbdctl.looks import Lag, Look, look, node_look
from urbdctl.metrics import text
from urbdctl_tests.running import COMMAND, OverAGroup, execute, free_base, run


class AStatus(OverAGroup):
    def test_a_look_is_a_line_for_each_node(self) -> None:
        self.group.nodes[2].close()
        status, output, _ = self.run_on("status")
        rows = [line.split() for line in output.splitlines()]
        self.assertEqual(rows[1][:3], ["node", "state", "accepted"])
        self.assertEqual(rows[2], ["1", "ready", "10", "10.0", "%", "10", "0"])
        self.assertEqual(rows[4], ["3", "no", "answer"])
        self.assertEqual(status, 1, "a node doesn't answer")

    def test_json_has_what_is_known(self) -> None:
        self.group.nodes[1].shows = 7
        self.group.nodes[2].close()
        status, output, _ = self.run_on("status", "--json", "--dir", ".")
        seen = json.loads(output)
        self.assertEqual([each["state"] for each in seen["nodes"]], ["ready", "ready", "no answer"])
        self.assertEqual([each.get("behind") for each in seen["nodes"]], [0, 3, None])
        self.assertEqual([each.get("cap_share") for each in seen["nodes"]], [0.1, 0.0, None])
        self.assertNotIn("behind_seconds", seen["nodes"][1], "one look says nothing about a time")
        self.assertGreater(seen["disk_free_bytes"], 0)

    def test_a_group_that_is_not_there_is_told_in_a_sentence(self) -> None:
        status, _, errors = run("status", "--base-port", free_base())
        self.assertEqual(status, 1)
        self.assertIn("give --nodes", errors)

    def test_a_restart_brings_a_node_back(self) -> None:
        words = ("--base-port", self.base, "--node", 2)
        status, _, errors = run("restart", *words)
        self.assertEqual((status, errors), (1, "urbdctl: refused 12 0: the node is not down\n"))
        self.group.nodes[1].state = "down"
        self.assertEqual(run("restart", *words), (0, "node 2 is up\n", ""))

    def test_a_group_that_takes_no_restart_is_told(self) -> None:
        refusal = frame(encode_response(Refused(Refusal.FRAME, UNKNOWN_OPCODE)))
        self.group.nodes[1].troubles = [refusal]
        status, _, errors = run("restart", "--base-port", self.base, "--node", 2)
        self.assertEqual(status, 1)
        self.assertIn("started with --no-crash", errors)

    def test_a_watch_ends_if_nobody_reads_it(self) -> None:
        words = [str(COMMAND), "watch", "--base-port", str(self.base), "--nodes", "3"]
        line = " ".join([sys.executable, *words, "--every", "0.1", "|", "head", "-3"])
        done = subprocess.run(line, shell=True, capture_output=True, text=True, timeout=30)
        self.assertEqual((done.stderr, len(done.stdout.splitlines())), ("", 3))


class ATable(unittest.TestCase):
    def test_a_lag_has_a_time_after_two_looks(self) -> None:
        group, lag = Group(7400, 1, 100), Lag(1)
        for moment in (0.0, 3.0):
            lag.add(moment, [Status("ready", 10, 8)])
        node = node_look(group, lag, 1, Status("ready", 10, 8))
        self.assertEqual(show.row(node).split()[-3:], ["2", "3", "s"])
        once = look(group, Lag(1), [Status("ready", 10, 8)])
        self.assertEqual(show.row(once.nodes[0]).split()[-1], "2")

    def test_bytes_are_told_in_words(self) -> None:
        sizes = [None, 2048, 30_000_000, 5_000_000_000, 80_000_000_000]
        words = ["unknown", "2 kB", "30 MB", "5,000 MB", "80 GB"]
        self.assertEqual([show.size(count) for count in sizes], words)


class Metrics(OverAGroup):
    def test_each_line_is_one_of_prometheus(self) -> None:
        self.group.nodes[1].state = "down"
        with tempfile.TemporaryDirectory() as folder:
            os.mkdir(os.path.join(folder, "monday"))
            with open(os.path.join(folder, "monday", "node-1.db"), "w", encoding="utf-8"):
                pass
            _, output, _ = self.run_on("metrics", "--dir", ".", "--backups", folder)
        pattern = r'(# (HELP|TYPE) \w+ .+|\w+\{base_port="\d+"(,\w+="\w+")*\} [-+.e\d]+)'
        for line in output.splitlines():
            self.assertRegex(line, re.compile(f"^{pattern}$"))
        group = f'base_port="{self.base}"'
        for line in (
            f'urbd_node_up{{{group},node="1"}} 1',
            f'urbd_node_up{{{group},node="2"}} 0',
            f'urbd_node_state{{{group},node="2",state="down"}} 1',
            f'urbd_node_accepted_messages_total{{{group},node="1"}} 10',
            f"urbd_cap_messages{{{group}}} 100",
        ):
            self.assertIn(line + "\n", output)
        self.assertIn("urbd_last_backup_time_seconds", output)
        self.assertNotIn("behind_seconds", output)
        self.assertEqual(output.count("# TYPE urbd_node_up gauge"), 1)

    def test_what_is_not_known_has_no_line(self) -> None:
        seen = Look(Group(7400, 1), 0.0, [], Machine())
        self.assertEqual(text(seen), "")

    def test_a_server_gives_them_again_and_again(self) -> None:
        words = [sys.executable, str(COMMAND), "metrics", "--listen", "0", "--every", "0.1"]
        words += ["--base-port", str(self.base), "--nodes", "3"]
        with subprocess.Popen(words, stdout=subprocess.PIPE, text=True) as process:
            assert process.stdout is not None
            url = process.stdout.readline().split()[-1]
            try:
                for _ in range(3):
                    with urllib.request.urlopen(url, timeout=10) as answer:
                        self.assertIn("text/plain", answer.headers["Content-Type"])
                        self.assertIn(b"urbd_node_up", answer.read())
                with self.assertRaises(urllib.error.HTTPError):
                    urllib.request.urlopen(url[:-1], timeout=10)
            finally:
                process.terminate()

    def test_a_port_that_is_in_use_is_named(self) -> None:
        status, _, errors = self.run_on("metrics", "--listen", self.base + 11)
        self.assertEqual(status, 1)
        self.assertEqual(errors, f"urbdctl: 127.0.0.1:{self.base + 11}: Address already in use\n")


class TheCommand(unittest.TestCase):
    def test_its_help_names_each_word_and_each_option_has_a_help(self) -> None:
        status, output, _ = execute("--help")
        self.assertEqual(status, 0)
        words = ("status", "watch", "check", "backup", "verify", "restart", "bridge", "metrics")
        for word in words:
            self.assertIn(f"    {word} ", output)
            status, output_of_word, _ = run(word, "--help")
            self.assertEqual(status, 0)
            self.assertNotIn("==SUPPRESS==", output_of_word)

    def test_a_wrong_command_line_has_status_3(self) -> None:
        for words in (
            (),
            ("x",),
            ("status", "--base-port", "x"),
            ("backup",),
            ("status", "--cap", 0),
        ):
            status, _, errors = run(*words)
            self.assertEqual(status, 3, words)
            self.assertIn("urbdctl", errors)


if __name__ == "__main__":
    unittest.main()
