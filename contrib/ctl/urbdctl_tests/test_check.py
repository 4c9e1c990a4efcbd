"""`urbdctl check`: its levels, its lines, and what is never one of them."""
from __future__ import annotations

import os
import socket
import tempfile
import threading
import time
import unittest
from unittest import mock

from urbd import Node, Status
from urbdctl import check
from urbdctl.check import Level, Thresholds, Verdict
from urbdctl.group import Machine
from urbdctl.looks import Lag
from urbdctl_tests.running import OverAGroup, execute, free_base, run

SKIP = ("--skip", "memory", "--skip", "disk")


class ACheck(OverAGroup):
    def check(self, *words: object) -> tuple[int, str]:
        status, output, _ = self.run_on("check", *SKIP, *words)
        return status, output

    def test_a_group_that_shows_all_is_fine(self) -> None:
        self.assertEqual(self.check(), (0, "OK: 3 nodes up, logs of 10, 10, 10\n"))
        status, output, _ = run(
            "check", "--base-port", self.base, "--nodes", 1, "--cap", 100, *SKIP
        )
        self.assertEqual((status, output), (0, "OK: 1 node up, logs of 10\n"))

    def test_a_log_that_stays_behind_is_a_warning_after_so_long(self) -> None:
        self.group.nodes[1].shows = 7
        begin = time.monotonic()
        wanted = "WARNING: node 2 behind for more than 1 s: 3 messages\n"
        self.assertEqual(self.check("--behind", 1), (1, wanted))
        self.assertGreater(time.monotonic() - begin, 1)

    def test_a_log_that_comes_up_in_time_is_fine(self) -> None:
        self.group.nodes[1].shows = 7
        threading.Timer(0.5, lambda: setattr(self.group.nodes[1], "shows", 10)).start()
        self.assertEqual(self.check("--behind", 5)[0], 0)

    def test_a_log_that_only_lacks_what_comes_meanwhile_is_fine(self) -> None:
        self.group.nodes[1].shows = 9
        stop, number = threading.Event(), [11]

        def load() -> None:
            while not stop.wait(0.05):
                Node(self.base + 11).submit(7, number[0], b"x")
                self.group.nodes[1].shows = number[0] - 1
                number[0] += 1

        thread = threading.Thread(target=load)
        thread.start()
        self.assertEqual(self.check("--behind", 5)[0], 0)
        stop.set()
        thread.join()

    def test_a_node_that_is_down_is_critical(self) -> None:
        self.group.nodes[1].shows, self.group.nodes[2].state = 7, "down"
        wanted = "CRITICAL: node 3 down: find the cause, then restart\n"
        self.assertEqual(self.check("--behind", 1), (2, wanted))

    def test_no_answer_is_critical(self) -> None:
        self.group.nodes[0].close()
        self.assertEqual(self.check(), (2, "CRITICAL: no answer from node 1 within 1 s\n"))

    def test_a_node_without_a_free_connection_gives_no_answer_in_time(self) -> None:
        held = [socket.create_connection(("127.0.0.1", self.base + 12)) for _ in range(4)]
        begin = time.monotonic()
        self.assertEqual(self.check(), (2, "CRITICAL: no answer from node 2 within 1 s\n"))
        self.assertLess(time.monotonic() - begin, 3)
        for connection in held:
            connection.close()

    def test_a_full_node_and_one_near_its_cap_are_told(self) -> None:
        words = ("--base-port", self.base, "--nodes", 3, *SKIP)
        for cap, status, text in (
            (10, 2, "CRITICAL: node 1 is full: it has 10 messages"),
            (12, 1, "WARNING: node 1 is at 83.3 % of its cap"),
            (13, 0, "OK: 3 nodes up"),
        ):
            with self.subTest(cap):
                found, output, _ = run("check", *words, "--cap", cap)
                self.assertEqual((found, output[: len(text)]), (status, text))

    def test_what_is_not_known_is_unknown_unless_it_is_skipped(self) -> None:
        words = ("--base-port", self.base, "--nodes", 3)
        status, output, _ = run("check", *words)
        self.assertEqual(status, 3)
        for text in ("UNKNOWN: the cap isn't known: give --cap", "the memory isn't", "the disk"):
            self.assertIn(text, output)
        status, output, _ = run("check", *words, *SKIP, "--skip", "cap")
        self.assertEqual((status, output[:3]), (0, "OK:"))

    def test_backups_have_an_age(self) -> None:
        with tempfile.TemporaryDirectory() as folder:
            words = ("--backups", folder)
            self.assertEqual(self.check(*words), (2, "CRITICAL: there is no backup\n"))
            os.mkdir(os.path.join(folder, "monday"))
            with open(os.path.join(folder, "monday", "node-1.db"), "w", encoding="utf-8"):
                pass
            self.assertEqual(self.check(*words)[0], 0)
            past = time.time() - 30 * 3600
            os.utime(os.path.join(folder, "monday"), (past, past))
            wanted = (1, "WARNING: the last backup is 30 hours old\n")
            self.assertEqual(self.check(*words), wanted)
        status, output = self.check(*words)
        self.assertEqual((status, output[:8]), (3, "UNKNOWN:"))

    def test_nobody_at_the_port_is_critical_and_a_stranger_unknown(self) -> None:
        base = free_base()
        status, output, _ = run("check", "--base-port", base)
        self.assertEqual(status, 2)
        self.assertEqual(output, f"CRITICAL: nobody listens at 127.0.0.1:{base + 11}\n")
        status, output, _ = run("check", "--base-port", self.base)
        self.assertEqual(status, 3)
        self.assertIn("give --nodes", output)

    def test_a_wrong_command_line_and_an_error_are_unknown(self) -> None:
        for words in (("--nodes", 8), ("--behind", "x"), ("--check", 10), ("--cap-limits", "80")):
            with self.subTest(words):
                status, output, errors = execute("check", *words)
                self.assertEqual((status, output), (3, ""))
                self.assertNotIn("Traceback", errors)
        with mock.patch.object(check, "ask", side_effect=ZeroDivisionError):
            status, output = self.check()
        self.assertEqual((status, output[:8]), (3, "UNKNOWN:"))

    def test_a_check_holds_no_connection(self) -> None:
        for _ in range(12):
            self.check("--behind", 0)
        self.assertEqual(self.check()[0], 0)


class AVerdict(unittest.TestCase):
    def test_the_worst_finding_decides_and_unknown_is_no_excuse(self) -> None:
        for levels, wanted in (
            ((Level.OK,), Level.OK),
            ((Level.OK, Level.UNKNOWN), Level.UNKNOWN),
            ((Level.UNKNOWN, Level.WARNING), Level.WARNING),
            ((Level.WARNING, Level.CRITICAL, Level.UNKNOWN), Level.CRITICAL),
        ):
            verdict = Verdict([(level, level.name.lower()) for level in levels])
            self.assertEqual(verdict.level, wanted)
        self.assertEqual(verdict.line, "CRITICAL: critical; warning; unknown")

    def test_memory_and_disk_have_limits(self) -> None:
        for machine, level, text in (
            (Machine(10, 100, 0, 50, 100), Level.OK, ""),
            (Machine(70, 100, 0, 50, 100), Level.WARNING, "70 % of the memory"),
            (Machine(95, 100, 0, 50, 100), Level.CRITICAL, "95 % of the memory"),
            (Machine(10, 100, 0, 10, 100), Level.WARNING, "10.0 %"),
            (Machine(10, 100, 0, 2, 100), Level.CRITICAL, "2.0 %"),
        ):
            with self.subTest(machine):
                verdict = Verdict()
                check.check_machine(machine, Thresholds(), verdict)
                self.assertEqual(verdict.level, level)
                self.assertIn(text, verdict.line)


class Lags(unittest.TestCase):
    def test_a_lag_lasts_from_the_first_poll_whose_messages_a_log_lacks(self) -> None:
        lag = Lag(2)
        polls = (
            (0, 10, 10, 10),
            (1, 20, 20, 15),
            (2, 20, 20, 15),
            (3, 30, 30, 19),
            (4, 30, 30, 20),
        )
        for moment, accepted, first, second in polls:
            statuses = [Status("ready", accepted, first), Status("ready", 0, second)]
            lag.add(moment, statuses)
        self.assertEqual([lag.seconds(status) for status in statuses], [0, 1])
        self.assertEqual([lag.behind(status) for status in statuses], [0, 10])

    def test_one_poll_says_nothing_about_a_time(self) -> None:
        lag = Lag(1)
        lag.add(0, [Status("ready", 5, 3)])
        self.assertIsNone(lag.seconds(Status("ready", 5, 3)))
        self.assertEqual(lag.behind(Status("ready", 5, 3)), 2)

    def test_a_long_lag_keeps_its_beginning(self) -> None:
        lag = Lag(1)
        for moment in range(5000):
            lag.add(moment, [Status("ready", moment + 1, 0)])
        self.assertEqual(lag.seconds(Status("ready", 5000, 0)), 4999)
        self.assertLess(len(lag.polls), 2000)

    def test_a_node_without_an_answer_has_accepted_what_it_had(self) -> None:
        lag = Lag(2)
        lag.add(0, [Status("ready", 5, 5), Status("ready", 3, 8)])
        lag.add(1, [None, Status("ready", 3, 7)])
        self.assertEqual(lag.behind(Status("ready", 3, 7)), 1)


if __name__ == "__main__":
    unittest.main()
