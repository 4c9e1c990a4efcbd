"""`publish` and `follow`: what they print, and what a stop or a kill in their middle does."""
from __future__ import annotations

import json
import os
import signal
import socket
import subprocess
import threading
import time
import unittest
from collections.abc import Iterable
from contextlib import suppress
from dataclasses import replace

from urbd.constants import MAX_PAYLOAD
from urbd.frames import Entry

from trials.gate.cases import Case
from trials.lib.program import LOCALHOST, PATIENCE, Options, all_ports, wait_until

CLIENT = 7
REFUSED = 4
MANY = 50  # lines
INTERRUPTED = -signal.SIGINT
AWAY = 5  # seconds: half of the time for which a command tries again


def accepted(numbers: Iterable[int]) -> list[bytes]:
    """The lines of these names."""
    return [b"accepted %d\n" % number for number in numbers]


class Relay:
    """Passes the bytes of each connection on to a port, and counts the connections."""

    def __init__(self, port: int) -> None:
        self.target, self.count = port, 0
        self.server = socket.create_server((LOCALHOST, 0))
        self.port: int = self.server.getsockname()[1]
        threading.Thread(target=self.accept, daemon=True).start()

    def accept(self) -> None:
        with suppress(OSError):  # the server is closed
            while True:
                near = self.server.accept()[0]
                self.count += 1
                far = socket.create_connection((LOCALHOST, self.target), PATIENCE)
                for ends in ((near, far), (far, near)):
                    threading.Thread(target=self.carry, args=ends, daemon=True).start()

    def carry(self, source: socket.socket, target: socket.socket) -> None:
        with suppress(OSError):
            while more := source.recv(65_536):
                target.sendall(more)
            target.shutdown(socket.SHUT_WR)

    def close(self) -> None:
        self.server.close()


class Streams(Case):
    def setUp(self) -> None:
        super().setUp()
        self.group = self.options()
        self.port = all_ports(self.group)[0]

    def publish(self, *words: object) -> list[object]:
        return ["publish", "--port", self.port, "--client", CLIENT, *words]

    def follow(self, *words: object) -> list[object]:
        return ["follow", "--port", self.port, *words]

    def begin(self, words: Iterable[object]) -> subprocess.Popen[bytes]:
        """Starts a command that is fed and read while it runs. It is killed after the case."""
        process = subprocess.Popen(
            [str(self.program.path), *map(str, words)],
            stdin=subprocess.PIPE,
            stdout=subprocess.PIPE,
            stderr=subprocess.PIPE,
        )
        self.addCleanup(process.communicate)
        self.addCleanup(process.kill)
        return process

    def feed(self, process: subprocess.Popen[bytes], *lines: bytes) -> None:
        assert process.stdin is not None
        process.stdin.write(b"".join(line + b"\n" for line in lines))
        process.stdin.flush()

    def lines(self, process: subprocess.Popen[bytes], count: int) -> list[bytes]:
        """The next lines that it prints."""
        assert process.stdout is not None
        return [process.stdout.readline() for _ in range(count)]

    def payloads(self, options: Options) -> list[bytes]:
        """The payloads of the log of the first node. The client's numbers have no gap."""
        entries: list[Entry] = []
        with options.node(1).connect() as connection:
            while more := connection.read(len(entries) + 1):
                entries.extend(more)
        self.assertEqual([it.number for it in entries], list(range(1, len(entries) + 1)))
        return [it.payload for it in entries]

    def shows(self, options: Options, count: int) -> None:
        """Waits until the first node shows so many entries."""
        node = options.node(1)
        wait_until(lambda: node.status().shown >= count, f"{count} entries are shown")


class Publishing(Streams):
    def test_lines_and_a_text(self) -> None:
        with self.program.serve(self.group) as daemon:
            run = self.program.run(*self.publish(), given=b"one\n\ntwo")
            self.ends(run, 0)
            self.assertEqual(run.stdout.splitlines(keepends=True), accepted((1, 2, 3)))
            self.ends(self.program.run(*self.publish("three")), 0, b"accepted 4\n")
            self.ends(self.program.run(*self.publish(), given=b""), 0)
            self.shows(self.group, 4)
            self.assertEqual(self.payloads(self.group), [b"one", b"", b"two", b"three"])
            daemon.stop()

    def test_it_keeps_its_connection(self) -> None:
        with self.program.serve(self.group) as daemon:
            for command in (self.publish, self.follow):
                relay = Relay(self.port)
                self.addCleanup(relay.close)
                words = command()
                words[words.index("--port") + 1] = relay.port
                process = self.begin(words)
                self.feed(process, *[b"line"] * MANY)
                self.assertNotIn(b"", self.lines(process, MANY))
                self.assertEqual(relay.count, 1, "it asks all over one connection")
            daemon.stop()

    def test_the_longest_line(self) -> None:
        with self.program.serve(self.group) as daemon:
            longest = b"x" * MAX_PAYLOAD
            run = self.program.run(*self.publish(), given=longest + b"\n" + longest + b"x\nmore\n")
            self.ends(run, REFUSED, b"accepted 1\nrefused 5 0: the message is too long")
            self.assertEqual(run.stdout.count(b"\n"), 2)
            self.shows(self.group, 1)
            self.assertEqual(self.payloads(self.group), [longest])
            daemon.stop()

    def test_a_full_node_refuses(self) -> None:
        with self.program.serve(replace(self.group, cap=1)) as daemon:
            run = self.program.run(*self.publish(), given=b"one\ntwo\n")
            self.ends(run, REFUSED, b"accepted 1\nrefused 8 0: the node has as many messages")
            daemon.stop()

    def test_nobody_listens(self) -> None:
        run = self.program.run(*self.publish("one"))
        self.ends(run, 1, b"", b"urbd: network failed: nobody listens at ")
        self.assertEqual(run.stdout, b"")

    def test_the_node_is_killed_and_started_again(self) -> None:
        texts = [b"line %d" % number for number in range(1, 101)]
        with self.program.serve(self.group) as daemon:
            publisher = self.begin(self.publish())
            self.feed(publisher, *texts[:50])
            said = self.lines(publisher, 10)
            daemon.kill()
        self.feed(publisher, *texts[50:])
        time.sleep(AWAY)
        with self.program.serve(self.group) as daemon:
            rest, error = publisher.communicate(timeout=PATIENCE)
            said += rest.splitlines(keepends=True)
            self.assertEqual((publisher.returncode, error), (0, b""))
            self.assertEqual(said, accepted(range(1, 101)))
            self.shows(self.group, 100)
            self.assertEqual(self.payloads(self.group), texts)
            daemon.stop()

    def test_the_publisher_is_killed_and_started_again(self) -> None:
        with self.program.serve(self.group) as daemon:
            first = self.begin(self.publish())
            self.feed(first, b"one", b"two")
            self.assertEqual(self.lines(first, 2), accepted((1, 2)))
            first.kill()
            first.wait(PATIENCE)
            run = self.program.run(*self.publish(), given=b"three\n")
            self.ends(run, 0, b"accepted 3\n")
            self.shows(self.group, 3)
            self.assertEqual(self.payloads(self.group), [b"one", b"two", b"three"])
            daemon.stop()


class Following(Streams):
    PAYLOADS = ("plain", 'a "b" \\ c', "Grüße", "tab\tand\nline", "\x85", "-")
    RAW = b"\xff\x00"

    def fill(self) -> None:
        """Submits each payload, also one that is no text."""
        with self.group.node(1).connect() as connection:
            for number, payload in enumerate((*(it.encode() for it in self.PAYLOADS), self.RAW), 1):
                connection.submit(CLIENT, number, payload)

    def test_each_form(self) -> None:
        with self.program.serve(self.group) as daemon:
            self.fill()
            payloads = [*(it.encode() for it in self.PAYLOADS), self.RAW]
            is_text = [True, True, True, False, False, True, False]
            heads = [f"1.{number} {CLIENT} {number} " for number in range(1, len(payloads) + 1)]
            shown = [
                b"text " + it if text else b"hex " + it.hex().encode()
                for it, text in zip(payloads, is_text)
            ]
            for words in ((), ("--format", "text")):
                follower = self.begin(self.follow(*words))
                for head, payload in zip(heads, shown):
                    self.assertEqual(self.lines(follower, 1), [head.encode() + payload + b"\n"])
            follower = self.begin(self.follow("--format", "hex"))
            read = self.program.run("read", "--port", self.port, "--from", 1, "--max", 8).stdout
            self.assertEqual(b"".join(self.lines(follower, len(payloads))), read)
            follower = self.begin(self.follow("--format", "json"))
            for number, (payload, text) in enumerate(zip(payloads, is_text), 1):
                (line,) = self.lines(follower, 1)
                member = {"text": payload.decode()} if text else {"hex": payload.hex()}
                expected = {"name": f"1.{number}", "client": CLIENT, "number": number, **member}
                self.assertEqual(json.loads(line), expected)
            daemon.stop()

    def test_from_a_place_on_until_it_is_interrupted(self) -> None:
        with self.program.serve(self.group) as daemon:
            follower = self.begin(self.follow("--from", 2))
            self.fill()
            self.assertEqual(self.lines(follower, 1), [b'1.2 7 2 text a "b" \\ c\n'])
            follower.send_signal(signal.SIGINT)
            self.assertEqual(follower.wait(PATIENCE), INTERRUPTED)
            daemon.stop()

    def test_over_a_stop_and_a_kill(self) -> None:
        follower = self.begin(self.follow())
        for start in (1, 11, 21):
            with self.program.serve(self.group) as daemon:
                numbers = range(start, start + 10)
                texts = b"".join(b"line %d\n" % it for it in numbers)
                self.ends(self.program.run(*self.publish(), given=texts), 0)
                expected = [b"1.%d 7 %d text line %d\n" % (it, it, it) for it in numbers]
                self.assertEqual(self.lines(follower, 10), expected)
                if start == 1:
                    daemon.stop()
                else:
                    daemon.kill()
        follower.kill()

    def test_a_node_that_is_down(self) -> None:
        with self.program.serve(self.group) as daemon:
            self.fill()
            self.shows(self.group, len(self.PAYLOADS) + 1)
            self.group.node(1).crash()
            run = self.program.run(*self.publish("more"))
            self.ends(run, REFUSED, b"refused 3 0: the node is down")
            daemon.stop()

    def test_its_output_is_closed(self) -> None:
        with self.program.serve(self.group) as daemon:
            reader, writer = os.pipe()
            os.close(reader)
            follower = subprocess.Popen(
                [str(self.program.path), *map(str, self.follow())],
                stdout=writer,
                stderr=subprocess.PIPE,
            )
            os.close(writer)
            self.fill()
            _, error = follower.communicate(timeout=PATIENCE)
            self.assertEqual(follower.returncode, 1, error)
            self.assertTrue(error.startswith(b"urbd: write failed"), error)
            daemon.stop()


if __name__ == "__main__":
    unittest.main()
