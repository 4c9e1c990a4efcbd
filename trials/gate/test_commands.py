"""Each option at its ends, and each status."""
from __future__ import annotations

import socket
import subprocess
import time
import unittest
from concurrent.futures import ThreadPoolExecutor
from dataclasses import replace

from urbd.constants import MAX_CAP, MAX_NODES

from trials.gate.cases import Case
from trials.lib.program import (
    LOCALHOST,
    PATIENCE,
    Options,
    all_ports,
    files_of,
    free_base_port,
    journals_of,
    ports_of,
)

GREATEST_NUMBER = 4_294_967_295
GREATEST_PORT = GREATEST_CLIENT = 65_535
BAD_COMMAND_LINE = 3
PATIENT_SECONDS = 10  # for which `status` waits for an answer
REFUSED = 4


class Serving(Case):
    def words(self, **changed: object) -> list[str]:
        """The command line of a group, with some options changed; one that is None is left out."""
        options: dict[str, object] = {
            "nodes": 1,
            "cap": 10,
            "dir": self.room,
            "base_port": free_base_port(),
            "tick_ms": 20,
            **changed,
        }
        named = {key.replace("_", "-"): it for key, it in options.items() if it is not None}
        return ["serve", *(word for key, it in named.items() for word in (f"--{key}", str(it)))]

    def test_each_option_takes_its_ends(self) -> None:
        ends: tuple[dict[str, object], ...] = (
            {"nodes": 1},
            {"nodes": MAX_NODES},
            {"cap": 1},
            {"cap": MAX_CAP},
            {"base_port": 1_024},
            {"base_port": 65_000},
            {"tick_ms": 1},
            {"tick_ms": 60_000},
            {"nodes": "+1"},
        )
        for changed in ends:
            with self.subTest(**changed):
                run = self.program.run(*self.words(**changed))
                nodes = int(str(changed.get("nodes", 1)))
                self.ends(run, 0, b"open %d\nclosed " % nodes)
                self.assertEqual(run.stderr, b"")

    def test_beyond_its_ends_an_option_is_refused(self) -> None:
        beyond: tuple[dict[str, object], ...] = (
            {"nodes": 0},
            {"nodes": MAX_NODES + 1},
            {"cap": 0},
            {"cap": MAX_CAP + 1},
            {"base_port": 1_023},
            {"base_port": 65_001},
            {"tick_ms": 0},
            {"tick_ms": 60_001},
            {"dir": ""},
            {"nodes": "one"},
            {"nodes": "-1"},
            {"cap": "1e3"},
            {"cap": 2**64},
            {"other": 1},
            {"nodes": None},
            {"cap": None},
            {"dir": None},
            {"base_port": None},
            {"tick_ms": None},
        )
        for changed in beyond:
            with self.subTest(**changed):
                run = self.program.run(*self.words(**changed))
                self.ends(run, BAD_COMMAND_LINE)
                self.assertEqual(run.stdout, b"")
                self.assertNotEqual(run.stderr, b"", "the parser says what is wrong")
                self.assertEqual(files_of(self.room), [])

    def test_a_folder_whose_name_begins_with_a_hyphen(self) -> None:
        folder = self.room / "-group"
        folder.mkdir()
        words = self.words(dir=None)
        command = ["sh", "-c", 'cd "$1" && shift && exec "$@"', "", str(self.room)]
        prefix = [*command, str(self.program.path), *words, "--dir=-group"]
        run = subprocess.run(prefix, input=b"", capture_output=True, timeout=PATIENCE)
        self.ends(run, 0, b"open 1\nclosed ")
        self.assertEqual(files_of(folder), journals_of(1))

    def test_options_come_in_any_order_and_each_once(self) -> None:
        words = self.words()
        pairs = [words[at : at + 2] for at in range(1, len(words), 2)]
        backwards = [word for pair in reversed(pairs) for word in pair]
        self.ends(self.program.run("serve", *backwards), 0, b"open 1\nclosed ")
        self.ends(self.program.run(*words, "--nodes", "1"), BAD_COMMAND_LINE)

    def test_a_full_node_refuses(self) -> None:
        options = replace(self.options(), cap=1)
        with self.program.serve(options) as daemon:
            port = all_ports(options)[0]
            submit = ("submit", "--port", port, "--client", 7, "--number")
            self.ends(self.program.run(*submit, 1, "one"), 0, b"accepted 1\n")
            self.ends(self.program.run(*submit, 2, "two"), REFUSED, b"refused 8 0\n")
            daemon.stop()
        with self.program.serve(replace(options, cap=2)) as daemon:
            self.ends(self.program.run(*submit, 2, "two"), 0, b"accepted 2\n")
            daemon.stop()

    def test_what_cannot_be_opened_is_a_fault(self) -> None:
        run = self.program.run(*self.words(dir=self.room / "missing"))
        self.ends(run, 1, b"", b"urbd: refused 15 0")
        (self.room / "file").write_text("")
        self.ends(
            self.program.run(*self.words(dir=self.room / "file")), 1, b"", b"urbd: refused 15 0"
        )
        options = self.options()
        with self.program.serve(options) as daemon:
            again = self.program.run(*replace(options, base_port=free_base_port()).words())
            self.ends(again, 1, b"", b"urbd: refused 15 0")
            folder = self.room / "other"
            folder.mkdir()
            busy = self.program.run(*replace(options, folder=folder).words())
            self.ends(busy, 1, b"", b"urbd: network failed")
            daemon.stop()

    def test_a_port_that_is_in_use_is_named(self) -> None:
        for kind, is_packets, name in (
            (socket.SOCK_DGRAM, True, b"UDP"),
            (socket.SOCK_STREAM, False, b"TCP"),
        ):
            options = self.options(name.decode(), nodes=2)
            packets, clients = ports_of(options.base_port, 2)[1]
            port = packets if is_packets else clients
            with self.subTest(kind=name), socket.socket(socket.AF_INET, kind) as taken:
                taken.bind((LOCALHOST, port))
                if kind == socket.SOCK_STREAM:
                    taken.listen(1)
                run = self.program.run(*options.words())
                cause = b"%s port %d is in use\n" % (name, port)
                self.ends(run, 1, b"", b"urbd: network failed: " + cause)


class Asking(Case):
    def setUp(self) -> None:
        super().setUp()
        self.group: Options = self.options()
        self.port = all_ports(self.group)[0]
        daemon = self.program.serve(self.group)
        self.addCleanup(daemon.kill)

    def submit(self, text: str, **changed: object) -> list[str]:
        options: dict[str, object] = {"port": self.port, "client": 7, "number": 1, **changed}
        return ["submit", *(f"--{key}={it}" for key, it in options.items()), "--", text]

    def read(self, **changed: object) -> list[str]:
        options: dict[str, object] = {"port": self.port, "from": 1, "max": 8, **changed}
        return ["read", *(f"--{key}={it}" for key, it in options.items())]

    def test_what_was_submitted_is_read(self) -> None:
        self.ends(self.program.run(*self.submit("hello")), 0, b"accepted 1\n")
        self.ends(self.program.run(*self.submit("hello")), 0, b"accepted 1\n")
        self.ends(self.program.run(*self.read()), 0, b"1.1 7 1 68656c6c6f\n")

    def test_each_option_takes_its_ends(self) -> None:
        run = self.program.run
        self.ends(run(*self.submit("one", client=1)), 0, b"accepted 1\n")
        self.ends(run(*self.submit("two", client=GREATEST_CLIENT)), 0, b"accepted 2\n")
        for number in (0, GREATEST_NUMBER):
            refused = run(*self.submit("no", number=number))
            self.ends(refused, REFUSED, b"refused 7 1\n")
        self.ends(run(*self.read(**{"from": GREATEST_NUMBER})), 0)
        first, second = b"1.1 1 1 6f6e65\n", b"1.2 65535 1 74776f\n"
        self.assertEqual(run(*self.read(max=1)).stdout, first)
        self.assertEqual(run(*self.read(max=8)).stdout, first + second)
        self.assertEqual(run(*self.read(**{"from": 2})).stdout, second)

    def test_beyond_its_ends_an_option_is_refused(self) -> None:
        beyond: tuple[list[str], ...] = (
            *(self.submit("x", client=it) for it in (0, GREATEST_CLIENT + 1)),
            *(self.submit("x", port=it) for it in (0, GREATEST_PORT + 1)),
            *(self.submit("x", number=it) for it in (-1, GREATEST_NUMBER + 1)),
            *(self.read(max=it) for it in (0, 9)),
            *(self.read(**{"from": it}) for it in (0, GREATEST_NUMBER + 1)),
            *(self.read(port=it) for it in (0, GREATEST_PORT + 1)),
            *(["status", "--port", str(it)] for it in (0, GREATEST_PORT + 1)),
            *(["status", "--nodes", "1", "--base-port", str(it)] for it in (1_023, 65_001)),
            *(["status", "--base-port", "7400", "--nodes", str(it)] for it in (0, MAX_NODES + 1)),
            ["submit", "--port", str(self.port)],
            ["read"],
            ["status"],
            ["no-such-command"],
            [],
        )
        for words in beyond:
            with self.subTest(words=" ".join(words)):
                run = self.program.run(*words)
                self.ends(run, BAD_COMMAND_LINE)
                self.assertEqual(run.stdout, b"")
        self.assertEqual(self.program.run(*self.read()).stdout, b"", "nothing was submitted")

    def test_nobody_listens(self) -> None:
        for port in (1, GREATEST_PORT):
            with self.subTest(port=port):
                for words in (self.submit("x", port=port), self.read(port=port)):
                    run = self.program.run(*words)
                    self.ends(run, 1, b"", b"urbd: network failed: nobody listens at ")
                run = self.program.run("status", "--port", port)
                self.ends(run, 1, b"%d no answer\n" % port, b"urbd: network failed: ")

    def test_a_server_of_another_kind(self) -> None:
        cases = (
            (b"HTTP/1.1 400 Bad Request\r\n\r\n", b"urbd: "),
            (b"\0\1\x84", b"urbd: bad reply"),
        )
        for answer, error in cases:
            with self.subTest(answer=answer), socket.create_server((LOCALHOST, 0)) as server:
                port = server.getsockname()[1]
                for words in (self.submit("x", port=port), self.read(port=port)):
                    with ThreadPoolExecutor(1) as pool:
                        run = pool.submit(self.program.run, *words)
                        with server.accept()[0] as stream:
                            stream.recv(1024)
                            stream.sendall(answer)
                            stream.shutdown(socket.SHUT_WR)
                            self.ends(run.result(), 1, b"", error)

    def test_a_node_that_hangs_has_no_status(self) -> None:
        with socket.create_server((LOCALHOST, 0)) as server:  # it answers nothing
            port = server.getsockname()[1]
            begin = time.monotonic()
            run = self.program.run("status", "--port", port, limit=6 * PATIENT_SECONDS)
            self.ends(run, 1, b"%d no answer\n" % port, b"urbd: ")
            self.assertGreater(time.monotonic() - begin, PATIENT_SECONDS - 1)

    def test_the_status_of_a_node_and_of_a_group(self) -> None:
        run = self.program.run
        line = b"%d ready accepted %d shown %d\n"
        self.ends(run("status", "--port", self.port), 0, line % (self.port, 0, 0))
        run(*self.submit("hello"))
        group = ("status", "--base-port", self.group.base_port, "--nodes", 1)
        self.ends(run(*group), 0, line % (self.port, 1, 1))
        self.group.node(1).crash()
        down = run("status", "--port", self.port)
        self.ends(down, 0, b"%d down accepted 1 shown 1\n" % self.port)
        refused = run(*self.submit("hello", number=2))
        self.ends(refused, REFUSED, b"refused 3 0\n")
        # of nodes that the group doesn't have there is no answer
        lacking = run("status", "--base-port", self.group.base_port, "--nodes", 2)
        self.assertEqual(lacking.returncode, 1, lacking)
        self.assertTrue(lacking.stdout.endswith(b"%d no answer\n" % (self.port + 1)), lacking)

    def test_a_text_that_begins_with_a_hyphen(self) -> None:
        submit = ["submit", "--port", self.port, "--client", 7, "--number"]
        self.ends(self.program.run(*submit, 1, "-"), 0, b"accepted 1\n")
        self.ends(self.program.run(*submit, 2, "--", "--x"), 0, b"accepted 2\n")
        self.ends(self.program.run(*submit, 3, "--x"), BAD_COMMAND_LINE)
        self.assertEqual(self.program.run(*self.read()).stdout, b"1.1 7 1 2d\n1.2 7 2 2d2d78\n")


class Scripts(Case):
    def test_statuses_of_a_script(self) -> None:
        script = b"group 1 10\nsubmit 1 7 1 hi\nstored 1\nlog 1\n"
        run = self.program.run("replay", given=script)
        self.ends(run, 0)
        self.assertTrue(run.stdout.endswith(b"log 1: 1.1=hi\n"), run.stdout)
        bad = self.program.run("replay", given=b"group 1 10\nnonsense\n")
        self.ends(bad, 2)
        self.assertTrue(bad.stdout.endswith(b"bad line 2\n"), bad.stdout)

    def test_help(self) -> None:
        for words in (
            ["--help"],
            ["help"],
            *([it, "--help"] for it in ("serve", "submit", "read", "status", "replay")),
        ):
            with self.subTest(words=words):
                run = self.program.run(*words)
                self.ends(run, 0)
                self.assertIn(b"Usage: ", run.stdout)
                self.assertEqual(run.stderr, b"")

    def test_the_version(self) -> None:
        run = self.program.run("--version")
        self.ends(run, 0, b"urbd ")
        lines = run.stdout.decode().splitlines()
        self.assertRegex(lines[0], r"^urbd \d+\.\d+\.\d+$")
        self.assertEqual([it.split(":")[0] for it in lines[1:]], ["packets", "journals"])
        self.assertEqual(run.stderr, b"")


if __name__ == "__main__":
    unittest.main()
