"""Bursts: what a client that sends many requests in one write is answered."""
from __future__ import annotations

import socket
import unittest

from urbd.constants import BAD_LENGTH, CUT, UNKNOWN_OPCODE, Refusal
from urbd.frames import (
    LENGTH_BYTES,
    Accepted,
    Entries,
    GetStatus,
    Read,
    Refused,
    Request,
    Response,
    Status,
    Submit,
    decode_response,
    encode_request,
    frame,
    length_of,
)

from trials.gate.cases import Case
from trials.lib.messages import Sent, wait_for_logs
from trials.lib.program import PATIENCE, Daemon

CLIENT, OTHER = 7, 8
MANY = 200
# A frame without a byte, which ends a session, and a frame whose opcode no request has.
NO_FRAME = bytes(LENGTH_BYTES)
UNKNOWN = frame(b"\x09")


def frame_of(request: Request) -> bytes:
    return frame(encode_request(request))


def answers(daemon: Daemon, raw: bytes) -> list[Response]:
    """The responses to these bytes, which are sent in one write. Nothing comes behind them."""
    with socket.create_connection(("127.0.0.1", daemon.options.port(1)), PATIENCE) as stream:
        stream.sendall(raw)
        stream.shutdown(socket.SHUT_WR)
        with stream.makefile("rb") as came:
            responses = []
            while head := came.read(LENGTH_BYTES):
                responses.append(decode_response(came.read(length_of(head))))
            return responses


class Bursts(Case):
    def test_submits_are_answered_in_their_order(self) -> None:
        for nodes in (1, 3):
            with self.subTest(nodes=nodes):
                options = self.options(f"group-{nodes}", nodes)
                with self.program.serve(options) as daemon, daemon.connect(1) as connection:
                    asks = [Submit(CLIENT, number, b"%d" % number) for number in range(1, MANY + 1)]
                    responses = connection.ask(*asks)
                    self.assertEqual(responses, [Accepted(seq) for seq in range(1, MANY + 1)])
                    wait_for_logs(daemon, MANY)
                    daemon.stop()

    def test_each_is_answered_as_if_it_came_alone(self) -> None:
        cases: list[tuple[Request, Response]] = [
            (Submit(CLIENT, 1, b"one"), Accepted(1)),
            (Submit(CLIENT, 1, b"one"), Accepted(1)),
            (Submit(CLIENT, 3, b"three"), Refused(Refusal.GAP, 2)),
            (Submit(OTHER, 1, b"other"), Accepted(2)),
            (Submit(CLIENT, 2, b"two"), Accepted(3)),
            (Submit(CLIENT, 1, b"another"), Refused(Refusal.CONFLICT, 0)),
            (Submit(CLIENT, 0, b""), Refused(Refusal.GAP, 3)),
            (Submit(CLIENT, 3, b"three"), Accepted(4)),
        ]
        with self.program.serve(self.options()) as daemon, daemon.connect(1) as connection:
            responses = connection.ask(*(request for request, _ in cases))
            self.assertEqual(responses, [expected for _, expected in cases])
            daemon.stop()

    def test_a_read_shows_what_was_submitted_before_it(self) -> None:
        sent = Sent(CLIENT, 1)
        one, two, three = sent.requests((b"one", b"two", b"three"))
        sent.payloads, sent.seqs = [b"one", b"two", b"three"], [1, 2, 3]
        cases: list[tuple[Request, Response]] = [
            (one, Accepted(1)),
            (two, Accepted(2)),
            (Read(1, 8), Entries((sent.entry(1), sent.entry(2)))),
            (GetStatus(), Status("ready", 2, 2)),
            (three, Accepted(3)),
            (Read(3, 8), Entries((sent.entry(3),))),
        ]
        with self.program.serve(self.options()) as daemon, daemon.connect(1) as connection:
            responses = connection.ask(*(request for request, _ in cases))
            self.assertEqual(responses, [expected for _, expected in cases])
            daemon.stop()

    def test_what_comes_behind_a_bad_frame_is_not_done(self) -> None:
        first, second = (frame_of(Submit(CLIENT, number, b"m")) for number in (1, 2))
        with self.program.serve(self.options()) as daemon:
            expected = [Accepted(1), Refused(Refusal.FRAME, BAD_LENGTH)]
            self.assertEqual(answers(daemon, first + NO_FRAME + second), expected)
            self.assertEqual(daemon.node(1).status().accepted, 1)
            daemon.stop()

    def test_what_comes_behind_an_unknown_opcode_is_done(self) -> None:
        first, second = (frame_of(Submit(CLIENT, number, b"m")) for number in (1, 2))
        with self.program.serve(self.options()) as daemon:
            expected = [Accepted(1), Refused(Refusal.FRAME, UNKNOWN_OPCODE), Accepted(2)]
            self.assertEqual(answers(daemon, first + UNKNOWN + second), expected)
            daemon.stop()

    def test_what_comes_behind_half_a_frame_is_not_done(self) -> None:
        first, second = (frame_of(Submit(CLIENT, number, b"m")) for number in (1, 2))
        with self.program.serve(self.options()) as daemon:
            expected = [Accepted(1), Refused(Refusal.FRAME, CUT)]
            self.assertEqual(answers(daemon, first + second[:-1]), expected)
            self.assertEqual(daemon.node(1).status().accepted, 1)
            daemon.stop()


if __name__ == "__main__":
    unittest.main()
